#!/usr/bin/env bash
# Looks that tests/opened.sh sees each way to open a definition of another crate, and nothing else. The last line is 'N passed, M failed'.
set -u
cd "$(dirname "$0")/.." || exit 2
# shellcheck source=tests/expect.sh
. tests/expect.sh
search=$PWD/tests/opened.sh
mkdir -p "$room/crates/mine/proofs" "$room/crates/mine/src"
cd "$room" || exit 2

# opens WHAT FILE LINE...: of a file with these lines opened.sh prints WHAT for the last line, or nothing if WHAT is empty.
opens() {
    local what=$1 file=crates/mine/$2
    printf '%s\n' "${@:3}" >"$file"
    expect 0 "${what:+$file:$(($# - 2)): $what}" '' bash "$search" "$file"
}

# proof WHAT LINE...
proof() {
    opens "$1" proofs/Laws.antt "${@:2}"
}

proof 'width of book' 'use Rattle.book.specs.Format.{width}' 'unfolding width'
proof 'width of book' 'use Rattle.mine.specs.Own.{size}' 'pub use Rattle.book.specs.Format.{code, width}' 'law : A' '  unfolding size width'
proof 'broad of book' 'use Rattle.book.specs.Format.{' '    code,' '    width as broad,' '}' 'unfolding broad'
proof 'format.width of book' 'use Rattle.book.specs.Format as format' 'unfolding format.width'
proof 'Format.width of book' 'use Rattle.book.specs.Format' 'unfolding Format.width'
proof 'Rattle.book.specs.Format.width' 'unfolding Rattle.book.specs.Format.width'
proof 'width of book' 'use Rattle.book.specs.Format.{width}' 'law = unfold width in refl'
proof 'width of book' 'use Rattle.book.specs.Format.{width}' 'law : (unfold size width in A)'
proof 'handed on: book' 'unfoldable pub use Rattle.book.specs.Format.{width}'
proof '' 'use Rattle.mine.specs.Own.{width}' 'use Rattle.std.specs.Prelude.{length}' 'use Rattle.book.specs.Format.{code}' 'law : code ≡ code' \
    'unfolding width length' '-- unfold code in refl' 'law = unfold width length in refl'
opens 'book::specs::Format::width' src/lib.rt '#[tactic(auto, unfolding(crate::specs::Own::size, book::specs::Format::width))]'
opens 'book::specs::Format::width' src/lib.rt '#[tactic(' '    auto,' '    unfolding(' '        book::specs::Format::width,' '    ),' ')]'
opens '' src/lib.rt '#![tactic(auto)]' '#[tactic(auto, using(book::proofs::Laws::law), unfolding(crate::specs::Own::size, std::specs::Prelude::length))]' \
    'fn unfolding(book: u8) {' '}'
finish
