#!/usr/bin/env bash
# Gives tests/refused.sh what rt prints of edits of some crates, as it prints it, shortened: of wrong programs that are refused for what they
# do, and of such as are not; and edit files that are none. The last line is 'N passed, M failed'.
# shellcheck disable=SC2016,SC2317 # Backquotes are what rt prints; expect calls the functions.
set -u
cd "$(dirname "$0")/.." || exit 2
# shellcheck source=tests/expect.sh
. tests/expect.sh
home=$room/checkout

# crates NAME...: a checkout with these, without their edits, of which rt has printed nothing.
crates() {
    local crate
    rm -rf "$home"
    for crate in "$@"; do
        mkdir -p "$home/crates/$crate/must-fail"
        cp -r "crates/$crate/src" "$home/crates/$crate" || exit 2
    done
    : >"$room/rt"
}

# takes CRATE/NAME...: the edits of the checkout with these names.
takes() {
    local edit
    for edit in "$@"; do
        cp "crates/${edit%/*}/must-fail/${edit#*/}.edit" "$home/crates/${edit%/*}/must-fail" || exit 2
    done
}

# edit CRATE/NAME: standard input as an edit.
edit() {
    cat >"$home/crates/${1%/*}/must-fail/${1#*/}.edit"
}

# prints CRATE/NAME WORDS: as rt prints its word on an edit. refuses: that it was refused, with the reason. A later one takes an earlier one's place.
prints() {
    sed -i "\\|^rt: must-fail $1[.]edit: |d" "$room/rt"
    echo "rt: must-fail $1.edit: $2" >>"$room/rt"
}

refuses() {
    prints "$1" "refused, as it must be: $2"
}

judged() {
    local status=0 printed
    printed=$(bash tests/refused.sh "$room/rt" "$home") || status=1
    LC_ALL=C sort <<<"$printed"
    return "$status"
}

# says STATUS LINE...: what refused.sh prints, in whatever order.
says() {
    expect "$1" "$(printf '%s\n' "${@:2}" | LC_ALL=C sort)" '' judged
}

# tells WORDS: refused.sh fails, and says this among other words.
tells() {
    ! judged >"$room/judged" && grep -oF -- "$1" "$room/judged"
}

# elsewhere CRATE/NAME PLACE PLACES: the line for a program of which a fact of another function is refused.
elsewhere() {
    echo "FAILED: crates/${1%/*}/must-fail/${1#*/}.edit: the fact stands in $2; it changes $3"
}

no_fact() {
    echo "FAILED: crates/${1%/*}/must-fail/${1#*/}.edit: no fact of it is refused: $2"
}

# line CRATE/FILE TEXT: the number of the line there that has this text.
line() {
    grep -nF -- "$2" "$home/crates/${1%%/*}/src/${1#*/}" | head -n 1 | cut -d : -f 1
}

search='`search`: no proof of `mathlib.Core.Path.◌≡◌ (Prim.Native.Nat.◌-◌ c.args.b 0) (Rattle.letters.specs.Letters.other_case c.args.b)` was found'
ensures='it is not proved that what the function ensures holds when it returns (`returns`); the facts known there allow values at which this goal is false'

# Wrong programs with a proof file and without: each is refused for a fact of the function that it changes.
crates letters stateset
takes letters/one_way letters/fold_late stateset/union_apart stateset/image_high
refuses letters/one_way './proofs/other_case/Answers.antt:16:22: error: `returns-then-b-2`: '"$search"
refuses letters/fold_late './proofs/in_set/Answers.antt:9:24: error: `returns-in-Ignored`: '"$search"
refuses stateset/union_apart "note: src/lib.rt:$(line stateset/lib.rt 'pub fn union'):1: $ensures"
refuses stateset/image_high './proofs/image/Answers.antt:17:85: error: `loop-y-init`: as printed, the two types differ only where one has `2147483647`'
says 0 '4 passed, 0 failed'
refuses stateset/image_high './proofs/image/Invariants.antt:17:85: error: `loop-y-init`: `omega`: `c.loop-y.y < 32` does not follow from what is known'
says 0 '4 passed, 0 failed'
refuses stateset/image_high './proofs/image/Proof.antt:17:85: error: `returns`: expected type `◌≡◌ a b`, but this has type `◌≡◌ a c`'
says 0 '4 passed, 0 failed'
refuses stateset/image_high "note: src/lib.rt:$(line stateset/lib.rt 'count_ones'):5: it is not proved that the sum fits its type (\`overflow_add-y\`)"
says 1 "$(elsewhere stateset/image_high "src/lib.rt:$(line stateset/lib.rt 'count_ones')" 'image +image')" '3 passed, 1 failed'

# A fact of another function, of a law, and of no function.
crates letters
takes letters/one_way
refuses letters/one_way './proofs/in_set/Answers.antt:9:24: error: `returns-in-Ignored`: '"$search"
says 1 "$(elsewhere letters/one_way proofs/in_set 'other_case +other_case')" '0 passed, 1 failed'
refuses letters/one_way "note: src/lib.rt:$(line letters/lib.rt 'pub fn in_set'):1: $ensures"
says 1 "$(elsewhere letters/one_way "src/lib.rt:$(line letters/lib.rt 'pub fn in_set')" 'other_case +other_case')" '0 passed, 1 failed'
refuses letters/one_way "note: src/lib.rt:$(line letters/lib.rt 'pub enum Case'):1: $ensures"
says 1 "$(elsewhere letters/one_way "src/lib.rt:$(line letters/lib.rt 'pub enum Case')" 'other_case +other_case')" '0 passed, 1 failed'
refuses letters/one_way './proofs/Laws.antt:9:24: error: `in-ignored`: '"$search"
says 1 "$(elsewhere letters/one_way proofs/Laws 'other_case +other_case')" '0 passed, 1 failed'

# What else a check can say of the function, without a fact of it being refused.
for words in '`returns`: record `goal.After-s`' '`returns`: give the call less to do: list the lemma that is meant' '`close` was not admitted' \
    '`returns`: expected type `goal.returns-then-b`, but this has type `goal.returns`' 'no clause covers 2 cases' \
    '`returns`: expected type `Rattle.letters.proofs.other_case.Goals.returns`, but this has type `ℕ`'; do
    refuses letters/one_way "./proofs/other_case/Answers.antt:13:14: error: $words"
    says 1 "$(no_fact letters/one_way "./proofs/other_case/Answers.antt:13:14: error: $words")" '0 passed, 1 failed'
done
words='(only because a proof file names what the edit took away, so this says little of the contract: change a value and keep the names): ./proofs/other_case/Answers.antt:13:14: error: x has no field'
prints letters/one_way "refused, as it must be $words"
says 1 "$(no_fact letters/one_way "${words:1:200}")" '0 passed, 1 failed'
words='(only by a limit of the prover, which gave no verdict, so this says less of the contract: choose a change that it refuses sooner): ./proofs/other_case/Answers.antt:13:14: error: `search`'
prints letters/one_way "refused, as it must be $words"
says 1 "$(no_fact letters/one_way "${words:1:200}")" '0 passed, 1 failed'
prints letters/one_way 'refused, as it must be'
says 1 "$(no_fact letters/one_way '')" '0 passed, 1 failed'

# What is no refusal.
for words in "BAD EDIT: an 'old:' text is in src/lib.rt 0 times, and not once" 'NOT REFUSED: the crate is still proved with this edit' \
    'NOT TRIED: its check was killed'; do
    prints letters/one_way "$words"
    says 1 "FAILED: crates/letters/must-fail/one_way.edit: $words" '0 passed, 1 failed'
done
: >"$room/rt"
says 1 'FAILED: crates/letters/must-fail/one_way.edit: rt has not tried it' '0 passed, 1 failed'

# Functions that call one another have a proof in one folder; a method's is that of its type's module.
crates reach brackets
takes reach/reach_twice reach/reach_misses brackets/bracket_back brackets/escape_place
refuses reach/reach_twice './proofs/listing/Walker/+walk/Answers.antt:9:24: error: `enter.returns`: '"$search"
refuses reach/reach_misses "note: src/listing.rt:$(line reach/listing.rt 'fn enter_items'):1: $ensures"
refuses brackets/bracket_back './proofs/cursor/AtomCursor/atom/Answers.antt:9:24: error: `returns`: '"$search"
refuses brackets/escape_place "note: src/atom.rt:$(line brackets/atom.rt 'Some(self.past(2))'):13: $ensures"
says 0 '4 passed, 0 failed'
refuses brackets/bracket_back './proofs/atom/AtomCursor/atom/Answers.antt:9:24: error: `returns`: '"$search"
says 1 "$(elsewhere brackets/bracket_back proofs/atom/AtomCursor/atom 'cursor/AtomCursor/atom cursor/AtomCursor/+atom')" '3 passed, 1 failed'

# rt names the line of a function's attribute where there is one.
crates depth
takes depth/item_ends
refuses depth/item_ends "note: src/reporting.rt:$(line depth/reporting.rt '#[tactic(auto, using(crate::proofs::CodeLaws::call_rules'):1: $ensures"
says 0 '1 passed, 0 failed'

# A constant is a change of each function that names it, and what everyone sees is one of any.
crates depth stateset
takes depth/not_capped
refuses depth/not_capped './proofs/unmatched/Unmatched/repeated/Answers.antt:9:24: error: `returns`: '"$search"
edit stateset/union_promised <<'END'
file: src/lib.rt
old:     ensures { result ≡ bit_or a b }
new:     ensures { result ≡ bit_and a b }
END
refuses stateset/union_promised './proofs/within/Answers.antt:9:24: error: `returns`: '"$search"
says 0 '2 passed, 0 failed'
refuses depth/not_capped './proofs/words/below/Answers.antt:9:24: error: `returns`: '"$search"
place='crates/depth/must-fail/not_capped.edit: the fact stands in proofs/words/below; it changes '
expect 0 "$place" '' tells "$place"

# faulty WORDS: with standard input as an edit of stateset, refused.sh says these words of it.
faulty() {
    local line="FAILED: crates/stateset/must-fail/one.edit: $1"
    crates stateset
    edit stateset/one
    refuses stateset/one "note: src/lib.rt:$(line stateset/lib.rt 'pub fn only'):1: $ensures"
    expect 0 "$line" '' tells "$line"
}

faulty 'neither code nor a definition is changed, but proofs/meets/Answers.antt' <<'END'
file: proofs/meets/Answers.antt
old: returns c =
new: returns d =
END
faulty 'the old text is not in src/lib.rt' <<'END'
file: src/lib.rt
old: 1 << q
new: 2 << q
END
faulty 'the old text is more than once in src/lib.rt' <<'END'
file: src/lib.rt
old: fn
new: fn 
END
faulty 'nothing is changed' <<'END'
# the size of the full set
file: src/lib.rt
END
faulty 'nothing is changed' </dev/null
finish
