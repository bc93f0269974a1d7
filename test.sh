#!/usr/bin/env bash
# Looks that all is there that docs/ASSURANCE.md names, and that crates keep to each other's laws; proves every crate, tries the must-fail
# edits and looks that each is refused for what its own function does, runs the programs and the command, runs the cases again within 1 MiB
# of stack, and compares the programs with the second program in docs/src/second. The last line is 'N passed, M failed', over all of these.
set -u -o pipefail
cd "$(dirname "$0")" || exit 2
# Nothing here is asked of whoever started it; and a standard input that is closed would become one of the pipes below.
exec </dev/null
home=$PWD
# shellcheck source=scripts/program.sh
. scripts/program.sh || exit 2
passed=0 failed=0
room=$(mktemp -d) || exit 2
trap 'rm -rf "$room"' EXIT

finish() {
    echo "$passed passed, $failed failed"
    [ "$failed" -eq 0 ]
    exit
}

# single NAME COMMAND...: one test.
single() {
    if "${@:2}"; then
        passed=$((passed + 1))
    else
        echo "FAILED: $1"
        failed=$((failed + 1))
    fi
}

# add STATUS LEAST FILE: the command of that status printed the file, whose last line is 'N passed, M failed'. If it failed and counts no
# failure, it is one itself; so it is if fewer than LEAST passed.
add() {
    local status=$1 n=0 m=0
    if [[ $(tail -n 1 "$3") =~ ^([0-9]+)\ passed,\ ([0-9]+)\ failed$ ]]; then
        n=${BASH_REMATCH[1]} m=${BASH_REMATCH[2]}
    else
        status=1
    fi
    [ "$n" -ge "$2" ] || { echo "FAILED: $n passed, and docs/ASSURANCE.md says $2"; status=1; }
    [ "$status" -eq 0 ] || [ "$m" -gt 0 ] || m=1
    passed=$((passed + n)) failed=$((failed + m))
}

# counted LEAST COMMAND...: a command that counts.
counted() {
    local status=0
    "${@:2}" | tee "$room/printed" || status=1
    add "$status" "$1" "$room/printed"
}

# beside NAME COMMAND...: starts a command whose output is kept under the name, for `gather`. What needs nothing of rt ci runs beside it:
# while that proves crates that rest on each other, a core is idle. It gives way to the proofs.
declare -A started=()
beside() {
    nice "${@:2}" >"$room/$1" 2>&1 &
    started[$1]=$!
}

# gather NAME: waits for what was started, shows what it printed, and has its status.
gather() {
    local status=0
    wait "${started[$1]}" || status=1
    cat "$room/$1"
    return "$status"
}

# counted_beside LEAST NAME: what was started is a command that counts.
counted_beside() {
    local status=0
    gather "$2" || status=1
    add "$status" "$1" "$room/$2"
}

# rt_ci: proves all from the top of the checkout, tries the edits and runs the programs; what it prints is kept in the file rt, too. It lets
# an edit pass that is none any more, and says on its line `rt: ok` how many are bad: here that is a failure.
rt_ci() {
    local status=0
    rt ci | tee "$room/rt" || status=1
    [ "$status" -eq 0 ] || return
    grep -q '^rt: ok;' "$room/rt" && ! grep -qE '^rt: ok;.*, [1-9][0-9]* bad(,|;|$)' "$room/rt" && return
    echo "FAILED: rt ci does not say that no must-fail edit is bad" >&2
    return 1
}

# take PROGRAM...: into target/bin, as rt ci has just proved and built them.
take() {
    local program
    mkdir -p target/bin || return
    for program; do
        cp -f "crates/$program/out/$program" "target/bin/$program" || return
    done
}

# stated WHAT: how many docs/ASSURANCE.md says there are at least.
stated() {
    awk -F ' *[|] *' -v what="$1" '$2 == what { print $3 }' docs/ASSURANCE.md
}

# small_stack PROGRAM FOLDER [BUFFERS]: on the cases in the folder, with 1 MiB of stack and as many KiB more as the program's buffers have.
small_stack() {
    (ulimit -s "$((1024 + ${3-0}))" && "target/bin/$1" <"$2/stdin" | cmp - "$2/stdout")
}

# No crate opens a definition of another, but for the computed tables; there the search must find some.
opened_nowhere() {
    local opened
    opened=$(find crates -regex 'crates/[^/]*/out' -prune -o \( -name '*.antt' -o -name '*.rt' \) ! -name PaperRuns.antt ! -name Examples.antt -print0 |
        xargs -0 bash tests/opened.sh)
    [ -z "$opened" ] || echo "$opened"
    [ -z "$opened" ] && [ -n "$(bash tests/opened.sh crates/command/proofs/PaperRuns.antt)" ]
}

# groupings_agree FOLDER: of the six lines for reports A, B, C the third is that of AB and C, the fourth of A and BC, the last two of A with the
# empty run's report on either side (PROTOCOL.md).
groupings_agree() {
    target/bin/cases <"$1/stdin" | awk '
        NR % 6 == 3 || NR % 6 == 5 { line = $0 }
        (NR % 6 == 4 || NR % 6 == 0) && $0 != line { differ = 1 }
        END { exit differ || NR == 0 || NR % 6 }
    '
}

# second_agrees FOLDER
second_agrees() {
    target/second answer <"$1/stdin" | cmp - "$1/stdout"
}

works() {
    "$@" >/dev/null 2>&1
}

# Set-up. The second program needs rustc; Debian's is enough.
works rt version || PATH="/opt/rattle/bin:$PATH"
works rustc --version || PATH="${HOME:-/root}/.cargo/bin:$PATH"
works rustc --version || { works apt-get update && works apt-get install -y rustc && PATH="/usr/bin:$PATH"; }
works rt version || { echo "FAILED: rt, the command of the Rattle toolchain, is not there"; failed=1; finish; }
works rustc --version || { echo "FAILED: rustc, which compiles the second program, is not there"; failed=1; finish; }

single "all is there that docs/ASSURANCE.md names" bash tests/floor.sh
single "no crate opens a definition of another" opened_nowhere
beside opened bash tests/opened_fails.sh
beside floor bash tests/floor_fails.sh
beside refused bash tests/refused_fails.sh
beside build bash tests/build.sh
beside answers bash tests/answers.sh
beside compiled rustc -O --edition 2021 -o "$room/second" docs/src/second/main.rs
beside examples rustc -O --edition 2021 -o "$room/write" docs/src/examples.rs
key=$(sources_key "$home")
counted 1 rt_ci
counted "$(stated 'wrong programs')" bash tests/refused.sh "$room/rt"
counted_beside 1 opened
counted_beside "$(stated 'faults that `tests/floor.sh` must see')" floor
counted_beside "$(stated 'tries of `tests/refused.sh`')" refused
counted_beside "$(stated 'runs of its building')" build
counted_beside "$(stated 'runs with programs that go wrong')" answers
single "the second program compiles" gather compiled
single "the generator of the examples compiles" gather examples
[ "$failed" -eq 0 ] || finish
single "the programs are there that were proved" take pattern_cases cases cuecount rakvinje
single "the program is of the sources that were proved" adopt "$key" target/bin/rakvinje

for cases in pattern_cases cases; do
    single "$cases prints what it must within 1 MiB of stack" small_stack "$cases" "crates/$cases"
done
single "cases prints the depths that it must within 1 MiB of stack" small_stack cases tests/depth
single "cases joins three reports as it must within 1 MiB of stack" small_stack cases tests/joining
single "cases answers about repeat counts as it must within 1 MiB of stack" small_stack cases tests/repeats
single "cases finds lines as it must within 1 MiB of stack beyond its buffers" small_stack cases tests/find 848
single "both groupings of three reports are one line, and the empty run's report changes nothing" groupings_agree tests/joining
beside command bash tests/rakvinje.sh

mkdir -p target/examples
single "it writes the examples" "$room/write" target/examples
for book in document01.mbk laptop.mbk blocks.mbk chase.mbk arena.mbk; do
    single "examples/$book is what it writes" cmp "target/examples/$book" "examples/$book"
done

cp "$room/second" target/second
beside selftest target/second selftest
single "the second program answers the fixed cases alike" second_agrees crates/cases
single "the second program answers the fixed cases of depths alike" second_agrees tests/depth
single "the second program joins three reports alike" second_agrees tests/joining
single "the second program answers about repeat counts alike" second_agrees tests/repeats
single "the second program finds lines alike" second_agrees tests/find
counted "$(stated 'comparisons with the second program')" target/second compare target/bin/cases target/bin/cuecount ./rakvinje 1 6000 crates/pattern_cases/stdin
single "the second program passes its own test" gather selftest
counted_beside "$(stated 'runs of the command')" command
finish
