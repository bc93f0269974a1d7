#!/usr/bin/env bash
# Takes things away from a copy of the checkout, and looks that tests/floor.sh sees each. The last line is 'N passed, M failed'.
set -u
cd "$(dirname "$0")/.." || exit 2
. tests/expect.sh
# Without what rt keeps in a crate's folder out.
{ find crates -regex 'crates/[^/]*/out' -prune -o -type f -print0 && find tests docs/ASSURANCE.md -type f -print0; } | xargs -0 cp --parents -t "$room" || exit 2

# lacks WORDS FILE COMMAND...: with the file changed by the command, which is given its name, floor.sh says so in words with WORDS.
lacks() {
    local words=$1 file=$room/$2 said
    shift 2
    cp "$file" "$room/kept" && "$@" "$file"
    if cmp -s "$file" "$room/kept"; then
        said='(the file was not changed)'
    elif said=$(bash tests/floor.sh "$room"); then
        said='(nothing)'
    fi
    if [[ $said == *"$words"* ]]; then
        passed=$((passed + 1))
    else
        failed=$((failed + 1))
        printf 'FAILED: %s: %s\n' "${file#"$room/"}" "$said"
    fi
    mv "$room/kept" "$file"
}

expect 0 '' '' bash tests/floor.sh "$room"
lacks 'demand-2 does not stand' crates/lines/proofs/Demands.antt sed -i 's/pub demand-2 :/pub demand-two :/'
lacks 'steps-bound does not stand' crates/counter/proofs/Demands.antt sed -i 's/pub steps-bound :/steps-bound :/'
lacks 'LineMeans does not stand' crates/lines/proofs/Demands.antt sed -i '/^pub data LineMeans/d'
lacks 'there is no file crates/book/proofs/Prefix.antt' crates/book/proofs/Prefix.antt rm
lacks 'count_book does not stand' crates/counter/src/counting.rt sed -i '/^pub fn count_book/,/^{/{/ensures/d}'
lacks 'of count_book of counter does not cite count_result' crates/counter/src/counting.rt sed -i '/^pub fn count_book/,/^{/s/count_result/other_result/'
lacks 'of body of book does not cite body_at' crates/book/src/answers.rt sed -i '/ensures offset/d'
lacks 'steps does not stand' crates/counter/specs/Counting.antt sed -i 's/^unfoldable pub steps :/unfoldable steps :/'
lacks 'names in the tables of theorems' docs/ASSURANCE.md sed -i '/^| Sentence | By | Where |$/s/Where/Place/'
lacks 'it is not said where' docs/ASSURANCE.md sed -i 's/^\(| the whole demand.*\) | [^|]* |$/\1 | |/'
lacks 'union of stateset is public and has a requires' crates/stateset/src/lib.rt sed -i 's/^pub fn union.*/&\n    requires { a ≡ b }/'
lacks 'more of refusal is not in the table' crates/refusal/src/lib.rt sed -i '$a pub fn more(n: u64) -> u64\n{\n    n\n}'
lacks 'there is no public function sum of reports' crates/reports/src/total.rt sed -i 's/^pub fn sum(/pub(crate) fn sum(/'
lacks 'counter has 10 wrong programs' crates/counter/must-fail/count_zero.edit rm
lacks 'refusal has 1 wrong programs' crates/refusal/must-fail/no_number.edit sed -i '/^new:/d'
lacks 'wrong programs: 162 ' crates/refusal/must-fail/wrong_number.edit rm
lacks 'rows of `paper-runs`: 45' crates/command/proofs/PaperRuns.antt sed -i '/row (program_steps example)/d'
lacks 'rows of `paper-lines`: 11' crates/display/proofs/Examples.antt sed -i '/row (chase 144 1) (97 ∷ \[\]) 1 401/d'
lacks 'too-short-iff does not stand' crates/find/proofs/Locating.antt sed -i 's/pub too-short-iff :/too-short-iff :/'
lacks 'fixed cases of `cases`' crates/cases/stdout sed -i '7d'
lacks 'fixed cases of depths' tests/depth/stdout sed -i '7d'
lacks 'fixed cases of joining' tests/joining/stdout sed -i '7d'
lacks 'fixed cases of repeat counts' tests/repeats/stdout sed -i '7d'
lacks 'fixed cases of lines' tests/find/stdout sed -i '7d'
lacks 'patterns of `pattern_cases`' crates/pattern_cases/stdin sed -i '7d'
finish
