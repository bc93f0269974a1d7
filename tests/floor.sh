#!/usr/bin/env bash
# floor.sh [FOLDER]: holds docs/ASSURANCE.md against the checkout in FOLDER (this one, if none is named), so that nothing that it names can go
# unseen: theorems, contracts, wrong programs, cases, rows. Prints what is missing; status 0 if nothing is.
set -u
cd "${1:-$(dirname "$0")/..}" || exit 2
page=docs/ASSURANCE.md
faults=0

fault() {
    echo "docs/ASSURANCE.md and the checkout differ: $*"
    faults=$((faults + 1))
}

# cells HEADER...: the rows of every table whose header has these last cells, as lines of cells parted by tabs.
cells() {
    LC_ALL=C awk -F ' *[|] *' -v header="$1" '
        /^[|]/ && !inside && index($0, header) { inside = 1; next }
        /^[|]-/ { next }
        !/^[|]/ { inside = 0 }
        inside { line = $2; for (i = 3; i < NF; i++) line = line "\t" $i; print line }
    ' "$page"
}

# The words of a text that stand between backquotes, into the array `words`.
quoted() {
    local rest=$1 form='`([^`]*)`(.*)'
    words=()
    while [[ $rest =~ $form ]]; do
        words+=("${BASH_REMATCH[1]}")
        rest=${BASH_REMATCH[2]}
    done
}

# The public functions of the libraries: crate, name, contract.
functions=$(for library in crates/*/src/lib.rt; do find "${library%/*}" -name '*.rt' -exec env LC_ALL=C awk -f tests/contracts.awk {} +; done)

# declared FILE: the names of its public definitions and theorems, or of its public functions with a contract, each with a blank around it.
# The fields of a record are none of them.
declared() {
    case $1 in
    *.antt) LC_ALL=C sed -E '/^pub record /,/^$/{/^ /d}' "$1" | sed -nE 's/^ *((abbrev|unfoldable) )?pub ((data|record) )?([^ (]*)[ (].*/ \5 /p' ;;
    *.rt) LC_ALL=C awk -f tests/contracts.awk "$1" | awk '/ensures/ { print " " $2 " " }' ;;
    esac
}

# Theorems and contracts stand where the page says.
named=0
declare -A names=()
while IFS=$'\t' read -r sentence by where; do
    if [ -z "$where" ]; then
        [[ $by == *'no public function has a `requires`'* ]] || fault "of '$sentence' it is not said where"
        continue
    fi
    quoted "$where"
    file=${words[0]}
    [ -f "$file" ] || { fault "there is no file $file"; continue; }
    [ -n "${names[$file]+set}" ] || names[$file]=$(declared "$file")
    quoted "$by"
    for name in "${words[@]}"; do
        named=$((named + 1))
        [[ ${names[$file]} == *" $name "* ]] || fault "$name does not stand in $file"
    done
done < <(cells '| By | Where |' | sed 's/^\t/-\t/; s/\t\t/\t-\t/')

# Every public function is in the table of contracts, with a definition that its contract cites; none has a `requires`.
contracts=$(cells '| Crate | Functions and definitions |')
declare -A rows=()
while IFS=$'\t' read -r crate row; do
    rows[${crate//\`/}]=$row
done <<<"$contracts"
while read -r crate name contract; do
    case $contract in
    *requires*) fault "$name of $crate is public and has a requires" ;;
    esac
    row=${rows[$crate]-}
    cited="\`$name\`: (\`[^;]*)" none="\`$name\`.*: nothing"
    if [[ "$row;" =~ $cited ]]; then
        # Of functions with one name the row speaks one by one, in the order of the code.
        rows[$crate]=${row/"${BASH_REMATCH[0]}"/}
        quoted "${BASH_REMATCH[1]}"
        for definition in "${words[@]}"; do
            [[ $contract == *"$definition"* ]] || fault "the contract of $name of $crate does not cite $definition"
        done
        clauses=" $contract"
        clauses=${clauses// ensures /$'\x01'}
        clauses=${clauses//[!$'\x01']/}
        [ "${#words[@]}" -ge "${#clauses}" ] || fault "of the ${#clauses} clauses of the contract of $name of $crate not each has a definition"
    elif [ -n "$contract" ] || ! [[ $row =~ $none ]]; then
        fault "$name of $crate is not in the table of contracts"
    fi
done <<<"$functions"
while read -r crate name; do
    [[ $'\n'$functions == *$'\n'"$crate $name "* ]] || fault "there is no public function $name of $crate"
done < <(LC_ALL=C awk -F '`' '{ for (i = 4; i < NF; i += 2) if ($(i + 1) ~ /^: /) print $2, $i }' <<<"$contracts")

# As many wrong programs as the page says, crate by crate: each edit file is one, if it has a change.
declare -A programs=()
while read -r number crate; do
    programs[$crate]=$number
done < <(grep -l '^new:' crates/*/must-fail/*.edit | cut -d / -f 2 | uniq -c)
times=$(cells '| Crate | Functions | Check | Wrong programs |')
wrong=0
for folder in crates/*/; do
    crate=$(basename "$folder")
    row=$(grep "^\`$crate\`" <<<"$times") || { fault "$crate is not in the table of times"; continue; }
    stated=$(cut -f 4 <<<"$row")
    stated=${stated%%[ ,]*}
    found=${programs[$crate]-0}
    wrong=$((wrong + found))
    [ "${stated/none/0}" -le "$found" ] || fault "$crate has $found wrong programs and not $stated"
done

# at_least WHAT FOUND
at_least() {
    local stated
    stated=$(cells '| What | Number |' | grep -F "$1" | cut -f 2)
    [ -n "$stated" ] && [ "$2" -ge "$stated" ] || fault "$1: $2 and not ${stated:-stated}"
}

at_least 'names in the tables of theorems' "$named"
at_least 'wrong programs' "$wrong"
at_least 'fixed cases of `cases`' "$(wc -l <crates/cases/stdout)"
at_least 'fixed cases of depths' "$(wc -l <tests/depth/stdout)"
at_least 'fixed cases of joining' "$(wc -l <tests/joining/stdout)"
at_least 'fixed cases of repeat counts' "$(wc -l <tests/repeats/stdout)"
at_least 'fixed cases of lines' "$(wc -l <tests/find/stdout)"
at_least 'patterns of `pattern_cases`' "$(wc -l <crates/pattern_cases/stdin)"
at_least 'rows of `paper-runs`' "$(LC_ALL=C grep -Ec '^ *(. |...? )?row \(' crates/command/proofs/PaperRuns.antt)"
at_least 'rows of `paper-lines`' "$(LC_ALL=C grep -Ec '^ +(. |...? )?row ' crates/display/proofs/Examples.antt)"

[ "$faults" -eq 0 ]
