#!/usr/bin/env bash
# refused.sh OUTPUT [FOLDER]: looks that each wrong program of the checkout in FOLDER (this one, if none is named) was refused for what its own
# function does, by what `rt ci` or `rt must-fail` printed there, which is in the file OUTPUT. An edit file is one wrong program. The first fact that
# is said not to be proved must be one of a function that it changes. Prints which have none; the last line is 'N passed, M failed'.
set -u
shopt -s nullglob
here=$(cd "$(dirname "$0")" && pwd) || exit 2
output=$(realpath -- "$1") || exit 2
cd "${2:-$here/..}" || exit 2
passed=0 failed=0

fault() {
    echo "FAILED: $*"
    failed=$((failed + 1))
}

# What rt said of each edit; and where the fact stands, of those that were refused for one.
declare -A said=() own=()
while IFS='|' read -r edit words; do
    said[$edit]=$words
done < <(sed -nE 's/^rt: must-fail ([^ ]+): (.*)/\1|\2/p' "$output")
while IFS='|' read -r edit place; do
    own[$edit]=$place
done < <(LC_ALL=C awk -f "$here/own_errors.awk" "$output")

# judge CRATE EDIT
judge() {
    local crate=$1 edit=$2 name kind words changes='' owners='' stands places
    name=$crate/$(basename "$edit")
    stands=${own[$name]-}
    while IFS='|' read -r kind words; do
        case $kind in
        fault) fault "$edit: $words"; return ;;
        said) owners=$words ;;
        *) changes+=$words ;;
        esac
    done < <(LC_ALL=C awk -v crate="crates/$crate" -v said="$([[ $stands != src/* ]] || echo "$stands")" -f "$here/changed.awk" "$edit")
    [ -n "${said[$name]+set}" ] || { fault "$edit: rt has not tried it"; return; }
    [[ ${said[$name]} == 'refused, as it must be'* ]] || { fault "$edit: ${said[$name]:0:200}"; return; }
    [ -n "$stands" ] || { fault "$edit: no fact of it is refused: ${said[$name]:24:200}"; return; }
    [[ $stands == src/* ]] || owners=" ${stands#proofs/}"
    read -ra places <<<"$changes"
    for words in "${places[@]}"; do
        if [ "$words" = '*' ] || [[ "$owners " == *" $words "* ]]; then
            passed=$((passed + 1))
            return
        fi
    done
    fault "$edit: the fact stands in $stands; it changes$changes"
}

for edit in crates/*/must-fail/*.edit; do
    crate=${edit#crates/}
    judge "${crate%%/*}" "$edit"
done
echo "$passed passed, $failed failed"
[ "$failed" -eq 0 ]
