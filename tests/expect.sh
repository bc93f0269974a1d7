# shellcheck shell=bash
# What the tests of the command share: a folder for their files, and the count of what passed. To be sourced.
room=$(mktemp -d) || exit 2
trap 'chmod -R u+w "$room"; rm -rf "$room"' EXIT
lf=$'\n'
passed=0 failed=0

# expect STATUS STDOUT STDERR-PATTERN COMMAND...: what is printed has to be STDOUT and a line end, or nothing at all if STDOUT is empty. The
# pattern is a shell pattern; an empty one means that nothing is said.
expect() {
    local want="${2:+$2$lf}status $1" err=$3 got said
    shift 3
    got=$("$@" 2>"$room/err"; echo "status $?")
    said=$(<"$room/err")
    # shellcheck disable=SC2053
    if [ "$got" = "$want" ] && [[ $said == $err ]]; then
        passed=$((passed + 1))
        return
    fi
    failed=$((failed + 1))
    printf 'FAILED:'
    printf ' %q' "$@" | cut -c 1-400
    printf '  printed %q\n  not %q\n  said %q\n' "$got" "$want" "$said"
}

finish() {
    echo "$passed passed, $failed failed"
    [ "$failed" -eq 0 ]
    exit
}
