# shellcheck shell=bash
# The program of ./rakvinje: which sources it is of, and how it is proved and built from them. To be sourced with `home` set to the
# checkout's folder. ./rakvinje calls program_path, the test command sources_key and adopt.
#
# A built program stands at target/built/KEY, where KEY is a hash of its sources, and is used for no others. It is built from a copy of
# the sources in a folder of its own: so KEY says what was proved, whatever happens to the sources in the meantime. That folder is outside
# the checkout, in which `rt ci` lets no such files stand, and goes when the program is built.

built=${home:?}/target/built

tell() {
    printf 'rakvinje: %s\n' "$*" >&2
}

# The lines of the crates.txt in this folder that the program rests on. A name that has no line is a library of the toolchain.
needed_lines() {
    awk '
        { sub(/#.*/, ""); at = index($0, ":"); name = substr($0, 1, at - 1); gsub(/[ \t]/, "", name) }
        name ~ /^[A-Za-z_][A-Za-z0-9_]*$/ { order[++count] = name; rests[name] = substr($0, at + 1) }
        END {
            if (!("rakvinje" in rests)) { print "crates.txt has no line for the crate rakvinje" >"/dev/stderr"; exit 1 }
            queue[last = 1] = "rakvinje"; needed["rakvinje"]
            for (first = 1; first <= last; first++) {
                n = split(rests[queue[first]], names, " ")
                for (i = 1; i <= n; i++)
                    if (names[i] in rests && !(names[i] in needed)) { needed[names[i]]; queue[++last] = names[i] }
            }
            for (i = 1; i <= count; i++) if (order[i] in needed) print order[i] ":" rests[order[i]]
        }' crates.txt
}

# source_files LINES: the files of the crates of these lines, each ended by a zero byte. The must-fail edits are no part of the program, nor
# is what rt keeps in the folder out.
source_files() {
    local names
    mapfile -t names <<<"$1"
    names=("${names[@]%%:*}")
    find -L "${names[@]/#/crates/}" -regex 'crates/[^/]*/\(must-fail\|out\)' -prune -o -type f -print0 | LC_ALL=C sort -z
}

# sources_key FOLDER: a hash of the names and the contents of the sources there.
sources_key() (
    set -o pipefail
    cd "$1" && lines=$(needed_lines) &&
        { echo "$lines" && source_files "$lines" | xargs -0r sha256sum; } | sha256sum | cut -d ' ' -f 1 && exit
    tell "the program's sources in $1 cannot be read"
    exit 1
)

writable() {
    mkdir -p "$1" 2>/dev/null && [ -w "$1" ] && return
    tell "the program has to be built, and the folder $1 cannot be made or cannot be written to"
    return 1
}

# mirror FOLDER: copies the sources there. rt takes the folder for the top of a repository, wherever it is, if it has a folder .git.
mirror() (
    set -o pipefail
    mkdir "$1/.git" && cd "$home" && lines=$(needed_lines) &&
        source_files "$lines" | xargs -0r cp --parents --no-preserve=mode -t "$1" && echo "$lines" >"$1/crates.txt" && exit
    tell "the program's sources could not be copied to $1"
    exit 1
)

has_lock() {
    [ "$built/lock" -ef "/proc/self/fd/$lock" ]
}

# Only one call at a time builds, and what outlives a call that was killed still holds its lock. Whoever removes target/ removes the lock
# with it; a lock on a removed file keeps nobody out, hence the loop.
take_lock() {
    while writable "$built" && exec {lock}>>"$built/lock"; do
        if ! flock -n "$lock"; then
            tell "another call is building the program; waiting for it"
            flock "$lock" || return
        fi
        ! has_lock || return 0
    done
    return 1
}

find_rt() {
    local kit=${RATTLE_HOME:-/opt/rattle}/bin
    command -v rt >/dev/null || PATH=$PATH:$kit
    command -v rt >/dev/null && return
    tell "the program has to be built, and rt, the command of the Rattle toolchain, is neither on the PATH nor in $kit"
    return 1
}

# progress N: shows each crate that rt is done with, of N. What an earlier run of rt on this machine proved of the same files is kept.
progress() {
    local line at=0
    while IFS= read -r line; do
        [[ $line =~ ^rt:\ ([A-Za-z0-9_]+\ (proved|is\ kept))(:|$) ]] || continue
        at=$((at + 1))
        tell "crate $at of $1: ${BASH_REMATCH[1]}"
    done
}

# The lines of rt's output that say what went wrong: without the crates that were proved, and those that only rest on one that was not.
faults() {
    grep -E '^rt: |error|^note: [^ ]+:[0-9]+:[0-9]+: |: not proved$|is not in the layout$' |
        grep -Ev '^rt: ([A-Za-z0-9_]+(: its tests)? (are proved|proved|passed|is kept|ran|NOT PROVED: its library)|FAILED: |note: )' |
        cut -c 1-300 | tail -n 10
}

# prove FOLDER: proves and builds what stands there, from nothing. The standard input may be the book, and is not for rt.
prove() {
    local crates
    mapfile -t crates <"$1/crates.txt"
    tell "proving and building the program, once; this takes some minutes"
    (cd "$1" && rt ci) </dev/null 2>&1 | tee "$built/log" | progress "${#crates[@]}"
    [ "${PIPESTATUS[0]}" -ne 0 ] || return 0
    faults <"$built/log" >&2
    tell "the program was not built; the whole log is $built/log"
    return 1
}

# put_in_place KEY FILE: by a rename, so that what stands there is always whole. The lock must be held.
put_in_place() {
    if has_lock && rm -f "$built/new" && cp "$2" "$built/new" && mv -fT "$built/new" "$built/$1"; then
        find "$built" -type f ! -name lock ! -name "$1" -delete
        return 0
    fi
    tell "the program could not be put into $built"
    return 1
}

is_built() {
    [ -f "$built/$1" ] && [ -x "$built/$1" ]
}

# Builds the program of the sources as they are, if no other call has while this one waited, and prints its key.
build() (
    take_lock && key=$(sources_key "$home") || exit
    if ! is_built "$key"; then
        find_rt || exit
        work=$(mktemp -d) || { tell "the program has to be built, and no folder can be made to build it in"; exit 1; }
        trap 'rm -rf "$work"' EXIT
        mirror "$work" && key=$(sources_key "$work") && prove "$work" && put_in_place "$key" "$work/crates/rakvinje/out/rakvinje" || exit
    fi
    echo "$key"
)

# Prints where the program of the sources as they are stands; it is built if need be.
program_path() {
    local key
    key=$(sources_key "$home") && { is_built "$key" || key=$(build); } && echo "$built/$key"
}

# adopt KEY FILE: takes a program that was built in place when the sources had this key, if they still have it.
adopt() (
    take_lock || exit
    if [ "$(sources_key "$home")" != "$1" ]; then
        tell "the sources have changed since the program was built"
        exit 1
    fi
    put_in_place "$1" "$2"
)
