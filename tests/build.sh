#!/usr/bin/env bash
# Tries when and how ./rakvinje builds its program: in a small checkout of its own, with a stand-in for rt, so that it takes seconds.
# The last line is 'N passed, M failed'.
# shellcheck disable=SC2016,SC2317 # Much here is text of scripts, for others to expand; expect calls the functions.
set -u
cd "$(dirname "$0")/.." || exit 2
# shellcheck source=tests/expect.sh
. tests/expect.sh
# shellcheck source=tests/checkout.sh
. tests/checkout.sh

export FAKE=$room/fake LIVE=$home
mkdir -p "$FAKE/bin"
cp tests/fake_rt.sh "$FAKE/bin/rt"
chmod 755 "$FAKE/bin/rt"
: >"$FAKE/runs"
# Where rt does not stand.
plain_path=/usr/bin:/bin
PATH=$FAKE/bin:$PATH
call=("$home/rakvinje" count B book)
building='*once;*crate 1 of 3: low proved*crate 3 of 3: rakvinje proved'

# builds N: how often rt ran since this was last asked.
builds() {
    expect 0 "$1" '' awk 'END { print NR }' "$FAKE/runs"
    : >"$FAKE/runs"
}

# before COMMANDS, after COMMANDS: what happens as rt builds, before and after it reads its sources.
before() {
    printf '%s\n' "$@" >"$FAKE/before"
}

after() {
    printf '%s\n' "$@" >"$FAKE/after"
}

nothing_happens() {
    rm -f "$FAKE/before" "$FAKE/after"
}

# The program answers with the number in this source. Its time stamp does not tell that it has changed.
number_is() {
    put crates/low/src/lib.rt "$1"
    touch -d 2000-01-01 "$home/crates/low/src/lib.rt"
}

# built_anew N: a call builds and answers N, and the next one answers without building.
built_anew() {
    expect 0 "lines $1 steps 1" "$building" "${call[@]}"
    expect 0 "lines $1 steps 1" '' "${call[@]}"
    builds 1
}

# First use.
expect 2 '' 'usage:*' "$home/rakvinje"
expect 0 "$(<scripts/help/count.txt)" '' "$home/rakvinje" count --help
expect 1 '' '' test -e "$home/target"
built_anew 1
ln -s "$home/rakvinje" "$room/link"
expect 0 'lines 1 steps 1' '' env -C / "$room/link" count B book

# What is no change of the program, and what is.
touch "$home"/crates/*/*/*
put crates/low/must-fail/wrong.edit new
put crates/low/out/kept new
put crates/rakvinje/out/rakvinje new
put crates/other/src/lib.rt new
sed -i 's/^#.*/# comment/; s/^other: low/other: low mid/' "$home/crates.txt"
expect 0 'lines 1 steps 1' '' "${call[@]}"
builds 0
number_is 2
built_anew 2
put crates/mid/specs/Lib.antt new
built_anew 2
put crates/mid/proofs/f/Answers.antt new
built_anew 2
put crates/mid/proofs/f/Invariants.antt new
built_anew 2
mv "$home/crates/mid/proofs/f" "$home/crates/mid/proofs/g"
built_anew 2
ln -s Lib.antt "$home/crates/mid/specs/Link.antt"
built_anew 2
rm "$home/crates/mid/specs/Link.antt"
built_anew 2
sed -i 's/^rakvinje:.*/& either/' "$home/crates.txt"
built_anew 2
# A folder of that name deeper in a crate holds sources, as the proof of a function `out`.
put crates/mid/proofs/out/Answers.antt old
built_anew 2
put crates/mid/proofs/out/Answers.antt new
built_anew 2
expect 0 "$(sources_key "$home")${lf}lock" '' ls "$built"

# Where it was built nothing stays.
gone() {
    [ ! -e "$(cat "$FAKE/place")" ]
}
expect 0 '' '' gone

# What rt has proved before.
number_is 3
: >"$FAKE/kept"
expect 0 'lines 3 steps 1' '*once;*crate 1 of 3: low is kept*crate 3 of 3: rakvinje is kept' "${call[@]}"
builds 1
rm "$FAKE/kept"
number_is 2
built_anew 2

# A build that fails is not used, nor is the program of other sources, which stays for these.
number_is 3
after 'echo "note: src/lib.rt:1:1: it is not proved"' 'echo "help: words"' 'echo "src/lib.rt:1:1: error: no proof"' \
    'echo "fn low::f: not proved"' 'echo "rt: low NOT PROVED"' 'echo "rt: mid NOT PROVED: its library low failed"' \
    'echo "rt: FAILED: low mid"' 'echo "0 passed, 2 failed"' 'exit 1'
failing="*crate 3 of 3: rakvinje proved${lf}note: src/lib.rt:1:1: it is not proved${lf}src/lib.rt:1:1: error: no proof$lf"
failing+="fn low::f: not proved${lf}rt: low NOT PROVED$lf"
failing+="rakvinje: the program was not built; the whole log is $home/target/built/log"
expect 2 '' "$failing" "${call[@]}"
expect 2 '' "$failing" "${call[@]}"
builds 2
expect 0 'rt: mid NOT PROVED: its library low failed' '' grep 'its library' "$built/log"
expect 0 '' '' gone
number_is 2
expect 0 'lines 2 steps 1' '' "${call[@]}"
builds 0
number_is 3
after 'rm crates/rakvinje/out/rakvinje'
expect 2 '' "*could not be put into $built" "${call[@]}"
builds 1
nothing_happens
built_anew 3

# A source that changes during the build.
number_is 4
before 'echo 5 >"$LIVE/crates/low/src/lib.rt"' 'touch -d 2000-01-01 "$LIVE/crates/low/src/lib.rt"'
expect 0 'lines 4 steps 1' "$building" "${call[@]}"
builds 1
nothing_happens
built_anew 5

# One that changes, and changes back.
number_is 6
before 'echo 9 >"$LIVE/crates/low/src/lib.rt"'
after 'echo 6 >"$LIVE/crates/low/src/lib.rt"'
built_anew 6
nothing_happens

# One that changes after the sources were hashed and before they are copied.
number_is 7
mkdir "$FAKE/copying"
printf '%s\n' '#!/bin/sh' 'echo 8 >"$LIVE/crates/low/src/lib.rt"' 'PATH=${PATH#*:}' 'exec cp "$@"' >"$FAKE/copying/cp"
chmod 755 "$FAKE/copying/cp"
expect 0 'lines 8 steps 1' "$building" env PATH="$FAKE/copying:$PATH" "${call[@]}"
expect 0 'lines 8 steps 1' '' "${call[@]}"
builds 1
number_is 7
built_anew 7

# both: two calls at once; what they print, and what they say.
both() {
    "${call[@]}" >"$room/out1" 2>"$room/err1" &
    "${call[@]}" >"$room/out2" 2>"$room/err2" &
    wait
    cat "$room/out1" "$room/out2"
    cat "$room/err1" "$room/err2" >&2
    rm "$room"/err?
}

# Two calls at once. This build lasts until the other call waits for it.
until_waiting='for i in $(seq 100); do cat "$FAKE/../"err* | grep -q waiting && break; sleep 0.1; done'
number_is 8
before "$until_waiting"
expect 0 "lines 8 steps 1${lf}lines 8 steps 1" '*waiting for it*' both
builds 1
nothing_happens

# A call that is killed as it builds: what it started goes on, and the next call waits for that.
number_is 9
before 'rm "$FAKE/before"; kill -9 "$(cat "$FAKE/pid")"' "$until_waiting"
bash -c 'echo $$ >"$FAKE/pid"; exec "$@"' - "${call[@]}" 2>/dev/null &
wait $! 2>/dev/null
expect 0 137 '' echo $?
expect 0 'lines 9 steps 1' '*waiting for it*' "${call[@]}"
expect 0 'lines 9 steps 1' '' "${call[@]}"
builds 1

# Someone may remove target/ at any time, and another call may have begun to build other sources since.
number_is 10
before 'rm -rf "$LIVE/target"'
expect 2 '' "*could not be put into $built" "${call[@]}"
before 'rm -rf "$LIVE/target"' 'mkdir -p "$LIVE/target/built"' ': >"$LIVE/target/built/lock"'
expect 2 '' "*could not be put into $built" "${call[@]}"
builds 2
nothing_happens
built_anew 10

# A call that waits for the lock as target/ is removed.
number_is 11
before 'rm "$FAKE/before"' "$until_waiting" 'rm -rf "$LIVE/target"'
expect 0 'lines 11 steps 1' '*could not be put into*' both
builds 2

# What stands on the standard input is the book, also where the program has to be built first.
number_is 12
expect 0 'lines 12 steps 5' "$building" "$home/rakvinje" count B - <<<book
builds 1

# The toolchain's folder is tried if rt is not on the PATH.
number_is 13
expect 2 '' "*rt, the command*nor in $room/nowhere/bin" env PATH="$plain_path" RATTLE_HOME="$room/nowhere" "${call[@]}"
builds 0
expect 0 'lines 13 steps 1' "$building" env PATH="$plain_path" RATTLE_HOME="$FAKE" "${call[@]}"
builds 1

# No folder to build it in.
number_is 14
expect 2 '' '*no folder can be made to build it in' env TMPDIR="$room/nowhere" "${call[@]}"
builds 0

# A program that was built in place is taken, if its sources are still the same.
number_is 14
key=$(sources_key "$home")
printf '#!/bin/sh\necho lines 14 steps 2\n' >"$room/program"
chmod 755 "$room/program"
expect 0 '' '' adopt "$key" "$room/program"
expect 0 'lines 14 steps 2' '' "${call[@]}"
number_is 15
expect 1 '' '*changed since*' adopt "$key" "$room/program"
number_is 14
expect 1 '' '*could not be put into*' adopt "$key" "$room/missing"
builds 0

# A checkout that cannot be written to, with the program and without it. Root can write everywhere, so it is another user then.
as_other=()
[ "$(id -u)" -ne 0 ] || as_other=(setpriv --reuid=65534 --regid=65534 --clear-groups)
files() {
    find "$home" -printf '%p %T@ %C@ %s\n' | sort
}
chmod -R a-w "$home"
stand=$(files)
expect 0 'lines 14 steps 2' '' "${as_other[@]}" "${call[@]}"
expect 0 "$stand" '' files
chmod -R u+w "$home"
number_is 15
chmod -R a-w "$home"
stand=$(files)
expect 2 '' "*has to be built*$home/target/built cannot*" "${as_other[@]}" "${call[@]}"
expect 0 "$stand" '' files
chmod -R u+w "$home"
rm -r "$home/target"
chmod -R a-w "$home"
expect 2 '' "*has to be built*$home/target/built cannot*" "${as_other[@]}" "${call[@]}"
chmod -R u+w "$home"
builds 0

# Sources that can be read but not written.
chmod -R a-w "$home/crates"
built_anew 15
chmod -R u+w "$home/crates"
number_is 16
built_anew 16

# Sources that are not there.
rm -r "$home/crates/mid"
expect 2 '' '*crates/mid*cannot be read' "${call[@]}"
put crates.txt low:
expect 2 '' '*crates.txt has no line*' "${call[@]}"
rm "$home/crates.txt"
expect 2 '' '*crates.txt*cannot be read' "${call[@]}"
builds 0

finish
