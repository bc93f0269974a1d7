#!/usr/bin/env bash
# Tries what ./rakvinje hands to its program, and what it makes of what the program prints and of how it ends: in a small checkout of its
# own, with shell scripts in place of the program. The last line is 'N passed, M failed'.
# shellcheck disable=SC2016,SC2317 # Much here is text of scripts, for others to expand; expect calls the functions.
set -u
cd "$(dirname "$0")/.." || exit 2
# shellcheck source=tests/expect.sh
. tests/expect.sh
# shellcheck source=tests/checkout.sh
. tests/checkout.sh

key=$(sources_key "$home")
mkdir -p "$built"

# program COMMANDS: what stands for the program from here on.
program() {
    rm -f "$built/$key"
    printf '#!/bin/bash\n%s\n' "$1" >"$built/$key"
    chmod 755 "$built/$key"
}

# prints TEXT [COMMANDS]: a program that prints this, a format of printf, and then does this.
prints() {
    program "printf ${1@Q}; ${2-}"
}

r=$home/rakvinje
count=("$r" count B book) check=("$r" check book) reach=("$r" reach book) depth=("$r" depth a b book)
line=("$r" line 1 B book) lines=("$r" lines B book)
not_whole='rakvinje: there is no answer: what the program printed is none*'
ended='rakvinje: there is no answer: the program ended with status'

# What is handed to the program: the verb and its operands.
program 'printf "<%s>" "$@" >&2
case $1 in
count) echo lines 1 steps 2 ;;
check) echo sound version 1 macros 2 items 3 bytes 4 ;;
reach) echo 5 ;;
depth) echo end -1 lowest -2 ;;
lines) echo 7:text ;;
esac'
counted='lines 1 steps 2'
expect 0 "$counted" '<count><sensitive><B><book>' "$r" count B book
expect 0 "$counted" '<count><sensitive><B><book><1>' "$r" count B book 1
expect 0 "$counted" '<count><sensitive><><><>' "$r" count '' '' ''
expect 0 "$counted" "<count><sensitive><a  b$lf><a * book><1>" "$r" count "a  b$lf" 'a * book' 1
expect 0 "$counted" '<count><sensitive><B><->' "$r" count B -
expect 0 "$counted" '<count><sensitive><-><-><->' "$r" count - - -
expect 0 "$counted" '<count><sensitive><-x><book>' "$r" count -- -x book
expect 0 "$counted" '<count><sensitive><--><book>' "$r" count -- -- book
expect 0 "$counted" '<count><sensitive><B><-x><--help>' "$r" count B -x --help
expect 0 "$counted" '<count><sensitive><-x><book>' "$r" count -e -x book
expect 0 "$counted" '<count><sensitive><-x><book><2>' "$r" count -e-x book 2
expect 0 "$counted" '<count><sensitive><--><-e>' "$r" count -e -- -- -e
expect 0 "$counted" '<count><sensitive><><book>' "$r" count -e '' book
expect 0 "$counted" '<count><ignored><B><book>' "$r" count -i B book
expect 0 "$counted" '<count><ignored><B><book><1>' "$r" count -i -i B book 1
expect 0 "$counted" '<count><ignored><-i><book>' "$r" count -i -- -i book
expect 0 "$counted" '<count><ignored><-i><book>' "$r" count -i -e -i book
expect 0 "$counted" '<count><ignored><-i><book>' "$r" count -e -i -i book
expect 0 "$counted" '<count><ignored><x><book>' "$r" count -ie x book
expect 0 "$counted" '<count><sensitive><-i><book>' "$r" count -e -i book
expect 0 "$counted" '<count><sensitive><-i><book>' "$r" count -- -i book
expect 0 "$counted" '<count><sensitive><B><book><-i>' "$r" count B book -i
expect 0 "$counted" '<count><sensitive><i><book>' "$r" count -ei book
expect 0 'sound version 1 macros 2 items 3 bytes 4' '<check><book>' "$r" check book
expect 0 'sound version 1 macros 2 items 3 bytes 4' '<check><-h>' "$r" check -- -h
expect 0 5 '<reach><book>' "$r" reach book
expect 0 5 '<reach><-><07>' "$r" reach -- - 07
expect 0 'end -1 lowest -2' '<depth><(><)><book>' "$r" depth '(' ')' book
expect 0 'end -1 lowest -2' '<depth><-><--><-><07>' "$r" depth -- - -- - 07
expect 0 7:text '<lines><sensitive><3><1><B><book>' "$r" line 3 B book
expect 0 7:text '<lines><sensitive><03><1><B><book><04>' "$r" line 03 B book 04
expect 0 7:text '<lines><sensitive><><1><><><>' "$r" line '' '' '' ''
expect 0 7:text '<lines><sensitive><-1><1><-x><->' "$r" line -- -1 -x -
expect 0 7:text '<lines><sensitive><3><1><-x><book>' "$r" line -e -x 3 book
expect 0 7:text '<lines><sensitive><3><1><-x><book><2>' "$r" line -e-x 3 book 2
expect 0 7:text '<lines><ignored><3><1><B><book>' "$r" line -i 3 B book
expect 0 7:text '<lines><ignored><3><1><--><book>' "$r" line -ie -- 3 book
expect 0 7:text '<lines><sensitive><3><1><B><book><--count=2>' "$r" line 3 B book --count=2
expect 0 7:text '<lines><sensitive><1><10><B><book>' "$r" lines B book
expect 0 7:text '<lines><sensitive><1><10><B><book><2>' "$r" lines B book 2
expect 0 7:text '<lines><ignored><1><10><B><book>' "$r" lines -i B book
expect 0 7:text '<lines><ignored><1><10><-x><book>' "$r" lines -ie -x book
for words in '--first 3 --count 4 B book 2' 'B book 2 --first 3 --count 4' '--count=4 B book 2 --first=3' 'B book 2 --count=0004 --first=3' \
    '--first=3 --count=4 -- B book 2' 'B --first 3 book --count 4 2' '-e B --count 4 book 2 --first 3' '-e B --first 3 --count 4 -- book 2'; do
    # shellcheck disable=SC2086 # these are words
    expect 0 7:text '<lines><sensitive><3><4><B><book><2>' "$r" lines $words
    # shellcheck disable=SC2086
    expect 0 7:text '<lines><ignored><3><4><B><book><2>' "$r" lines -i $words
done
# The value of -e, what stands behind --, and a value of --first are what they are, whatever their words.
expect 0 7:text '<lines><sensitive><1><10><--first><book>' "$r" lines -e --first book
expect 0 7:text '<lines><ignored><1><10><--count=3><book>' "$r" lines -iie --count=3 book
expect 0 7:text '<lines><sensitive><1><4><--><book>' "$r" lines -e -- book --count 4
expect 0 7:text '<lines><sensitive><2><10><--first><--count>' "$r" lines --first 2 -- --first --count
expect 0 7:text '<lines><sensitive><2><10><B><--first><-->' "$r" lines B --first 2 -- --first --
expect 0 7:text '<lines><sensitive><1><10><B><book>' "$r" lines B book --
expect 0 7:text '<lines><sensitive><1><10><--><-->' "$r" lines -- -- --
expect 0 7:text '<lines><sensitive><--><10><B><book>' "$r" lines --first -- B book
expect 0 7:text '<lines><sensitive><3><10><-><-e>' "$r" lines - -e --first 3
expect 0 7:text '<lines><sensitive><><10><B><book>' "$r" lines B book --first=
expect 0 7:text '<lines><sensitive><-5><10><B><book>' "$r" lines B book --first -5
expect 0 7:text '<lines><sensitive><1><1><B><book>' "$r" lines B book --count 1
expect 0 7:text '<lines><sensitive><1><1024><B><book>' "$r" lines B book --count 1024
program 'echo lines 1 steps "$(wc -c)"'
expect 0 'lines 1 steps 5' '' "$r" count B - <<<book
program 'echo "$(wc -c):"'
expect 0 5: '' "$r" lines B - <<<book

# Answers and refusals, each of its verb.
prints 'lines 18446744073709551615 steps 0\n'
expect 0 'lines 18446744073709551615 steps 0' '' "${count[@]}"
expect 2 '' "$not_whole" "${check[@]}"
expect 2 '' "$not_whole" "${reach[@]}"
prints 'sound version 1 macros 2 items 5 bytes 21\n'
expect 0 'sound version 1 macros 2 items 5 bytes 21' '' "${check[@]}"
expect 2 '' "$not_whole" "${count[@]}"
for text in 'end 0 lowest 0' 'end 4611686018427387904 lowest 0' 'end -4611686018427387904 lowest -4611686018427387904'; do
    prints "$text\n"
    expect 0 "$text" '' "${depth[@]}"
    expect 2 '' "$not_whole" "${check[@]}"
done
prints '1\n0\n'
expect 2 '' "$not_whole" "${depth[@]}"
expect 0 "1${lf}0" '' "${reach[@]}"
expect 2 '' "$not_whole" "${count[@]}"
prints 'refused 12\n' 'echo too high >&2'
expect 1 'refused 12' 'too high' "${count[@]}"
expect 1 'refused 12' 'too high' "${check[@]}"
expect 1 'refused 12' 'too high' "${reach[@]}"
expect 1 'refused 12' 'too high' "${depth[@]}"
expect 1 'refused 12' 'too high' "${line[@]}"
expect 1 'refused 12' 'too high' "${lines[@]}"
for text in '1:' '18446744073709551615: !~' '3:\\\\x0d' '3:length 4' '3 length 70000' '1:refused 3'; do
    prints "$text\n"
    expect 0 "$(printf "$text")" '' "${line[@]}"
    expect 0 "$(printf "$text")" '' "${lines[@]}"
    expect 2 '' "$not_whole" "${count[@]}"
done
prints '1:a\n3 length 70000\n4:\n'
expect 0 "1:a${lf}3 length 70000${lf}4:" '' "${lines[@]}"
expect 0 "1:a${lf}3 length 70000${lf}4:" '' "${lines[@]}" --count 3
expect 2 '' "$not_whole" "${lines[@]}" --count 2
expect 2 '' "$not_whole" "${line[@]}"
program 'seq -f %g: 1024'
expect 0 "$(seq -f %g: 1024)" '' "${lines[@]}" --count 1024
program 'seq -f %g: 1025'
expect 2 '' "$not_whole" "${lines[@]}" --count 1024
# A line of 65,536 keys that are each shown by four bytes.
program 'echo "1:$(head -c 65536 /dev/zero | sed "s/\x00/\\\\xff/g")"'
expect 0 262146 '' bash -c 'set -o pipefail; "$@" | tr -d "\n" | wc -c' - "${line[@]}"
# A reader that wants no more.
program 'for i in {1..9}; do printf "%s:%099999d\n" "$i" 0; done'
expect 0 1:00 '' bash -c '"$@" | head -c 4; echo' - "${lines[@]}"
program 'seq 0 1023'
expect 0 "$(seq 0 1023)" '' "${reach[@]}"
program 'seq 0 1024'
expect 2 '' "$not_whole" "${reach[@]}"

# A program that has no answer says why; one that says nothing at all has none either.
program 'echo cannot read it >&2'
expect 2 '' 'cannot read it' "${count[@]}"
program ''
expect 2 '' '' "${count[@]}"

# Killed, or ended with another status than 0, whatever it has printed.
prints 'lines 1 st' 'kill -9 $$'
expect 2 '' "$ended 137*" "${count[@]}"
prints 'lines 1 steps 2\n' 'kill -9 $$'
expect 2 '' "$ended 137*" "${count[@]}"
prints 'lines 1 steps 2\n' 'kill -SEGV $$'
expect 2 '' "$ended 139*" "${count[@]}"
prints 'lines 1 steps 2\n' 'exit 1'
expect 2 '' "$ended 1,*" "${count[@]}"
prints 'refused 1\n' 'exit 1'
expect 2 '' "$ended 1,*" "${count[@]}"
prints 'lines 1 steps 2\nended 0 0' 'exit 3'
expect 2 '' "$ended 3,*" "${count[@]}"
prints '5\n4\n' 'kill -9 $$'
expect 2 '' "$ended 137*" "${reach[@]}"
program 'kill -9 $$'
expect 2 '' "$ended 137*" "${count[@]}"
prints 'sound version 1 macros 2 items 5 bytes 2' 'kill -9 $$'
expect 2 '' "$ended 137*" "${check[@]}"
for text in '1:a\n' '1:a\n2:b' 'refused 15\n' ''; do
    prints "$text" 'kill -9 $$'
    expect 2 '' "$ended 137*" "${lines[@]}"
    prints "$text" 'exit 1'
    expect 2 '' "$ended 1,*" "${line[@]}"
done
program 'exec /nowhere/program'
expect 2 '' "*$ended 127*" "${count[@]}"

# Not of the form.
for text in 'lines 1 steps 2' 'lines 1 steps 2\nlines 1 steps 2\n' 'lines 1 steps 2 x\n' 'lines 1 steps 2\n\n' '\nlines 1 steps 2\n' \
    ' lines 1 steps 2\n' 'lines 1 steps 2 \n' 'lines 1  steps 2\n' 'lines 1 steps 2\r\n' 'lines 1 steps 2\nx' 'lines 1 steps 2\n\0' \
    'lines 1\0 steps 2\n' 'lines -1 steps 2\n' 'lines 01 steps 2\n' 'lines 1 steps\n' 'lines 1 steps \n' 'lines x steps 2\n' \
    'lines 1 steps 2\nrefused 3\n' 'refused 3\nlines 1 steps 2\n' 'refused 3' 'refused\n' 'refused x\n' 'refused 3 x\n' 'garbage\n' \
    '\n' '\0' '\377' 'lines 1 steps 2\nended 0 0' 'lines 111111111111111111111 steps 2\n'; do
    prints "$text"
    expect 2 '' "$not_whole" "${count[@]}"
done
for text in '5\n4' '5\n4\n\n' '\n5\n' '5\n\n4\n' '5 4\n' '5\nx\n' '5\n-4\n' '5\n 4\n' '5\nrefused 3\n' '5\0\n4\n' '5\n4\nended 0 0\n'; do
    prints "$text"
    expect 2 '' "$not_whole" "${reach[@]}"
done
for text in 'end 0 lowest 0' 'end 0\n' 'end 0 lowest\n' 'end -0 lowest 0\n' 'end 0 lowest -0\n' 'end +1 lowest 0\n' 'end - lowest 0\n' 'end 01 lowest 0\n' \
    'end 0 lowest --1\n' 'end 0 lowest 0\n\n' 'end 0 lowest 0 \n' 'lowest 0 end 0\n' 'end 0 lowest 0\nrefused 3\n' 'end 0 lowest -\0001\n'; do
    prints "$text"
    expect 2 '' "$not_whole" "${depth[@]}"
done
for text in '1:a' '1:a\n2:b' '1:a\n\n' '\n1:a\n' '1:a\n\n2:b\n' ':a\n' '01:a\n' '1 a\n' ' 1:a\n' '+1:a\n' '1:a\r\n' '1:\tb\n' '1:a\0\n' '1:a\n\0' '1:\177\n' '1:\344\n' '1:\303\244\n' \
    '1:\033[2J\n' '1 length\n' '1 length \n' '1 length 70000 x\n' '1 length -1\n' '1:a\nrefused 15\n' 'refused 15\n1:a\n' 'refused 15' 'refused 15\n\n' '\n' '\0' 'lines 1 steps 2\n' \
    '111111111111111111111:a\n' '1:a\nended 0 0\n'; do
    prints "$text"
    expect 2 '' "$not_whole" "${lines[@]}"
    expect 2 '' "$not_whole" env LC_ALL=C.UTF-8 "${line[@]}"
done
for text in 'sound version 1 macros 2 items 5 bytes 21' 'sound version 1 macros 2 items 5 bytes\n' 'sound\n' \
    'sound version 1 macros 2 items 5\n' 'sound version 1 macros 2 items 5 bytes 21\n\n' 'sound version 1 macros 2 bytes 21 items 5\n'; do
    prints "$text"
    expect 2 '' "$not_whole" "${check[@]}"
done

# Standard descriptors that cannot be used.
closed=(timeout 20 bash -c)
prints 'lines 1 steps 2\n'
expect 2 '' '*answer could not be written' "${closed[@]}" '"$@" >/dev/full' - "${count[@]}"
expect 2 '' '*answer could not be written' "${closed[@]}" '"$@" >&-' - "${count[@]}"
expect 2 '' '?*' "${closed[@]}" '"$@" >/dev/full' - "$r" help
expect 2 '' '?*' "${closed[@]}" '"$@" >&-' - "$r" help count
expect 0 'lines 1 steps 2' '' "${closed[@]}" '"$@" 2>&-' - "${count[@]}"
expect 0 'lines 1 steps 2' '' "${closed[@]}" '"$@" <&-' - "${count[@]}"
expect 0 'lines 1 steps 2' '' "${closed[@]}" '"$@" <&- 2>&-' - "${count[@]}"
expect 2 '' '' "${closed[@]}" '"$@" <&- >&- 2>&-' - "${count[@]}"
prints '1:a\n2:b\n'
expect 2 '' '*answer could not be written' "${closed[@]}" '"$@" >/dev/full' - "${lines[@]}"
expect 2 '' '*answer could not be written' "${closed[@]}" '"$@" >&-' - "${lines[@]}"
expect 0 "1:a${lf}2:b" '' "${closed[@]}" '"$@" <&- 2>&-' - "${lines[@]}"
expect 2 '' '*no file can be made to keep it*' env TMPDIR=/nowhere "${lines[@]}"
expect 0 "1:a${lf}2:b" '' env SHELLOPTS=noclobber "${lines[@]}"
mkdir "$room/-odd"
expect 0 "1:a${lf}2:b" '' env -C "$room" TMPDIR=-odd "${lines[@]}"
expect 0 0 '' bash -c 'ls -A "$1" | wc -l' - "$room/-odd"
# What keeps an answer is gone afterwards, and where it does not hold all there is none.
mkdir "$room/kept"
expect 0 "1:a${lf}2:b" '' env TMPDIR="$room/kept" "${lines[@]}"
expect 0 0 '' bash -c 'ls -A "$1" | wc -l' - "$room/kept"
# There the file is full just behind a line.
program 'printf "1:%01021d\n2:%09d\n" 0 0'
expect 0 1036 '' bash -c 'set -o pipefail; "$@" | wc -c' - "${lines[@]}"
expect 2 '' "*no answer: $room/kept cannot keep it" bash -c 'ulimit -f 1; exec "$@"' - env TMPDIR="$room/kept" "${lines[@]}"
expect 0 0 '' bash -c 'ls -A "$1" | wc -l' - "$room/kept"
program 'cat >/dev/null && echo lines 1 steps 2; exit 0'
expect 2 '' '*Bad file descriptor' "${closed[@]}" '"$@" <&-' - "$r" count B -

finish
