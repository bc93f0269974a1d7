#!/usr/bin/env bash
# Runs the command ./rakvinje on good and bad input, and compares what it prints and its status. The numbers expected of it are those of
# the second program in docs/src/second; lines of a run are worked out from the books by hand, and the second program says the same of
# those of the examples. The last line is 'N passed, M failed'.
# shellcheck disable=SC2016,SC2317 # Some texts are scripts, for others to expand; expect calls the functions.
set -u
cd "$(dirname "$0")/.." || exit 2
# shellcheck source=tests/expect.sh
. tests/expect.sh

r=./rakvinje
small=examples/document01.mbk
arena=examples/arena.mbk
laptop=examples/laptop.mbk

# book NAME BYTES: a book of these bytes (written as printf escapes).
book() {
    # shellcheck disable=SC2059
    printf "$2" >"$room/$1"
}

# many BYTE N
many() {
    head -c "$2" /dev/zero | tr '\0' "$1"
}

# slowly FILE: in two parts.
slowly() {
    head -c 9 "$1"
    sleep 0.2
    tail -c +10 "$1"
}

# listed NUMBER...: the lines of a reach list.
listed() {
    printf '%s\n' "$@"
}

# The first run builds the program if need be, and says so.
"$r" count B "$small" >/dev/null 2>&1

# Count.
expect 0 'lines 2 steps 17' '' "$r" count B "$small"
expect 0 'lines 2 steps 17' '' "$r" count B "$small" 1
expect 0 'lines 2 steps 17' '' "$r" count B "$small" 0001
expect 0 'lines 1 steps 11' '' "$r" count B "$small" 0
expect 0 'lines 1 steps 15' '' "$r" count C "$small"
expect 0 'lines 141071877886149849 steps 13155' '' "$r" count 'HOIST|HAZE|BLACKOUT' "$arena"
expect 0 'lines 24 steps 7225' '' "$r" count 'HOIST|HAZE|BLACKOUT' "$arena" 170
expect 0 'lines 2 steps 17' '' "$r" count B <(slowly "$small")
cp "$small" "$room/a book"
expect 0 'lines 2 steps 17' '' "$r" count B "$room/a book"
# A name that is not UTF-8; the program opens none, so the book is handed over.
cp "$small" "$room/"$'a\377book'
expect 0 'lines 2 steps 17' '' "$r" count B "$room/"$'a\377book' 1
expect 0 "$(listed 1 0)" '' "$r" reach "$room/"$'a\377book'
expect 2 '' "$room/"$'no\377book: No such file or directory' "$r" check "$room/"$'no\377book'
ln -s "$PWD/rakvinje" "$room/link"
expect 0 'lines 2 steps 17' '' env -C / "$room/link" count B "$PWD/$small"

# Count with case ignored. The lines of the book: GO, go, Go1, and one of the four bytes next to letters.
book letters 'MBK\1\0\1\0\17\0G\0O\0\n\0g\0o\0\n\0G\0o\0001\0\n\0@\0[\0`\0{\0\n\0'
letters=$room/letters
expect 0 'lines 1 steps 26' '' "$r" count go "$letters"
for words in '-i go' '-i GO' '-ie gO' '-i -e Go' '-e gO -i' '-i -i go' '-i -- GO'; do
    # shellcheck disable=SC2086 # these are words
    expect 0 'lines 3 steps 36' '' "$r" count $words "$letters"
    # shellcheck disable=SC2086
    expect 0 'lines 3 steps 36' '' "$r" count $words - 0 <"$letters"
done
expect 0 'lines 3 steps 36' '' "$r" count -i '[g]O' "$letters"
expect 0 'lines 3 steps 36' '' "$r" count -i '[F-H]o' "$letters"
expect 0 'lines 3 steps 34' '' "$r" count '^[^g]' "$letters"
expect 0 'lines 1 steps 27' '' "$r" count -i '^[^g]' "$letters"
expect 0 'lines 1 steps 29' '' "$r" count '[@-[]$' "$letters"
expect 0 'lines 2 steps 32' '' "$r" count -i '[@-[]$' "$letters"
expect 0 'lines 2 steps 34' '' "$r" count '[[:upper:]]' "$letters"
expect 0 'lines 3 steps 39' '' "$r" count -i '[[:upper:]]' "$letters"
expect 0 'lines 41238876233640667 steps 10255' '' "$r" count 'HOIST|haze' "$arena"
expect 0 'lines 114409866292587160 steps 10489' '' "$r" count -i 'HOIST|haze' "$arena"
expect 0 'lines 17 steps 5688' '' "$r" count -i 'HOIST|haze' "$arena" 170
expect 1 'refused 7' '*over 128 bytes*' "$r" count -i '' "$small"
expect 1 'refused 8' '*not of the form*' "$r" count -i '[a-Z]' "$small"
expect 1 'refused 8' '*not of the form*' "$r" count -i '[[:UPPER:]]' "$small"
expect 1 'refused 9' '*over 29 atoms*' "$r" count -i "$(many x 30)" "$small"
expect 1 'refused 10' '*no macro of that number*' "$r" count -i B "$small" 2

# Line ends of desktop editors: GO CR, LF, HAZE GO CR LF, GO CR in macros of their own.
cr=$'\r'
expect 0 'lines 2 steps 63' '' "$r" count 'GO$' "$laptop"
expect 0 'lines 2 steps 63' '' "$r" count 'GO$' - <"$laptop"
expect 0 'lines 2 steps 63' '' "$r" count -i 'go$' "$laptop"
expect 0 'lines 0 steps 55' '' "$r" count 'go$' "$laptop"
expect 0 'lines 1 steps 57' '' "$r" count '^GO$' "$laptop"
expect 0 'lines 1 steps 53' '' "$r" count 'GO$' "$laptop" 2
expect 0 'lines 0 steps 15' '' "$r" count 'GO$' "$laptop" 0
expect 0 'lines 1 steps 12' '' "$r" count '^$' "$laptop" 1
expect 0 'lines 0 steps 47' '' "$r" count '^$' "$laptop"
expect 0 'lines 1 steps 59' '' "$r" count "$cr" "$laptop"
expect 0 'lines 1 steps 71' '' "$r" count "GO$cr\$" "$laptop"
# a CR CR LF CR: of two CRs one stays, and the last is a key.
book returns 'MBK\1\0\1\0\5\0a\0\r\0\r\0\n\0\r\0'
expect 0 'lines 0 steps 16' '' "$r" count 'a$' "$room/returns"
expect 0 'lines 1 steps 19' '' "$r" count "a$cr\$" "$room/returns"
expect 0 'lines 1 steps 14' '' "$r" count "^$cr\$" "$room/returns"
expect 0 'lines 0 steps 13' '' "$r" count '^$' "$room/returns"
expect 0 'lines 2 steps 22' '' "$r" count "$cr" "$room/returns"
# CR and LF each alone in a macro: a CR, LF, CR, LF.
book alone 'MBK\1\0\4\0\1\0\r\0\1\0\n\0\2\0a\0\0\1\4\0\2\1\1\1\0\1\1\1'
expect 0 'lines 1 steps 26' '' "$r" count 'a$' "$room/alone"
expect 0 'lines 1 steps 20' '' "$r" count '^$' "$room/alone"
expect 0 'lines 0 steps 30' '' "$r" count "$cr" "$room/alone"

# Version 2: an item is repeated. The chase: GO LF 400 times between two blackouts, on 30 nights.
chase=examples/chase.mbk
expect 0 'lines 12000 steps 0' '' "$r" count GO "$chase"
expect 0 'lines 400 steps 0' '' "$r" count GO "$chase" 1
expect 0 'lines 1 steps 0' '' "$r" count GO "$chase" 0
expect 0 'lines 60 steps 0' '' "$r" count BLACKOUT "$chase"
expect 0 'lines 12060 steps 0' '' "$r" count -i '^[a-z]' - <"$chase"
expect 0 'sound version 2 macros 3 items 23 bytes 105' '' "$r" check "$chase"
expect 0 "$(listed 2 1 0)" '' "$r" reach "$chase"
expect 0 'end 11940 lowest -1' '*no block is open, and a block is left open*' "$r" depth G B "$chase"
# LF 65,535 times; LF CR and CR LF again and again; ab three times, which has ba across its seams.
book ends 'MBK\2\0\1\0\1\0\n\0\377\377'
expect 0 'lines 65535 steps 0' '' "$r" count '^$' "$room/ends"
book seams 'MBK\2\0\4\0\2\0\n\0\1\0\r\0\1\0\1\0\0\1\3\0\2\0a\0\1\0b\0\1\0\1\0\2\1\3\0'
expect 0 'lines 3 steps 0' '' "$r" count '^$' "$room/seams" 1
expect 0 'lines 1 steps 0' '' "$r" count "$cr" "$room/seams" 1
expect 0 'lines 1 steps 0' '' "$r" count 'babab$' "$room/seams" 3
expect 0 'lines 0 steps 0' '' "$r" count 'ba$' "$room/seams" 2
# The same book in both versions.
book first 'MBK\1\0\2\0\2\0a\0\n\0\3\0\0\1\0\1\0\1'
book second 'MBK\2\0\2\0\2\0a\0\1\0\n\0\1\0\1\0\0\1\3\0'
expect 0 'lines 3 steps 17' '' "$r" count a "$room/first"
expect 0 'lines 3 steps 0' '' "$r" count a "$room/second"
# Macro 0 is a LF; each of the next calls the one below it 65,535 times, 41 of them. 65,535^4 is the last power that 64 bits hold.
{
    printf 'MBK\2\0\52\0\2\0a\0\1\0\n\0\1\0'
    for i in {0..40}; do
        printf -v call '\\x%02x\\1' "$i"
        printf '\1\0%b\377\377' "$call"
    done
} >"$room/nights"
expect 0 'lines 18445618199572250625 steps 0' '' "$r" count a "$room/nights" 4
expect 1 'refused 12' '*largest that can be given*' "$r" count a "$room/nights" 5
expect 1 'refused 12' '*largest that can be given*' "$r" count a "$room/nights"
expect 0 'lines 0 steps 0' '' "$r" count b "$room/nights"
expect 0 'end 281462092005375 lowest 0' 'A block is left open*' "$r" depth a b "$room/nights" 3
expect 1 'refused 19' '*over 4,611,686,018,427,387,904 keys*' "$r" depth a b "$room/nights" 4
expect 0 "$(seq 41 -1 0)" '' "$r" reach "$room/nights"

# Lines of a run.
expect 0 1:B '' "$r" line 1 B "$small"
expect 0 1:B '' "$r" line 0001 B "$small" 01
expect 0 1:B '' "$r" line 1 B - <"$small"
expect 0 2:CB '' "$r" line 2 B "$small"
expect 0 1:B '' "$r" line 1 B "$small" 0
expect 1 'refused 15' '*Fewer than K lines of the run match*' "$r" line 2 B "$small" 0
expect 0 "$(listed 1:B 2:CB)" '' "$r" lines B "$small"
expect 0 "$(listed 1:B 2:CB)" '' "$r" lines B - < <(slowly "$small")
expect 0 2:CB '' "$r" lines C "$small"
expect 0 2:CB '' "$r" lines B "$small" --first 2
expect 1 'refused 15' '*Fewer than K lines of the run match*' "$r" lines B "$small" --first 3
# Two of the lines of GO, go, Go1, by all forms of the options.
for words in '-i go FILE' '-i GO FILE 0' '-ie gO FILE' '-i -e Go FILE' '-e gO -i FILE' '-i -i go FILE' '-i -- GO FILE 0'; do
    # shellcheck disable=SC2086 # these are words
    expect 0 "$(listed 1:GO 2:go 3:Go1)" '' "$r" lines ${words/FILE/"$letters"}
    for range in '--first 2 --count 1' '--count=1 --first=2' '--count 01 --first=002'; do
        # shellcheck disable=SC2086
        expect 0 2:go '' "$r" lines $range ${words/FILE/"$letters"}
        # shellcheck disable=SC2086
        [[ $words == *--* ]] || expect 0 2:go '' "$r" lines ${words/FILE/"$letters"} $range
    done
done
for words in '-i 2 go FILE' '-i -- 2 go FILE 0' '-ie gO 2 FILE' '-i -e Go 2 FILE' '-e gO -i 02 FILE 00'; do
    # shellcheck disable=SC2086
    expect 0 2:go '' "$r" line ${words/FILE/"$letters"}
done
expect 0 2:go '' "$r" line 1 go "$letters"
expect 1 'refused 15' '*Fewer than K lines of the run match*' "$r" line 2 go "$letters"
# Ten lines without --count.
expect 0 "$(seq -f %g:GO 2 11)" '' "$r" lines GO "$chase"
expect 0 "$(seq -f %g:GO 2 12)" '' "$r" lines GO "$chase" --count 11
expect 0 "$(seq -f %g:GO 2 401; seq -f %g:GO 404 803; seq -f %g:GO 806 1029)" '' "$r" lines GO "$chase" --count 1024
expect 0 "$(listed 12060:BLACKOUT)" '' "$r" lines BLACKOUT "$chase" --first 60
# Line ends: a CR before LF is none of the line's keys, any other is one.
expect 0 "$(listed 1:GO '2:HAZE GO' '3:GO\x0d')" '' "$r" lines . "$laptop"
expect 0 '1:a\x0d' '' "$r" line 1 a "$room/returns"
expect 0 '2:\x0d' '' "$r" line 2 . "$room/returns"
expect 0 2: '' "$r" line 1 '^$' "$room/alone"
expect 0 "$(listed 1: 2: 3:)" '' "$r" lines '^$' "$room/seams" 1
expect 0 '4:\x0d' '' "$r" line 1 "$cr" "$room/seams" 1
expect 0 1:ababab '' "$r" line 1 ba "$room/seams" 3
# Every key but LF, in order: 32 to 126 as they are, but for the backslash; the others by their numbers.
{
    printf 'MBK\1\0\5\0'
    for from in 0 64 128 192; do
        printf -v items '\\x%02x\\0' "$((from == 0 ? 62 : 64))"
        printf %b "$items"
        for ((i = from; i < from + 64; i++)); do
            case $i in 0 | 10) ;; *) printf -v key '\\x%02x\\0' "$i"; printf '%b' "$key" ;; esac
        done
    done
    printf '\4\0\0\1\1\1\2\1\3\1'
} >"$room/bytes"
all=$(for i in {1..9} {11..255}; do
    printf -v key '\\x%02x' "$i"
    if [ "$i" -eq 92 ]; then key='\\'; elif [ "$i" -ge 32 ] && [ "$i" -le 126 ]; then printf -v key %b "$key"; fi
    printf %s "$key"
done)
expect 0 "1:$all" '' "$r" line 1 a "$room/bytes"
# A line that begins in one macro and ends in another, forty calls below: x, forty times y before a call, z, LF, and a.
{
    printf 'MBK\1\0\53\0\2\0z\0\n\0'
    for i in {0..39}; do
        printf -v call '\\x%02x\\1' "$i"
        printf '\2\0y\0%b' "$call"
    done
    printf '\2\0x\0\50\1\3\0\n\0\51\1a\0'
} >"$room/forty"
expect 0 "2:x$(many y 40)z" '' "$r" line 1 x.*z "$room/forty"
expect 0 "$(listed 1: "2:x$(many y 40)z" 3:a)" '' "$r" lines '^' "$room/forty"
# 65,536 keys are shown, one more is told of: x 65,535 times, x, LF, y 65,535 times, yy, LF, the last two without a line end, too.
book long 'MBK\2\0\2\0\6\0x\0\377\377x\0\1\0\n\0\1\0y\0\377\377y\0\2\0\n\0\1\0\3\0\0\1\2\0y\0\377\377y\0\2\0'
told='A line is not shown: it has over 65,536 keys.*'
expect 0 "1:$(many x 65536)" '' "$r" line 1 . "$room/long"
expect 0 '2 length 65537' "$told" "$r" line 2 . "$room/long"
expect 0 '2 length 65537' "$told" "$r" line 1 y "$room/long"
expect 0 '5 length 65537' "$told" "$r" line 5 . "$room/long"
expect 0 "$(listed "1:$(many x 65536)" '2 length 65537' "3:$(many x 65536)" '4 length 65537' '5 length 65537')" "$told" "$r" lines . "$room/long"
# \ and CR: 65,536 backslashes are 131,072 bytes; with CR LF behind them they are no more keys.
book slashes 'MBK\2\0\1\0\5\0\\\0\377\377\\\0\1\0\r\0\1\0\n\0\1\0\377\0\377\377'
expect 0 "1:$(many '\\' 131072)" '' "$r" line 1 . "$room/slashes"
expect 0 "2:$(many x 65535 | sed 's/x/\\xff/g')" '' "$r" line 2 . "$room/slashes"
# LF 2^64 - 1 times is macro 63: behind it b has a number that is too high; 64 has one LF less, and b, and 65 calls 64 and has b again.
{
    printf 'MBK\1\0\103\0\1\0\n\0'
    for i in {0..62}; do
        printf -v call '\\x%02x\\1' "$i"
        printf '\3\0%b%b\0\1' "$call" "$call"
    done
    printf '\3\0\76\1\76\1b\0\3\0\100\1\n\0b\0\2\0\77\1b\0'
} >"$room/far"
expect 0 18446744073709551615:b '' "$r" line 1 b "$room/far" 64
expect 0 18446744073709551615:b '' "$r" lines b "$room/far" 65
expect 1 'refused 16' '*number is over 18,446,744,073,709,551,615*' "$r" line 2 b "$room/far" 65
expect 1 'refused 16' '*number is over 18,446,744,073,709,551,615*' "$r" lines b "$room/far" 65 --first 2
expect 1 'refused 16' '*number is over 18,446,744,073,709,551,615*' "$r" line 1 b "$room/far"
expect 1 'refused 15' '*Fewer than K lines of the run match*' "$r" line 2 b "$room/far"
expect 0 18446744073709551615: '' "$r" line 18446744073709551615 '^$' "$room/far" 63
# The nights: the last line that can be asked for, in runs that have more.
expect 0 18446744073709551615:a '' "$r" line 18446744073709551615 a "$room/nights"
expect 1 'refused 15' '*Fewer than K lines of the run match*' "$r" line 18446744073709551615 a "$room/nights" 4
expect 0 "$(listed 18446744073709551614:a 18446744073709551615:a)" '' "$r" lines a "$room/nights" --first 18446744073709551614
# A key 65,535^4 times and more: the length is told up to 2^64 - 2.
{
    printf 'MBK\2\0\6\0\1\0x\0\1\0'
    for i in {0..4}; do
        printf -v call '\\x%02x\\1' "$i"
        printf '\1\0%b\377\377' "$call"
    done
} >"$room/endless"
expect 0 '1 length 18445618199572250625' "$told" "$r" line 1 x "$room/endless" 4
expect 0 '1 length 18446744073709551614' "$told" "$r" line 1 x "$room/endless"

# Check.
expect 0 'sound version 1 macros 2 items 5 bytes 21' '' "$r" check "$small"
expect 0 'sound version 1 macros 300 items 5434 bytes 11475' '' "$r" check "$arena"
book one 'MBK\1\0\1\0\1\0B\0'
expect 0 'sound version 1 macros 1 items 1 bytes 11' '' "$r" check "$room/one"

# Reach.
expect 0 "$(listed 1 0)" '' "$r" reach "$small"
expect 0 "$(listed 1 0)" '' "$r" reach "$small" 01
expect 0 0 '' "$r" reach "$small" 0
expect 0 "$(listed 65 20 40 3 18)" '' "$r" reach "$arena" 65
expect 0 254 '' bash -c 'set -o pipefail; "$@" | wc -l' - "$r" reach "$arena"
{
    printf 'MBK\1\0\0\4\1\0x\0'
    for i in {0..1022}; do
        printf -v call '\\x%02x\\x%02x' $((i % 256)) $((i / 256 + 1))
        printf '\1\0%b' "$call"
    done
} >"$room/chain"
expect 0 "$(seq 1023 -1 0)" '' "$r" reach "$room/chain"
expect 0 "$(seq 511 -1 0)" '' "$r" reach "$room/chain" 511
# Macros 1 and 2 call macro 0, and 3 calls both: which of them it calls first decides. A second entry moves nothing.
book diamond 'MBK\1\0\5\0\1\0a\0\2\0\0\1b\0\2\0c\0\0\1\2\0\1\1\2\1\3\0\2\1\1\1\0\1'
expect 0 "$(listed 3 1 0 2)" '' "$r" reach "$room/diamond" 3
expect 0 "$(listed 4 2 0 1)" '' "$r" reach "$room/diamond"
expect 0 "$(listed 2 0)" '' "$r" reach "$room/diamond" 2
# Macros 5, 4, 3, 1 are entered at the same key, the outer one first, and 0 behind two keys; nothing calls 2.
book nested 'MBK\1\0\6\0\1\0a\0\1\0b\0\1\0c\0\1\0\1\1\2\0\3\1k\0\3\0\4\1\0\1\3\1'
expect 0 "$(listed 5 4 3 1 0)" '' "$r" reach "$room/nested"
expect 0 "$(listed 4 3 1)" '' "$r" reach "$room/nested" 4
expect 0 2 '' "$r" reach "$room/nested" 2

# Depth. Standard error says whether the blocks are closed.
blocks=examples/blocks.mbk
closed='*blocks are closed*' left='A block is left open*' early='*no block is open; no block is left open*' both='*no block is open, and a block is left open*'
expect 0 'end 0 lowest 0' "$closed" "$r" depth '(' ')' "$blocks" 2
expect 0 'end 1 lowest 0' "$left" "$r" depth '(' ')' "$blocks" 3
expect 0 'end 0 lowest -1' "$both" "$r" depth '(' ')' "$blocks"
expect 0 'end -1 lowest -1' "$early" "$r" depth '(' ')' "$blocks" 1
expect 0 'end 0 lowest -2' "$both" "$r" depth ')' '(' "$blocks" 2
expect 0 'end -1 lowest -2' "$both" "$r" depth ')' '(' "$blocks" 3
expect 0 'end 0 lowest -1' "$both" "$r" depth ')' '(' "$blocks" 4
expect 0 'end 0 lowest 0' "$closed" "$r" depth x y "$blocks"
for words in '40 41' '040 041' '( 41' '040 )' '-- ( )'; do
    # shellcheck disable=SC2086
    expect 0 'end 1 lowest 0' "$left" "$r" depth $words "$blocks" 003
    # shellcheck disable=SC2086
    expect 0 'end 1 lowest 0' "$left" "$r" depth $words - 3 < <(slowly "$blocks")
done
# A digit alone is that character. The macro: 5, the key 5, 13, LF, 255, -.
book keys 'MBK\1\0\1\0\6\0005\0\5\0\15\0\n\0\377\0-\0'
keys=$room/keys
expect 0 'end 1 lowest 0' "$left" "$r" depth 5 x "$keys"
expect 0 'end 0 lowest 0' "$closed" "$r" depth 53 05 "$keys"
expect 0 'end 0 lowest -1' "$both" "$r" depth 05 5 "$keys"
expect 0 'end 1 lowest 0' "$left" "$r" depth 005 x "$keys"
expect 0 'end 0 lowest 0' "$closed" "$r" depth 13 255 "$keys"
expect 0 'end 0 lowest 0' "$closed" "$r" depth $'\r' $'\377' "$keys"
expect 0 'end 0 lowest -1' "$both" "$r" depth 255 13 "$keys"
expect 0 'end 0 lowest 0' "$closed" "$r" depth 5 - "$keys"
expect 0 'end 0 lowest -1' "$both" "$r" depth - 5 "$keys"
# Macro 62 has 2^62 keys, 63 twice as many, 64 one more than 62; 65 is a closing, and reaches none of them.
{
    printf 'MBK\1\0\102\0\1\0(\0'
    for i in {0..62}; do
        printf -v call '\\x%02x\\1' "$i"
        printf '\2\0%b%b' "$call" "$call"
    done
    printf '\2\0\76\1)\0\1\0)\0'
} >"$room/deep"
expect 0 'end 4611686018427387904 lowest 0' "$left" "$r" depth '(' ')' "$room/deep" 62
expect 0 'end -4611686018427387904 lowest -4611686018427387904' "$early" "$r" depth ')' '(' "$room/deep" 62
expect 1 'refused 19' '*over 4,611,686,018,427,387,904 keys*' "$r" depth '(' ')' "$room/deep" 63
expect 1 'refused 19' '*over 4,611,686,018,427,387,904 keys*' "$r" depth '(' ')' "$room/deep" 64
expect 0 'end -1 lowest -1' "$early" "$r" depth '(' ')' "$room/deep"
for pair in '( (' '00 (' '( 000' '10 (' '( 010' '40 (' '00 10'; do
    # shellcheck disable=SC2086
    expect 1 'refused 18' '*equal, or one of them is 0 or 10*' "$r" depth $pair "$blocks"
    # shellcheck disable=SC2086
    expect 1 'refused 18' '*equal, or one of them is 0 or 10*' "$r" depth $pair /dev/null 9
done
expect 1 'refused 18' '*equal, or one of them is 0 or 10*' "$r" depth "$lf" '(' "$blocks"
for key in '' 256 999 0005 ab 1a a1 ä '((' ' (' +5 "$(many 0 5000)"; do
    expect 2 '' '*key must be one byte*' "$r" depth "$key" ')' "$blocks"
    expect 2 '' '*key must be one byte*' "$r" depth '(' "$key" "$blocks" 1
done

# A book on the standard input.
expect 0 'lines 2 steps 17' '' "$r" count B - <"$small"
expect 0 'lines 1 steps 11' '' "$r" count B - 0 < <(slowly "$small")
expect 0 'sound version 1 macros 2 items 5 bytes 21' '' "$r" check - < <(slowly "$small")
expect 0 "$(listed 1 0)" '' "$r" reach - 1 < <(slowly "$small")
expect 1 'refused 1' '*begin with MBK*' "$r" check - </dev/null

# Options, and operands that begin with -.
book dash 'MBK\1\0\1\0\4\0-\0x\0\n\0x\0'
for words in '-e -x' '-e-x' '-- -x' '-e -x --'; do
    # shellcheck disable=SC2086
    expect 0 'lines 1 steps 18' '' "$r" count $words "$room/dash"
    # shellcheck disable=SC2086
    expect 0 'lines 1 steps 18' '' "$r" count $words "$room/dash" 0
done
cp "$small" "$room/-book"
expect 0 'lines 2 steps 17' '' env -C "$room" ./link count B -book
expect 0 'lines 2 steps 17' '' env -C "$room" ./link count -e B -- -book
expect 0 'sound version 1 macros 2 items 5 bytes 21' '' env -C "$room" ./link check -- -book
expect 0 0 '' env -C "$room" ./link reach -- -book 0

# The longest sound book under a pattern of 29 atoms, within 1 MiB of stack, buffers included. Longer ones are refused as any others.
{
    printf 'MBK\1\0\0\4'
    items=$(printf 'x\\0%.0s' {1..63})
    # shellcheck disable=SC2059
    printf "\100\0$items\n\0%.0s" {1..1024}
} >"$room/longest"
expect 0 133127 '' stat -c %s "$room/longest"
within=(bash -c 'ulimit -s 1024; exec "$@"' - "$r")
expect 0 'lines 1 steps 5043200' '' "${within[@]}" count "$(many x 29)" "$room/longest"
expect 0 'lines 1 steps 5043200' '' "${within[@]}" count "$(many x 29)" - <"$room/longest"
expect 0 'sound version 1 macros 1024 items 65536 bytes 133127' '' "${within[@]}" check "$room/longest"
expect 0 'lines 1 steps 5043200' '' "${within[@]}" count "$(many x 29)" "$room/longest" 1023
expect 0 1023 '' "${within[@]}" reach "$room/longest"
expect 0 1023 '' "${within[@]}" reach "$room/longest" "$(many 0 131000)1023"
# Macros one inside the other, with 1 MiB of stack beyond the program's buffers, which have 409 KiB for a reach list; where lines are shown, they have
# 1,042 KiB, and less is left.
beyond=(bash -c 'ulimit -s 1433; exec "$@"' - "$r")
finding=(bash -c 'ulimit -s 1938; exec "$@"' - "$r")
expect 0 "$(seq 1023 -1 0)" '' "${beyond[@]}" reach "$room/chain"
# 64 keys, and 1,023 macros of 64 calls: the first item of each calls the macro below, the others macro 0.
{
    printf 'MBK\1\0\0\4\100\0'
    printf 'x\0%.0s' {1..64}
    calls=$(printf '\\0\\1%.0s' {1..63})
    for i in {0..1022}; do
        printf -v call '\\x%02x\\x%02x' $((i % 256)) $((i / 256 + 1))
        # shellcheck disable=SC2059
        printf "\100\0%b$calls" "$call"
    done
} >"$room/full"
expect 0 133127 '' stat -c %s "$room/full"
expect 0 "$(seq 1023 -1 0)" '' "${beyond[@]}" reach "$room/full"
expect 0 'end 4124800 lowest 0' "$left" "${within[@]}" depth x y "$room/full"
expect 0 'end 4124800 lowest 0' "$left" "${within[@]}" depth x y - <"$room/full"
# A line of these macros, and one of 65,536 keys, four bytes each where they are shown, 1,023 macros inside the other.
expect 0 '1 length 4124800' "$told" "${finding[@]}" line 1 x "$room/full"
expect 0 1:x '' "${finding[@]}" line 1 x "$room/chain"
{
    printf 'MBK\2\0\0\4\2\0\1\0\377\377\1\0\1\0'
    for i in {0..1022}; do
        printf -v call '\\x%02x\\x%02x' $((i % 256)) $((i / 256 + 1))
        printf '\2\0\n\0\1\0%b\1\0' "$call"
    done
} >"$room/inside"
expect 0 "1024:$(many x 65536 | sed 's/x/\\x01/g')" '' "${finding[@]}" line 1 . "$room/inside"
expect 0 "1024:$(many x 65536 | sed 's/x/\\x01/g')" '' "${finding[@]}" lines -i . - 1023 <"$room/inside"
# The longest of version 2: each macro but the first calls the one below it 64 times, 65,535 times over.
{
    printf 'MBK\2\0\0\4\100\0'
    printf 'x\0\377\377%.0s' {1..63}
    printf '\n\0\1\0'
    for i in {0..1022}; do
        printf -v calls '\\x%02x\\x%02x\\377\\377' $((i % 256)) $((i / 256 + 1))
        for _ in {1..6}; do
            calls+=$calls
        done
        # shellcheck disable=SC2059
        printf "\100\0$calls"
    done
} >"$room/longest2"
expect 0 264199 '' stat -c %s "$room/longest2"
expect 0 'sound version 2 macros 1024 items 65536 bytes 264199' '' "${within[@]}" check "$room/longest2"
expect 0 'lines 1 steps 0' '' "${within[@]}" count "$(many x 29)" "$room/longest2" 0
expect 0 'lines 4194240 steps 0' '' "${within[@]}" count "$(many x 29)" "$room/longest2" 1
expect 1 'refused 12' '*largest that can be given*' "${within[@]}" count "$(many x 29)" "$room/longest2"
expect 0 'lines 0 steps 0' '' "${within[@]}" count "$(many y 29)" - <"$room/longest2"
expect 1 'refused 19' '*over 4,611,686,018,427,387,904 keys*' "${within[@]}" depth x y "$room/longest2"
expect 0 "$(seq 1023 -1 0)" '' "${beyond[@]}" reach "$room/longest2"
expect 0 '18446744073709551615 length 4128705' "$told" "${finding[@]}" line 18446744073709551615 x "$room/longest2"
cp "$room/longest2" "$room/longer2"
printf '\0' >>"$room/longer2"
expect 1 'refused 4' '*cut short or goes on*' "${within[@]}" check "$room/longer2"
cp "$room/longest" "$room/longer"
printf '\0' >>"$room/longer"
cp "$room/longest" "$room/much_longer"
head -c 1000000 /dev/zero >>"$room/much_longer"
many '\0' 264199 >"$room/zeros"
many '\0' 264200 >"$room/more_zeros"
many '\0' 1000000 >"$room/most_zeros"
for verb in 'count B' check reach 'depth ( )' 'line 1 B' 'lines B'; do
    limited=("${within[@]}")
    [[ $verb != line* ]] || limited=("${finding[@]}")
    for longer in longer much_longer; do
        # shellcheck disable=SC2086
        expect 1 'refused 4' '*cut short or goes on*' "${limited[@]}" $verb "$room/$longer"
        # shellcheck disable=SC2086
        expect 1 'refused 4' '*cut short or goes on*' "${limited[@]}" $verb - < <(cat "$room/$longer")
    done
    for zeros in zeros more_zeros most_zeros; do
        # shellcheck disable=SC2086
        expect 1 'refused 1' '*begin with MBK*' "${limited[@]}" $verb "$room/$zeros"
    done
done

# A macro's number may be as long as an argument can be.
expect 0 'lines 1 steps 11' '' "$r" count B "$small" "$(many 0 5000)"
expect 0 'lines 2 steps 17' '' "$r" count B "$small" "$(many 0 131070)1"
expect 1 'refused 10' '*no macro of that number*' "$r" count B "$small" "$(many 9 131071)"
expect 0 0 '' "$r" reach "$small" "$(many 0 131071)"
expect 2 '' '*decimal digits*' "$r" count B "$small" "$(many 0 131070)x"

# refused_book NUMBER MEANING BOOK: by every verb, with the sentence that says what it means.
refused_book() {
    expect 1 "refused $1" "*$2*" "$r" count B "$3"
    expect 1 "refused $1" "*$2*" "$r" count '' "$3" 5
    expect 1 "refused $1" "*$2*" "$r" check "$3"
    expect 1 "refused $1" "*$2*" "$r" reach "$3"
    expect 1 "refused $1" "*$2*" "$r" reach "$3" 5
    expect 1 "refused $1" "*$2*" "$r" depth '(' ')' "$3"
    expect 1 "refused $1" "*$2*" "$r" depth '(' ')' "$3" 5
    expect 1 "refused $1" "*$2*" "$r" line 1 B "$3"
    expect 1 "refused $1" "*$2*" "$r" line 0 '' "$3" 5
    expect 1 "refused $1" "*$2*" "$r" lines '' "$3" 5 --first 9
}

# Refusals.
book short 'MBK\1\0\1'
refused_book 1 'begin with MBK' "$room/short"
refused_book 1 'begin with MBK' /dev/null
refused_book 1 'begin with MBK' tests/rakvinje.sh
book version 'MBK\3\0\1\0\1\0B\0\1\0'
refused_book 2 'neither 1 nor 2' "$room/version"
book version0 'MBK\0\0\1\0\1\0B\0'
refused_book 2 'neither 1 nor 2' "$room/version0"
book version258 'MBK\2\1\1\0\1\0B\0\1\0'
refused_book 2 'neither 1 nor 2' "$room/version258"
book none 'MBK\1\0\0\0'
refused_book 3 'no macro, or over 1,024' "$room/none"
book more 'MBK\1\0\1\0\1\0B\0\0'
refused_book 4 'cut short or goes on' "$room/more"
book zero 'MBK\1\0\1\0\1\0\0\0'
refused_book 5 'item 0' "$room/zero"
book self 'MBK\1\0\1\0\1\0\0\1'
refused_book 6 'calls itself' "$room/self"
# Version 2: 20 behind 5 and 6 of the same item, and before those of the next; an item that is cut short is 4.
book never 'MBK\2\0\1\0\1\0B\0\0\0'
refused_book 20 'repeat count 0' "$room/never"
book never_first 'MBK\2\0\1\0\2\0B\0\0\0\0\0\1\0'
refused_book 20 'repeat count 0' "$room/never_first"
book never_zero 'MBK\2\0\1\0\1\0\0\0\0\0'
refused_book 5 'item 0' "$room/never_zero"
book never_self 'MBK\2\0\1\0\1\0\0\1\0\0'
refused_book 6 'calls itself' "$room/never_self"
book three 'MBK\2\0\1\0\1\0\0\0\0'
refused_book 4 'cut short or goes on' "$room/three"
book halves 'MBK\2\0\1\0\1\0B\0'
refused_book 4 'cut short or goes on' "$room/halves"
expect 1 'refused 7' '*over 128 bytes*' "$r" count '' "$small"
expect 1 'refused 7' '*over 128 bytes*' "$r" count -e '' "$small"
expect 0 'lines 0 steps 13' '' "$r" count "[$(many x 126)]" "$small"
expect 1 'refused 7' '*over 128 bytes*' "$r" count "[$(many x 127)]" "$small"
expect 1 'refused 7' '*over 128 bytes*' "$r" count "$(many x 5000)" "$small"
# Brackets at the end of 128 bytes, and unclosed there; a `[` that is byte 127; two brackets that begin with a `]`.
expect 0 'lines 2 steps 21' '' "$r" count "[$(many x 121)]?[]B]" "$small"
expect 0 'lines 1 steps 19' '' "$r" count "^[$(many x 120)]?[^C]" "$small"
expect 1 'refused 8' '*not of the form*' "$r" count "[$(many x 122)]?[]B" "$small"
expect 1 'refused 8' '*not of the form*' "$r" count "[$(many x 124)][]" "$small"
expect 1 'refused 7' '*over 128 bytes*' "$r" count "[$(many x 125)][]" "$small"
expect 0 'lines 1 steps 18' '' "$r" count '[]C][^]C]' "$small"
expect 1 'refused 8' '*not of the form*' "$r" count '(' "$small"
expect 1 'refused 8' '*not of the form*' "$r" count $'a\nb' "$small"
expect 1 'refused 9' '*over 29 atoms*' "$r" count "$(many x 30)" "$small"
for asked in 2 1024 18446744073709551616 340282366920938463463374607431768211457; do
    expect 1 'refused 10' '*no macro of that number*' "$r" count B "$small" "$asked"
    expect 1 'refused 10' '*no macro of that number*' "$r" reach "$small" "$asked"
    expect 1 'refused 10' '*no macro of that number*' "$r" depth B C "$small" "$asked"
    expect 1 'refused 10' '*no macro of that number*' "$r" line 0 B "$small" "$asked"
    expect 1 'refused 10' '*no macro of that number*' "$r" lines B "$small" "$asked" --first 9
done
for k in 0 000 3 18446744073709551615; do
    expect 1 'refused 15' '*Fewer than K lines*the first one is 1*' "$r" line "$k" B "$small"
    expect 1 'refused 15' '*Fewer than K lines*the first one is 1*' "$r" lines --first "$k" B "$small"
done
expect 1 'refused 7' '*over 128 bytes*' "$r" line 0 '' "$small" 9
expect 1 'refused 8' '*not of the form*' "$r" lines '(' "$small" --first 0
expect 1 'refused 9' '*over 29 atoms*' "$r" line -i 1 "$(many x 30)" "$small"
{
    printf 'MBK\1\0\101\0\2\0a\0\n\0'
    for i in {0..62}; do
        printf -v call '\\x%02x\\1' "$i"
        printf '\3\0%b%b\0\1' "$call" "$call"
    done
    printf '\2\0\77\1\0\1'
} >"$room/high"
expect 0 'lines 18446744073709551615 steps 389' '' "$r" count a "$room/high" 63
expect 1 'refused 12' '*largest that can be given*' "$r" count a "$room/high"
expect 0 18446744073709551615:a '' "$r" line 18446744073709551615 a "$room/high" 63
expect 0 18446744073709551615:a '' "$r" line 18446744073709551615 a "$room/high"
expect 0 18446744073709551615:a '' "$r" lines a "$room/high" --first 18446744073709551615 --count 1024

# No answer: files, numbers, the answer itself.
for verb in 'count B' check reach 'depth ( )' 'line 1 B' 'lines B'; do
    # shellcheck disable=SC2206
    asked=("$r" $verb)
    expect 2 '' '*No such file or directory*' "${asked[@]}" "$room/missing"
    expect 2 '' '*Not a directory*' "${asked[@]}" "$small/book"
    expect 2 '' '*Is a directory*' "${asked[@]}" examples
    expect 2 '' '*No such file or directory*' "${asked[@]}" ''
    expect 2 '' '*too long*' "${asked[@]}" "$(many x 5000)"
    expect 2 '' '*Is a directory*' "${asked[@]}" - <examples
    expect 2 '' '*could not be written*' bash -c '"$@" >/dev/full' - "${asked[@]}" "$small"
done
expect 2 '' '*Bad file descriptor*' bash -c '"$@" <&-' - "$r" check -
for asked in '' x -1 +1 1x ' 1' 0x1 1.0; do
    expect 2 '' '*decimal digits*' "$r" count B "$small" "$asked"
    expect 2 '' '*decimal digits*' "$r" reach "$small" "$asked"
    expect 2 '' '*decimal digits*' "$r" depth B C "$small" "$asked"
    expect 2 '' '*macro number must be decimal digits*' "$r" line 1 B "$small" "$asked"
    expect 2 '' '*macro number must be decimal digits*' "$r" lines B "$small" "$asked"
done
for k in '' x -1 +1 1x ' 1' 0x1 1.0 18446744073709551616 "$(many 9 5000)"; do
    expect 2 '' '*which of the matching lines*decimal digits*' "$r" line -- "$k" B "$small"
    expect 2 '' '*which of the matching lines*decimal digits*' "$r" lines B "$small" --first "$k"
done
for count in '' x -1 +1 1x ' 1' 0 000 1025 01025 99999 18446744073709551617 "$(many 9 5000)"; do
    expect 2 '' '*from 1 to 1,024*rakvinje help lines*' "$r" lines B "$small" --count "$count"
    expect 2 '' '*from 1 to 1,024*rakvinje help lines*' "$r" lines --count="$count" B "$small"
done

# Help.
expect 0 "$(<scripts/help/verbs.txt)" '' "$r" help
expect 0 "$(<scripts/help/verbs.txt)" '' "$r" --help
expect 0 "$(<scripts/help/verbs.txt)" '' "$r" -h
for verb in count line lines check reach depth help; do
    text=$(<scripts/help/$verb.txt)
    expect 0 "$text" '' "$r" help "$verb"
    expect 0 "$text" '' "$r" "$verb" --help
    expect 0 "$text" '' "$r" "$verb" -h
    expect 0 "$text" '' "$r" "$verb" -h "$small" 1 2 3
    expect 0 "$text" '' "$r" --help "$verb"
    expect 0 "  $verb " '' grep -o "^  $verb " scripts/help/verbs.txt
done
expect 2 '' '*' bash -c '"$@" >/dev/full' - "$r" help count

# The examples of the help are what is printed.
for verb in count line lines check reach depth; do
    example=$(sed -n 's/^  \$ //p' scripts/help/$verb.txt)
    [ -n "$example" ] || example="echo 'the help of $verb has no example'"
    said=''
    [ "$verb" != depth ] || said="$closed$left$both"
    expect 0 "$(sed '1,/^  \$ /d; /^  \$ /d; s/^  //' scripts/help/$verb.txt)" "$said" bash -ec "$example"
done

# Document 01's program, where its input cannot be read, or its output written.
cuecount=target/bin/cuecount
expect 0 'lines 2 steps 17' '' $cuecount <crates/cuecount/stdin
expect 0 '' 'standard input: Is a directory' $cuecount <examples
expect 0 '' 'standard input: Bad file descriptor' bash -c 'exec "$1" <&-' - $cuecount
expect 0 '' 'standard output: No space left on device' bash -c '"$1" >/dev/full' - $cuecount <crates/cuecount/stdin

# Wrong usage.
expect 2 '' 'usage: rakvinje VERB*' "$r"
expect 2 '' "*no verb 'show'*rakvinje help*" "$r" show
expect 2 '' "*no verb ''*rakvinje help*" "$r" ''
expect 2 '' "*no verb 'verbs'*rakvinje help*" "$r" help verbs
expect 2 '' "*no verb '../count'*rakvinje help*" "$r" help ../count
expect 2 '' "*no option '-x' before the verb*rakvinje help*" "$r" -x count B "$small"
expect 2 '' "*no option '--' before the verb*rakvinje help*" "$r" -- count B "$small"
for verb in count line lines check reach depth help; do
    for option in -x --x --helping --help=1 -: '-?'; do
        expect 2 '' "*$verb has no option '${option/\?/\\?}'*rakvinje help $verb*" "$r" "$verb" "$option" B "$small"
    done
done
expect 2 '' "*check has no option '-e'*" "$r" check -e B "$small"
expect 2 '' '*option -e needs a value*rakvinje help count*' "$r" count -e
expect 2 '' '*option -e is given twice*rakvinje help count*' "$r" count -e B -e C "$small"
expect 2 '' '*option -e is given twice*rakvinje help count*' "$r" count -e '' -e C "$small"
usage="usage: rakvinje count [[]-i] PATTERN BOOK [[]MACRO]${lf}   or: rakvinje count [[]-i] -e PATTERN BOOK [[]MACRO]"
expect 2 '' "$usage" "$r" count
expect 2 '' "$usage" "$r" count B
expect 2 '' "$usage" "$r" count --
expect 2 '' "$usage" "$r" count -e B
expect 2 '' "$usage" "$r" count B "$small" 1 1
expect 2 '' "$usage" "$r" count -e B "$small" 1 1
expect 2 '' "$usage" "$r" count -i
expect 2 '' "$usage" "$r" count -i B
expect 2 '' "$usage" "$r" count -ie B
expect 2 '' "*no option '-i'*rakvinje help check*" "$r" check -i "$small"
expect 2 '' "*no option '-i'*rakvinje help reach*" "$r" reach -i "$small"
expect 2 '' 'usage: rakvinje check BOOK' "$r" check
expect 2 '' 'usage: rakvinje check BOOK' "$r" check "$small" 1
expect 2 '' 'usage: rakvinje reach BOOK [[]MACRO]' "$r" reach
expect 2 '' 'usage: rakvinje reach BOOK [[]MACRO]' "$r" reach "$small" 1 1
usage='usage: rakvinje line [[]-i] K*'
expect 2 '' "$usage" "$r" line
expect 2 '' "$usage" "$r" line 1 B
expect 2 '' "$usage" "$r" line -i 1 B
expect 2 '' "$usage" "$r" line -e B
expect 2 '' "$usage" "$r" line -ie B 1
expect 2 '' "$usage" "$r" line 1 B "$small" 1 1
expect 2 '' "*line has no option '--first'*rakvinje help line*" "$r" line --first 1 B "$small"
expect 2 '' "$usage" "$r" line 1 B "$small" --first 1
usage='usage: rakvinje lines [[]-i] PATTERN*'
expect 2 '' "$usage" "$r" lines
expect 2 '' "$usage" "$r" lines B
expect 2 '' "$usage" "$r" lines --first 1 B
expect 2 '' "$usage" "$r" lines -e B --count 1
expect 2 '' "$usage" "$r" lines B "$small" 1 1
expect 2 '' "$usage" "$r" lines -- B "$small" --first 1
expect 2 '' "*lines has no option '--firs'*rakvinje help lines*" "$r" lines --firs 1 B "$small"
for option in --first --count; do
    expect 2 '' "*option $option needs a value*rakvinje help lines*" "$r" lines B "$small" "$option"
    expect 2 '' "*option $option is given twice*rakvinje help lines*" "$r" lines "$option" 1 B "$small" "$option=1"
    expect 2 '' "*option $option is given twice*rakvinje help lines*" "$r" lines B "$small" "$option" '' "$option" 1
done
expect 2 '' '*option -e needs a value*rakvinje help lines*' "$r" lines --first 1 -e
expect 2 '' '*option -e is given twice*rakvinje help line*' "$r" line -e B -e C 1 "$small"
usage='usage: rakvinje depth OPEN CLOSE BOOK [[]MACRO]'
expect 2 '' "$usage" "$r" depth
expect 2 '' "$usage" "$r" depth '(' ')'
expect 2 '' "$usage" "$r" depth '(' ')' "$small" 1 1
expect 2 '' "*no option '-i'*rakvinje help depth*" "$r" depth -i '(' ')' "$small"
expect 2 '' 'usage: rakvinje help [[]VERB]' "$r" help count check

finish
