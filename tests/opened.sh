#!/usr/bin/env bash
# opened.sh FILE...: each place in these proofs and sources that opens a definition of another crate: an `unfolding` line, an `unfold .. in`,
# an `unfolding(..)` of an attribute, and a `use` that hands on the right to it. The toolchain's own definitions, of `std`, are nobody's here.
# A crate cites what a lower one promises by its laws; only the computed tables may open more.
set -u
for file in "$@"; do
    own=${file#crates/}
    LC_ALL=C awk -v own="${own%%/*}" '
        function say(words) { print FILENAME ":" FNR ": " words }

        # home_of PATH: the crate that a path begins with, if that is another one.
        function home_of(path) {
            sub(/^Rattle[^a-z]*/, "", path)
            sub(/[^a-z0-9_].*/, "", path)
            return path == own || path == "std" ? "" : path
        }

        # The imports of a whole `use`, and whose each is.
        function imported(text,    path, home, count, names, i, last) {
            path = text
            sub(/^ *((pub|unfoldable) +)*use +/, "", path)
            if (path !~ /^Rattle/ || (home = home_of(path)) == "") return
            if (text ~ /^ *(pub +)?unfoldable +(pub +)?use /) say("handed on: " home)
            if (match(path, /[{].*[}]/)) {
                count = split(substr(path, RSTART + 1, RLENGTH - 2), names, / *, */)
                for (i = 1; i <= count; i++) {
                    sub(/^ */, "", names[i])
                    sub(/ *$/, "", names[i])
                    sub(/^.* as /, "", names[i])
                    if (names[i] != "") from[names[i]] = home
                }
                return
            }
            # A module or a name by itself, by its last part or by another name.
            if (path ~ / as /) sub(/^.* as +/, "", path)
            else sub(/^.*[.]/, "", path)
            sub(/ *$/, "", path)
            alias[path] = from[path] = home
        }

        function opened(list,    count, names, i, part) {
            gsub(/[(),]/, " ", list)
            count = split(list, names, / +/)
            for (i = 1; i <= count; i++) {
                part = names[i]
                sub(/[.].*/, "", part)
                if (names[i] in from) say(names[i] " of " from[names[i]])
                else if (part != names[i] && part in alias) say(names[i] " of " alias[part])
                else if (names[i] ~ /^Rattle/ && home_of(names[i]) != "") say(names[i])
            }
        }

        # An attribute names a definition by a Rust path: its own crate as `crate`, or a crate by its name.
        function attributed(list,    count, names, i) {
            gsub(/[ \t]/, "", list)
            count = split(list, names, ",")
            for (i = 1; i <= count; i++) if (names[i] != "" && names[i] !~ /^(crate|std)::/) say(names[i])
        }

        FILENAME ~ /[.]rt$/ {
            line = $0
            sub(/[/][/].*/, "", line)
            if (line ~ /#!?\[ *tactic/) in_attribute = 1
            if (in_attribute) attribute = attribute line
            if (in_attribute && line ~ /\] *$/) {
                if (match(attribute, /unfolding *[(][^)]*[)]/)) {
                    list = substr(attribute, RSTART, RLENGTH)
                    sub(/^unfolding *[(]/, "", list)
                    sub(/[)]$/, "", list)
                    attributed(list)
                }
                in_attribute = 0
                attribute = ""
            }
            next
        }
        { line = $0; sub(/(^| )-- .*/, "", line) }
        line ~ /^ *((pub|unfoldable) +)*use / || in_use {
            whole = whole " " line
            in_use = whole ~ /[{]/ && whole !~ /[}]/
            if (!in_use) { sub(/^ */, "", whole); imported(whole); whole = "" }
            next
        }
        line ~ /^ *unfolding / { sub(/^ *unfolding /, "", line); opened(line); next }
        {
            while (match(line, /(^|[^A-Za-z0-9_-])unfold +/)) {
                line = substr(line, RSTART + RLENGTH)
                list = line
                sub(/ in( .*)?$/, "", list)
                opened(list)
            }
        }
    ' "$file"
done
