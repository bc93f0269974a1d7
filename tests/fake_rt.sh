#!/bin/sh
# Stands for rt in the tests of the build, which put it first on the PATH by that name. It prints what rt prints, and builds a program
# that answers with the number in crates/low/src/lib.rt, and with the length of its standard input if the book is -. In the folder
# $FAKE it notes its runs, and finds what to do before and after it reads that number.
# shellcheck disable=SC1091
echo "$*" >>"$FAKE/runs"
[ "$*" = ci ] || exit 2
# rt takes the folder for a repository's top, with its crates in crates/ and no edits that must fail.
{ [ -d .git ] && [ ! -e crates/low/must-fail ]; } || exit 2
pwd >"$FAKE/place"
# What rt reads must not be the command's standard input.
cat >/dev/null
sed 's/:.*//' crates.txt | while read -r crate; do
    sleep 0.05
    if [ -e "$FAKE/kept" ]; then
        echo "rt: $crate is kept: an earlier run on this machine proved the same files over the same libraries"
    else
        echo "== $crate"
        echo "logic=proved functions=1"
        echo "rt: $crate proved"
    fi
done
[ ! -e "$FAKE/before" ] || . "$FAKE/before"
mkdir -p crates/rakvinje/out
cat >crates/rakvinje/out/rakvinje <<END
#!/bin/sh
steps=1
[ "\$4" != - ] || steps=\$(wc -c)
echo lines $(cat crates/low/src/lib.rt) steps \$steps
END
chmod +x crates/rakvinje/out/rakvinje
[ ! -e "$FAKE/after" ] || . "$FAKE/after"
echo 'rt: rakvinje ran, and wrote what its file stdout has'
echo 'rt: ok; handles allowed: none; every proof and must-fail edit was done in this run'
echo '3 passed, 0 failed'
