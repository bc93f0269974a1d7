# shellcheck shell=bash
# A small checkout for the tests of the command, in the folder $home, which has a space in its name. To be sourced, after expect.sh.
home="${room:?}/a checkout"
# Another user has to get there too.
chmod 755 "$room"
mkdir "$home"
cp -R rakvinje scripts "$home"

# put FILE LINE...: in that checkout.
put() {
    mkdir -p "$home/$(dirname "$1")"
    printf '%s\n' "${@:2}" >"$home/$1"
}

put crates.txt '# what rests on what' low: 'mid: low' 'other: low' 'rakvinje: mid hex csv'
put crates/low/src/lib.rt 1
put crates/low/must-fail/wrong.edit old
put crates/mid/specs/Lib.antt old
put crates/mid/proofs/f/Answers.antt old
put crates/other/src/lib.rt old
put crates/rakvinje/src/main.rt old

# shellcheck source=scripts/program.sh
. "$home/scripts/program.sh"
