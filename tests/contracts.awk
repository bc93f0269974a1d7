# Prints, for each public function of the files given, a line: crate, function, and its contract (`requires` and `ensures`) as one text.
FNR == 1 {
    split(FILENAME, path, "/")
    crate = path[2]
    text = ""
}
/^ *pub (const )?(unsafe )?fn / {
    name = $0
    sub(/^ *pub (const )?(unsafe )?fn /, "", name)
    sub(/[^a-z0-9_].*/, "", name)
    text = " "
    braces = 0
}
text != "" {
    line = $0
    sub(/ *\/\/.*/, "", line)
    # A clause has braces of its own, maybe over several lines.
    if (braces || line ~ /^ *(requires|ensures|decreases)( |$)/) {
        text = text " " line
        braces += gsub(/\{/, "{", line) - gsub(/\}/, "}", line)
    } else if (line ~ /\{(.*\})?$/) {
        gsub(/ +/, " ", text)
        match(text, / (requires|ensures) /)
        print crate, name, (RSTART ? substr(text, RSTART + 1) : "")
        text = ""
    } else {
        text = text " " line
    }
}
