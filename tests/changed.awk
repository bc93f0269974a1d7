# changed.awk -v crate=FOLDER [-v said=FILE:LINE] EDIT: what the wrong program of an edit file changes, a line KIND|PLACES for each function,
# where PLACES are those in which its proof may stand, each behind a blank: its own folder, and that of its cycle of functions. The kind is `function` for
# a change in its body, or of a constant that stands there alone; `shared` for a constant that several functions name, or one in its
# head, and, with * for the places, for what everyone may see: a head, a type, a definition. A line said|PLACES is of the function that
# stands at that line, and a line fault|WORDS says what no edit file may have.
BEGIN {
    fn_head = "^ *(pub(\\([a-z]+\\))? )?(const )?(unsafe )?(extern \"C\" )?fn "
    const_head = "^ *(pub(\\([a-z]+\\))? )?const [A-Z]"
    list = "cd '" crate "' && find src -name '*.rt' | LC_ALL=C sort"
    while ((list | getline line) > 0) names[++files] = line
    close(list)
    if (said != "") {
        at_line = said
        sub(/^.*:/, "", at_line)
        sub(/:[0-9]+$/, "", said)
        place(said, 0, at_line + 0)
        if (kind == "head" || kind == "function") print "said|" places(item)
    }
}

function fault(words) {
    print "fault|" words
}

function text_of(file,    line) {
    if (!(file in texts)) {
        texts[file] = ""
        while ((getline line <(crate "/" file)) > 0) texts[file] = texts[file] line "\n"
        close(crate "/" file)
    }
    return texts[file]
}

# The name that a text begins with.
function word(text) {
    match(text, /^[A-Za-z0-9_]+/)
    return substr(text, 1, RLENGTH)
}

# module_of FILE: of src/lib.rt and src/main.rt the crate itself.
function module_of(file) {
    sub(/^src\//, "", file)
    sub(/\.rt$/, "", file)
    sub(/\/mod$/, "", file)
    return file ~ /^(lib|main)$/ ? "" : file "/"
}

# home_of TYPE: the module that declares it, in which its methods are proved.
function home_of(type,    i, n, lines, k) {
    for (i = 1; i <= files; i++) {
        n = split(text_of(names[i]), lines, "\n")
        for (k = 1; k <= n; k++)
            if (lines[k] ~ "^(pub(\\([a-z]+\\))? )?(struct|enum) " type "([^A-Za-z0-9_]|$)") return module_of(names[i])
    }
    return ""
}

# places FUNCTION: in which its proof may stand. A function that calls itself is a cycle of one.
function places(item,    folder, name) {
    folder = name = item
    sub(/[^\/]*$/, "", folder)
    sub(/^.*\//, "", name)
    return " " item " " folder "+" name (item in cycles ? " " folder "+" cycles[item] : "")
}

# step FILE LINE: goes on by one line of the formatted source. `item` is what the line is part of, and `kind` says what that is: a
# function, by its place, in its head or its body; a constant; or nothing of these.
function begin() {
    item = kind = type = cycle = ""
    over = open_braces = 0
}
function step(file, line,    rest) {
    if (over) item = kind = ""
    over = 0
    sub(/ *\/\/.*/, "", line)
    if (line ~ /^ *#\[cycle\(/) { cycle = line; sub(/^ *#\[cycle\(/, "", cycle); cycle = word(cycle) }
    if (line ~ /^impl[ <]/) { rest = line; sub(/^impl(<[^>]*>)? /, "", rest); sub(/^.* for /, "", rest); type = word(rest) }
    if (line ~ fn_head) {
        rest = line
        sub(fn_head, "", rest)
        item = (line ~ /^ / ? home_of(type) type "/" : module_of(file)) word(rest)
        kind = "head"
        open_braces = 0
        if (cycle != "") cycles[item] = cycle
        cycle = ""
    } else if (line ~ const_head && kind == "") {
        rest = line
        sub(/^.*const /, "", rest)
        item = word(rest)
        kind = "constant"
    }
    # A clause has braces of its own, maybe over several lines.
    if (kind == "head" && (open_braces || line ~ /^ *(requires|ensures|decreases)( |$)/)) open_braces += gsub(/\{/, "{", line) - gsub(/\}/, "}", line)
    else if (kind == "head" && line ~ /\{(.*\})?$/) { kind = "function"; over = line ~ /\}$/ }
    if (kind == "constant" && line ~ /;$/) over = 1
    if (line == "}") { over = 1; type = "" }
    if (line == "    }" && type != "") over = 1
}

# place FILE AT LINE: goes on to that line, or else to the line there. An attribute is of what stands below it.
function place(file, at, line,    n, lines, k, end) {
    n = split(text_of(file), lines, "\n")
    begin()
    for (k = 1; k <= n; k++) {
        step(file, lines[k])
        end += length(lines[k]) + 1
        if (line && k == line && lines[k] ~ /^ *#\[/) line++
        if (line ? k == line : at <= end) return
    }
    item = kind = ""
}

# naming CONSTANT: the functions that name it, or a constant that is made of it, become `users`. It is `open` if one does so in its head.
function naming(constant,    i, n, lines, k) {
    seen[constant]
    for (i = 1; i <= files; i++) {
        n = split(text_of(names[i]), lines, "\n")
        begin()
        for (k = 1; k <= n; k++) {
            step(names[i], lines[k])
            sub(/\/\/.*/, "", lines[k])
            if (item != "" && item != constant && lines[k] ~ "(^|[^A-Za-z0-9_])" constant "([^A-Za-z0-9_]|$)") {
                if (kind == "constant") later[item]
                else users[item]
                if (kind == "head") open = 1
            }
        }
    }
    for (i in later) if (!(i in seen)) { delete later[i]; naming(i) }
}

function change(file, old, new,    text, at, rest, user, count) {
    text = text_of(file)
    at = index(text, old)
    rest = substr(text, at + length(old))
    if (file !~ /^(src|specs)\//) fault("neither code nor a definition is changed, but " file)
    else if (old == "" || !at) fault("the old text is not in " file)
    else if (index(rest, old)) fault("the old text is more than once in " file)
    else {
        # What stands in front of a line is not what is changed.
        match(old, /^ */)
        place(file, at + RLENGTH)
        changes++
        if (kind == "constant") {
            split("", users); split("", seen); split("", later)
            open = count = 0
            naming(item)
            for (user in users) count++
            for (user in users) print (count == 1 && !open ? "function|" : "shared|") places(user)
            if (!count) fault("no function names " item)
        } else print (kind == "function" ? "function|" places(item) : "shared|*")
        texts[file] = substr(text, 1, at - 1) new rest
    }
}

/^file: / { file = substr($0, 7) }
/^old: / { old = substr($0, 6) }
/^new:/ { new = substr($0, 5); sub(/^ /, "", new); change(file, old, new); old = "" }
END { if (!changes) fault("nothing is changed") }
