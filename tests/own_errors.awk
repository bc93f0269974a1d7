# own_errors.awk OUTPUT: of what `rt ci` or `rt must-fail` printed, a line CRATE/EDIT|PLACE for each edit that was refused for a fact that is
# not proved. rt names the first. The place is `proofs/` and the folder of a function, or of a cycle of functions; a law by its file; or
# FILE:LINE of the source, as the edit has it. It is no such fact that a callee is not proved, or not admitted; that the proof names a
# place, a field or a goal that the code does not have; or that antt met a limit and has no verdict. One for which only `search` met a limit counts.
function own(said) {
    return said ~ /^it is not proved that / || said ~ /^`(search|cc|grind|simp|rw)`: no proof of / || said ~ /^`omega`: .* does not follow/ ||
        said ~ /^(computed as far as they go|as printed), the two types (first differ|differ only) / ||
        said ~ /^expected type `/ && said !~ /^expected type `([^` ]*[.])?(goal|Goals)[.]/
}
match($0, /^rt: must-fail [^ ]*: refused, as it must be: /) {
    said = substr($0, RSTART + RLENGTH)
    edit = substr($0, 1, RSTART + RLENGTH - 1)
    sub(/^rt: must-fail /, "", edit)
    sub(/: refused, .*/, "", edit)
    sub(/^note: /, "", said)
    sub(/^\.\//, "", said)
    if (!match(said, /^[^ :]+:[0-9]+:[0-9]+: /)) next
    place = substr(said, 1, RLENGTH - 2)
    said = substr(said, RLENGTH + 1)
    sub(/:[0-9]+$/, "", place)
    sub(/^error: /, "", said)
    # The goal, or what stands for it.
    if (said !~ /^`(search|cc|grind|simp|rw|omega)`: /) sub(/^`[^`]*`: /, "", said)
    if (!own(said)) next
    if (place ~ /^proofs\//) sub(/(\/(Proof|Answers|Invariants))?\.antt:[0-9]+$/, "", place)
    print edit "|" place
}
