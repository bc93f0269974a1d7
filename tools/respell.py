#!/usr/bin/env python3
"""Respells this repository's own names: definitions, lemmas and bound names in lower camel case become snake case.

usage: python3 tools/respell.py      at the top, once, after port.py

A name is joined of parts by '-', and each part that is in lower camel case is respelled: `entriesOf-append` becomes `entries_of-append`. Types and
modules, in upper camel case, stay. It goes over crates/ (.antt, .rt, .edit), over README.md and over what stands in backticks in docs/*.md. It stops,
and writes nothing, if a new spelling is a name in antt already, or a field, parameter, variable or constant of src/.
"""

import glob
import re
import sys

IDENT = re.compile(r"(?<![\w'])[A-Za-z_][\w'-]*")
CAMEL = re.compile(r"^[a-z][a-z0-9]*[A-Z]")
SPECIAL = {"getD": "get_or"}
# lemmas that port.py gave the name of what they are about
LEMMAS = ["ends_of", "every_of", "first_part", "keys_in", "last_line", "last_then", "moved_by", "rows_long", "same_bytes", "told_of"]


def snake(part):
    return SPECIAL.get(part) or re.sub(r"[A-Z]", lambda m: "_" + m.group(0).lower(), part)


def read(path):
    with open(path, encoding="utf-8") as f:
        return f.read()


def without_comments(text, mark):
    return re.sub(r"(?m)(^|\s)" + mark + r"[^\n]*", "", text)


def main():
    antt = glob.glob("crates/*/specs/**/*.antt", recursive=True) + glob.glob("crates/*/proofs/**/*.antt", recursive=True)
    code = glob.glob("crates/*/src/**/*.rt", recursive=True)
    camel, words = set(), set()
    for path in antt:
        for m in IDENT.finditer(without_comments(read(path), "--")):
            for part in m.group(0).split("-"):
                (camel if CAMEL.match(part) else words).add(part)
    camel = {c for c in camel if not re.match(r"^x[0-9A-F]+$", c)}
    names = {c: snake(c) for c in camel}
    declared = set()
    for path in code:
        t = without_comments(read(path), "//")
        for m in re.finditer(r"(?:struct \w+(?:<[^>]*>)? \{|fn \w+(?:<[^>]*>)?\()([^})]*)[})]", t):
            declared.update(re.findall(r"(\w+):", m.group(1)))
        declared.update(re.findall(r"(?:let(?: mut)?|const) (\w+)", t))
    if len(set(names.values())) < len(names):
        sys.exit("two names fall together")
    # a function of src/ may have the name: its proof cites what the function's call gave under it, and no definition
    functions = set()
    for path in code:
        functions.update(re.findall(r"(?:fn|mod) (\w+)", read(path)))
    bad = sorted(n for n in names.values() if n in declared or (n in words and n not in functions and n not in SPECIAL.values() and n not in LEMMAS))
    if bad:
        sys.exit("these are names already: " + " ".join(bad))

    def respell(text):
        return IDENT.sub(lambda m: "-".join(names.get(p, p) for p in m.group(0).split("-")), text)

    def lemmas(text):
        """A function's name stands in paths alone, between dots."""
        return re.sub(r"(?<![\w'.-])(" + "|".join(LEMMAS) + r")(?![\w'.-])", r"\1_lem", text)

    for path in antt + code + glob.glob("crates/*/must-fail/*.edit"):
        old = read(path)
        new = respell(lemmas(old) if path.endswith(".antt") else old)
        if new != old:
            with open(path, "w", encoding="utf-8") as f:
                f.write(new)
    for path in ["README.md"] + glob.glob("docs/**/*.md", recursive=True):
        old = read(path)
        new = re.sub(r"`[^`\n]*`", lambda m: respell(m.group(0)), old)
        if new != old:
            with open(path, "w", encoding="utf-8") as f:
                f.write(new)
    print(f"{len(names)} names respelled")


main()
