#!/usr/bin/env python3
"""Respells the repository's own definitions and lemmas as the kit's library spells its own.

usage: python3 tools/respell.py            at the top of the repository

A definition, a field or a lemma is in snake case, a type or a fact in upper camel case. A dash stays
in a lemma that joins two names, as in `total-append`, the total of two lists appended. What a name
would fall together with, a function of src/ or a name of the library, is named in RENAMED. Names
that a `ghost use` gives are turned likewise. Functions of src/, exported names, strings, inputs and
outputs are left alone; must-fail edits are turned with the text that they edit. Running it again
changes nothing.
"""

import glob
import re

# Lemmas that join the name of a function and what it is applied to.
JOINED = {
    "length-decoded",
    "take-decoded",
    "nth-take",
    "total-append",
    "total-push",
    "total-pop",
    "total-set",
    "total-shift",
}

# Names that would fall together with others, and names of older words of the library.
RENAMED = {
    "No-memory": "WantsMemory",
    "bad-line": "bad_line_lem",
    "codes-differ": "codes_differ_lem",
    "getD-cut": "get_or_cut",
}

DECLARED = re.compile(
    r"^[ \t]*(?:(?:abbrev|unfoldable|pub)\s+)*(?:(?:record|data)\s+([A-Za-z][\w']*(?:-[\w']+)+)\b|([A-Za-z][\w']*(?:-[\w']+)+)\s*:(?!\s*(?:goal|need)\.))",
    re.M,
)
ALIAS = re.compile(r"\bas ([a-z][\w']*(?:-[\w']+)+)")
WORD = re.compile(r"(?<![\w'-])([A-Za-z][\w']*(?:-[\w']+)+)(?![\w'-])")
STRING = re.compile(r'b?"(?:[^"\\]|\\.)*"')


def snake_or_camel(name):
    if name in RENAMED:
        return RENAMED[name]
    parts = name.split("-")
    if name[0].isupper():
        return "".join(p[0].upper() + p[1:] for p in parts)
    return "_".join(parts)


def declared():
    """The names with dashes that specs/ and proofs/ declare, and those that a `ghost use` gives."""
    found = set()
    for path in antt():
        with open(path, encoding="utf-8") as f:
            found |= {a or b for a, b in DECLARED.findall(f.read())}
    for path in sources():
        with open(path, encoding="utf-8") as f:
            found |= {a for line in f if line.startswith("ghost use") for a in ALIAS.findall(line)}
    return found - JOINED


def sources():
    return glob.glob("crates/*/src/**/*.rt", recursive=True)


def antt():
    return glob.glob("crates/*/specs/**/*.antt", recursive=True) + glob.glob("crates/*/proofs/**/*.antt", recursive=True)


def turned(text, names):
    return WORD.sub(lambda m: snake_or_camel(m.group(1)) if m.group(1) in names else m.group(1), text)


def outside_strings(text, names):
    """The text with its names turned, but for what stands in a string."""
    out, end = [], 0
    for m in STRING.finditer(text):
        out += [turned(text[end : m.start()], names), m.group(0)]
        end = m.end()
    return "".join(out) + turned(text[end:], names)


def main():
    names = declared()
    changed = 0
    paths = antt() + sources() + glob.glob("crates/*/must-fail/*.edit")
    for path in sorted(paths):
        with open(path, encoding="utf-8") as f:
            old = f.read()
        new = turned(old, names) if path.endswith(".antt") else outside_strings(old, names)
        if new != old:
            with open(path, "w", encoding="utf-8") as f:
                f.write(new)
            changed += 1
    print(f"respell: {len(names)} names, {changed} files")


main()
