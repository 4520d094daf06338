#!/usr/bin/env python3
"""Brings the repository's own definitions and lemmas to the spelling of the library: words in snake case, types in camel case.

usage: python3 tools/respell.py [--list]     at the top of the repository, after the kit's port.py

What is declared in specs/ and proofs/ of the crates (definitions, records with their fields, constructors, lemmas) and has a
dash in its name is renamed wherever that name stands as a whole word: in specs, proofs, contracts and must-fail edits, and
between backticks in documents. Goals and their parts keep the names that the check makes. With --list it only prints the names.
"""

import os
import re
import sys

WORD = r"[^\s(){}\[\].,;:λ`]+"
TOP = re.compile(r"^(?:(?:abbrev pub|pub abbrev|abbrev|pub record|record|pub data|data|pub) )?(" + WORD + r")(?=[\s:({])")
FIELD = re.compile(r"^  +(?:pub )?(" + WORD + r")\s*:(?!:)")
GOAL = re.compile(r":\s*(?:goal|given|need)\b")


def files(top, ends):
    for folder, dirs, names in os.walk(top):
        dirs[:] = sorted(d for d in dirs if d not in ("out", ".git", "target"))
        for name in sorted(names):
            if name.endswith(ends):
                yield os.path.join(folder, name)


def read(path):
    with open(path, encoding="utf-8") as f:
        return f.read()


def declared():
    """The names that files of specs/ and proofs/ declare, with a dash in them."""
    tops, fields = set(), set()
    for path in files("crates", ".antt"):
        for line in read(path).splitlines():
            if line.startswith(("use ", "--", "mod ", "pub mod ", "open ", "unfolding ")) or GOAL.search(line):
                continue
            for found, names in ((TOP.match(line), tops), (FIELD.match(line), fields)):
                if found and "-" in found.group(1) and re.match(r"[A-Za-z]", found.group(1)):
                    names.add(found.group(1))
    goals = set()
    for path in files("crates", ".antt"):
        for line in read(path).splitlines():
            if GOAL.search(line) and (found := TOP.match(line)):
                goals.add(found.group(1))
    return tops - goals, fields - goals


# Lemmas that would get the name of the function that they speak of, and a relation that would get that of a kind of rule.
OTHERWISE = {"bit-and": "bit_and_lem", "bit-or": "bit_or_lem", "Not-after": "IsNotAfter"}


def respelled(name):
    if name in OTHERWISE:
        return OTHERWISE[name]
    if name[0].isupper():
        return "".join(part[:1].upper() + part[1:] for part in name.split("-"))
    return name.replace("-", "_")


def turn(text, names, fields):
    def word(found):
        name = found.group(2)
        # After a dot only fields are ours: other names there are parts of goals.
        if found.group(1) == "." and name not in fields and not name[0].isupper():
            return found.group(0)
        return found.group(1) + respelled(name) if name in names else found.group(0)

    return re.sub(r"(^|[\s(){}\[\].,;:λ`⌜])(" + WORD + r")", word, text, flags=re.M)


def main():
    tops, fields = declared()
    names = tops | fields
    if "--list" in sys.argv:
        for name in sorted(names):
            print(name, respelled(name))
        return
    for path in files("crates", (".antt", ".rt", ".edit")):
        old = read(path)
        new = turn(old, names, fields)
        if new != old:
            with open(path, "w", encoding="utf-8") as f:
                f.write(new)
    for path in [*files("docs", ".md"), "README.md"]:
        old = read(path)
        new = re.sub(r"`[^`\n]+`", lambda m: turn(m.group(0), names, fields), old)
        if new != old:
            with open(path, "w", encoding="utf-8") as f:
                f.write(new)


main()
