#!/usr/bin/env python3
"""Spells the words of this repository's specs/ and proofs/ in snake case, as today's Rattle does: `blockQuantity` becomes `block_quantity`.

usage: tools/snake_names.py         in the repository, after port.py: rewrites files in place, and prints each name that it changes
       tools/snake_names.py --check      prints the same, with what would fall together, and writes nothing

A word is a definition, a field, a constructor or a lemma that a file of specs/ or proofs/ declares and that begins with a small letter. Types, facts
and modules keep their capitals. Words are turned in .antt files, in the clauses and comments of .rt files, in must-fail edits and in the pages.
"""

import glob
import re
import sys

PART = r"[^\s(){}.;,@\"«»\[\]`/:]+"
DECLARED = re.compile(r"^(?:unfoldable |abbrev |pub |private )*(" + PART + r")\s*(?:\{.*\})?\s*:\s")
FIELD = re.compile(r"^\s+(?:pub )?((?:" + PART + r"\s+)*" + PART + r")\s*:\s")
# Names of the older library within names of ours.
OLDER = {"getD": "get_or"}
# Lemmas that would fall together with a definition in a file that has both.
APART = {"all_keep": "all_keep_lem", "row_read": "row_read_lem", "all_lines": "every_line"}


def files(*patterns):
    return sorted(f for p in patterns for f in glob.glob(p, recursive=True) if "/out/" not in f)


def snake(word):
    return re.sub(r"(?<=[a-z0-9])([A-Z])", lambda m: "_" + m.group(1).lower(), word)


def turned(name):
    return "-".join(OLDER.get(p, snake(p) if p[:1].islower() else p) for p in name.split("-"))


def declared():
    found = set()
    for f in files("crates/*/specs/**/*.antt", "crates/*/proofs/**/*.antt"):
        for line in open(f, encoding="utf-8"):
            for m in filter(None, (DECLARED.match(line), FIELD.match(line))):
                found |= set(m.group(1).split())
    return found


def main(argv):
    names = declared()
    table = {n: turned(n) for n in names if n[:1].islower() and turned(n) != n} | {n: to for n, to in APART.items() if n in names}
    for old, new in sorted(table.items()):
        print(old, new)
    for new in sorted(set(table.values())):
        olds = [o for o in table if table[o] == new] + ([new] if new in names else [])
        if len(olds) > 1:
            print("look: these fall together:", *olds, file=sys.stderr)
    if argv == ["--check"]:
        return
    part = re.compile(PART)
    for f in files("crates/**/*.antt", "crates/**/*.rt", "crates/**/*.edit", "docs/**/*.md", "README.md", "rust/README.md"):
        with open(f, encoding="utf-8", newline="") as it:
            text = it.read()
        new = part.sub(lambda m: table.get(m.group(0), m.group(0)), text)
        if new != text:
            with open(f, "w", encoding="utf-8", newline="") as it:
                it.write(new)


main(sys.argv[1:])
