#!/usr/bin/env python3
"""Brings the repository's own definitions, lemmas and record fields to snake case.

usage: python3 tools/snake_names.py       at the top of the repository, once, after the kit's script that turns older spelling

A name is the repository's own where a file of specs/ or proofs/ declares it. Names of goals (Answers.antt, Invariants.antt) are the
kit's and stay. It prints each old and new name, and names that would fall together.
"""

import os
import re
import sys

DECLARED = re.compile(r"^(?:(?:abbrev|unfoldable|pub|opaque|unfolding\s+\S+)\s+)*([a-z][\w'\-]*)\s*:(?!:)")
FIELD = re.compile(r"^\s+(?:pub\s+)?([a-z][\w'\-]*)\s*:(?!:)")
TOKEN = re.compile(r"(?<![\w'\-·◌«])[a-z][\w'\-]*")
# names that would fall together with another one
OTHER = {"utc-of": "utc_found", "last-sunday": "last_sunday_true", "with-entry": "entry_where", "reading-of": "reading_back"}
MADE = {"Answers.antt", "Invariants.antt", "Choices.antt"}


def snake(name):
    name = name.replace("-", "_")
    return re.sub(r"(?<=[a-z0-9])([A-Z])", lambda m: "_" + m.group(1).lower(), name).lower()


def files(suffixes):
    for folder, dirs, names in os.walk("crates"):
        dirs[:] = sorted(d for d in dirs if d != "out")
        for n in sorted(names):
            if n.endswith(suffixes):
                yield os.path.join(folder, n)


def main():
    own = {}
    for p in files((".antt",)):
        goals = os.path.basename(p) in MADE
        for line in open(p, encoding="utf-8"):
            m = DECLARED.match(line)
            if m and not (goals and re.search(r":\s*goal\.", line)):
                own.setdefault(m.group(1), []).append(p)
            f = None if goals else FIELD.match(line)
            if f:
                own.setdefault(f.group(1), []).append(p)
    turned = {n: OTHER.get(n, snake(n)) for n in own if snake(n) != n}
    for old, new in sorted(turned.items()):
        print(f"{old} {new}")
        if new in own:
            print(f"look: {new} is declared too, in {', '.join(own[new])}")
    back = {}
    for old, new in turned.items():
        if new in back:
            print(f"look: {old} and {back[new]} both become {new}")
        back[new] = old
    for p in files((".antt", ".rt", ".edit")):
        text = open(p, encoding="utf-8").read()
        lines = []
        for line in text.splitlines(keepends=True):
            comment = re.match(r"\s*(--|//)", line)
            lines.append(line if comment else TOKEN.sub(lambda m: turned.get(m.group(0), m.group(0)), line))
        after = "".join(lines)
        if after != text:
            with open(p, "w", encoding="utf-8") as f:
                f.write(after)


if __name__ == "__main__":
    sys.exit(main())
