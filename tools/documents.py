#!/usr/bin/env python3
"""Holds the documents against the tree: every path that one names exists; in FORMAT.md and PROVED.md every definition is in the file that is named behind it; README.md has at most 90 lines, and
no line of its prose, or of the other documents for readers, is wider than 120 columns. Notes of landings (docs/history) have the names of their time and are left out."""
import glob
import os
import re
import sys

import definitions as D

ROOTS = "crates|docs|rust|tools|include|examples|python|samples"
PATH = re.compile(rf"(?<![\w/.-])((?:{ROOTS})/[\w./*-]*[\w*]|[a-z_0-9]+/(?:specs|proofs|src)/[\w/]+\.(?:antt|rt))")
NARROW = ["README.md", "CHANGELOG.md", "CONTRIBUTING.md", "crates/README.md", "docs/USING.md", "docs/PROVED.md", "docs/DECISIONS.md", "docs/DIFFERENCES.md", "docs/EXCLUDED.md",
          "docs/FORMAT.md", "docs/NAMES.md", "docs/PERFORMANCE.md"]


def paths(name, text):
    for number, line in enumerate(text.split("\n"), 1):
        for path in PATH.findall(line):
            if re.search(r"CRATE|NAME|/M/|flashraw", path):  # places that stand for others, or in the original's source
                continue
            if not any(glob.glob(p) for p in (path, "crates/" + path)):
                yield f"{name}:{number}: {path} is not there"


def definitions(name, text, homes):
    for number, line in enumerate(text.split("\n"), 1):
        if not line.startswith("|"):
            continue
        for names, file in re.findall(r"((?:`[\w'-]+`(?:, )?)+),? ([a-z_0-9]+/specs/\w+\.antt)", line.split("|")[-2]):
            for one in re.findall(r"`([\w'-]+)`", names):
                if f"crates/{file}" not in homes.get(one, ()):
                    yield f"{name}:{number}: {one} is not in {file}"


def wide(name, text):
    code = False
    for number, line in enumerate(text.split("\n"), 1):
        code ^= line.startswith("```")
        if len(line) > 120 and not code and not line.startswith(("|", "    ", "```")):
            yield f"{name}:{number}: {len(line)} columns"


def main():
    os.chdir(os.path.join(os.path.dirname(os.path.abspath(__file__)), ".."))
    homes = {}
    for key in D.read_all()[0]:
        homes.setdefault(key[2], set()).add(f"crates/{key[0]}/specs/{key[1]}.antt")
    wrong = []
    for name in NARROW + ["tools/README.md", "rust/README.md"]:
        text = D.read(name)
        wrong += paths(name, text)
        if name in NARROW:
            wrong += wide(name, text)
        if name in ("docs/FORMAT.md", "docs/PROVED.md"):
            wrong += definitions(name, text, homes)
    if D.read("README.md").count("\n") > 90:
        wrong.append("README.md has more than 90 lines")
    for w in wrong:
        print(w)
    sys.exit(1 if wrong else 0)


main()
