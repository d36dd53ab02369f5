#!/usr/bin/env python3
"""Holds docs/EXCLUDED.md against the tree: each edit that it names as CRATE/NAME is there, and each public entry (tools/entries.txt, and the functions for C through the entry that
they call) has at least two wrong programs. It says which edits no row names, without failing."""
import glob
import os
import re
import sys

import definitions as D

os.chdir(os.path.join(os.path.dirname(os.path.abspath(__file__)), ".."))
with open("docs/EXCLUDED.md") as f:
    text = f.read()
there = {"/".join((p.split("/")[1], os.path.basename(p)[:-5])) for p in glob.glob("crates/*/must-fail/*.edit")}
crates = D.crates()
named = {f"{c}/{n}" for c, n in re.findall(r"(?<![\w/.])([a-z_0-9]+)/([a-z_0-9]+)(?![\w/.])", text) if c in crates}
wrong = [f"docs/EXCLUDED.md names {n}, and there is no such edit" for n in sorted(named - there)]

# the table by entry: a row names its entries or, left empty, those of the row above
rows, entries = {}, []
for line in text[text.index("By entry:"):].split("\n"):
    cells = [c.strip() for c in line.strip("|").split("|")] if line.startswith("|") else []
    if len(cells) != 3 or cells[0] == "Entry" or set(cells[0]) == {"-"}:
        continue
    entries = re.findall(r"`([\w:]+)`", cells[0]) or entries
    for e in entries:
        rows[e] = rows.get(e, 0) + 1
for line in open("tools/entries.txt"):
    name = line.split("#")[0].strip().split("::", 1)
    if len(name) == 2 and rows.get(name[1], 0) < 2:
        wrong.append(f"docs/EXCLUDED.md has {rows.get(name[1], 0)} wrong programs for {name[1]}; two are wanted")
for w in wrong:
    print(w)
rest = {n.split("/")[1] for n in there - named if not re.search(rf"\b{n.split('/')[1]}\b", text)}
if rest:
    print(f"edits that no row names: {' '.join(sorted(rest))}")
sys.exit(1 if wrong else 0)
