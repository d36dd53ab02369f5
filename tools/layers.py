#!/usr/bin/env python3
"""The layers of the crates: a crate stands one above the highest that it needs.

  layers.py            writes the picture into crates/README.md
  layers.py --check    fails if the picture is not that of crates.txt, if a crate is missing from the map, if the map names one that is not there, or if
                       crates.txt does not list what a crate needs before it"""
import os
import re
import sys

import definitions as D

BEGIN, END = "<!-- layers: tools/layers.py writes what follows -->", "<!-- layers end -->"


def layers(needs):
    level = {}

    def of(crate, way):
        if crate in way:
            sys.exit("crates.txt: a circle: " + " ".join(way[way.index(crate):] + [crate]))
        if crate not in level:
            level[crate] = 1 + max((of(d, way + [crate]) for d in needs[crate] if d in needs), default=-1)
        return level[crate]

    for crate in needs:
        of(crate, [])
    return level


def picture(needs):
    level = layers(needs)
    out = []
    for n in range(max(level.values()), -1, -1):
        line, rows = "", []
        for crate in [c for c in needs if level[c] == n]:
            if len(line) + len(crate) > 100:
                rows.append(line)
                line = ""
            line += ("  " if line else "") + crate
        rows.append(line)
        for i, row in enumerate(rows):
            out.append(f"{n if i == 0 else '':>2}  {row}")
    return "\n".join([BEGIN, "```text"] + out + ["```", END])


def faults(needs, text):
    if picture(needs) not in text:
        yield "crates/README.md: the picture of the layers is out of step: run python3 tools/layers.py"
    named = re.findall(r"^\| `(\w+)` \|", text, flags=re.M)
    for crate in needs:
        if named.count(crate) != 1:
            yield f"crates/README.md: `{crate}` is in {named.count(crate)} rows of the map"
    for name in named:
        if name not in needs:
            yield f"crates/README.md: there is no crate `{name}`"
    seen = set()
    for crate, deps in needs.items():
        for d in deps:
            if d in needs and d not in seen:
                yield f"crates.txt: {crate} needs {d}, which comes after it"
        seen.add(crate)


def main():
    os.chdir(os.path.join(os.path.dirname(os.path.abspath(__file__)), ".."))
    needs = D.crates()
    text = D.read("crates/README.md")
    if "--check" not in sys.argv:
        text = text[:text.index(BEGIN)] + picture(needs) + text[text.index(END) + len(END):]
        with open("crates/README.md", "w") as f:
            f.write(text)
    wrong = list(faults(needs, text))
    for w in wrong:
        print(w)
    sys.exit(1 if wrong else 0)


main()
