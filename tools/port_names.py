#!/usr/bin/env python3
"""Respells this repository's own names as today's Rattle spells them: the second half of the port, run once after the kit's port.py.

  port_names.py           in the repository's root, on the tree that port.py leaves
  port_names.py --list    prints the names that it would respell, old and new

A definition or lemma that was written in camel case or with dashes is written in snake case. A name that begins with a capital keeps its
spelling: a fact, a type, a law about one. Where two names would fall together the lemma's gets `_lem`. Names of src/ and strings are not
touched. The derivations that tools/lend.py made go: today's check makes them itself.
"""
import collections
import glob
import os
import re
import shutil
import sys

DECLARED = re.compile(
    r"^\s*(?:(?:abbrev|unfoldable|pub|data|record|mutual)\s+)*([A-Za-zμ][\w'₀-₉\-μ]*)\s*(?:(?:\([^()]*\)|\{[^{}]*\})\s*)*:(?!:)", re.M)
TOKEN = re.compile(r"(?<![\w'₀-₉\-μ])[A-Za-zμ_][\w'₀-₉μ]*(?:-[\w'₀-₉μ]+)*(?![\w'₀-₉\-μ])")


def read(path):
    with open(path, encoding="utf-8") as f:
        return f.read()


def snake(name):
    return re.sub(r"(?<=[a-z0-9])([A-Z])", lambda m: "_" + m.group(1).lower(), name).replace("-", "_")


def bare(text):
    """The text without comments."""
    return re.sub(r"--.*", "", text)


def sources():
    for kind in ("specs", "proofs"):
        for path in sorted(glob.glob(f"crates/*/{kind}/**/*.antt", recursive=True)):
            if "/derived/" not in path:
                yield path


def names():
    """What is respelled: old and new."""
    declared = {}
    for path in sources():
        text = bare(read(path))
        if not path.endswith("/Proof.antt"):
            for m in DECLARED.finditer(text):
                declared.setdefault(m.group(1), path)
    camel = {n: snake(n) for n in declared if not n[0].isupper() and "-" not in n and snake(n) != n}
    met = set(camel.values()) & set(declared)
    taken = collections.Counter(n for n in declared if n not in camel and n not in met)
    taken.update(camel.values())
    twice = [n for n in camel.values() if taken[n] > 1]
    if twice:
        sys.exit(f"these fall together: {twice}")
    table = dict(camel)
    for name in sorted(declared):
        if ("-" not in name and name not in met) or name[0].isupper():
            continue
        new = snake(name)
        while taken[new]:
            new += "_lem"
        taken[new] += 1
        table[name] = new
    return table


def foreign(text):
    """The names that a file brings in from the kit's libraries: these keep their spelling there."""
    own = tuple(f"Rattle.{c}." for c in os.listdir("crates"))
    found = set()
    for m in re.finditer(r"^(?:ghost )?(?:pub )?use ([\w.]+?)\.\{([^}]*)\}", text, flags=re.M):
        if not (m.group(1) + ".").startswith(own):
            found |= {n.split(" as ")[-1].strip() for n in m.group(2).split(",")}
    return found


def respelled(text, table):
    kept = foreign(text)
    return TOKEN.sub(lambda m: m.group(0) if m.group(0) in kept else table.get(m.group(0), m.group(0)), text)


def main(argv):
    table = names()
    if argv[1:] == ["--list"]:
        for old, new in sorted(table.items()):
            print(old, new)
        return
    for folder in glob.glob("crates/*/proofs/**/derived", recursive=True):
        shutil.rmtree(folder)
    for path in sorted(glob.glob("crates/*/**/*.antt", recursive=True) + glob.glob("crates/*/src/*.rt")):
        text = read(path)
        new = respelled(text, table)
        new = re.sub(r"^(?:pub )?mod derived\n", "", new, flags=re.M)
        if new != text:
            with open(path, "w", encoding="utf-8") as f:
                f.write(new)
    for root in sorted(glob.glob("crates/*/src/lib.rt") + glob.glob("crates/*/src/main.rt")):
        lines = read(root).split("\n")
        if "#![tactic(auto)]" not in lines:
            at = next(i for i, line in enumerate(lines) if not line.startswith("//"))
            with open(root, "w", encoding="utf-8") as f:
                f.write("\n".join(lines[:at] + ["#![tactic(auto)]"] + lines[at:]))


main(sys.argv)
