#!/usr/bin/env python3
"""What has to be believed: from the contracts of the public entries and from the statements of the theorems to every definition that they rest on.

  trusted.py            writes docs/TRUSTED.md
  trusted.py --check    says whether docs/TRUSTED.md is what it would write, and fails if it is not
  trusted.py ENTRY      lists what one public entry rests on, as CRATE::FUNCTION

Public entries are those of tools/entries.txt and every function for C. Each file of specs/ says in its first words what it holds: 'Rules.' (of the format), 'Promises.'
(of public entries and theorems) or 'Inside.' (what only our own functions say). The tool fails if a promise rests on a definition of the third kind, if nothing
that is promised rests on one of the other kinds, or if an entry has a `requires`."""
import os
import re
import sys

import definitions as D

KINDS = ("Rules.", "Promises.", "Inside.")


def entries(functions):
    """The keys of the public entries, in the order of tools/entries.txt, then the functions for C."""
    found = []
    for line in open("tools/entries.txt"):
        line = line.split("#")[0].strip()
        if line:
            crate, _, name = line.partition("::")
            if (crate, "fn", name) not in functions:
                sys.exit(f"tools/entries.txt: there is no function {line}")
            found.append((crate, "fn", name))
    found += [k for k, f in functions.items() if f.for_c and k not in found]
    return found


def path_of(key):
    return f"crates/{key[0]}/specs/{key[1]}.antt"


def kind_of(path):
    first = D.read(path).split("\n", 1)[0]
    word = first[3:].split(" ", 1)[0]
    return word if word in KINDS else None


def snake(name):
    return re.sub(r"(?<=[a-z0-9])(?=[A-Z])", "_", name).lower()


def proofs_of(crate):
    """The laws of a crate's proofs that prove a statement: those whose type is its name, or that have its name and more general arguments."""
    found = {}
    for folder, _, files in os.walk(f"crates/{crate}/proofs"):
        for file in sorted(files):
            if not file.endswith(".antt"):
                continue
            path = os.path.join(folder, file)
            for name, number, lines, _ in D.definitions_of(path):
                text = " ".join(lines)
                m = re.match(r"(?:pub )?\S+ : (.*)", text)
                if not m:
                    continue
                said = re.split(r"(?:^| )" + re.escape(name) + r" (?:[^:=]*)?= ", m[1])[0]
                result = said.split("→")[-1].strip().lstrip("(")
                head = result.split(" ")[0].rstrip(")")
                if said.strip() == head or name == snake(head):
                    found.setdefault(head, (name, path, number))
    return found


def is_statement(d):
    """A record, or a definition whose values are types."""
    return bool(re.match(r"pub record ", d.text)) or d.text.split("\n")[0].rstrip().endswith("Type 0")


def statements(specs, crates):
    """Definitions of files of promises that some law of the same crate proves, in order."""
    found = []
    for crate in crates:
        proofs = proofs_of(crate)
        for key, d in specs.items():
            if key[0] == crate and kind_of(path_of(key)) == "Promises." and key[2] in proofs and is_statement(d):
                found.append((d, proofs[key[2]]))
    return found


def faults(specs, roots, believed, functions, public):
    for key in public:
        if functions[key].has_requires:
            yield f"{key[0]}::{key[2]}: a public entry has a `requires`"
    seen = set()
    for key in specs:
        path = path_of(key)
        kind = kind_of(path)
        if kind is None and path not in seen:
            yield f"{path}: its first line does not begin with one of {' '.join(KINDS)}"
        seen.add(path)
        if kind == "Inside." and key in believed:
            yield f"{path}: {key[2]} is of the third kind, and a promise rests on it"
        if kind in ("Rules.", "Promises.") and key not in believed:
            yield f"{path}: no entry's contract and no theorem rests on {key[2]}"


def text_of(d):
    return "\n".join(d.note + [d.text])


def block(text, kind):
    return f"```{kind}\n{text}\n```\n"


def lines_of(keys, specs, types):
    return sum((specs.get(k) or types[k]).lines for k in keys)


def document(specs, types, functions, crates, public, believed):
    n = lambda keys: lines_of(keys, specs, types)
    said = statements(specs, crates)
    rules = [k for k in believed if k in specs and kind_of(path_of(k)) == "Rules."]
    promises = [k for k in believed if k in specs and kind_of(path_of(k)) == "Promises."]
    held = [k for k in believed if k in types]
    out = ["# What has to be believed", "",
           "`tools/trusted.py` writes this file, and `./check` fails if it is out of step. It follows the contracts of the public entries and the",
           "statements of the theorems to every definition that they rest on. Proofs need not be read: the checker holds each one to its statement.", "",
           "| | Definitions | Lines |", "|---|---|---|",
           f"| Rules of the format | {len(rules)} | {n(rules)} |",
           f"| Promises of entries and statements of theorems | {len(promises)} | {n(promises)} |",
           f"| Types of the code that they name | {len(held)} | {n(held)} |", "",
           "Beyond these definitions the claim rests on the Rattle kit (its logic and its compiler's back end), on the Rust wrapper and the C caller", 
           "keeping the header's terms, and on the hardware.", "",
           "## Public entries", "",
           "Each entry has no `requires`. The last columns say on how many definitions its contract rests, and how many lines these have.", "",
           "| Entry | Contract | Named in its contract | Definitions | Lines |", "|---|---|---|---|---|"]
    for key in public:
        f = functions[key]
        under = D.reached(f.names, specs, types)
        direct = ", ".join(f"`{k[2]}`" for k in sorted(f.names, key=str) if k in specs) or "numbers alone"
        out.append(f"| `{key[2]}` | {f.path}:{f.line} | {direct} | {len(under)} | {n(under)} |")
    out += ["", "## Theorems", ""]
    for d, (name, path, number) in said:
        out += [f"### {d.key[2]}", "", f"{path_of(d.key)}:{d.line}, proved by `{name}`, {path}:{number}.", "", block(text_of(d), "text")]
    out += ["## Definitions", "", "In the order of document 01, then of the change requests. The comment above a definition is the source's own.", ""]
    for crate in crates:
        here = [k for k in list(types) + list(specs) if k in believed and k[0] == crate]
        shown = [k for k in here if not any(k == d.key for d, _ in said)]
        if not shown:
            continue
        out += [f"### {crate}", ""]
        for file in dict.fromkeys(k[1] for k in shown):
            part = [k for k in shown if k[1] == file]
            place = f"crates/{crate}/src" if file == "src" else path_of(part[0])
            out += [place + ("" if file == "src" else f": {kind_of(place)[:-1].lower()}"), ""]
            out.append(block("\n\n".join(text_of(specs.get(k) or types[k]) for k in part), "text"))
    return "\n".join(out).rstrip("\n") + "\n"


def main():
    os.chdir(os.path.join(os.path.dirname(os.path.abspath(__file__)), ".."))
    specs, types, functions = D.read_all()
    crates = list(D.crates())
    public = entries(functions)
    if sys.argv[1:] and sys.argv[1] != "--check":
        crate, _, name = sys.argv[1].partition("::")
        under = D.reached(functions[crate, "fn", name].names, specs, types)
        for k in [k for k in list(specs) + list(types) if k in under]:
            print(f"{k[0]} {k[1]} {k[2]}")
        print(f"{len(under)} definitions, {lines_of(under, specs, types)} lines")
        return
    roots = set().union(*(functions[k].names for k in public)) | {d.key for d, _ in statements(specs, crates)}
    believed = D.reached(roots, specs, types)
    wrong = list(faults(specs, roots, believed, functions, public))
    for w in wrong:
        print(w)
    text = document(specs, types, functions, crates, public, believed)
    if "--check" in sys.argv:
        if not os.path.exists("docs/TRUSTED.md") or D.read("docs/TRUSTED.md") != text:
            print("docs/TRUSTED.md is out of step: run python3 tools/trusted.py")
            wrong.append("")
    else:
        with open("docs/TRUSTED.md", "w") as f:
            f.write(text)
    sys.exit(1 if wrong else 0)


main()
