"""Reads the definitions of crates/*/specs, the types that the code declares, and the contracts of functions, and which definitions each of them names.

A definition is known by (crate, file, name), a type of the code by (crate, 'src', name), and a function by (crate, 'fn', name)."""
import glob
import os
import re

TOKEN = re.compile(r"[^\s(){}\[\];,λ=\\@]+")
START = re.compile(r"^(?:(?:abbrev|unfoldable|opaque|pub|record|data|instance|private) )*([^\s(){}:;,]+)")
PATH = r"Rattle\.([a-z0-9_]+)\.specs((?:\.[\w']+)*)"


class Definition:
    def __init__(self, key, line, text, note):
        self.key, self.line, self.text, self.note, self.names = key, line, text, note, set()

    @property
    def lines(self):
        return len([l for l in self.text.split("\n") if l.strip()])


def read(path):
    with open(path) as f:
        return f.read()


def crates():
    """The crates of crates.txt in its order, each with what it needs. A word after a name says how the crate is built."""
    found = {}
    for line in open("crates.txt"):
        line = line.split("#")[0]
        if ":" in line:
            name, needs = line.split(":", 1)
            found[name.split()[0]] = needs.split()
    return found


def brought_in(text):
    """What `use` lines bring in: a name, or a name before a dot, to a key or to the crate's file that it stands for."""
    names, whole = {}, {}
    for m in re.finditer(r"^(?:ghost )?use " + PATH + r"(?:\.\{([^}]*)\}|\s+as (\w+))?;?[ \t]*$", text, flags=re.M):
        crate, parts = m[1], [p for p in m[2].split(".") if p]
        if not parts:
            continue
        if parts[0] == "declared":
            home = lambda name, p=parts: (crate, "src", p[-2] if p[-1] == "TheVariants" else p[-1])
        else:
            home = lambda name, p=parts, c=crate: (c, p[0], name)
        for name in (m[3] or "").split(","):
            name = name.strip()
            if name:
                said, _, other = name.partition(" as ")
                names[(other or said).strip()] = home(said.strip())
        if m[4]:
            whole[m[4]] = home
    return names, whole


def tokens(text):
    """The names in a text, comments left out. A name stands between signs that no name has, and may be a field after a dot."""
    text = re.sub(r"(?m)(?:--|//).*$", "", text)
    return {t for t in TOKEN.findall(text)}


def named(text, here, names, whole):
    """The keys that a text names. `here` are the definitions of the same file."""
    found = set()
    for t in tokens(text):
        t = t.strip("`:→×")
        first, _, rest = t.partition(".")
        if t in here:
            found.add(here[t])
        elif t in names:
            found.add(names[t])
        elif first in whole and rest:
            found.add(whole[first](rest.split(".")[0]))
        elif first in here:
            found.add(here[first])
        elif first in names:
            found.add(names[first])
    return found


def definitions_of(path):
    """The definitions of one file, in order: name, first line, text, and the comment above."""
    out, note = [], []
    for number, line in enumerate(read(path).split("\n"), 1):
        if not line.strip():
            note = []
            continue
        if line.startswith("--"):
            note.append(line)
            continue
        if line.startswith((" ", "\t")):
            if out:
                out[-1][2].append(line)
            continue
        if line.startswith(("use ", "pub use ", "mod ", "pub mod ")):
            note = []
            continue
        at = START.match(line)
        if not at:
            continue
        name = at[1]
        if out and out[-1][0] == name:
            out[-1][2].append(line)
        else:
            out.append([name, number, [line], note])
        note = []
    return out


def signs(name):
    """An operator is written without its blanks' places."""
    return name.strip("◌")


def read_specs(crate):
    found = {}
    for path in sorted(glob.glob(f"crates/{crate}/specs/*.antt")):
        file = os.path.basename(path)[:-5]
        if file == "Lib":
            continue
        text = read(path)
        names, whole = brought_in(text)
        names = {signs(n): k for n, k in names.items()}
        parts = definitions_of(path)
        here = {signs(p[0]): (crate, file, p[0]) for p in parts}
        # fields of records are not followed: they are names after a dot, and their record is named beside them
        for name, number, lines, note in parts:
            d = Definition((crate, file, name), number, "\n".join(lines), note)
            d.names = named("\n".join(lines), here, names, whole) - {d.key}
            found[d.key] = d
    return found


def types_brought_in(text, crate, others):
    """What the `use` lines of code bring in of the crate's own types and of those of `others`."""
    found = {}
    for path, several, one in re.findall(r"^use ([\w:]+?)::(?:\{([^}]*)\}|(\w+));", text, flags=re.M):
        first = path.split("::")[0]
        for name in re.findall(r"\w+", several or one):
            if name[0].isupper():
                found[name] = (first if first in others else crate, "src", name)
    return found


def read_code(crate, others):
    """Types and functions of a crate's code: their texts, and for a function the definitions that its contract names."""
    types, functions = {}, {}
    for path in sorted(glob.glob(f"crates/{crate}/src/*.rt")):
        text = read(path)
        names, whole = brought_in(text)
        names = {signs(n): k for n, k in names.items()}
        module = os.path.basename(path)[:-3]
        module = "" if module in ("lib", "main") else module
        own = re.findall(r"^pub (?:struct|enum) (\w+)", text, flags=re.M)
        fields = types_brought_in(text, crate, others) | {n: (crate, "src", n) for n in own}
        for m in re.finditer(r"^pub (?:struct|enum) (\w+)\b(?:\(.*\);|[^{;]*\{\n(?:.*\n)*?\})", text, flags=re.M):
            number = text[:m.start()].count("\n") + 1
            d = Definition((crate, "src", m[1]), number, m[0], [])
            d.path, d.names = path, fields
            types[d.key] = d
        # a method carries its type's name
        for m in re.finditer(r"^([ \t]*)((?:pub(?:\(crate\))? )?(?:extern \"C\" )?)fn (\w+)(?:.*\n)*?\1\{", text, flags=re.M):
            before = text[:m.start()]
            owner = ""
            if m[1]:
                impls = re.findall(r"^impl(?:<[^>]*>)? (\w+)", before, flags=re.M)
                owner = impls[-1] + "::" if impls else ""
            number = before.count("\n") + 1
            d = Definition((crate, "fn", owner + m[3]), number, m[0].rstrip("{ \t\n"), [])
            d.path, d.module, d.public = path, module, m[2].startswith("pub ")
            d.for_c = "extern" in m[2]
            body = m[0]
            clauses = body[min([i for i in (body.find("requires"), body.find("ensures")) if i >= 0] or [len(body)]):]
            d.names = named(clauses, {}, names, whole)
            d.has_requires = bool(re.search(r"^\s+requires\b", body, flags=re.M))
            functions[d.key] = d
    return types, functions


def read_all():
    """All definitions, all types and all functions of the tree."""
    specs, types, functions = {}, {}, {}
    needs = crates()
    for crate in needs:
        specs.update(read_specs(crate))
        t, f = read_code(crate, needs)
        types.update(t)
        functions.update(f)
    return specs, types, functions


def reached(keys, specs, types):
    """All that the keys rest on, the keys themselves among them if they are definitions or types."""
    found, todo = set(), list(keys)
    while todo:
        k = todo.pop()
        if k in found or (k not in specs and k not in types):
            continue
        found.add(k)
        if k in specs:
            todo += specs[k].names
        else:
            todo += types_in(types[k], types)
    return found


def types_in(d, types):
    """The types of the code that a type's fields have."""
    return [k for n, k in d.names.items() if k != d.key and k in types and re.search(rf"[:(] ?(?:\[)?{n}\b", d.text)]
