#!/usr/bin/env python3
"""Draws the pictures of docs/pictures: a stream's bytes, the colour lines with the order of the passes, the neighbours of a sample, and what is trusted. Run it after an
edit; the SVGs are committed."""
import os

STYLE = """<style>
  text { font: 13px sans-serif; fill: #222 } .s { font-size: 11px; fill: #666 } .m { text-anchor: middle }
  rect { fill: #f4f4f4; stroke: #666 } .r { fill: #f6c9c4 } .g { fill: #cfe8cf } .b { fill: #c9d8f2 } .y { fill: #f7edc4 } .n { fill: none }
  path, line { stroke: #666; fill: none }
  @media (prefers-color-scheme: dark) {
    text { fill: #eee } .s { fill: #aaa } rect { fill: #333; stroke: #aaa } .r { fill: #7a3b36 } .g { fill: #33603a } .b { fill: #34507f }
    .y { fill: #6b5f2a } .n { fill: none } path, line { stroke: #aaa }
  }
</style>"""


def svg(name, width, height, parts):
    text = f'<svg xmlns="http://www.w3.org/2000/svg" width="{width}" height="{height}" viewBox="0 0 {width} {height}">\n{STYLE}\n' + "\n".join(parts) + "\n</svg>\n"
    with open(f"docs/pictures/{name}.svg", "w") as f:
        f.write(text)


def box(x, y, w, h, kind=""):
    return f'<rect x="{x}" y="{y}" width="{w}" height="{h}"' + (f' class="{kind}"' if kind else "") + "/>"


def label(x, y, said, kind="m"):
    return f'<text x="{x}" y="{y}" class="{kind}">{said}</text>'


def stream():
    parts, x = [], 10
    fields = [(90, "header", "16 bytes", "y"), (120, "sizes", "4 bytes a block", "b"), (60, "zeros", "to 16", "n"), (130, "base rows, if lossy", "a byte a line", "g"),
              (60, "zeros", "to 16", "n"), (110, "block 0", "768 columns", ""), (110, "block 1", "768 columns", ""), (60, "...", "", "n")]
    for w, said, below, kind in fields:
        parts += [box(x, 20, w, 40, kind), label(x + w / 2, 45, said), label(x + w / 2, 76, below, "s m")]
        x += w
    svg("stream", x + 10, 90, parts)


def passes():
    """The 18 colour lines; beside each the pass that reads it."""
    order = [(2, 7), (8, 15), (3, 9), (10, 16), (4, 11), (12, 17)]
    parts = [label(20, 18, "colour line", "s"), label(330, 18, "read in pass (statistics set)", "s")]
    for line in range(18):
        kind = "r" if line < 5 else "g" if line < 13 else "b"
        y = 26 + 22 * line
        parts += [label(60, y + 15, str(line)), box(80, y, 230, 18, kind)]
        done = [i for i, p in enumerate(order) if line in p]
        said = f"{done[0] + 1} ({done[0] % 3}), " + ("first" if order[done[0]][0] == line else "second") + " line" if done else "from the line of six rows before"
        parts.append(label(330, y + 14, said, "" if done else "s"))
    parts += [label(20, 26 + 22 * 18 + 16, "red 0 to 4, green 5 to 12, blue 13 to 17; each line of six rows has six passes of two colour lines", "s")]
    svg("passes", 560, 26 + 22 * 18 + 28, parts)


def neighbours():
    parts = []
    for k, (title, cells) in enumerate([("even position", {(1, 0): "rf", (0, 1): "rc", (1, 1): "rb", (2, 1): "rd", (1, 2): "p"}),
                                        ("odd position", {(0, 1): "rc", (1, 1): "rb", (2, 1): "rd", (0, 2): "ra", (1, 2): "p", (2, 2): "rg"})]):
        x = 110 + 250 * k
        parts.append(label(x + 66, 18, title))
        for (c, r), said in cells.items():
            parts += [box(x + 44 * c, 28 + 34 * r, 44, 34, "y" if said == "p" else ""), label(x + 44 * c + 22, 50 + 34 * r, said)]
    for r, said in enumerate(["two lines up", "one line up", "this line"]):
        parts.append(label(10, 50 + 34 * r, said, "s"))
    svg("neighbours", 520, 142, parts)


def trusted():
    parts = []
    rows = [("definitions", "read them: docs/TRUSTED.md", "y"), ("contracts and theorems", "proved equal to the definitions", "g"), ("Rattle code", "proved to meet its contracts", "g"),
            ("machine code", "the kit's back end, LLVM: tested", "y"), ("C, Rust, Python, program", "tested", "y")]
    for i, (what, why, kind) in enumerate(rows):
        y = 10 + 44 * i
        parts += [box(10, y, 210, 34, kind), label(115, y + 22, what), label(235, y + 22, why, "s")]
        if i:
            parts.append(f'<line x1="115" y1="{y - 10}" x2="115" y2="{y}"/>')
    parts.append(label(10, 10 + 44 * 5 + 12, "green: the checker holds it; yellow: people and tests do", "s"))
    svg("trusted", 470, 248, parts)


os.chdir(os.path.join(os.path.dirname(os.path.abspath(__file__)), ".."))
stream(), passes(), neighbours(), trusted()
