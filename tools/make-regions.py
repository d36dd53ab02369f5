#!/usr/bin/env python3
"""Makes crates/replay_regions/data/regions.bin from crates/replay_blocks/data/blocks.bin, in the repository's root.

Streams are put together from blocks whose colour lines the original Rust gave. For each there is a region, a tile, the answer and the image that
the rules give from those colour lines: whole pictures, single samples, regions across blocks and at the edges, empty ones, ones that pass an edge or
saturate, and images that are too short. The choices come from a fixed seed.

A record is 88 bytes, big-endian (bytes of the stream, 32 bits; x, y, width, height, 64 bits each; samples of the image, number of the refusal or 0,
block, line, 32 bits each; 36 bytes of the tile), the stream, and the image afterwards, 16 bits a sample. Before, every sample is 0x5a5a."""
import random, struct

BLOCKS, OUT, BEFORE = "crates/replay_blocks/data/blocks.bin", "crates/replay_regions/data/regions.bin", 0x5A5A
choose = random.Random(5)

def recorded():
    data, at, kinds = open(BLOCKS, "rb").read(), 0, {}
    while at < len(data):
        bits, xtrans, lines, rows, size, read = struct.unpack(">6I", data[at:at + 24])
        width = 512 if xtrans else 384
        row, block = data[at + 24:at + 24 + rows], data[at + 24 + rows:at + 24 + rows + size]
        at += 24 + rows + size
        colours = struct.unpack(f">{read * 12 * width}H", data[at:at + read * 24 * width])
        at += read * 24 * width
        kinds.setdefault((bits, xtrans, lines, rows > 0), []).append((row, block, read, colours))
    return kinds

def padded(s):
    return s + bytes(-len(s) % 16)

def stream(bits, xtrans, lines, lossy, blocks, width):
    n = len(blocks)
    header = struct.pack(">HBBBHHHHBH", 0x4953, not lossy, 16 * xtrans, bits, 6 * lines, 768 * n, width, 768, n, lines)
    rows = b"".join(padded(b[0]) for b in blocks) if lossy else b""
    return header + padded(b"".join(struct.pack(">I", len(b[1])) for b in blocks)) + rows + b"".join(b[1] for b in blocks)

def region(kind, width, height):
    if kind == 0:
        return 0, 0, width, height
    if kind == 1:
        return choose.randrange(width), choose.randrange(height), 1, 1
    if kind == 2:
        x, y = choose.randrange(width - 1), choose.randrange(height)
        return x, y, choose.randrange(1, width - x + 1), choose.randrange(1, height - y + 1)
    if kind == 3:
        return width - 30, 0, 31, 3
    if kind == 4:
        return width, height, 0, 0
    if kind == 5:
        return 5, 2 ** 64 - 1, 3, 2
    return min(767, width - 2), 3, 2, choose.randrange(1, height - 2)

def place(xtrans, p):
    return 2 * (p // 3) + (p % 3 > 0) if xtrans else p // 2

def slot(value, r):
    return r // 2 if value == 0 else 9 + r // 2 if value == 2 else 3 + r

def decode(xtrans, blocks, width, height, x, y, w, h, tile, n):
    image = [BEFORE] * n
    if x + w > width or y + h > height or n < w * h:
        return (7, 0, 0), image
    if w == 0 or h == 0:
        return (0, 0, 0), image
    lines = (y + h - 1) // 6 + 1
    failing = [(14, b, blocks[b][2]) for b in range(x // 768, (x + w - 1) // 768 + 1) if blocks[b][2] < lines]
    for i in range(w * h):
        row, column = y + i // w, x + i % w
        _, _, read, colours = blocks[column // 768]
        if row // 6 < read:
            p = column % 768
            at = row // 6 * 12 + slot(tile[6 * (row % 6) + p % 6], row % 6)
            image[i] = colours[at * (512 if xtrans else 384) + place(xtrans, p)]
    return (failing or [(0, 0, 0)])[0], image

out, kind = b"", 0
for (bits, xtrans, lines, lossy), known in recorded().items():
    for _ in range(4):
        blocks = [choose.choice(known) for _ in range(choose.choice([1, 2, 2]))]
        width = 768 * len(blocks) - (24 * choose.choice([0, 1, 5, 31]) if len(blocks) > 1 else 0)
        x, y, w, h = region(kind % 7, width, 6 * lines)
        tile = bytes(choose.choice([0, 1, 2, 1, 7, 255]) for _ in range(36))
        n = w * h + choose.choice([0, 17, 17, -1]) if 0 < w * h <= 28000 else 100
        n = max(0, min(n, 28000))
        answer, image = decode(xtrans, blocks, width, 6 * lines, x, y, w, h, tile, n)
        s = stream(bits, xtrans, lines, lossy, blocks, width)
        out += struct.pack(">I4Q4I", len(s), x, y, w, h, n, *answer) + tile + s + struct.pack(f">{n}H", *image)
        kind += 1
open(OUT, "wb").write(out)
print(kind, "records,", len(out), "bytes")
