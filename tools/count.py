#!/usr/bin/env python3
"""Counts the machine instructions that decoding, writing or measuring takes for each code, and its conditional branches that go both ways. README.md says how.

usage: tools/count.py [--noise N,N..] [--kinds KIND,KIND..] [--lines N] [--side ours|windowed|rust|write|exact|measure|set|tighten] [--lines-only] [--branches]
"""
import argparse
import os
import re
import subprocess
import tempfile

ROOT = os.path.dirname(os.path.dirname(os.path.abspath(__file__)))
BENCH = os.path.join(ROOT, "rust", "target", "release", "bench")
KINDS = ["bayer-lossless", "xtrans-lossless", "bayer-lossy", "xtrans-lossy"]
# What is counted: a function for C, or the original's two calls.
COUNTED = {
    "ours": "fuji_decode",
    "windowed": "fuji_decode_region_windowed",
    "rust": "*time_theirs*",
    "write": "fuji_write_*",
    "exact": "fuji_write_*",
    "measure": "fuji_measure_block",
    "set": "fuji_read_set",
    "tighten": "fuji_tighten",
}
CODES_A_LINE = 4608
# A branch is shown if it is met in so many codes, and if its rarer way is taken so often.
LEAST_MET = 0.02
LEAST_RARE = 0.02


def run(kind, noise, lines, side, out, branches):
    """The instructions of one call, by callgrind; `out` gets its file."""
    words = ["valgrind", "--tool=callgrind", "--callgrind-out-file=" + out, "--toggle-collect=" + COUNTED[side]]
    if branches:
        words += ["--dump-instr=yes", "--collect-jumps=yes"]
    words += [BENCH, "count", kind, str(noise), str(lines), side]
    done = subprocess.run(words, capture_output=True, text=True)
    found = re.search(r"Collected : (\d+)", done.stderr)
    if done.returncode != 0 or not found:
        raise SystemExit(done.stderr + "\nnothing was counted")
    return int(found.group(1))


def jumps(out):
    """For each conditional branch: its function and address, how often it was met, and how often it jumped."""
    names, met, function, last = {}, {}, "", 0
    waiting = None
    for line in open(out):
        line = line.rstrip()
        named = re.match(r"c?fn=\((\d+)\)(?: (.*))?$", line)
        if named:
            names.setdefault(named.group(1), named.group(2) or "")
            if line.startswith("fn="):
                function = names[named.group(1)]
            continue
        jump = re.match(r"jcnd=(\d+)/(\d+) ", line)
        if jump:
            waiting = (int(jump.group(1)), int(jump.group(2)))
            continue
        place = re.match(r"(0x[0-9a-f]+|[+-]\d+|\*) ", line + " ")
        if not place:
            continue
        word = place.group(1)
        last = int(word, 16) if word.startswith("0x") else last if word == "*" else last + int(word)
        if waiting:
            jumped, all_of_them = met.get((function, last), (0, 0))
            met[(function, last)] = (jumped + waiting[0], all_of_them + waiting[1])
            waiting = None
    return met


def show_branches(out, codes):
    rows = []
    for (function, address), (jumped, met) in jumps(out).items():
        rare = min(jumped, met - jumped) / met if met else 0
        if met >= LEAST_MET * codes and rare >= LEAST_RARE:
            rows.append((address, function, met / codes, jumped / met, rare * met / codes))
    print("  goes both ways, times a code: %.3f" % sum(row[4] for row in rows))
    for address, function, met, share, _ in sorted(rows):
        print("  0x%x met %.3f times a code, jumps %.2f of them, in %s" % (address, met, share, function))


def main():
    words = argparse.ArgumentParser(description="Instructions a code, by callgrind.")
    words.add_argument("--noise", default="25")
    words.add_argument("--kinds")
    words.add_argument("--lines", type=int, default=12)
    words.add_argument("--side", choices=sorted(COUNTED), default="ours")
    words.add_argument("--lines-only", action="store_true", help="leave out what a call takes whatever its lines are")
    words.add_argument("--branches", action="store_true")
    asked = words.parse_args()
    codes = CODES_A_LINE * asked.lines
    # A lossy set is not measured.
    kinds = asked.kinds.split(",") if asked.kinds else [k for k in KINDS if asked.side != "measure" or k.endswith("lossless")]
    for noise in asked.noise.split(","):
        for kind in kinds:
            with tempfile.TemporaryDirectory() as folder:
                out = os.path.join(folder, "out")
                count = run(kind, noise, asked.lines, asked.side, out, asked.branches)
                if asked.lines_only:
                    # of a block of twice the lines the second half has no beginning
                    count = run(kind, noise, 2 * asked.lines, asked.side, os.path.join(folder, "twice"), False) - count
                print("%s, noise %s, %s: %.1f instructions a code" % (kind, noise, asked.side, count / codes))
                if asked.branches:
                    show_branches(out, codes)


if __name__ == "__main__":
    main()
