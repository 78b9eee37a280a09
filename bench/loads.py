#!/usr/bin/env python3
"""Measures how long a dump takes to load, by the number of its nodes, and a heap file to count, by
the number of its cells in use.

loads.py [PROGRAM] [--rounds 15] [--only load|census]

Each dump has folders of 200 nodes below the root, and texts of 60 bytes. Each heap has one version,
whose root has the entries of one balanced tree, each with a node of its own and all with one name:
what the entries are named is not looked at. The files take turns. Printed are the middle times in
milliseconds (user and system), and that of a node or of a byte in nanoseconds.
"""
import os, statistics, sys, tempfile
sys.dont_write_bytecode = True
from running import files_with, parser_of, run

NODES, CHILDREN = (1250, 2500, 5000, 10_000), 200
ENTRIES = (2000, 4000, 8000, 16_000)


def dump(nodes):
    """A dump of version 7 with so many nodes."""
    lines = ["docs-dump 1 7", '. "root"']
    paths = (f"f{f:03}" + (f"/k{k:03}" if k >= 0 else "")
             for f in range(nodes) for k in range(-1, CHILDREN))
    for _, path in zip(range(nodes - 1), paths):
        lines.append(f'{path} "{"x" * 60}"')
    return "\n".join([*lines, f"end {nodes}"]) + "\n"


def image(entries):
    """A heap whose latest version has so many entries below its root, and not one cell more."""
    at = lambda entry: f"@{4 + 2 * entry}" if entry < entries else "-"
    lines = ["0 white @1 - - - - =2", "1 white =0 @2 - - - =2",
             f"2 white - {at(0)} ={entries + 1} =1 - =1", "3 white =5 =0 =0 =0 - =1"]
    for entry in range(entries):
        lines.append(f"{4 + 2 * entry} white @3 @{5 + 2 * entry} {at(2 * entry + 1)} "
                     f"{at(2 * entry + 2)} =1 =1")
        lines.append(f"{5 + 2 * entry} white - - =1 =0 - =1")
    return "\n".join([f"image 1 {4 + 2 * entries}", *lines, "end"]) + "\n"


# the word, the sizes, the text of a size, and what is counted in it
KINDS = {"load": (NODES, dump, "nodes"), "census": (ENTRIES, image, "entries")}


def main():
    p = parser_of(__doc__, "program")
    p.add_argument("--rounds", type=int, default=15)
    p.add_argument("--only", choices=KINDS)
    args = p.parse_args()
    for word, (sizes, text, what) in KINDS.items():
        if args.only not in (None, word):
            continue
        with tempfile.TemporaryDirectory() as folder:
            files = files_with(folder, [(str(size), text(size)) for size in sizes])
            rounds = [[run([args.program, word, file], keep=False).processor for file in files]
                      for _ in range(args.rounds)]
            lengths = [os.path.getsize(file) for file in files]
        for size, length, times in zip(sizes, lengths, zip(*rounds)):
            middle = statistics.median(times)
            print(f"{word}, {size} {what}, {length} bytes: {middle * 1000:.1f} ms, "
                  f"{middle * 1e9 / size:.0f} ns each, {middle * 1e9 / length:.1f} ns a byte")


if __name__ == "__main__":
    sys.exit(main())
