#!/usr/bin/env python3
"""Draws how many cells of a heap a run of the Lisp had in use, as an SVG: a bar for each cycle.

    out/gcc/lisp --cycles LINES --cells 60000 scripts/garbage.lisp && picture.py LINES > PICTURE.svg

LINES has the number of cells, and for each cycle how many cells it found in use, and how many were
freed until its end. At most the first 120 cycles are drawn.
"""
import os
import sys

sys.path.insert(0, os.path.join(os.path.dirname(os.path.abspath(__file__)), "../../../pictures"))
from drawing import DARK, LIGHT, style, svg, text

WIDE, HIGH, LEFT, TOP, MOST = 900, 220, 70, 50, 120
NEWLINE = "\n"


def main():
    if len(sys.argv) != 2:
        sys.exit(__doc__)
    with open(sys.argv[1], encoding="ascii") as it:
        cells, *cycles = [list(map(int, line.split())) for line in it]
    cells, cycles = cells[0], cycles[:MOST]
    if not cycles:
        sys.exit("no cycle ended")
    used = [found for found, _ in cycles]
    step, floor = WIDE / len(used), TOP + HIGH
    bars = [f"M{LEFT + k * step:.1f} {floor}v-{HIGH * cells_used / cells:.1f}h{step * .7:.1f}"
            f"V{floor}z" for k, cells_used in enumerate(used)]
    parts = [text(LEFT, 20, "Cells that each cycle found in use", "title ink"),
             text(LEFT, 38, f"{len(used)} cycles, {cycles[-1][1]:,} cells freed; most in use "
                  f"{max(used):,} of {cells:,}", "faint"),
             f'<path d="M{LEFT} {TOP}h{WIDE}M{LEFT} {floor}h{WIDE}" class="edge"/>',
             f'<path d="{NEWLINE.join(bars)}" class="use"/>',
             text(8, TOP + 4, f"{cells:,}", "faint"), text(8, floor + 4, "0", "faint")]
    rules = style({}, {}, f".edge {{ stroke: {LIGHT['faint']}; stroke-width: .6; }} "
                  ".use { fill: #0b6bcb; } "
                  "@media (prefers-color-scheme: dark) "
                  f"{{ .edge {{ stroke: {DARK['faint']}; }} .use {{ fill: #6cb6ff; }} }}")
    sys.stdout.write(svg(LEFT + WIDE + 20, floor + 20, "Cells in use", rules, parts))


if __name__ == "__main__":
    main()
