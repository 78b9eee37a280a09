#!/usr/bin/env python3
"""Draws a closed heap as an SVG: its versions in a row, and below each the cells that it made.

    heap.py IMAGE > PICTURE.svg

IMAGE is a text that `docheap image` wrote. The latest version stands first. A cell stands once,
below the oldest version that it belongs to, and a line leads to it from wherever else it is named.
Names of entries and texts of nodes are put together from the chunks that their cells hold. Cells
that the anchor does not lead to stand apart. Where more than 300 cells are in use, only the anchor
and the versions are drawn, one under the other, and the rest is counted. A text that is no image of
a heap of documents is an error with its line, and nothing is drawn. Three or four versions are
about 1,000 points wide.
"""
import argparse
import os
import sys

import images
from drawing import LETTER, LINE, colours, legend, letter, rect, style, svg, text, title, wide_of
from images import cell_of

# Lines to cells that stand elsewhere: one colour for each such cell, by turns.
LIGHT = ["#0b6bcb", "#b3261e", "#1a7f37", "#8250df", "#9a6700", "#bf3989"]
DARK = ["#6cb6ff", "#ff8a80", "#57c46b", "#c297ff", "#d9a830", "#f27dbd"]
ROW, STEP, MARK, LANE, LEFT, LONG = 20, 15, 13, 7, 14, 21
# past so many cells in use not each is drawn
MOST = 300
# The fields of each role that name cells, as a tree is drawn: which field, and what it is called
# where the role of the cell that it names does not tell.
NAMING = {"version": [(1, "")], "node": [(0, ""), (1, "")], "text": [(4, "")],
          "entry": [(0, ""), (1, ""), (2, "left"), (3, "right")]}


def shown(data):
    """Bytes of a text as a quoted text has them."""
    plain = {0x22: '\\"', 0x5C: "\\\\", 0x09: "\\t", 0x0A: "\\n"}
    return "".join(plain.get(x, chr(x) if 0x20 <= x <= 0x7E else f"\\x{x:02x}") for x in data)


def cut(words):
    return words if len(words) <= LONG else words[:LONG - 2] + ".."


def label(heap, number, role):
    """What stands beside a cell: its number, its role, and what that role makes of it."""
    fields = heap.cells[number].fields
    if role == "version":
        return f"{number} version {fields[0][1:]}"
    if role == "node":
        inside = cut(shown(heap.text(cell_of(fields[0]))))
        return f'{number} node "{inside}"' if inside else f"{number} node"
    if role == "entry":
        return f"{number} entry {cut(shown(heap.text(cell_of(fields[0]))))}"
    return f'{number} text "{shown(heap.chunk(number))}"'


class Row:
    """A line of a tree: a cell, or the name of a cell that stands elsewhere."""

    def __init__(self, number, depth, words, field, is_link):
        self.number, self.depth, self.words, self.field = number, depth, words, field
        self.is_link, self.y = is_link, 0

    def wide(self):
        many = len(self.words) + (len(self.field) + 2 if self.field else 0)
        return self.depth * STEP + MARK + 6 + many * LETTER


class Column:
    """A version and, below it, the cells that no older version has."""

    def __init__(self, number):
        self.number, self.rows, self.x = number, [], 0

    def fill(self, heap, placed):
        """The rows of this version; what has a row is added to the cells that are placed."""
        def below(number, role, depth):
            return [(cell_of(heap.cells[number].fields[i]), images.LAYOUTS[role][i].lstrip("?"),
                     depth, field) for i, field in reversed(NAMING[role])]

        todo = below(self.number, "version", 0)
        while todo:
            number, role, depth, field = todo.pop()
            if number is None:
                continue
            row = Row(number, depth, label(heap, number, role), field, number in placed)
            self.rows.append(row)
            if not row.is_link:
                placed[number] = (self, row)
                # what goes on in a further cell of a text stands under it, no further in
                todo += below(number, role, depth + (role != "text"))


class Lanes:
    """Stretches beside each other, in lanes in which none touches another."""

    def __init__(self, apart):
        self.apart, self.wanted, self.of = apart, {}, {}

    def want(self, key, order, one, two):
        """This key's stretch has these two points; the first in order get the first lanes."""
        _, low, high = self.wanted.get(key, (order, one, one))
        self.wanted[key] = (order, min(low, one, two), max(high, one, two))

    def part(self):
        """Gives each key its lane; how many lanes there are."""
        lanes = []
        for key, (_, low, high) in sorted(self.wanted.items(), key=lambda it: it[1]):
            free = (k for k, lane in enumerate(lanes)
                    if all(b + self.apart < low or high + self.apart < a for a, b in lane))
            self.of[key] = next(free, len(lanes))
            if self.of[key] == len(lanes):
                lanes.append([])
            lanes[self.of[key]].append((low, high))
        return len(lanes)


class Picture:
    """One SVG, from the anchor down."""

    def __init__(self, heap):
        self.heap, self.parts, self.placed, self.seen = heap, [], {}, set()
        self.wide = 0
        self.columns = [Column(number) for number in heap.versions()]
        for column in reversed(self.columns):
            column.fill(heap, self.placed)
        self.links = [(at, row) for at, column in enumerate(self.columns)
                      for row in column.rows if row.is_link]

    def home(self, number):
        """The column and the row where a cell stands."""
        column, row = self.placed[number]
        return self.columns.index(column), row

    def lay_out(self, y):
        """Gives columns and rows their places, from this height on; gives the height below them."""
        bus, self.bus = Lanes(0), y + ROW + 4
        for at, row in self.links:
            if self.is_far(at, row):
                bus.want(row.number, self.columns[at].rows.index(row), at,
                         self.home(row.number)[0] - 1)
        top = self.bus + bus.part() * LANE + 8
        for column in self.columns:
            for k, row in enumerate(column.rows):
                row.y = top + k * ROW
        self.over = bus.of
        self.gutters = [Lanes(4) for _ in self.columns]
        for at, row in self.links:
            self.reserve(at, row)
        x = LEFT
        for column, lanes in zip(self.columns, self.gutters):
            column.x = x
            words = label(self.heap, column.number, "version")
            wide = max([MARK + 30 + LETTER * len(words),
                        *(row.wide() + STEP for row in column.rows)])
            lanes.x = x + wide + 12
            x = lanes.x + lanes.part() * LANE + 8
        self.wide = x
        self.hue = self.hues()
        return max([top, *(row.y + ROW for column in self.columns for row in column.rows)])

    def is_far(self, at, row):
        """Whether a line from this column has to go over others."""
        return self.home(row.number)[0] > at + 1

    def reserve(self, at, row):
        """The lanes that a line takes in the gutters. Those that go up stand left, the highest row
        first, and those that go down right, the highest row last: so few lines cross."""
        home, there = self.home(row.number)
        if self.is_far(at, row):
            height = self.bus + self.over[row.number] * LANE
            self.gutters[at].want((row.number, "up"), (0, row.y), height, row.y)
            self.gutters[home - 1].want((row.number, "down"), (1, -there.y), height, there.y)
        else:
            self.gutters[at].want((row.number, "down"), (1, -there.y), row.y, there.y)

    def hues(self):
        """A colour for each cell that lines lead to, none twice in a gutter while some are left."""
        hues = {}
        for number in sorted({row.number for _, row in self.links}):
            beside = {one for lanes in self.gutters for one, _ in lanes.of
                      if any(number == other for other, _ in lanes.of)}
            taken = {hues[one] for one in beside if one in hues}
            free = [hue for hue in range(len(LIGHT)) if hue not in taken]
            hues[number] = free[0] if free else len(hues) % len(LIGHT)
        return hues

    def lane(self, gutter, key):
        return self.gutters[gutter].x + self.gutters[gutter].of[key] * LANE

    def draw_line(self, points, kind):
        """A line with round corners, from the first point through all others."""
        points = [at for k, at in enumerate(points) if k == 0 or at != points[k - 1]]
        (x, y), *rest = points
        path = f"M{x:g} {y:g}"
        for k, (x, y) in enumerate(rest):
            if k + 1 < len(rest):
                before, behind = points[k], rest[k + 1]
                path += f" L{near((x, y), before)} Q{x:g} {y:g} {near((x, y), behind)}"
            else:
                path += f" L{x:g} {y:g}"
        self.parts.append(f'<path d="{path}" class="{kind}"/>')

    def arrow(self, x, y, kind, turn=1):
        self.parts.append(f'<path d="M{x:g} {y:g} l{-6 * turn} -3.2 v6.4 z" class="{kind}"/>')

    def middle(self, row):
        return row.y + MARK / 2

    def link(self, at, row):
        home, there = self.home(row.number)
        column, kind = self.columns[at], f"to{self.hue[row.number]}"
        points = [(column.x + STEP + row.wide() + 4, self.middle(row))]
        x = self.lane(home - 1 if home > at else at, (row.number, "down"))
        if self.is_far(at, row):
            up, height = self.lane(at, (row.number, "up")), self.bus + self.over[row.number] * LANE
            points += [(up, self.middle(row)), (up, height), (x, height)]
        else:
            points.append((x, self.middle(row)))
        points.append((x, self.middle(there)))
        target = self.columns[home]
        if home == at:
            end, turn = target.x + STEP + there.wide() + 4, -1
        else:
            end, turn = target.x + STEP + there.depth * STEP - 3, 1
        points.append((end - 5 * turn, self.middle(there)))
        self.draw_line(points, f"line {kind}")
        self.arrow(end, self.middle(there), f"{kind} tip", turn)

    def mark(self, number, x, y):
        cell = self.heap.cells[number]
        words = f"cell {number} {cell.colour} {' '.join(cell.fields)}"
        self.parts.append(rect(x, y, MARK, MARK, f"box {cell.colour}", words))
        if cell.colour != "white":
            self.parts.append(letter(x + (MARK - LETTER) / 2, y + 10, cell.colour))
        self.seen.add(cell.colour)

    def branch(self, x, row, above):
        """The line from the cell above that this row hangs on."""
        corner = x + row.depth * STEP + MARK / 2 - STEP
        wide = STEP + MARK / 2 if row.is_link else STEP - MARK / 2
        self.parts.append(f'<path d="M{corner:g} {above:g} V{self.middle(row):g} h{wide:g}" '
                          'class="tree"/>')

    def tree(self, column, y):
        """The rows of a version, hung on it."""
        last = {-1: y + MARK}
        for row in column.rows:
            x = column.x + STEP
            self.branch(x, row, last[row.depth - 1])
            left = x + row.depth * STEP
            if not row.is_link:
                self.mark(row.number, left, row.y)
                last[row.depth] = row.y + MARK
            self.parts.append(text(left + MARK + 6, row.y + 11, row.words,
                                   "faint" if row.is_link else "ink"))
            if row.field:
                at = left + MARK + 6 + LETTER * (len(row.words) + 1.5)
                self.parts.append(text(at, row.y + 11, row.field, "faint field"))

    def versions(self, y):
        """The anchor and the versions in a row, each with a line to the one before it."""
        self.mark(0, LEFT, y - 30)
        self.parts.append(text(LEFT + MARK + 6, y - 19, "0 anchor", "ink name"))
        self.parts.append(f'<path d="M{LEFT + MARK / 2:g} {y - 30 + MARK:g} V{y - 4:g}" '
                          'class="tree"/>')
        for k, column in enumerate(self.columns):
            words = label(self.heap, column.number, "version")
            self.mark(column.number, column.x, y)
            self.parts.append(text(column.x + MARK + 6, y + 11, words, "ink name"))
            if k + 1 < len(self.columns):
                one, two = column.x + MARK + 12 + LETTER * len(words), self.columns[k + 1].x - 3
                middle = y + MARK / 2
                self.parts.append(f'<path d="M{one:g} {middle:g} H{two - 5:g}" class="tree"/>')
                self.arrow(two, middle, "arrow")

    def floating(self, y):
        """The cells that have no role, in a block of their own."""
        numbers = self.heap.floating()
        if not numbers:
            return y
        labels = [floating_label(self.heap, number) for number in numbers]
        wide = MARK + 22 + LETTER * max(map(len, labels))
        across = max(1, int((max(self.wide, 900) - 2 * LEFT) / wide))
        head = f"floating: {len(numbers)} in use that the anchor does not lead to"
        self.parts += [text(LEFT, y + 11, head, "ink name")]
        y += ROW + 2
        for k, (number, words) in enumerate(zip(numbers, labels)):
            x, row = LEFT + k % across * wide, y + k // across * ROW
            self.mark(number, x, row)
            self.parts.append(text(x + MARK + 6, row + 11, words))
        self.wide = max(self.wide, LEFT + min(across, len(numbers)) * wide)
        return y + -(-len(numbers) // across) * ROW + 12

    def legend(self, y, notes):
        """Below the picture: the colours that it has, its lines, its words, and the census."""
        marks = colours(y, self.seen, silent=["white"])
        self.parts += legend(LEFT, y, marks)
        self.wide = max(self.wide, 2 * LEFT + wide_of(marks))
        if self.links:
            y += ROW
            words = "leads to the place of a cell that several cells name"
            self.parts += legend(LEFT, y, [(lambda x: line_mark(x, y), words, "faint")])
        words = ", ".join(f"{many} {what}" for what, many in self.heap.census().items())
        for note in [*notes, f"{words}; free cells are blue and not drawn"]:
            y += ROW
            self.parts.append(text(LEFT, y + 11, note, "faint"))
            self.wide = max(self.wide, 2 * LEFT + LETTER * len(note))
        return y + ROW + 6

    def notes(self):
        """What the words of the rows mean."""
        fields = {row.field for column in self.columns for row in column.rows}
        found = ["the number at a cell is the cell's; the number of a version comes after the word"]
        if fields & {"left", "right"}:
            found.append("left, right: the field of an entry that leads to the entries of smaller "
                         "names, of greater names")
        return found

    def counted(self, column):
        """What stands below a version in a heap of many cells: how many cells of each kind."""
        own = [self.heap.cells[row.number] for row in column.rows if not row.is_link]
        found = []
        for one, more in [("node", "nodes"), ("entry", "entries"), ("text", "texts")]:
            many = sum(one in cell.roles for cell in own)
            found.append(f"{many} {one if many == 1 else more}")
        return ", ".join(found)

    def only_versions(self):
        """The anchor and the versions, one under the other, each with a count of its own cells."""
        y = 32
        self.mark(0, LEFT, y)
        self.parts.append(text(LEFT + MARK + 6, y + 11, "0 anchor", "ink name"))
        for column in self.columns:
            x = LEFT + MARK / 2
            self.parts.append(f'<path d="M{x:g} {y + MARK:g} V{y + ROW:g}" class="tree"/>')
            y += ROW
            words = label(self.heap, column.number, "version")
            self.mark(column.number, LEFT, y)
            self.parts.append(text(LEFT + MARK + 6, y + 11, words, "ink name"))
            at = LEFT + MARK + 6 + LETTER * (len(words) + 2)
            counts = f"{self.counted(column)} that no older one has"
            self.parts.append(text(at, y + 11, counts, "faint"))
            self.wide = max(self.wide, at + LETTER * len(counts) + LEFT)
        notes = [f"{len(self.heap.cells)} cells are in use, more than {MOST}: the versions are "
                 "drawn, and the others are counted",
                 "the number at a cell is the cell's; each version names the one below it"]
        self.links = []
        return self.legend(y + ROW + 12, notes)

    def every_cell(self):
        y = 66
        below = self.lay_out(y)
        for at, row in self.links:
            self.link(at, row)
        self.versions(y)
        for column in self.columns:
            self.tree(column, y)
        return self.legend(self.floating(below + 14), self.notes())

    def svg(self, name):
        below = self.only_versions() if len(self.heap.cells) > MOST else self.every_cell()
        self.parts.append(text(LEFT, 18, title(name), "ink title"))
        wide = max(self.wide, 2 * LEFT + 9 * len(title(name)))
        return svg(wide, below, title(name), rules(), self.parts)


def near(corner, other, by=4):
    """The point this near to a corner, on its way to another point."""
    (x, y), (u, v) = corner, other
    away = max(abs(u - x), abs(v - y), 1)
    part = min(by, away / 2) / away
    return f"{x + (u - x) * part:g} {y + (v - y) * part:g}"


def line_mark(x, y):
    return f'<path d="M{x:g} {y + MARK / 2:g} h{MARK}" class="line to0"/>'


def floating_label(heap, number):
    """What a cell without a role was, by the layout that it still has, and which cells it names."""
    cell = heap.cells[number]
    was = next((role for role in ("version", "node", "entry", "text") if cell.fits(role)), "raw")
    words = f"{number} {was}"
    if was == "version":
        words += f" {cell.fields[0][1:]}"
    if was == "text":
        words += f' "{shown(heap.chunk(number))}"'
    names = " ".join(f"@{one}" for one in cell.named())
    return f"{words} {names}" if names else words


def rules():
    def lines(palette):
        return "".join(f" .line.to{k} {{ stroke: {it}; }} .tip.to{k} {{ fill: {it}; }}"
                       for k, it in enumerate(palette))

    own = (f".tree {{ fill: none; stroke: {LINE}; stroke-width: 1; }} .arrow {{ fill: {LINE}; }}\n"
           f".line {{ fill: none; stroke-width: 1.2; }} .field {{ font-style: italic; }}\n"
           f"{lines(LIGHT)}\n@media (prefers-color-scheme: dark) {{{lines(DARK)} }}")
    return style({}, {}, own)


def main():
    p = argparse.ArgumentParser()
    p.add_argument("image")
    args = p.parse_args()
    try:
        with open(args.image, "rb") as it:
            heap = images.read(it.read())
    except (OSError, images.Faulty) as why:
        sys.exit(f"heap.py: {why}")
    sys.stdout.write(Picture(heap).svg(os.path.basename(args.image)))


main()
