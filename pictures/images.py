"""Reads the text of a closed heap: its cells, their roles, and what is wrong with it.

Shares nothing with the program: the text and the layouts are read as docs/FORMATS.md has them.
`read` gives a heap whose every number counts, or raises Faulty with the line and the kind.
"""
import re

# What each role's cells have in their six fields: null, a number, the number of the kind, or a
# role, which is that of the cell that is named; behind a `?` null may stand there too.
LAYOUTS = {
    "anchor": "version null null null null =2",
    "version": "number node ?version null null =2",
    "node": "?text ?entry number number null =1",
    "entry": "text node ?entry ?entry number =1",
    "text": "number number number number ?text =1",
}
LAYOUTS = {role: layout.split(" ") for role, layout in LAYOUTS.items()}
NUMBER = r"(0|[1-9][0-9]{0,18})"
FIELD = rf"(-|={NUMBER}|@{NUMBER})"
LINE = re.compile(rf"{NUMBER} (white|gray|black)( {FIELD}){{6}}", re.ASCII)
HEAD = re.compile(rf"image 1 {NUMBER}", re.ASCII)
SMALLEST, LARGEST = 64, 4_194_304


class Faulty(Exception):
    """A text that is no image of a heap of documents: which line, and how."""

    def __init__(self, line, kind):
        super().__init__(f"line {line}: {kind}")
        self.line, self.kind = line, kind


class Cell:
    """A cell in use: its line in the text, its colour, its six fields as the text has them."""

    def __init__(self, line, colour, fields):
        self.line, self.colour, self.fields = line, colour, fields
        self.roles = set()

    def named(self):
        """The cells that the fields name, one for each such field."""
        return [int(field[1:]) for field in self.fields if field[0] == "@"]

    def fits(self, role):
        """Whether each field is one that the role's layout has there."""
        return all(fits(part, field) for part, field in zip(LAYOUTS[role], self.fields))


class Heap:
    """The cells in use by their numbers, with the roles that they get from the anchor on."""

    def __init__(self, size, cells):
        self.size, self.cells = size, cells
        if 0 in cells:
            cells[0].roles.add("anchor")
            self.give_roles()

    def give_roles(self):
        todo = [(0, "anchor")]
        while todo:
            number, role = todo.pop()
            for part, field in zip(LAYOUTS[role], self.cells[number].fields):
                given, named = part.lstrip("?"), self.cells.get(cell_of(field))
                if given in LAYOUTS and named is not None and given not in named.roles:
                    named.roles.add(given)
                    todo.append((cell_of(field), given))

    def fault(self):
        """The line and kind of the least cell that is faulty, or none."""
        if 0 not in self.cells:
            return 1, "Blue"
        for number in sorted(self.cells):
            cell = self.cells[number]
            if cell.roles and any(one not in self.cells for one in cell.named()):
                return cell.line, "Blue"
            if cell.roles and (len(cell.roles) > 1 or not cell.fits(*cell.roles)):
                return cell.line, "BadShape"
        return None

    def with_role(self, role):
        return [number for number, cell in sorted(self.cells.items()) if role in cell.roles]

    def floating(self):
        return [number for number, cell in sorted(self.cells.items()) if not cell.roles]

    def shared(self):
        times = {}
        for cell in self.cells.values():
            for named in cell.named() if cell.roles else ():
                times[named] = times.get(named, 0) + 1
        return [number for number in sorted(times) if times[number] > 1]

    def versions(self):
        """The cells of the versions, the latest first."""
        found, at = [], cell_of(self.cells[0].fields[0])
        while at is not None and at not in found:
            found.append(at)
            at = cell_of(self.cells[at].fields[2])
        return found

    def census(self):
        """What a census counts, in its order."""
        counts = {"cells": self.size, "free": self.size - len(self.cells)}
        for role in ("version", "node", "entry", "text"):
            counts[f"{role[:-1]}ies" if role == "entry" else f"{role}s"] = len(self.with_role(role))
        return {**counts, "shared": len(self.shared()), "floating": len(self.floating())}

    def chunk(self, number):
        """The bytes that one cell of a text holds."""
        length, *words = (int(field[1:]) for field in self.cells[number].fields[:4])
        whole = b"".join((word % 2 ** 56).to_bytes(7, "little") for word in words)
        return whole[:length]

    def text(self, number):
        """The bytes of a text from this cell on; none where it is null."""
        found, seen = b"", set()
        while number is not None and number not in seen:
            seen.add(number)
            found += self.chunk(number)
            number = cell_of(self.cells[number].fields[4])
        return found


def cell_of(field):
    """The cell that a field names, or none."""
    return int(field[1:]) if field[0] == "@" else None


def fits(part, field):
    if part[0] == "=":
        return field == part
    if part == "null":
        return field == "-"
    if part == "number":
        return field[0] == "="
    return field[0] == "@" or part[0] == "?" and field == "-"


def cell_line(number, text, size):
    """The number and the cell of a line, or none where it is no line of a cell."""
    if not LINE.fullmatch(text):
        return None
    words = text.split(" ")
    fields = words[2:]
    if int(words[0]) >= size or any(int(f[1:]) >= (size if f[0] == "@" else 2 ** 62)
                                    for f in fields if f != "-"):
        return None
    return int(words[0]), Cell(number, words[1], fields)


def read_cells(data):
    """The size and the cells of a text whose every line is in order, by the first faulty line."""
    whole = data.decode("latin-1")
    lines = whole.split("\n")
    if len(lines) < 2 or not HEAD.fullmatch(lines[0]):
        raise Faulty(1, "NoHead")
    size = int(lines[0].split(" ")[2])
    if not SMALLEST <= size <= LARGEST:
        raise Faulty(1, "NoHead")
    cells, last, at = {}, -1, 1
    while lines[at] != "end" or at == len(lines) - 1:
        if at == len(lines) - 1:
            # what stands here has no line feed
            raise Faulty(at + 1, "BadLine" if lines[at] else "BadEnd")
        found = cell_line(at + 1, lines[at], size)
        if found is None:
            raise Faulty(at + 1, "BadLine")
        if found[0] <= last:
            raise Faulty(at + 1, "NoOrder")
        last = found[0]
        cells[last] = found[1]
        at += 1
    if lines[at + 1:] != [""]:
        raise Faulty(at + 2, "BadEnd")
    return size, cells


def read(data):
    """The heap that the text is of."""
    heap = Heap(*read_cells(data))
    fault = heap.fault()
    if fault:
        raise Faulty(*fault)
    return heap
