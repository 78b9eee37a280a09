"""What the image of a run has to be, and images with a fault, for stress.py.

The reader is that of the pictures (pictures/images.py). A census looks at roles, layouts and names
of cells. Here the numbers are looked at too: those of versions, the counts and heights of nodes,
the order and balance of entries, the bytes of texts.
"""
import os, sys

sys.path.insert(0, os.path.join(os.path.dirname(os.path.abspath(__file__)), "..", "pictures"))
import images
from documents import CHILDREN, HEIGHT, NAME, TEXT, node
from images import cell_of

WHOLE, LARGEST = 4_000_000_000, 1_048_576


class Wrong(Exception):
    pass


def number_of(field):
    return int(field[1:])


class Trees:
    """The trees that an image spells, each cell read once."""

    def __init__(self, heap):
        self.heap, self.nodes, self.entries, self.texts = heap, {}, {}, {}

    def text(self, number):
        """The text from this cell on, each cell of which has what is left of it."""
        if number is None:
            return ""
        if number not in self.texts:
            left, *words = map(number_of, self.heap.cells[number].fields[:4])
            rest = self.text(cell_of(self.heap.cells[number].fields[4]))
            here = b"".join(word.to_bytes(8, "little") for word in words)
            chunk = b"".join(here[k:k + 7] for k in (0, 8, 16))
            if any(here[k] for k in (7, 15, 23)) or any(chunk[left:]) or not left:
                raise Wrong(f"cell {number}: more bytes than its text has")
            whole = chunk[:left].decode("latin-1") + rest
            if len(whole) != left or left <= 21 and rest:
                raise Wrong(f"cell {number}: {len(whole)} bytes and not {left}")
            self.texts[number] = whole
        return self.texts[number]

    def below(self, number):
        """The kids that entries spell, in order, and their height."""
        if number is None:
            return [], 0
        if number not in self.entries:
            name, child, left, right, height = self.heap.cells[number].fields[:5]
            (before, low), (behind, high) = self.below(cell_of(left)), self.below(cell_of(right))
            if abs(low - high) > 1 or number_of(height) != 1 + max(low, high):
                raise Wrong(f"cell {number}: not balanced, or another height")
            own = self.text(cell_of(name))
            if not NAME.fullmatch(own):
                raise Wrong(f"cell {number}: the name {own!r}")
            kids = [*before, (own, self.tree(cell_of(child))), *behind]
            self.entries[number] = kids, number_of(height)
        return self.entries[number]

    def tree(self, number):
        if number not in self.nodes:
            text, entries, count, height = self.heap.cells[number].fields[:4]
            kids = self.below(cell_of(entries))[0]
            names = [name for name, _ in kids]
            made = node(self.text(cell_of(text)), dict(kids))
            if names != sorted(set(names)) or len(names) > CHILDREN:
                raise Wrong(f"cell {number}: its children are not in order, or too many")
            if (number_of(count), number_of(height)) != made[2:] or made[3] > HEIGHT:
                raise Wrong(f"cell {number}: another count or height, or too high")
            if not TEXT.fullmatch(made[0]):
                raise Wrong(f"cell {number}: the text {made[0]!r}")
            self.nodes[number] = made
        return self.nodes[number]


def trees_of(heap, keep, versions):
    """The trees of the versions, the latest first, and the number of that one."""
    chain = heap.versions()
    numbers = [number_of(heap.cells[cell].fields[0]) for cell in chain]
    latest = numbers[0]
    if numbers != list(range(latest, latest - len(numbers), -1)) or latest > versions:
        raise Wrong(f"the versions {numbers}")
    if len(numbers) != min(latest + 1, keep) or len(numbers) != len(heap.with_role("version")):
        raise Wrong(f"{len(numbers)} versions of {latest + 1}, where {keep} stay")
    trees = Trees(heap)
    return [trees.tree(cell_of(heap.cells[cell].fields[1])) for cell in chain], latest


def census_of(data):
    """What a census of this text has to answer: its lines, or the fault's line and kind."""
    try:
        counts = images.read(data).census()
    except images.Faulty as why:
        return f"docheap: file 1: {why}\n"
    return "".join(f"{what} {many}\n" for what, many in counts.items())


def wrong_in(data, cells, keep, versions, cycles, stored):
    """What is wrong with the image of a run with these options, or None. `stored` are the trees of
    all versions, where they are known."""
    try:
        heap = images.read(data)
        trees, latest = trees_of(heap, keep, versions)
    except (images.Faulty, Wrong) as why:
        return str(why)
    except RecursionError:
        return "its cells lead in a circle"
    counts = heap.census()
    if heap.size != cells:
        return f"{heap.size} cells and not {cells}"
    if sum(counts[what] for what in ("free", "versions", "nodes", "entries", "texts", "floating")) \
            != cells - 1:
        return f"the counts {counts}"
    if cycles == WHOLE and counts["floating"]:
        return f"{counts['floating']} cells float"
    if stored is not None and (latest != len(stored) - 1 or trees != stored[::-1][:len(trees)]):
        return f"version {latest} of {len(stored) - 1}, or other trees"
    return None


# Images with a fault: a line or a word of a line is another one.

def changed_fields(words, size, free):
    """The words of a cell's line with one of its fields changed, in each way."""
    own = int(words[0])
    for k in range(2, 8):
        values = ["-", "=0", "=1", "=2", "=5", "@0", "@1", "@2", "@3", f"@{own}", f"@{own + 1}",
                  f"@{free}", f"@{size - 1}", f"@{size}", "@01", "=4611686018427387904", "", "x"]
        for value in values:
            if value != words[k]:
                yield [*words[:k], value, *words[k + 1:]]


def changed_lines(lines, size, free):
    """The lines of an image with one of them changed, in each way."""
    for k, line in enumerate(lines):
        words = line.split(" ")
        others = [f" {line}", f"{line} ", f"{line}\r", "", "end", f"{line} -", line.upper()]
        if len(words) == 8:
            others += [" ".join(it) for it in changed_fields(words, size, free)]
            others += [" ".join([words[0], colour, *words[2:]])
                       for colour in ("blue", "white", "gray", "black", "red")]
            others += [" ".join([number, *words[1:]])
                       for number in ("0", f"0{words[0]}", f"{int(words[0]) + 1}", f"{size}", "-")]
        else:
            others += ["image 1 63", f"image 1 0{size}", "image 2 64", "image 1 4194305", "End"]
        for other in others:
            if other != line:
                yield [*lines[:k], other, *lines[k + 1:]]
        yield [*lines[:k], *lines[k + 1:]]
        yield [*lines[:k], line, *lines[k:]]
        yield [*lines[:k], *reversed(lines[k:k + 2]), *lines[k + 2:]]


def damaged(data):
    """Each text that differs from the image in a line or in a word of one."""
    lines = data.decode("ascii").split("\n")[:-1]
    heap = images.read(data)
    free = next(cell for cell in range(heap.size) if cell not in heap.cells)
    for changed in changed_lines(lines, heap.size, free):
        yield "".join(f"{line}\n" for line in changed).encode("ascii")
    yield data[:-1]
    yield data + b"\n"
    yield data + b"end\n"
