"""Scripts whose dump tells which history it is of, and what such a dump has to be, for
stress.py.

A dump comes without replies and without a history. So each command that commits is a batch, and
writes the number of the batch beside its other edits, and no client changes a node of another one,
though all write into the same folders. Then the tree tells how far each client had come, and what
it has to be is the same whatever the order: the first batches of each client, as many as it had
come to. Together they are as many as the version's number says.
"""
import re

from documents import EMPTY, NAME, TEXT, Store, find, node, quoted, read, unquoted

NODES, LAST = 10_000, 1_000_000
NUMBER = r"(0|[1-9][0-9]*)"
CLIENTS, FOLDERS, BELOW, OWN = 16, 38, 16, 13
# What the nodes of the client are called that lays most of the tree: the last one begins first.
BASE = f"c{CLIENTS}"


class Wrong(Exception):
    pass


def line_of_node(line, is_root):
    """The names of a node's path, and its text."""
    path, _, word = line.partition(" ")
    names = [] if is_root else path.split("/")
    if is_root and path != "." or not all(NAME.fullmatch(name) for name in names):
        raise Wrong(f"the path of {line!r}")
    try:
        text = unquoted(word)
    except (AssertionError, KeyError, StopIteration):
        raise Wrong(f"the text of {line!r}") from None
    if quoted(text) != word or not TEXT.fullmatch(text):
        raise Wrong(f"the text of {line!r}")
    return names, text


def tree_of(lines):
    """The tree of these lines, which have to stand in order, each behind its parent's."""
    # the nodes on the way to the last line: path, text, children
    way = []

    def close():
        path, text, kids = way.pop()
        if way:
            way[-1][2][path[-1]] = node(text, kids)
        return node(text, kids)

    before = None
    for line in lines:
        names, text = line_of_node(line, before is None)
        if before is not None and names <= before:
            raise Wrong(f"the order of {line!r}")
        before = names
        while way and way[-1][0] != names[:-1]:
            close()
        if names and not way:
            raise Wrong(f"no parent of {line!r}")
        way.append((names, text, {}))
    while len(way) > 1:
        close()
    return close()


def read_dump(data):
    """The number and the tree of a dump, which has to be one by every rule of its text."""
    if not data.endswith(b"\n"):
        raise Wrong("no line feed at the end")
    head, *lines = data[:-1].decode("latin-1").split("\n")
    number = re.fullmatch(rf"docs-dump 1 {NUMBER}", head, re.ASCII)
    if not number or int(number[1]) > LAST:
        raise Wrong(f"the head {head!r}")
    end = lines.pop() if lines else ""
    if end != f"end {len(lines)}" or not 0 < len(lines) <= NODES:
        raise Wrong(f"the end {end!r} behind {len(lines)} lines")
    return int(number[1]), tree_of(lines)


def base_edits(copies):
    """The edits that lay 256 nodes below one folder, and copy them below so many others. They are
    taken in small batches, since a large one would lose to clients that commit all the time."""
    yield from (f'put f0/{BASE}/k0/m{k} "node {k}"' for k in range(BELOW))
    yield from (f"copy f0/{BASE}/k0 f0/{BASE}/k{k}" for k in range(1, BELOW - 1))
    yield from (f"copy f0/{BASE} f{k}/{BASE}" for k in range(1, copies + 1))


def last_edits(r, base, copies, number):
    """Edits of the last client, which lays the base and then changes it."""
    def own():
        return f"f{r.randint(0, copies)}/{BASE}/k{r.randrange(BELOW - 1)}/m{r.randrange(BELOW)}"

    if base[5 * (number - 1):]:
        yield from base[5 * (number - 1):5 * number]
        return
    for _ in range(r.randint(1, 4)):
        is_copy = r.random() < 0.3
        yield f"copy {own()} {own()}" if is_copy else f"put {own()} {quoted(f'batch {number}')}"


def own_edits(r, client, folders, there, number):
    """Edits of another client, whose nodes are `there` before and behind them."""
    for _ in range(r.randint(1, 4)):
        one, other = (f"f{k}/c{client}" for k in r.sample(folders, 2))
        x = r.random()
        if x < 0.25 and one in there:
            there.discard(one)
            yield f"del {one}"
        elif x < 0.5 and one in there:
            there.add(other)
            yield f"copy {one} {other}"
        else:
            there.add(one)
            yield f"put {one} {quoted(f'batch {number}')}"


def reading(r):
    folder = f"f{r.randrange(FOLDERS)}"
    return r.choice((f"list {folder}", f"size {folder}", f"get {folder}/c3", f"take {folder}",
                     f"old {r.randrange(9)} {folder}/c2"))


def scripts_of(r, copies, most):
    """A script for each client, of so many batches at most, beside those that lay the base."""
    base = list(base_edits(copies))
    for client in range(1, CLIENTS + 1):
        folders, there = r.sample(range(FOLDERS), OWN), set()
        many = r.randint(most // 2, most) + (len(base) // 5 + 1 if client == CLIENTS else 0)
        lines = ["docs 2"]
        for number in range(1, many + 1):
            edits = (own_edits(r, client, folders, there, number) if client < CLIENTS
                     else last_edits(r, base, copies, number))
            lines += ["begin", f'put p/c{client} "{number}"', *edits, "commit"]
            lines += [reading(r) for _ in range(r.choice((0, 0, 1)))]
        yield "".join(f"{line}\n" for line in lines)


def wanted(scripts, tree):
    """The tree of the history that this one tells of, and how many versions that has made."""
    store, made, versions = Store(1, 1, LAST), EMPTY, 0
    for client, script in enumerate(scripts, 1):
        batches = [edits for word, edits, _ in read(script) if word == "batch"]
        mark = find(tree, ["p", f"c{client}"])
        told = mark[0] if mark else "0"
        if not re.fullmatch(NUMBER, told, re.ASCII) or int(told) > len(batches):
            raise Wrong(f"client {client} has made {told!r} of {len(batches)} batches")
        versions += int(told)
        for edits in batches[:int(told)]:
            for edit in edits:
                made = store.edited(1, edit, made)
    return made, versions


def where(one, other, path=""):
    """Where two trees differ first."""
    if one is None or other is None or one[0] != other[0]:
        return path or "."
    names = sorted({*one[1], *other[1]})
    below = next((name for name in names if one[1].get(name) != other[1].get(name)), None)
    return where(one[1].get(below), other[1].get(below), f"{path}/{below}")


def wrong_in(scripts, data, seen):
    """What is wrong with a dump of a run of these scripts, or None. It adds to what was seen."""
    try:
        version, tree = read_dump(data)
        made, versions = wanted(scripts, tree)
    except Wrong as why:
        return str(why)
    seen["versions"], seen["nodes"] = version, tree[2]
    seen["with all nodes"] = int(tree[2] > 9_700)
    if versions != version:
        return f"version {version}, and the clients have made {versions}"
    if made != tree:
        return f"another tree at {where(made, tree)}"
    return None


def loaded(data):
    """What loading this dump has to answer."""
    version, tree = read_dump(data)
    return f"version {version}\nnodes {tree[2]}\nheight {tree[3]}\n"
