"""Trees of documents, scripts, and a store that folds them, for the scripts alongside this file.

Shares nothing with the program: scripts are read by the grammar, and trees are folded whole.
"""

import re

NAME = re.compile(r"[A-Za-z0-9_-]{1,64}", re.ASCII)
TEXT = re.compile(r"[ -~\t\n]{0,4096}", re.ASCII)
CHILDREN, HEIGHT, COUNT = 256, 8, 1_000_000_000


# Trees: (text, {name: tree}, count, height). A dict is never changed once it stands in a tree.

def node(text, kids):
    count = 1 + sum(k[2] for k in kids.values())
    height = 1 + max(k[3] for k in kids.values()) if kids else 0
    return (text, kids, count, height)


EMPTY = node("", {})


class Refused(Exception):
    pass


def find(tree, path):
    for name in path:
        tree = tree[1].get(name)
        if tree is None:
            return None
    return tree


def change(tree, path, at_end):
    """The tree with what stands at the path changed; nodes on the way are made."""
    if not path:
        return at_end(tree)
    kids = tree[1]
    if path[0] not in kids and len(kids) >= CHILDREN:
        raise Refused("many")
    inner = change(kids.get(path[0], EMPTY), path[1:], at_end)
    return node(tree[0], {**kids, path[0]: inner})


def fits(tree):
    if tree[3] > HEIGHT:
        raise Refused("deep")
    if tree[2] > COUNT:
        raise Refused("big")
    return tree


def set_text(tree, path, text):
    return fits(change(tree, path, lambda t: node(text, t[1])))


def attach(tree, path, sub):
    return fits(change(tree, path, lambda t: sub))


def delete(tree, path):
    if find(tree, path) is None:
        raise Refused("none")
    if len(path) == 1:
        return node(tree[0], {n: t for n, t in tree[1].items() if n != path[0]})
    return node(tree[0], {**tree[1], path[0]: delete(tree[1][path[0]], path[1:])})


# Texts on one line: those of version 2 in quotes, and those of the history with two bytes escaped.

ESCAPES = {'"': '\\"', "\\": "\\\\", "\t": "\\t", "\n": "\\n"}
PLAIN = {"\t": "\\t", "\n": "\\n"}
MEANT = {'"': '"', "\\": "\\", "t": "\t", "n": "\n"}


def quoted(text):
    return '"' + "".join(ESCAPES.get(x, x) for x in text) + '"'


def plain(text):
    return "".join(PLAIN.get(x, x) for x in text)


def unquoted(word):
    assert len(word) > 1 and word[0] == word[-1] == '"', word
    text, inside = "", iter(word[1:-1])
    for x in inside:
        assert x != '"', word
        text += MEANT[next(inside)] if x == "\\" else x
    return text


# Commands of a script. A batch is one, with its edits in the place of a path.

def is_second(script):
    return script.split("\n")[0].removesuffix("\r") == "docs 2"


def read_line(line, text_of):
    word, _, rest = line.partition(" ")
    if word in ("put", "dput"):
        path, _, text = rest.partition(" ")
        return (word, path.split("/"), text_of(text))
    if word == "copy":
        one, other = rest.split(" ")
        return (word, one.split("/"), other.split("/"))
    if word == "old":
        back, path = rest.split(" ")
        return (word, path.split("/"), int(back))
    return (word, rest.split("/"), None)


def read(script):
    second = is_second(script)
    commands, batch = [], None
    for line in script.split("\n")[second:]:
        line = line.removesuffix("\r")
        if not line or line.startswith("#"):
            continue
        if second and line == "begin":
            batch = []
        elif second and line == "commit":
            commands.append(("batch", batch, None))
            batch = None
        else:
            whole = commands if batch is None else batch
            whole.append(read_line(line, unquoted if second else str))
    assert batch is None
    return commands


class Store:
    def __init__(self, clients, keep, versions):
        self.trees, self.keep, self.versions = [EMPTY], keep, versions
        self.drafts, self.lasts = [EMPTY] * clients, [0] * clients

    def edited(self, client, edit, tree):
        """The tree that one edit makes of a tree."""
        word, path, more = edit
        if word == "put":
            return set_text(tree, path, more)
        if word == "del":
            return delete(tree, path)
        if word == "publish":
            return attach(tree, path, self.drafts[client - 1])
        assert word == "copy", word
        sub = find(tree, path)
        if sub is None:
            raise Refused("none")
        return attach(tree, more, sub)

    def answer(self, client, command, place):
        """The reply of a client's next command, which read the version at its place, or made it."""
        word, path, more = command
        c = client - 1
        if word == "dput":
            try:
                self.drafts[c] = set_text(self.drafts[c], path, more)
                return f"drafted {self.lasts[c]}"
            except Refused as why:
                return f"{why} {self.lasts[c]}"
        if word == "dget":
            at = find(self.drafts[c], path)
            return f"none {self.lasts[c]}" if at is None else f"val {self.lasts[c]} {at[0]}"
        v = len(self.trees) - 1
        tree = self.trees[v]
        if word in ("put", "del", "copy", "publish", "batch"):
            made = tree
            try:
                for edit in path if word == "batch" else [command]:
                    made = self.edited(client, edit, made)
            except Refused as why:
                return f"{why} {v}"
            if v == self.versions:
                return f"worn {v}"
            self.trees.append(made)
            return f"ok {v + 1}"
        if word == "old":
            if more > v:
                return f"before {v}"
            if more >= self.keep:
                return f"gone {v} {v - more}"
            at = find(self.trees[v - more], path)
            return f"none {v - more}" if at is None else f"val {v - more} {at[0]}"
        at = find(tree, path)
        if at is None:
            return f"none {v}"
        if word == "get":
            return f"val {v} {at[0]}"
        if word == "size":
            return f"num {v} {at[2]}"
        if word == "list":
            return " ".join([f"names {v}", *sorted(at[1], key=lambda n: n.encode())])
        if word == "take":
            self.drafts[c] = at
            return f"drafted {v}"
        raise AssertionError(word)
