#!/usr/bin/env python3
"""Which definitions a clause rests on: the ones that it names, those that these name, and so on.

    definitions.py CRATE FUNCTION [CLAUSE[.FIELD]..] [--names] [--depth N]

FUNCTION is the name of a function of the crate, or TYPE::NAME where several types have one; a
clause is named as it stands after `ensures`, and with none all of them are taken; of one that is a
record FIELD is a fact. Printed is a line for each file of definitions, in the order in which one
comes to it from the clause down; with --names also the definitions in it. Left out are the
toolchain's own, and the types of the code, which stand in src/. What is read is the text of
crates/, so this needs no `rt`.
"""
import argparse
import os
import re
import sys
from collections import OrderedDict
from glob import glob

TOP = os.path.dirname(os.path.dirname(os.path.abspath(__file__)))
USE = re.compile(r"^\s*(?:ghost )?use ([\w.]+?)(?:\.\{([^}]*)\})?(?: as (\w+))?;?\s*$")
START = re.compile(r"^(?:abbrev |unfoldable )*(?:pub )?(?:abbrev |unfoldable )*(record |data )?"
                   r"([^\W\d][\w']*)(?= )")
NAME = re.compile(r"[^\W\d][\w']*(?:\.[^\W\d][\w']*)*")


def read(path):
    with open(path) as it:
        return it.read()


def uses(text):
    """What the `use` lines bring in: a name's module and its own name there; modules by alias."""
    names, aliases = {}, {}
    for line in text.splitlines():
        m = USE.match(line)
        if not m:
            continue
        module, listed, alias = m.groups()
        if alias:
            aliases[alias] = module
        elif listed is None:
            aliases[module.rsplit(".", 1)[1]] = module
        for one in (listed or "").split(","):
            own, _, here = one.strip().partition(" as ")
            if own:
                names[here or own] = (module, own)
    return names, aliases


class File:
    """A file of specs/, with its definitions as text."""

    def __init__(self, crate, path):
        self.crate, self.path = crate, path
        text = "\n".join(line.split(" -- ")[0] if not line.lstrip().startswith("--") else ""
                         for line in read(path).splitlines())
        self.names, self.aliases = uses(text)
        self.parts = OrderedDict()
        base, name = 0, None
        for line in text.splitlines():
            indent = len(line) - len(line.lstrip())
            if not line.strip() or USE.match(line):
                continue
            if line.startswith("module "):
                base, name = 2, None
                continue
            if indent == 0:
                base = 0
            m = START.match(line[base:]) if indent == base else None
            if m and (re.match(r"(?:abbrev|unfoldable|pub|record|data) ", line[base:])):
                name = m.group(2)
                self.parts.setdefault(name, "")
            if name:
                self.parts[name] += line + "\n"


class Tree:
    def __init__(self):
        self.files = {}

    def at(self, module):
        """The file of a module of specs/ of this repository, or none."""
        m = re.match(r"Rattle\.(\w+)\.specs\.([\w.]+)$", module)
        if not m or m.group(2).startswith("declared"):
            return None
        crate, rest = m.groups()
        path = f"{TOP}/crates/{crate}/specs/{rest.replace('.', '/')}.antt"
        if path not in self.files:
            self.files[path] = File(crate, path) if os.path.isfile(path) else None
        return self.files[path]

    def named(self, text, names, aliases, file):
        """The definitions of this repository that a text names, in their order."""
        for word in NAME.findall(text):
            head, _, tail = word.partition(".")
            if file and head in file.parts:
                yield file, head
            elif head in names:
                there = self.at(names[head][0])
                if there and names[head][1] in there.parts:
                    yield there, names[head][1]
            elif head in aliases and tail:
                there = self.at(aliases[head])
                own = tail.split(".")[0]
                if there and own in there.parts:
                    yield there, own

    def field(self, text, names, aliases, field):
        """Of the records that a text names the one with this field, and the text of the field."""
        for file, name in self.named(text, names, aliases, None):
            m = re.search(rf"^ +(?:pub )?{re.escape(field)} : (.*?)"
                          r"(?=^ +(?:pub )?[^\W\d]\w* : |\Z)", file.parts[name], re.M | re.S)
            if m:
                return file, name, m.group(1)
        sys.exit(f"definitions.py: no such field: {field}")

    def below(self, text, names, aliases, file, depth):
        """All that a text rests on, in the order in which one comes to it."""
        found = OrderedDict()
        layer = list(self.named(text, names, aliases, file))
        for _step in range(depth):
            fresh = [one for one in OrderedDict.fromkeys(layer) if one not in found]
            if not fresh:
                break
            found.update((one, True) for one in fresh)
            layer = [one for file, name in fresh
                     for one in self.named(file.parts[name], file.names, file.aliases, file)]
        return list(found)


def balanced(text, at):
    """The text between the brace at this place and the one that ends it."""
    deep = 0
    for end in range(at, len(text)):
        deep += {"{": 1, "}": -1}.get(text[end], 0)
        if deep == 0:
            return text[at + 1:end]
    return text[at + 1:]


def contract(crate, function, clauses):
    """The clauses of a function, and what its file brings in."""
    of, _, name = function.rpartition("::")
    for path in sorted(glob(f"{TOP}/crates/{crate}/src/**/*.rt", recursive=True)):
        text = read(path)
        for m in re.finditer(rf"\bfn {re.escape(name)}\b", text):
            owner = re.findall(r"^impl(?:<[^\n]*?>)? (?:[\w:<>, ]+ for )?(\w+)", text[:m.start()],
                               re.M)
            if of and of != os.path.basename(path)[:-3] and (not owner or owner[-1] != of):
                continue
            rest = text[m.start():]
            stop = re.search(r"\n\s*(?:pub(?:\([a-z]+\))? )?(?:unsafe )?fn |\n\{|\n    \{|\n\}", rest[3:])
            head = rest[:stop.start() + 3] if stop else rest
            found = []
            for c in re.finditer(r"\bensures\s+(\w+)?\s*\{", head):
                if not clauses or c.group(1) in clauses:
                    found.append(balanced(head, c.end() - 1))
            if found:
                return "\n".join(found), uses(text), path
    sys.exit(f"definitions.py: no such clause of {function} in {crate}")


def main():
    p = argparse.ArgumentParser()
    p.add_argument("crate")
    p.add_argument("function")
    p.add_argument("clauses", nargs="*")
    p.add_argument("--names", action="store_true", help="also the definitions, file by file")
    p.add_argument("--depth", type=int, default=99, help="go down no further than so many steps")
    args = p.parse_args()
    tree, found = Tree(), OrderedDict()
    for one in args.clauses or [""]:
        clause, _, field = one.partition(".")
        text, (names, aliases), path = contract(args.crate, args.function,
                                                [clause] if clause else [])
        if field:
            file, name, fact = tree.field(text, names, aliases, field)
            found[file, name] = True
            below = tree.below(fact, file.names, file.aliases, file, args.depth)
            found.update((it, True) for it in below)
            text = re.sub(rf"\b{name}\b", "", text)
        found.update((it, True) for it in tree.below(text, names, aliases, None, args.depth))
    print(os.path.relpath(path, TOP))
    by_file = OrderedDict()
    for file, name in found:
        by_file.setdefault(file, []).append(name)
    for file, ones in by_file.items():
        shown = os.path.relpath(file.path, f"{TOP}/crates")[:-5].replace("/specs/", " specs/")
        print(f"{shown}: {', '.join(ones)}" if args.names else shown)


if __name__ == "__main__":
    main()
