#!/usr/bin/env python3
"""Makes the tables of docs/CRATES.md, between the two comments that name this script: each crate
with its question and what it stands on (crates.txt) and the promises that its clauses carry
(docs/THEOREMS.md), and each crate of tests with the first sentence of its lib.rt.

    tools/crate_tables.py [--check]

With --check it writes nothing, and says whether the page has other tables than it would make.
"""
import os
import re
import sys

TOP = os.path.dirname(os.path.dirname(os.path.abspath(__file__)))
PAGE = "docs/CRATES.md"
BEGIN, END = "<!-- made by tools/crate_tables.py -->", "<!-- up to here -->"
WHAT = {True: "| crate | what it shows | calls of |\n|---|---|---|",
        False: "| crate | the question that it answers | stands on | promises |\n|---|---|---|---|"}


def read(path):
    with open(f"{TOP}/{path}") as it:
        return it.read()


def layers():
    """The name of each layer, and its crates: name, question, the crates below."""
    found, question = [], ""
    for line in read("crates.txt").splitlines():
        head = re.match(r"# ([A-Z]+): ", line)
        if head:
            found.append((head[1].capitalize(), []))
        elif line.startswith("# "):
            question = line[2:]
        elif line:
            name, _, below = line.partition(":")
            found[-1][1].append((name.split()[0], question, below.split()))
            question = ""
    return found


def right_below(below, crates):
    """Those of the crates below on which none of the others stands."""
    return [one for one in below if not any(one in crates.get(other, ()) for other in below)]


def promises(crates):
    """By crate the headings of THEOREMS whose entry says that a clause of the crate carries it."""
    found = {}
    for entry in re.split(r"^### ", read("docs/THEOREMS.md"), flags=re.M)[1:]:
        carried = re.search(r"^\| \*Clause\* \|(.*)$", entry, re.M)
        for name in crates if carried else ():
            if re.search(rf"\b{name}\b", carried[1]):
                found.setdefault(name, []).append(entry.partition("\n")[0])
    if not found:
        sys.exit(f"{PAGE}: no entry of docs/THEOREMS.md says who carries it")
    return found


def link(heading):
    anchor = re.sub(r"[^\w\- ]", "", heading.lower()).replace(" ", "-")
    return f"[{heading}](THEOREMS.md#{anchor})"


def source(name):
    here = f"crates/{name}/src/"
    return here + ("lib.rt" if os.path.exists(f"{TOP}/{here}lib.rt") else "main.rt")


def shows(name):
    head = [line[3:].strip() for line in read(source(name)).splitlines() if line[:3] == "//!"]
    return re.match(r".*?\.(?= |$)", " ".join(head))[0]


def tables():
    found = layers()
    crates = {name: below for _, rows in found for name, _, below in rows}
    carried = promises(crates)
    lines = []
    for layer, rows in found:
        tests = layer == "Tests"
        lines += [f"## {layer}", "", WHAT[tests]]
        for name, question, below in rows:
            shown = f"[{name}](../{source(name)})"
            stands = ", ".join(right_below(below, crates)) or "none"
            cells = [shows(name), stands] if tests else [
                question, stands, "; ".join(map(link, carried.get(name, []))) or "none of its own"]
            lines.append(f"| {' | '.join([shown, *cells])} |")
        lines.append("")
    return "\n".join(lines)


def main():
    page = read(PAGE)
    before, begin, rest = page.partition(BEGIN)
    _, end, after = rest.partition(END)
    if not begin or not end:
        sys.exit(f"{PAGE}: the comments around the tables are not there")
    made = f"{before}{BEGIN}\n\n{tables()}\n{END}{after}"
    if "--check" in sys.argv[1:]:
        if made != page:
            sys.exit(f"{PAGE}: the tables are out of date: tools/crate_tables.py makes them")
    else:
        with open(f"{TOP}/{PAGE}", "w") as it:
            it.write(made)


if __name__ == "__main__":
    main()
