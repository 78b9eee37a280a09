#!/usr/bin/env python3
"""Immutable nodes in C over the library's private records, and the same work in other languages.

records.py [LIBRARY] [--rounds N] [--threads A,B] [--records A,B] [--only WORDS] [--into FOLDER]
           [--depth N] [--cells N] [--every A,B]
records.py [LIBRARY] --calls [--rounds N] [--into FOLDER]

One command, which builds all: examples/c/record_trees.c (GCBench with trees that are made from the
leaves up, 15.3 million nodes) and examples/c/record_map.c (a balanced tree that never changes, of
which each EVERY-th version is published) over LIBRARY, crates/heap_c/out/libheap_c.a if none is
given, with private heaps of so many RECORDS; the same over malloc and over bdwgc where gc.h is
there; and the programs of bench/timing in OCaml and in Go, where `ocamlopt` and `go` are. OCaml's
threads are processes. The programs take turns, and in each round ours, malloc and bdwgc have one
more run in which calls are timed.

The tables have the medians: the time by the clock and of all processors in s, the longest call in
ms of those that make a node or make room for nodes, the longest time until such a call was done
that had found no cell free, and the most memory in MB. For the map also an insertion and a look-up
in ns. All programs have to write the same.

--calls: what each call of records takes alone, by bench/timing/record_calls.c.
"""
import os, re, shutil, statistics, subprocess, sys
sys.dont_write_bytecode = True
from running import TIMING, TOP, in_turns, numbers_of, parser_of, run

EXAMPLES = f"{TOP}/examples/c"
STRICT = "-std=c11 -Wall -Wextra -Wpedantic -Werror -pthread -O2".split()
TIMED = {"malloc", "bdwgc", "records"}  # those whose calls can be timed


def kit():
    guide = subprocess.run(["rt", "doc"], capture_output=True, text=True, check=True).stdout
    return os.path.dirname(guide.strip()) + "/c/liblibc_c.a"


def has_bdwgc():
    tried = subprocess.run(["gcc", "-E", "-"], input=b"#include <gc.h>\n", capture_output=True)
    return tried.returncode == 0


def commands_of(kind, library, into):
    """How the programs of a kind are built, by their names: words that end with the program."""
    source = f"{EXAMPLES}/record_{kind}.c"
    found = {"records": ["gcc", *STRICT, source, library, kit(), "-o"]}
    if kind == "trees":
        found["malloc"] = ["gcc", *STRICT, "-DTREES_MALLOC", source, "-o"]
    if has_bdwgc():
        found["bdwgc"] = ["gcc", *STRICT, f"-D{kind.upper()}_BDWGC", source, "-lgc", "-o"]
    if shutil.which("ocamlopt"):
        copy = shutil.copy(f"{TIMING}/record_{kind}.ml", into)
        found["OCaml"] = ["ocamlopt", "-unsafe", "-inline", "200", "unix.cmxa", copy, "-o"]
    if shutil.which("go"):
        copy = shutil.copy(f"{TIMING}/record_{kind}.go", into)
        found["Go"] = ["env", "GO111MODULE=off", f"GOCACHE={into}/go_cache", "go", "build", "-o"]
        found["Go"] += [f"{into}/{kind}_Go", copy]
    return found


def build(kind, library, into):
    """The programs of a kind by their names."""
    os.makedirs(into, exist_ok=True)
    programs = {}
    for name, words in commands_of(kind, library, into).items():
        programs[name] = f"{into}/{kind}_{name}"
        more = [] if name == "Go" else [programs[name]]
        subprocess.run([*words, *more], check=True, cwd=into)
    return programs


def number(pattern, text):
    found = re.search(pattern, text)
    return float(found.group(1)) if found else None


def measured(words, clocked):
    """One run, and one more by the other words, if there are any, in which calls are timed."""
    def measure():
        ran = run(words)
        said = run(clocked).errors if clocked else ""
        return {"wall": ran.wall, "processor": ran.processor, "wrote": ran.output,
                "memory": sum(map(float, re.findall(r"memory (\d+) MB", ran.errors))),
                "adds": number(r"an insertion (\d+) ns", ran.errors),
                "finds": number(r"a look-up (\d+) ns", ran.errors),
                "call": number(r"longest call ([\d.]+) ms", said),
                "wait": number(r"those that wait ([\d.]+) ms", said)}
    return measure


def rows_of(programs, args, before, after):
    """What to measure, by the row's name and how many threads there are. The arguments of a program
    are the threads, those before, and for ours and those that are timed cells, records and those
    after."""
    rows = {}
    for name, program in programs.items():
        for records in args.records if name == "records" else [None]:
            row = f"{records:,} records" if records else name
            if args.only not in row:
                continue
            for threads in args.threads:
                words = [program, str(threads), *map(str, before)]
                more = [str(args.cells), str(records or 1)]
                timed = [*words, *more, *map(str, after), "clocks"] if name in TIMED else None
                rows[row, threads] = measured(words + more if records else words, timed)
    return rows


def middle(found, key, what, form):
    numbers = [one[key][what] for one in found if one[key][what] is not None]
    return f"{statistics.median(numbers):{form}}" if numbers else "-"


TIMES = [("wall / processor s", ("wall", "processor"), ".2f")]
EACH = [("an insertion / a look-up ns", ("adds", "finds"), ".0f")]
REST = [("longest call ms", ("call",), ".1f"), ("of those that wait ms", ("wait",), ".1f"),
        ("memory MB", ("memory",), ".0f")]


def table(title, rows, args, columns):
    """columns: of each its name, what is measured, and how that is written."""
    found = in_turns(rows, args.rounds)
    counts = "; ".join(map(str, args.threads))
    print(f"\n{title}; by {counts} threads, {args.rounds} rounds\n")
    print("| |" + "".join(f" {name} |" for name, _, _ in columns))
    print("|---|" + "---|" * len(columns))
    for row in dict.fromkeys(row for row, _ in rows):
        cells = ["; ".join(" / ".join(middle(found, (row, threads), what, form) for what in whats)
                           for threads in args.threads) for _, whats, form in columns]
        print(f"| {row} |" + "".join(f" {cell} |" for cell in cells), flush=True)
    wrote = {one[key]["wrote"] for one in found for key in one}
    if len(wrote) > 1:
        print(f"they wrote different things: {wrote}")
    return len(wrote) <= 1


def calls(library, args):
    os.makedirs(args.into, exist_ok=True)
    program = f"{args.into}/record_calls"
    subprocess.run(["gcc", *STRICT, f"{TIMING}/record_calls.c", library, kit(), "-o", program],
                   check=True)
    print(run([program, str(args.rounds)]).output.decode(), end="")


def main():
    p = parser_of(__doc__)
    p.add_argument("library", nargs="?", default=f"{TOP}/crates/heap_c/out/libheap_c.a")
    p.add_argument("--calls", action="store_true")
    p.add_argument("--rounds", type=int, default=3)
    p.add_argument("--threads", type=numbers_of, default=[1, 4])
    p.add_argument("--records", type=numbers_of, default=[8192, 32768, 131072, 262144])
    p.add_argument("--every", type=numbers_of, default=[1000, 10000, 100000])
    p.add_argument("--depth", type=int, default=18)
    p.add_argument("--cells", type=int, default=1048576)
    p.add_argument("--only", default="", help="rows whose names have these words")
    p.add_argument("--into", default="/tmp/docheap_records")
    args = p.parse_args()
    library = os.path.abspath(args.library)
    if args.calls:
        calls(library, args)
        return
    rows = rows_of(build("trees", library, args.into), args, [args.depth], [])
    good = table(f"Trees, the first of depth {args.depth}", rows, args, TIMES + REST)
    programs = build("map", library, args.into)
    for every in args.every:
        rows = rows_of(programs, args, [every], [8, 100000])
        good &= table(f"A map, each {every:,}th version published", rows, args,
                      TIMES + EACH + REST)
    sys.exit(0 if good else 1)


if __name__ == "__main__":
    main()
