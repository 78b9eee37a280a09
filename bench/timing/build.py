#!/usr/bin/env python3
"""Builds heap_timing, gate_wait, mail_timing, docheap or another program of the repository, for
measuring, and plain_heap and the programs in Go and Java with heap_timing.

build.py [--into FOLDER] [--program docheap_cli] [--hints N] [--count | --gaps]
         [--repository FOLDER]

A measuring program in Rattle is no crate of the repository, and so nothing of it is proved. It is
laid with copies of the crates and built as tools/build_unproved.py builds any program, which
tells how. That is near to what the gate builds, and not the same: figures of a program that the
gate has built go before. Nothing is written below the repository.
"""
import argparse, os, re, shutil, subprocess, sys

HERE = os.path.dirname(os.path.abspath(__file__))
TOP = os.path.dirname(os.path.dirname(HERE))
sys.path.insert(0, f"{TOP}/tools")

import build_unproved

RUST = "--edition 2021 -C opt-level=3 -C codegen-units=1 -C panic=abort -C lto=fat".split()
# The measuring programs, with the crates that each stands on.
MEASURING = {
    "heap_timing": "mutator_seat collector cell_heap free_cells mutator_events heap_table "
                   "heap_rule trails dlg_core core_machine cell_words atomic_table crossbeam_queue",
    "gate_wait": "store_run cmd_text doc_model outside",
    "mail_timing": "mail_run",
}
# Their further modules.
PARTS = {"heap_timing": ["field_writes"]}
# What --count counts: the calls of these functions.
COUNTED = {
    "commits tried": "client_heap::publishing::commit_shared",
    "claims": "mutator_seat::mutator::Mutator::claim::",
    "waits": "mutator_seat::mutator::Mutator::wait_for_cell",
    "goes over all cells": "mutator_seat::mutator::Mutator::try_all",
    "tries of a cell": "mutator_seat::mutator::Mutator::claim_once",
    "hints taken": "free_cells::hints::Hints::take",
}
# What such a build tells at its head, and the file in C that is told.
TOLD = {
    "count": (list(COUNTED.values()), "counts.c"),
    "gaps": (["client_threads::answering::answer_next"], "gaps.c"),
}


def lay_more(folder, program, hints):
    """Lays a measuring program with the copies of the crates, and makes a trial's change."""
    if program in MEASURING:
        os.makedirs(f"{folder}/crates/{program}/src")
        shutil.copy(f"{HERE}/{program}.rt.txt", f"{folder}/crates/{program}/src/main.rt")
        for part in PARTS.get(program, ()):
            shutil.copy(f"{HERE}/{part}.rt.txt", f"{folder}/crates/{program}/src/{part}.rt")
        with open(f"{folder}/crates.txt", "a") as it:
            it.write(f"\n{program}: {MEASURING[program]}\n")
    if hints is not None:
        # a trial: so many hints are tried in the place of one
        file = f"{folder}/crates/mutator_seat/src/claiming.rt"
        with open(file) as it:
            text = it.read()
        old = re.search(r"        match hints\.take\(rt\) \{\n.*?\n        \}\n", text, re.S)
        new = f"""        for _try in 0..{hints}u32 {{
            match hints.take(rt) {{
                Some(cell) => match self.try_within(cell) {{
                    Some(place) => return Some(place),
                    None => (),
                }},
                None => return None,
            }}
        }}
        None
"""
        with open(file, "w") as it:
            it.write(text[:old.start()] + new + text[old.end():])


def with_calls(text, functions):
    """The module with a call at the head of each of these functions."""
    kept, counter = [], None
    for line in text.splitlines(True):
        kept.append(line)
        if line.startswith("define"):
            named = [k for k, name in enumerate(functions) if f'@"{name}' in line]
            counter = named[0] if named else None
        elif line.startswith("start:") and counter is not None:
            kept.append(f"  call void @count_event(i64 {counter})\n")
            counter = None
    return "".join(kept) + "declare void @count_event(i64)\n"


def build(repository, into, program, hints=None, name=None, told=None):
    """Builds the program of this name into the folder, and gives its path."""
    os.makedirs(into, exist_ok=True)
    changed, objects = None, []
    if told:
        functions, file = TOLD[told]
        changed, objects = (lambda text: with_calls(text, functions)), [f"{into}/{told}.o"]
        subprocess.run(["cc", "-O2", "-fPIE", "-c", f"{HERE}/{file}", "-o", *objects], check=True)
    return build_unproved.build(repository, f"{into}/{name or program}", program,
                                lambda folder: lay_more(folder, program, hints), changed, objects)


def build_plain(into):
    """Builds plain_heap into the folder, and gives its path."""
    os.makedirs(into, exist_ok=True)
    to = f"{into}/plain_heap"
    subprocess.run(["rustc", *RUST, "-o", to, f"{HERE}/plain_heap.rs"], check=True)
    return to


def build_others(into):
    """Builds the programs that write fields in Go and in Java, where these are installed."""
    os.makedirs(into, exist_ok=True)
    if shutil.which("go"):
        subprocess.run(["go", "build", "-o", f"{into}/writes_go", f"{HERE}/writes.go"], check=True)
    if shutil.which("javac"):
        subprocess.run(["javac", "-d", f"{into}/java", f"{HERE}/Writes.java"], check=True)


def main():
    p = argparse.ArgumentParser()
    p.add_argument("--into", default="/tmp/docheap_timing")
    p.add_argument("--repository", default=TOP)
    p.add_argument("--program", default="heap_timing")
    p.add_argument("--hints", type=int, help="a trial: a claim tries so many hints, not one")
    p.add_argument("--count", dest="told", action="store_const", const="count",
                   help="count calls (profile.py reads them)")
    p.add_argument("--gaps", dest="told", action="store_const", const="gaps",
                   help="look at the clock before each command (gaps.py reads it)")
    p.add_argument("--name", help="of the program that is built")
    args = p.parse_args()
    print(build(args.repository, args.into, args.program, args.hints, args.name, args.told))
    if args.program == "heap_timing":
        print(build_plain(args.into))
        build_others(args.into)


if __name__ == "__main__":
    main()
