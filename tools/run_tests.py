#!/usr/bin/env python3
"""Runs the tests of all crates of tests, and counts them.

    run_tests.py [--note SOURCES]

Where `rt ci` has proved and built the tests of these very sources here, those programs are run:
.ci/run notes that by --note, with the checksum that ./docheap has of sources. Else they are
compiled without proof, by `rt try`, which looks at what a proof would have shown while they run. A
try reads and compiles all crates below, so the crates of tests are laid together, as modules of one
crate for each processor.
"""
import glob
import hashlib
import os
import re
import subprocess
import sys
import tempfile
from concurrent.futures import ThreadPoolExecutor

import build_unproved

TOP = build_unproved.TOP
SECONDS = "600"
NOTE = f"{TOP}/out/tests.sources"


def said_by(words, **how):
    """What a command says, and its status."""
    status, said, _ = build_unproved.run(words, stdout=subprocess.PIPE, stderr=subprocess.STDOUT,
                                         text=True, errors="replace", **how)
    return said, status


def crates():
    """By name the libraries of each crate."""
    with open(f"{TOP}/crates.txt") as it:
        found = re.findall(r"(?m)^(\w+)[^:\n#]*:(.*)$", it.read())
    return {name: words.split() for name, words in found}


def note_of(built, sources):
    """What is noted of the tests that stand here, if all do."""
    try:
        sums = [hashlib.sha256(open(it, "rb").read()).hexdigest() for it in built]
    except OSError:
        return None
    return "\n".join([*sums, sources.strip(), ""])


def are_proved(built):
    """Whether these very tests are noted, and were built of these sources."""
    if not os.path.isfile(NOTE):
        return False
    sources, _ = said_by(["bash", "-c", 'source "$1/docheap"; sources', "", TOP])
    with open(NOTE) as it:
        return it.read() == note_of(built, sources)


def lay_together(folder, names, below):
    """Makes one crate of these crates of tests, each as a module of it."""
    build_unproved.lay_out(TOP, folder)
    src = f"{folder}/crates/every_test/src"
    os.makedirs(src)
    with open(f"{src}/lib.rt", "w") as it:
        it.write("#![tactic(auto)]\n" + "".join(f"#[cfg(test)]\nmod {name};\n" for name in names))
    for name in names:
        for file in glob.glob(f"{TOP}/crates/{name}/src/**/*.rt", recursive=True):
            with open(file) as it:
                text = re.sub(r"(?m)^\s*#!?\[tactic\(.*\)\]\n", "", it.read())
            inner = os.path.relpath(file, f"{TOP}/crates/{name}/src")
            to = f"{src}/{name}.rt" if inner == "lib.rt" else f"{src}/{name}/{inner}"
            os.makedirs(os.path.dirname(to), exist_ok=True)
            with open(to, "w") as it:
                it.write(re.sub(r"\bcrate::", f"crate::{name}::", text))
    with open(f"{folder}/crates.txt", "a") as it:
        it.write("\nevery_test: " +
                 " ".join(dict.fromkeys(lib for name in names for lib in below[name])) + "\n")


def try_together(names, below):
    """What a try of the tests of these crates says, and its status."""
    with tempfile.TemporaryDirectory(prefix="docheap-tests-") as folder:
        build_unproved.kit_of_links(build_unproved.kit(), f"{folder}/kit")
        lay_together(folder, names, below)
        return said_by([f"{folder}/kit/bin/rt", "try", "--test", "--seconds", SECONDS],
                       cwd=f"{folder}/crates/every_test")


def lengths(name):
    files = glob.glob(f"{TOP}/crates/{name}/src/**/*.rt", recursive=True)
    return sum(os.path.getsize(it) for it in files)


def shares(names):
    """The crates in as many shares as there are processors, of about the same length."""
    made = [[] for _ in range(min(len(os.sched_getaffinity(0)), 4, len(names)))]
    for name in sorted(names, key=lengths, reverse=True):
        min(made, key=lambda it: sum(map(lengths, it))).append(name)
    return made


def main():
    is_note = len(sys.argv) == 3 and sys.argv[1] == "--note"
    if len(sys.argv) > 1 and not is_note:
        print(__doc__.strip())
        return 2
    below = crates()
    names = [it for it in below if it.endswith("_tests")]
    built = {it: f"{TOP}/crates/{it}/out/{it}_tests" for it in names}
    if is_note:
        os.makedirs(f"{TOP}/out", exist_ok=True)
        with open(NOTE, "w") as it:
            it.write(note_of(built.values(), sys.argv[2]) or "")
        return 0
    if are_proved(built.values()):
        print("the tests that rt ci proved and built")
        runner = f"{build_unproved.kit()}/bin/rattle-test"
        with tempfile.TemporaryDirectory() as room:
            ran = [(it, *said_by([runner, "--seconds", "60", built[it]], cwd=room))
                   for it in names]
    else:
        print("tests without proof", flush=True)
        with ThreadPoolExecutor(4) as pool:
            parts = shares(names)
            ran = [(" ".join(part), *said) for part, said in
                   zip(parts, pool.map(lambda it: try_together(it, below), parts))]
    passed = failed = 0
    for name, said, status in ran:
        good = len(re.findall(r"(?m)^test \S+ \.\.\. ok$", said))
        bad = re.findall(r"(?m)^test (\S+) \.\.\. (?!ok$).*", said)
        passed, failed = passed + good, failed + max(len(bad), int(status != 0 or not good))
        if status or bad or not good:
            print(f"{name}: status {status}\n{said}")
    print(f"tests of the crates: {passed} passed, {failed} failed")
    return 1 if failed or not passed else 0


if __name__ == "__main__":
    sys.exit(main())
