"""What the scripts of this folder share: where the programs are, a run and what it took, scripts as
files, rounds that take turns, medians."""
import argparse
import os
import statistics
import subprocess
import sys
import tempfile
import threading
import time
from collections import namedtuple

BENCH = os.path.dirname(os.path.abspath(__file__))
TOP = os.path.dirname(BENCH)
TIMING = f"{BENCH}/timing"
# The program that the gate proved, where measuring programs are built, and a copy of the shared
# bench that has the programs of other languages.
PROVED = f"{TOP}/crates/docheap_cli/out/docheap_cli"
BUILT = "/tmp/docheap_timing"
SHARED = "/tmp/bench"

sys.path.insert(0, TIMING)

# Seconds of all processors and by the clock, the largest resident memory in bytes, and what it
# wrote: None where that was thrown away. The memory is never told below that of Python here, which
# starts the program: some 15 MB.
Ran = namedtuple("Ran", "processor wall memory output errors")


def run(words, limit=None, keep=True, strict=True, **named):
    """Runs a program; None if it has not ended within the limit. Another status than 0 ends the
    script, or, where it is not strict, gives None. `named` are variables of its environment."""
    with tempfile.TemporaryFile() as output, tempfile.TemporaryFile() as errors:
        began = time.perf_counter()
        child = subprocess.Popen(words, stdout=output if keep else subprocess.DEVNULL,
                                 stderr=errors, env={**os.environ, **named})
        late = threading.Event()
        timer = threading.Timer(limit or 0, lambda: (late.set(), child.kill()))
        if limit:
            timer.start()
        _, status, used = os.wait4(child.pid, 0)
        wall = time.perf_counter() - began
        child.returncode = os.waitstatus_to_exitcode(status)
        timer.cancel()
        if late.is_set():
            return None
        output.seek(0)
        errors.seek(0)
        wrote, said = output.read() if keep else None, errors.read().decode(errors="replace")
    if child.returncode and not strict:
        return None
    if child.returncode:
        sys.exit(f"{' '.join(words)}: status {child.returncode}: {said}")
    return Ran(used.ru_utime + used.ru_stime, wall, used.ru_maxrss * 1024, wrote, said)


def pinned(words, processor):
    """The words of the same run on one processor; None is for all."""
    return words if processor is None else ["taskset", "-c", str(processor), *words]


def totals_of(output):
    """The totals of a run with --stats, by their words."""
    lines = output.decode().splitlines()
    lines = lines[lines.index("stats") + 1:]
    return {word: int(number) for word, number in (line.split(" ") for line in lines)}


def text_of(lines):
    return "".join(f"{line}\n" for line in lines)


def files_with(folder, texts):
    """The files of these texts by name, in a folder."""
    files = []
    for name, text in texts:
        files.append(os.path.join(folder, name))
        with open(files[-1], "w", encoding="ascii") as it:
            it.write(text)
    return files


def files_of(folder, scripts):
    """A file for each client's script, which is a list of lines."""
    return files_with(folder, [(str(c), text_of(lines)) for c, lines in enumerate(scripts, 1)])


def in_turns(measures, rounds):
    """What each of the named measures gives in each round; the order turns from round to round."""
    names, found = list(measures), []
    for k in range(rounds):
        one = {name: measures[name]() for name in names[::1 if k % 2 else -1]}
        found.append({name: one[name] for name in names})
    return found


def spread(numbers, form=".2f"):
    """The median, and in brackets the least and the greatest."""
    if not numbers:
        return "-"
    least, greatest = (f"{one:{form}}" for one in (min(numbers), max(numbers)))
    return f"{statistics.median(numbers):{form}} ({least} to {greatest})"


def parser_of(doc, program=None):
    """A parser of words; `program` is the first of them, or `programs` if there may be several.
    Where it is left out the proved one is taken."""
    parser = argparse.ArgumentParser(description=doc,
                                     formatter_class=argparse.RawDescriptionHelpFormatter)
    if program == "program":
        parser.add_argument(program, nargs="?", default=PROVED)
    elif program:
        parser.add_argument(program, nargs="*", default=[PROVED])
    return parser


def numbers_of(word):
    """The numbers of a word with commas between them."""
    return [int(one) for one in word.split(",")]


def built(program, **how):
    """Builds a program without proof for measuring, and gives its path."""
    import build
    return build.build(TOP, BUILT, program, **how)
