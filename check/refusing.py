"""Runs the program with memory refused to it; .ci/memory and out_of_memory.py use it.

A library that is loaded before the C library (refuse_memory.c, built by gcc) counts the calls that
ask for memory, of the program and of the C library itself, as for a thread's stack, and refuses the
one of a given number, or that one and all after it. Each run has to have the status and output of a
run that is refused nothing, or status 5 with the beginning of that output and the text `docheap:
out of memory`. The text may be missing where it was refused its own memory.

What differs from run to run (which client was faster, how many cycles there were) is left out: the
scripts have a client each, or do not meet, and cycles are not compared.

A client that is refused memory makes no further try. So of a run with one client no more single
calls are passed over than have to do with no command: one for the block that the program frees at
once, one for room for the client's whole log, and two of the collector's thread.
"""
import os
import re
import subprocess
from collections import namedtuple
from concurrent.futures import ThreadPoolExecutor

from preloading import library_of

TOP = os.path.dirname(os.path.dirname(os.path.abspath(__file__)))
SECONDS = 60
PLAIN_RUNS = 3
PASSED_OVER = 4

Ended = namedtuple("Ended", "status output errors")
Found = namedtuple("Found", "at is_rest ended is_right")

TWO_PUTS = "put a x\nput a y\nget a\nold 1 a\n"
PUBLISHED = "put a x\ntake a\ndput k y\npublish b\nget b/k\nget b\ndget z\n"
COLLECTED = "".join(f"dput n{i % 200} t\n" for i in range(1, 5001)) + "publish p\nsize p\n"


def write_texts(room, texts):
    """Gives the path of each text by its name."""
    for name, text in texts.items():
        with open(os.path.join(room, name), "w") as file:
            file.write(text)
    return {name: os.path.join(room, name) for name in texts}


class Refusing:
    """A program, with the library and a folder for what it counts."""

    def __init__(self, program, room):
        self.program = os.path.abspath(program)
        self.library = library_of("refuse_memory", room)
        self.counts = os.path.join(room, "counts")

    def run(self, words, **named):
        """What a run came to; None where it did not end."""
        try:
            ran = subprocess.run([self.program, *words], capture_output=True, timeout=SECONDS,
                                 cwd=TOP, env={**os.environ, "LD_PRELOAD": self.library, **named})
        except subprocess.TimeoutExpired:
            return None
        return Ended(ran.returncode, ran.stdout, ran.stderr)

    def run_plainly(self, words):
        """What a run comes to that is refused nothing, and the most calls of some such runs."""
        calls = 0
        for _ in range(PLAIN_RUNS):
            ended = self.run(words, REFUSE_COUNTS=self.counts)
            with open(self.counts, "rb") as file:
                calls = max(calls, int.from_bytes(file.read(), "little"))
        return ended, calls

    def refuse_each(self, words, plain, calls, stride=1):
        """What each run came to: of one refused call, and of that one and all after it."""
        asked = [(at, rest) for rest in (False, True) for at in range(1, calls + 3, stride)]

        def one(it):
            at, is_rest = it
            ended = self.run(words, REFUSE_AT=str(at), REFUSE_REST=str(int(is_rest)))
            return Found(at, is_rest, ended, is_right(plain, ended, is_rest))

        with ThreadPoolExecutor(os.cpu_count()) as pool:
            return list(pool.map(one, asked))


def without_cycles(output):
    return re.sub(rb"\ncycles \d+\n", b"\ncycles\n", output)


def is_right(plain, ended, is_rest):
    if ended is None:
        return False
    if ended.status == 5:
        texts = [b"docheap: out of memory\n"] + [b""] * is_rest
        return plain.output.startswith(ended.output) and ended.errors in texts
    same = without_cycles(ended.output) == without_cycles(plain.output)
    return same and ended.status == plain.status and ended.errors in (plain.errors, b"")


def passed_over(tried, calls):
    """The single calls whose refusal changed nothing."""
    return [found.at for found in tried
            if not found.is_rest and found.at <= calls and found.ended and found.ended.status == 0]


def shown(name, found):
    """One line on a run that was not right."""
    which = "and all after it" if found.is_rest else "alone"
    if found.ended is None:
        return f"{name}: call {found.at} refused {which}: it did not end in {SECONDS} s"
    status, output, errors = found.ended
    return f"{name}: call {found.at} refused {which}: {status}, {output[-80:]!r}, {errors!r}"
