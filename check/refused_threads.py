#!/usr/bin/env python3
"""Refuses the program threads, and checks what it answers all the same.

    python3 check/refused_threads.py PROGRAM [--runs 5] [--seconds 120]

A library that is loaded before the C library (refuse_threads.c, built by gcc) refuses the thread of
a given number, from the first to the fifth, or that one and all after it, as a limit on the threads
of a process does. A client that gets no thread runs on the one that is there, and a collector that
gets none serves after the clients; so the status is 0, and the output is held to the store of
stress.py. Heaps are small, so clients without a collector find them full, which is lawful then.

A run has so many seconds to end. The first that does not is told, and is the last: the others would
wait as long. The last line is `N passed, N failed`.
"""
import argparse
import os
import random
import subprocess
import sys
import tempfile

import stress
from preloading import library_of

CELLS, KEEP, VERSIONS, CYCLES = 512, 2, 1_000_000, 4_000_000_000
SECONDS = 120


class NoEnd(Exception):
    """A run has not ended in its time."""


def fault_of(program, library, room, clients, number, rest, seed, seconds, seen):
    """Runs so many clients without these threads, and gives what is wrong then, or nothing."""
    draw = random.Random(f"{clients} {number} {rest} {seed}")
    scripts = stress.scripts_of(draw, clients, 60, "abc")
    paths = []
    for client, script in enumerate(scripts, 1):
        paths.append(os.path.join(room, str(client)))
        with open(paths[-1], "w", encoding="ascii") as file:
            file.write(script)
    words = ["run", "--cells", str(CELLS), "--minor", "4096", "--keep", str(KEEP), "--history",
             "--stats", *paths]
    named = {"LD_PRELOAD": library, "REFUSE_THREAD": str(number), "REFUSE_REST": rest}
    try:
        ran = subprocess.run([program, *words], capture_output=True, timeout=seconds,
                             env={**os.environ, **named})
    except subprocess.TimeoutExpired:
        raise NoEnd(f"no end in {seconds} seconds") from None
    if ran.returncode:
        return f"status {ran.returncode}"
    return stress.check(scripts, ran.stdout.decode(), CELLS, KEEP, VERSIONS, CYCLES, seen)


def refuse_each(program, runs, seconds):
    """Has so many runs for each refusal: how many passed, and how many did not."""
    passed = failed = 0
    with tempfile.TemporaryDirectory() as room:
        library = library_of("refuse_threads", room)
        for clients in (1, 2, 4):
            for number in range(1, 6):
                for rest in ("0", "1"):
                    which = f"thread {number}" + (" and all after it" if rest == "1" else "")
                    seen = {}
                    for seed in range(runs):
                        try:
                            told = fault_of(program, library, room, clients, number, rest, seed,
                                            seconds, seen)
                        except NoEnd as why:
                            print(f"{clients} clients, {which} refused: {why}")
                            return passed, failed + 1
                        if told:
                            print(f"{clients} clients, {which} refused: {told}")
                        failed += bool(told)
                        passed += not told
                    print(f"{clients} clients, {which} refused: {runs} runs; {stress.told(seen)}",
                          flush=True)
    return passed, failed


def main():
    parser = argparse.ArgumentParser()
    parser.add_argument("program")
    parser.add_argument("--runs", type=int, default=5)
    parser.add_argument("--seconds", type=int, default=SECONDS)
    asked = parser.parse_args()
    passed, failed = refuse_each(os.path.abspath(asked.program), asked.runs, asked.seconds)
    print(f"{passed} passed, {failed} failed")
    return failed > 0 or passed == 0


if __name__ == "__main__":
    sys.exit(main())
