#!/usr/bin/env python3
"""Where the processor minutes of the gate go, by crate: its proofs, its tests, its must-fail edits.

    gate_minutes.py            runs `rt ci` in this folder, and prints the table after its log
    gate_minutes.py --log F    prints the table of a log that such a run has left
    gate_minutes.py --watch P  follows an `rt ci` that runs already, by its process number

The log of `rt ci` has no times, so the run's checks are looked at twice a second in /proc: which
crate and which of the three each one works for, and the processor time that it has taken so far, of
all its threads. What a check takes after the last look at it is missed, less than half a second
each. After the log stand lines `minutes CRATE KIND N`, which --log reads.
"""
import argparse
import os
import re
import subprocess
import sys
import time

TICKS = os.sysconf("SC_CLK_TCK")
KINDS = ["proof", "tests", "edits"]


def processes():
    """Gives each process's parent, processor seconds and words."""
    found = {}
    for entry in os.listdir("/proc"):
        if not entry.isdigit():
            continue
        try:
            with open(f"/proc/{entry}/stat", errors="replace") as file:
                fields = file.read().rpartition(")")[2].split()
            with open(f"/proc/{entry}/cmdline", errors="replace") as file:
                words = file.read().split("\0")
            folder = os.readlink(f"/proc/{entry}/cwd")
        except OSError:
            continue
        # user and system time, of the process itself
        seconds = (int(fields[11]) + int(fields[12])) / TICKS
        found[int(entry)] = int(fields[1]), seconds, words, folder, int(fields[19])
    return found


def kind_of(words, folder):
    if os.path.basename(folder).startswith("rt-edit"):
        return "edits"
    return "tests" if "--test" in words else "proof"


def look(top, seen):
    """Notes what each check below the process `top` has taken so far."""
    found = processes()

    def is_below(process):
        while process in found and process != top:
            process = found[process][0]
        return process == top

    for process, (_, seconds, words, folder, start) in found.items():
        if "--crate-name" in words and is_below(process):
            crate = words[words.index("--crate-name") + 1]
            seen[process, start] = crate, kind_of(words, folder), seconds
    return top in found


def table(seen):
    sums = {}
    for crate, kind, seconds in seen.values():
        sums.setdefault(crate, dict.fromkeys(KINDS, 0.0))[kind] += seconds / 60
    return sums


def show(sums):
    total = dict.fromkeys(KINDS, 0.0)
    print("| crate | proof | tests | edits | all |")
    print("|---|---|---|---|---|")
    for crate, minutes in sorted(sums.items(), key=lambda it: -sum(it[1].values())):
        row = [minutes[kind] for kind in KINDS]
        print(f"| {crate} | " + " | ".join(f"{it:.1f}" for it in [*row, sum(row)]) + " |")
        total = {kind: total[kind] + minutes[kind] for kind in KINDS}
    row = [total[kind] for kind in KINDS]
    print("| all | " + " | ".join(f"{it:.1f}" for it in [*row, sum(row)]) + " |")


def note(sums):
    for crate, minutes in sorted(sums.items()):
        for kind in KINDS:
            print(f"minutes {crate} {kind} {minutes[kind]:.3f}")


def read(file):
    sums = {}
    with open(file) as lines:
        for line in lines:
            found = re.fullmatch(r"minutes (\w+) (\w+) ([\d.]+)\n?", line)
            if found:
                crate, kind, minutes = found.groups()
                sums.setdefault(crate, dict.fromkeys(KINDS, 0.0))[kind] = float(minutes)
    return sums


def main():
    words = argparse.ArgumentParser(description=__doc__.splitlines()[0])
    words.add_argument("--log")
    words.add_argument("--watch", type=int)
    given = words.parse_args()
    if given.log:
        show(read(given.log))
        return 0
    seen, start, status = {}, time.monotonic(), 0
    if given.watch:
        while look(given.watch, seen):
            time.sleep(0.5)
    else:
        gate = subprocess.Popen(["rt", "ci"])
        while gate.poll() is None:
            look(gate.pid, seen)
            time.sleep(0.5)
        status = gate.returncode
    sums = table(seen)
    note(sums)
    show(sums)
    clock = (time.monotonic() - start) / 60
    print(f"{clock:.1f} minutes on the clock, {os.cpu_count()} processors")
    return status


if __name__ == "__main__":
    sys.exit(main())
