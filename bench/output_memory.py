#!/usr/bin/env python3
"""Measures how the memory of a run follows its output.

    python3 bench/output_memory.py [PROGRAM ..] [--part N]

Two scripts with far more output than input: `lists` lists a folder of 256 names of 64 bytes again
and again (1.66 GB of output), `texts` gets a text of 4,096 bytes (410 MB). Each program runs each
script once, into a pipe that is read and counted. Printed are the bytes of the output, the largest
resident memory of the process, and their ratio. Every reply stays in its client's log till the
run is over, and all lines are made before the first is written, so each byte of the output stands
twice at least. `--part N` runs the Nth part of the lines.
"""
import os
import subprocess
import sys
import tempfile

sys.dont_write_bytecode = True
from running import files_with, parser_of

COMMANDS = 100_000


def lists(part):
    names = [f"{i:03}".ljust(64, "n") for i in range(256)]
    puts = [f"put d/{name}\n" for name in names]
    return "".join(puts) + "list d\n" * ((COMMANDS - len(puts)) // part)


def texts(part):
    return f"put d {'t' * 4096}\n" + "get d\n" * ((COMMANDS - 1) // part)


def run(program, path):
    """Gives the bytes of the output, and the largest resident memory in bytes."""
    with subprocess.Popen([program, "run", path], stdout=subprocess.PIPE) as process:
        size = 0
        while piece := process.stdout.read(1 << 20):
            size += len(piece)
        _, status, used = os.wait4(process.pid, 0)
        process.returncode = os.waitstatus_to_exitcode(status)
    if process.returncode != 0:
        sys.exit(f"{program} ended with {process.returncode}")
    return size, used.ru_maxrss * 1024


def main():
    parser = parser_of(__doc__, "programs")
    parser.add_argument("--part", type=int, default=1)
    asked = parser.parse_args()
    with tempfile.TemporaryDirectory() as room:
        for name, made in (("lists", lists), ("texts", texts)):
            path, = files_with(room, [(name, made(asked.part))])
            for program in asked.programs:
                size, peak = run(program, path)
                print(f"{name:6} {size / 1e6:8.1f} MB of output, {peak / 1e6:8.1f} MB resident,"
                      f" {peak / size:.2f} times: {program}", flush=True)


if __name__ == "__main__":
    main()
