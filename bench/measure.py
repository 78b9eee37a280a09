#!/usr/bin/env python3
"""Measures a built docheap on generated scripts, and other programs that take the same words.

measure.py [PROGRAM ..] [--mix puts] [--lines 10000,100000] [--rounds 15]

Each PROGRAM is run as `PROGRAM run FILE`. The script is drawn from a fixed seed. The mix `puts` is
half puts over 10,000 paths (50 folders of 200 names) and half gets of them. The mix `all` has
five kinds of command over 32 names of one folder: four puts to one each of get, dput, del and copy.
The mix `copies`, which fits a file up to 96,000 lines, makes copies of copies, so that the tree
counts nearly a thousand million nodes, and takes them away again.

Some machines change their speed from second to second, so least times of two programs, or of two
lengths, compare one speed with another. Here everything that is compared takes turns: in each round
each program runs the longest script once, and three times before it and three times after it each
shorter one, whose middle time counts. Printed are the middle times of the rounds in seconds (user
and system) and the largest resident memory in megabytes; then the ratios that the limits speak of,
each taken within a round: the middle one, and in brackets what is left without the least and the
greatest fifth. Outputs that differ end the run with status 1.
"""
import hashlib
import os
import random
import statistics
import sys
import tempfile

sys.dont_write_bytecode = True
from running import numbers_of, parser_of, run

DIGITS = "0123456789abcdefghijklmnopqrstuvwxyzABCDEFGHIJKLMNOPQRSTUVWXYZ-_"


# Names and texts are short, since a file of 100,000 lines may have 1,048,576 bytes.
def puts(lines, draw):
    out = []
    for _ in range(lines):
        page = draw.randrange(200)
        path = f"{DIGITS[draw.randrange(50)]}/{DIGITS[page // 64]}{DIGITS[page % 64]}"
        out.append(f"put {path} {draw.randrange(10)}\n" if draw.random() < 0.5 else f"get {path}\n")
    return out


def all_kinds(lines, draw):
    out = []
    for _ in range(lines):
        kind, name, text = draw.randrange(8), DIGITS[draw.randrange(32)], draw.randrange(10)
        verbs = [f"put c/{name} {text}\n"] * 4 + [f"get c/{name}\n", f"dput {name} {text}\n", f"del c/{name}\n", f"copy c/{name} c/{name}m\n"]
        out.append(verbs[kind])
    return out


def copies(lines, draw):
    turn = ["put a x\n"]
    for _ in range(4):
        turn += [f"copy a b/{DIGITS[i]}\n" for i in range(64)] + ["copy b a\n", "del b\n"]
    turn += [f"copy a b/{DIGITS[i]}\n" for i in range(57)] + ["del a\n", "del b\n"]
    return [turn[i % len(turn)] for i in range(lines)]


MIXES = {"puts": puts, "all": all_kinds, "copies": copies}


def script(mix, lines, seed=1):
    return "".join(MIXES[mix](lines, random.Random(seed))).encode()


def run_once(program, name):
    """The output's digest, processor seconds and peak megabytes of one run."""
    ran = run([program, "run", name])
    return hashlib.sha256(ran.output).hexdigest(), ran.processor, ran.memory / (1 << 20)


def middle(ratios):
    """The middle ratio, and the range without the least and the greatest fifth."""
    rising = sorted(ratios)
    cut = len(rising) // 5
    return f"{statistics.median(rising):.2f} ({rising[cut]:.2f} to {rising[-1 - cut]:.2f})"


def one_round(program, names, seen):
    """The processor seconds of a program on each script, by the script's length."""
    longest = max(names)
    runs = {length: [] for length in names}
    for length in [*sorted(names)[:-1]] * 3 + [longest] + [*sorted(names)[:-1]] * 3:
        digest, seconds, memory = run_once(program, names[length])
        if seen["digest"].setdefault(length, digest) != digest:
            sys.exit(f"the outputs on {length} lines differ")
        seen["memory"][program, length] = max(memory, seen["memory"].get((program, length), 0))
        runs[length].append(seconds)
    return {length: statistics.median(times) for length, times in runs.items()}


def main():
    words = parser_of(__doc__, "programs")
    words.add_argument("--mix", choices=sorted(MIXES), default="puts")
    words.add_argument("--lines", default="10000,100000")
    words.add_argument("--rounds", type=int, default=15)
    args = words.parse_args()
    lengths = sorted(set(numbers_of(args.lines)))
    seen = {"digest": {}, "memory": {}}
    rounds = []
    with tempfile.TemporaryDirectory() as folder:
        names = {length: os.path.join(folder, f"script{length}") for length in lengths}
        for length, name in names.items():
            with open(name, "wb") as file:
                file.write(script(args.mix, length))
        for _ in range(args.rounds):
            rounds.append({program: one_round(program, names, seen) for program in args.programs})
    for length in lengths:
        for program in args.programs:
            print(f"{length:>7} lines  {os.path.basename(program):<14} "
                  f"{statistics.median(turn[program][length] for turn in rounds):.4f} s  "
                  f"{seen['memory'][program, length]:.0f} MB")
    first = args.programs[0]
    for length in lengths:
        for other in args.programs[1:]:
            print(f"{length:>7} lines  {os.path.basename(first)} to {os.path.basename(other)}: "
                  f"{middle([turn[first][length] / turn[other][length] for turn in rounds])}")
    if len(lengths) > 1:
        for program in args.programs:
            print(f"{os.path.basename(program)}: {lengths[-1] // lengths[0]} times the lines take "
                  f"{middle([turn[program][lengths[-1]] / turn[program][lengths[0]] for turn in rounds])} times the processor time")


if __name__ == "__main__":
    main()
