#!/usr/bin/env python3
"""What a run takes on one processor, and the same run on all of them.

one_processor.py [PROGRAM..] [--rounds N] [--limit SECONDS] [--processor K]

Each script has 250 commands with texts of 2,000 bytes, on a heap of 8,500 cells that keeps one
version: drafts over 250 paths and over 80, which outgrow the heap, so that about half of the
replies are `full`; drafts over 30 paths, which fit; puts of four clients, which make versions
at the same time. The fifth has 900 commands of four kinds over 40 paths. A claim that waits for
the collector must let it run, and on one processor each time that it does so costs a part of a
cycle; so that is what this shows. The program runs by `taskset -c K` and without. A line has the
processor and the wall time of each, the least over the rounds, the cycles of the last round, and
the ratio of the processor times. A run that has not ended within the limit is late. The aim: at
most five times the processor time.
"""
import os, random, sys, tempfile
sys.dont_write_bytecode = True
from running import files_with, parser_of, pinned, run, text_of, totals_of

DRAFTS, BYTES = 250, 2000
LETTERS = "abcdefghijklmnopqrstuvwxyz ABCDEFGH0123456789"
KINDS = ["put", "dput", "publish", "copy"]

# of each client: the commands, over so many paths, and how many
SCRIPTS = {
    "drafts over 250 paths": [(["dput"], 250, DRAFTS)],
    "drafts over 80 paths": [(["dput"], 80, DRAFTS)],
    "drafts over 30 paths": [(["dput"], 30, DRAFTS)],
    "puts of four clients": [(["put"], 5, DRAFTS)] * 4,
    "900 of four kinds": [(KINDS, 40, 900)],
}


def line(some, kind, path, paths):
    if kind in ("put", "dput"):
        return f"{kind} n{path} " + "".join(some.choice(LETTERS) for _ in range(BYTES))
    return f"copy n{path} n{some.randrange(paths)}" if kind == "copy" else f"{kind} n{path}"


def script(kinds, paths, count, seed):
    some = random.Random(seed)
    lines = (line(some, some.choice(kinds), k % paths, paths) for k in range(count))
    return text_of(lines)


def write(folder, name):
    return files_with(folder, [(f"{name.replace(' ', '_')}_{k}", script(kinds, paths, count, k))
                               for k, (kinds, paths, count) in enumerate(SCRIPTS[name])])


def least(program, files, args, processor):
    """The least processor and wall seconds, and the last run's cycles; none where one is late."""
    words = [program, "run", "--cells", "8500", "--keep", "1", "--stats", *files]
    rounds = [run(pinned(words, processor), args.limit) for _ in range(args.rounds)]
    if None in rounds:
        return None
    return (min(r.processor for r in rounds), min(r.wall for r in rounds),
            totals_of(rounds[-1].output)["cycles"])


def said(times):
    return f"{times[0]:.2f} | {times[1]:.2f} | {times[2]}" if times else "late | late | -"


def main():
    p = parser_of(__doc__, "programs")
    p.add_argument("--rounds", type=int, default=3)
    p.add_argument("--limit", type=float, default=120)
    p.add_argument("--processor", type=int, default=1)
    args = p.parse_args()
    print("| program | script | all: processor, s | wall, s | cycles "
          "| one: processor, s | wall, s | cycles | ratio |")
    print("|---|---|---|---|---|---|---|---|---|")
    with tempfile.TemporaryDirectory(prefix="docheap-one-processor-") as folder:
        for name in SCRIPTS:
            files = write(folder, name)
            for program in args.programs:
                every = least(program, files, args, None)
                one = least(program, files, args, args.processor)
                ratio = f"{one[0] / every[0]:.1f}" if one and every else "-"
                print(f"| {os.path.basename(program)} | {name} | {said(every)} | {said(one)} "
                      f"| {ratio} |", flush=True)


if __name__ == "__main__":
    main()
