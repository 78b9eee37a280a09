#!/usr/bin/env python3
"""Measures scripts of drafts, by programs that take turns: what they claim and what they take.

drafts.py [PROGRAM ..] [--rounds 15] [--minor 4096,8192] [--clients 1,4]

`workload` is the drafts of baselines.py, 10,000 commands: 80 of 100 edit the draft at one of 200
names, and each twentieth publishes it or takes one that is published. `edits` are 10,000 edits of
the draft at 20 names, and `names` the same at 200, which nobody publishes. `batches` are 20 batches
of 500 puts at 200 names next to a draft of 100.

Each client has the script once. Printed are, for each script and each program, the cells claimed
for a command, the cycles, and the middle times in milliseconds: wall time, and user and system
time. Then the ratios to the first program, each taken within a round.
"""
import os, random, statistics, sys, tempfile
sys.dont_write_bytecode = True
from baselines import drafts
from running import files_with, numbers_of, parser_of, run, text_of, totals_of


def edits(names):
    draw = random.Random(3)
    return [f"dput k{draw.randrange(names)} draft text {draw.randrange(10000)}"
            for _ in range(10_000)]


def batches():
    draw = random.Random(4)
    lines = ["docs 2", *(f'dput k{k} "draft text"' for k in range(100))]
    for _ in range(20):
        puts = [f'put f/n{draw.randrange(200)} "{draw.randrange(10000)}"' for _ in range(500)]
        lines += ["begin", *puts, "commit"]
    return lines


SCRIPTS = {"workload": lambda: drafts()[0], "edits": lambda: edits(20),
           "names": lambda: edits(200), "batches": batches}


def totals(words):
    """The cells claimed for each command, and the cycles."""
    told = totals_of(run([*words, "--stats"]).output)
    return told["claimed"] / told["commands"], told["cycles"]


def timed(words):
    """Wall time, and user and system time, in milliseconds."""
    ran = run(words, keep=False)
    return ran.wall * 1000, ran.processor * 1000


def main():
    p = parser_of(__doc__, "programs")
    p.add_argument("--rounds", type=int, default=15)
    p.add_argument("--minor", default="4096,8192")
    p.add_argument("--clients", default="1,4")
    args = p.parse_args()
    print("load", *(f"{load:.1f}" for load in os.getloadavg()))
    with tempfile.TemporaryDirectory() as folder:
        texts = [(name, text_of(made())) for name, made in SCRIPTS.items()]
        files = dict(zip(SCRIPTS, files_with(folder, texts)))
        for clients in numbers_of(args.clients):
            for minor in args.minor.split(","):
                for name, file in files.items():
                    runs = [[one, "run", "--minor", minor, *[file] * clients]
                            for one in args.programs]
                    rounds = [[timed(words) for words in runs] for _ in range(args.rounds)]
                    for k, words in enumerate(runs):
                        claimed, cycles = totals(words)
                        middle = [statistics.median(turn[k][i] for turn in rounds) for i in (0, 1)]
                        ratio = [statistics.median(turn[k][i] / turn[0][i] for turn in rounds)
                                 for i in (0, 1)]
                        print(f"{clients} clients, minor {minor}, {name:<9} "
                              f"{os.path.basename(words[0]):<10} claimed {claimed:.2f} a command, "
                              f"{cycles} cycles, wall {middle[0]:.1f}, cpu {middle[1]:.1f}; ratios "
                              f"{ratio[0]:.2f}, {ratio[1]:.2f}", flush=True)


if __name__ == "__main__":
    sys.exit(main())
