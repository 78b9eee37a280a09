#!/usr/bin/env python3
"""Measures batches of 100 puts, and the same puts as commands of their own.

batches.py [PROGRAM] [--batches 200] [--rounds 15]

Both scripts have the same puts, in the same order, into 200 paths of one folder that stand before.
The two take turns, and so does a script without them. Printed are the middle times in milliseconds
(user and system), without that of the last script, and the ratio, the middle one of the rounds. A
batch makes one version of its puts, so the nodes on the way are copied into the shared heap once
and not a hundred times. The collector makes no cycle: a million cells are enough for 200 batches.
"""
import random, statistics, sys, tempfile
sys.dont_write_bytecode = True
from running import files_with, parser_of, run, text_of

PUTS, PATHS = 100, 200


def scripts(batches):
    draw = random.Random(1)
    laid = [f'put f/k{k:03} "first"' for k in range(PATHS)]
    puts = [[f'put f/k{draw.randrange(PATHS):03} "{draw.randrange(1000)}"' for _ in range(PUTS)]
            for _ in range(batches)]
    empty = ["docs 2", *laid]
    single = empty + [put for batch in puts for put in batch]
    whole = empty + [line for batch in puts for line in ("begin", *batch, "commit")]
    return [text_of(lines) for lines in (whole, single, empty)]


def main():
    p = parser_of(__doc__, "program")
    p.add_argument("--batches", type=int, default=200)
    p.add_argument("--rounds", type=int, default=15)
    args = p.parse_args()
    with tempfile.TemporaryDirectory() as folder:
        texts = zip(("batches", "puts", "neither"), scripts(args.batches))
        words = [args.program, "run", "--cycles", "0", "--cells", "1000000"]
        files = files_with(folder, texts)
        rounds = [[run([*words, file], keep=False).processor for file in files]
                  for _ in range(args.rounds)]
    batch = statistics.median(whole - none for whole, _, none in rounds) * 1000
    put = statistics.median(single - none for _, single, none in rounds) * 1000
    ratio = statistics.median((whole - none) / (single - none) for whole, single, none in rounds)
    print(f"{args.batches} batches of {PUTS} puts: {batch:.1f} ms; the same {args.batches * PUTS} "
          f"puts: {put:.1f} ms; ratio {ratio:.2f}")


if __name__ == "__main__":
    sys.exit(main())
