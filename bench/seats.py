#!/usr/bin/env python3
"""What the calls of a heap's seats cost, and the same operations on bare atomic words in Rust.

seats.py [--rounds N] [--cells N] [--batches N] [--threads 1,4] [--programs FOLDER]

One command: it builds the two programs of bench/timing, unless a folder is given that has them, runs
them in turns, and prints the table. Fill is look, claim, five fills and seal of a cell; sweep is
look, six wipes, free and advance. Each thread has a heap of its own. A round gives the median batch
of each program; the table has the medians over the rounds, and the ratio within rounds.
"""
import statistics, sys
sys.dont_write_bytecode = True
from running import BUILT, built, in_turns, numbers_of, parser_of, run
import build


def batches_of(program, threads, cells, batches):
    words = [program, "seats", str(threads), str(cells), str(batches)]
    rows = [tuple(map(int, line.split())) for line in run(words).output.splitlines()]
    counted = rows[batches::batches + 1]
    if any(row != (batches * (cells - 1),) * 2 for row in counted):
        sys.exit(f"{program}: not every cell was claimed and freed: {counted}")
    times = [row for k, row in enumerate(rows) if k % (batches + 1) != batches]
    return {part: [row[k] / (cells - 1) for row in times]
            for k, part in enumerate(("fill", "sweep"))}


def main():
    p = parser_of(__doc__)
    p.add_argument("--rounds", type=int, default=15)
    p.add_argument("--cells", type=int, default=4096)
    p.add_argument("--batches", type=int, default=100)
    p.add_argument("--threads", default="1,4")
    p.add_argument("--programs")
    args = p.parse_args()
    if not args.programs:
        args.programs = BUILT
        built("heap_timing")
        build.build_plain(BUILT)
    programs = {"bare words": f"{args.programs}/plain_heap",
                "the seats": f"{args.programs}/heap_timing"}
    print(f"{args.cells} cells, {args.batches} batches, {args.rounds} rounds; nanoseconds a cell: the "
          "median of the rounds' median batches, in brackets the least batch of all")
    print()
    print("| | threads | bare words | the seats | ratio, median of rounds | ratio of the least |")
    print("|---|---|---|---|---|---|")
    for threads in numbers_of(args.threads):
        measures = {name: lambda program=program: batches_of(program, threads, args.cells,
                                                             args.batches)
                    for name, program in programs.items()}
        rounds = in_turns(measures, args.rounds)
        for part in ("fill", "sweep"):
            bare, ours = ([(statistics.median(one[name][part]), min(one[name][part]))
                           for one in rounds] for name in ("bare words", "the seats"))
            cell = lambda it: (f"{statistics.median(m for m, _ in it):.1f} "
                               f"({min(l for _, l in it):.1f})")
            ratio = statistics.median(o[0] / b[0] for b, o in zip(bare, ours))
            least = min(l for _, l in ours) / min(l for _, l in bare)
            print(f"| {part} | {threads} | {cell(bare)} | {cell(ours)} | {ratio:.2f} "
                  f"| {least:.2f} |",
                  flush=True)
    words = lambda cells, mutators: 1 + mutators + 7 * cells
    print()
    print("Words that a heap takes, by its layout "
          "(one for the control, one a mutator, seven a cell):")
    for cells, mutators in ((args.cells, 1), (65_536, 64)):
        many = words(cells, mutators)
        print(f"{cells} cells, {mutators} mutators: {many} words, {8 * many} bytes, "
              f"{8 * (many - 1 - mutators) / cells:.0f} a cell")


if __name__ == "__main__":
    main()
