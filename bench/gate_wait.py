#!/usr/bin/env python3
"""What a client costs that waits at a gate, on one processor and on all of them.

gate_wait.py [--commands 20000] [--cells 8500] [--rounds 5] [--processor K] [--into FOLDER]

The program's own gate is always open, so timing/gate_wait.rt.txt is built in its place: two clients
put a text to one path so many times each, and a gate holds the second at its first command, until
the first one has the reply to its last one. Who waits asks the gate, answers handshakes and lets
others run, again and again, and on one processor each such turn is time that the first client and
the collector do not have; so that is what this shows. The first row is the same run with a gate
that holds nobody. The program runs by `taskset -c K` and without. A line has the processor and the
wall time of each, the least over the rounds, how often the gate sent the second client away and the
cycles in the last round, and the ratio of the processor times, one to all. The aim: at most five
times the processor time. `--program FILE` takes one that is built already.
"""
import sys
sys.dont_write_bytecode = True
from running import BUILT, TOP, parser_of, pinned, run
import build


def least(program, args, behind, processor):
    """The least processor and wall seconds, and what the last run tells; none where one is late."""
    words = pinned([program, str(args.commands), str(args.cells), str(behind)], processor)
    rounds = [run(words, args.limit) for _ in range(args.rounds)]
    if None in rounds:
        return None
    return (min(r.processor for r in rounds), min(r.wall for r in rounds),
            rounds[-1].output.decode().split())


def said(times):
    if not times:
        return "late | late | - | -"
    return f"{times[0]:.2f} | {times[1]:.2f} | {times[2][0]} | {times[2][1]}"


def main():
    p = parser_of(__doc__)
    p.add_argument("--commands", type=int, default=20_000)
    p.add_argument("--cells", type=int, default=8_500)
    p.add_argument("--rounds", type=int, default=5)
    p.add_argument("--limit", type=float, default=120)
    p.add_argument("--processor", type=int, default=1)
    p.add_argument("--program")
    p.add_argument("--into", default=BUILT)
    args = p.parse_args()
    program = args.program or build.build(TOP, args.into, "gate_wait")
    each = "processor, s | wall, s | sent away | cycles"
    print(f"| second client | all: {each} | one: {each} | ratio |")
    print("|---" * 10 + "|")
    for name, behind in (("goes at once", 0), ("is held till the first is through", args.commands)):
        every = least(program, args, behind, None)
        one = least(program, args, behind, args.processor)
        ratio = f"{one[0] / every[0]:.1f}" if one and every else "-"
        print(f"| {name} | {said(every)} | {said(one)} | {ratio} |", flush=True)


if __name__ == "__main__":
    main()
