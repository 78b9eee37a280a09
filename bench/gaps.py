#!/usr/bin/env python3
"""The longest time between two commands of one client.

gaps.py [--program FILE] [--rounds 5]

One command. A build that looks at the clock before each command is made without proof, unless one
is given (`timing/build.py --program docheap_cli --gaps`). It runs the scripts of baselines.py with
100,000 commands and those of four clients. From one look to the next a client answers a command,
and handshakes, so each such time has a command in it; a claim that waits for the collector too. A
line of the table has the least and the middle one of the rounds' longest times, by the clock and by
the thread's own processor time, how many were above 0.1 ms and above 1 ms in the middle, and after
which command the longest of each round came. The last line is of a thread that only looks at the
clock, 100,000 times and long enough: its gaps are the machine's own.
"""
import os, statistics, struct, subprocess, sys, tempfile
sys.dont_write_bytecode = True
import baselines
from running import TIMING, built, files_of, parser_of, run

CLIENT = struct.Struct("8Q")
# How often the thread that only looks at the clock does so: some 0.2 s.
LOOKS = 500_000


def scripts(program):
    yield "one client, 100,000, mostly gets of a folder of 199", baselines.mostly_gets()
    yield "one client, 100,000, 2 puts to 3 gets, 200 paths", baselines.two_to_three(100_000)
    yield "one client, 100,000, 2 puts to 3 gets, 10,000 paths", baselines.many_paths(100_000)
    yield "4 clients, 20,000, generated", baselines.generated([program], 4, 5_000)


def gaps(words, folder):
    """Of one run: commands, longest in us by the clock and by own time, above 0.1 ms and 1 ms, and
    the command after which the longest came."""
    at = f"{folder}/gaps"
    if os.path.exists(at):
        os.remove(at)
    run(words, keep=False, GAPS=at)
    with open(at, "rb") as it:
        held = it.read()
    clients = [CLIENT.unpack_from(held, CLIENT.size * (k + 1)) for k in range(held[0])]
    longest = max(clients, key=lambda c: c[3])
    return (sum(c[2] for c in clients), longest[3] / 1000, max(c[4] for c in clients) / 1000,
            sum(c[5] for c in clients), sum(c[6] for c in clients), longest[7])


def looks(folder):
    """A program that only looks at the clock."""
    to = f"{folder}/looks"
    subprocess.run(["cc", "-O2", f"-DLOOKS={LOOKS}", f"{TIMING}/gaps.c", "-o", to], check=True)
    return [to]


def main():
    p = parser_of(__doc__)
    p.add_argument("--program")
    p.add_argument("--rounds", type=int, default=5)
    args = p.parse_args()
    program = args.program or built("docheap_cli", name="docheap_gaps", told="gaps")
    with tempfile.TemporaryDirectory() as folder:
        of = [(name, [program, "run", *files_of(tempfile.mkdtemp(dir=folder), texts)])
              for name, texts in scripts(program)]
        of.append(("only looks at the clock, 0.2 s", looks(folder)))
        rounds = [[gaps(words, folder) for _, words in of] for _ in range(args.rounds)]
    print("| client | longest, us: least, middle | own processor time, us | above 0.1 ms | 1 ms "
          "| longest after command |")
    print("|---|---|---|---|---|---|")
    for (name, _), runs in zip(of, zip(*rounds)):
        runs = list(zip(*runs))
        middle = [statistics.median(run) for run in runs]
        print(f"| {name} | {min(runs[1]):.0f}, {middle[1]:.0f} | {min(runs[2]):.0f}, "
              f"{middle[2]:.0f} | {middle[3]:.0f} | {middle[4]:.0f} | "
              f"{', '.join(map(str, runs[5]))} |")


if __name__ == "__main__":
    main()
