#!/usr/bin/env python3
"""Finds how many cells a run needs so that no reply is `full`.

    python3 bench/smallest_heap.py [PROGRAM] [--runs 3] [--commands 400]

Each client puts texts to names of a folder of its own, in turn. For each number of clients, of
versions kept and of bytes of a text the smallest `--cells` is searched, to one part in sixteen, at
which none of so many runs has a reply `full`. Next to it stand the cells that are used at the
close of a run on a large heap (`used`: the latest tree, the versions kept and the anchor), and the
cells that one edit claims (claims by versions). What is more than `used` is room for garbage that
is not freed yet.
"""
import sys
import tempfile

sys.dont_write_bytecode = True
from running import files_with, parser_of, run, totals_of

LEAST, MOST = 64, 4_194_304
NAMES = 32


def script(client, commands, size):
    text = "t" * size
    return "".join(f"put f{client}/n{i % NAMES:02} {text}\n" for i in range(commands))


def count(program, cells, keep, paths):
    """Gives how many replies are `full`, and the totals."""
    words = ["run", "--cells", str(cells), "--keep", str(keep), "--stats", *paths]
    output = run([program, *words]).output
    return sum(line.startswith(b"full ") for line in output.splitlines()), totals_of(output)


def is_enough(program, cells, keep, paths, runs):
    return all(count(program, cells, keep, paths)[0] == 0 for _ in range(runs))


def smallest(program, keep, paths, runs, used):
    low, high = max(LEAST, used // 2), max(LEAST, used)
    while not is_enough(program, high, keep, paths, runs):
        low, high = high, high * 2
        if high > MOST:
            return None
    while high - low > max(1, high // 16):
        middle = (low + high) // 2
        if is_enough(program, middle, keep, paths, runs):
            high = middle
        else:
            low = middle
    return high


def main():
    parser = parser_of(__doc__, "program")
    parser.add_argument("--runs", type=int, default=3)
    parser.add_argument("--commands", type=int, default=400)
    asked = parser.parse_args()
    print("clients  keep  text  used at the close  claims an edit  smallest  by used", flush=True)
    for clients in (1, 4, 16):
        for keep in (1, 8, 100):
            for size in (10, 1000):
                with tempfile.TemporaryDirectory() as room:
                    paths = files_with(room, [(str(c), script(c, asked.commands, size))
                                              for c in range(clients)])
                    full, totals = count(asked.program, 2_000_000, keep, paths)
                    if full:
                        sys.exit("a large heap was full")
                    used, edit = totals["used"], totals["claimed"] / totals["versions"]
                    found = smallest(asked.program, keep, paths, asked.runs, used)
                    print(f"{clients:7} {keep:5} {size:5} {used:18} {edit:15.1f} {found:9}"
                          f" {found / used:8.2f}", flush=True)


if __name__ == "__main__":
    main()
