#!/usr/bin/env python3
"""Refuses the program memory at each of its calls, one run a call.

    python3 check/out_of_memory.py PROGRAM [--stride 1]

It goes over more scripts and requests than `.ci/memory`, which is part of the gate. What is wanted
of each run stands in refusing.py, which both use. With `--stride 7` one call in seven is refused. A
thread that cannot be made is not out of memory: where the collector has none it serves after the
clients.
"""
import argparse
import sys
import tempfile

from refusing import COLLECTED, PASSED_OVER, PUBLISHED, TWO_PUTS, Refusing, passed_over, shown
from refusing import write_texts

ALL_COMMANDS = """put a hello
put a/b some text that is longer than a cell of twenty-one bytes
get a
list a
size a
copy a c/d
old 1 a
del a/b
dput x y
dget x
take c
publish e/f
"""

TEXTS = {
    "commands": ALL_COMMANDS,
    "many": "".join(f"put d/{i} text {i}\nget d/{i}\n" for i in range(60)),
    "drafts": "".join(f"dput n{i} t\ndget n{i}\n" for i in range(40)),
    "faulty": "put a b\nlook a\n",
    "two": TWO_PUTS,
    "published": PUBLISHED,
    "collected": COLLECTED,
}

SCHEDULE = "examples/schedules/an_unlinked_cell_is_swept"

# Runs with one client.
ALONE = ("one client", "many puts", "two puts", "a draft that is published",
         "drafts that are collected")


def requests(at):
    """Gives what is run: a name, and its words."""
    small = ["--cells", "2000", "--cycles", "1000000"]
    return [
        ("one client", ["run", *small, "--history", "--stats", at["commands"]]),
        ("many puts", ["run", *small, "--keep", "2", "--stats", at["many"]]),
        ("three clients", ["run", *small, at["drafts"], at["drafts"], at["drafts"]]),
        ("a faulty script", ["run", at["faulty"]]),
        ("generated", ["gen", "7", "1", "40"]),
        ("printed", ["gen", "7", "2", "20", "--print", "2"]),
        ("a schedule", ["replay", SCHEDULE]),
        ("two puts", ["run", at["two"]]),
        ("a draft that is published", ["run", at["published"]]),
        ("drafts that are collected", ["run", "--minor", "4096", at["collected"]]),
    ]


def main():
    parser = argparse.ArgumentParser()
    parser.add_argument("program")
    parser.add_argument("--stride", type=int, default=1)
    asked = parser.parse_args()
    wrong = 0
    with tempfile.TemporaryDirectory() as room:
        refusing = Refusing(asked.program, room)
        for name, words in requests(write_texts(room, TEXTS)):
            plain, calls = refusing.run_plainly(words)
            tried = refusing.refuse_each(words, plain, calls, asked.stride)
            right = [found for found in tried if found.is_right]
            without = sum(found.ended.status == 5 for found in right)
            for found in tried:
                if not found.is_right:
                    print(shown(name, found))
            wrong += len(tried) - len(right)
            print(f"{name}: {calls} calls; {len(right)} runs were right, {without} of them without "
                  f"memory, {len(right) - without} as if nothing was refused", flush=True)
            over = passed_over(tried, calls)
            if name in ALONE and len(over) > PASSED_OVER:
                wrong += 1
                print(f"{name}: passed over {over}")
    print(f"wrong: {wrong}")
    return wrong > 0


if __name__ == "__main__":
    sys.exit(main())
