#!/usr/bin/env python3
"""Prints rows of one client on the heap of the smallest size, in the format of the other files here,
and the dump of a script whose commands are too many to be stored."""
import json


def row(words, text, wanted):
    print(json.dumps([words, text, 0, wanted]))


def note(*text):
    print("\n" + "\n".join(f"# {line}" for line in text))


note("A text that needs more cells than the heap has, one for each 21 of its bytes, is refused, and",
     "what was claimed for it is freed again.")
row("run --cells 64 --keep 1 f", f"put a x\nput b {'t' * 2000}\nput a y\nget a\nget b\n",
    "client 1\nok 1\nfull 1\nok 2\nval 2 y\nnone 2\n")

note("Five hundred edits of a draft at one name make more private records than there is room for.",
     "The five of the draft age, and none is copied into the shared heap.")
row("run --cells 64 --keep 1 --minor 4096 --cycles 0 --stats f", "dput k t\n" * 500,
    "client 1\n" + "drafted 0\n" * 500
    + "stats\ncommands 500\nversions 0\nclaimed 0\nfreed 0\nused 3\nfree 61\ncycles 0\n")

note("The dump of a script is that of the store after it, and is loaded again.")
row(["dump f", "load before"], "put a x\n" * 1000, "version 1000\nnodes 2\nheight 1\n")
