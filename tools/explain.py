#!/usr/bin/env python3
"""Explains a fault of the program to whoever sits at a terminal; ./docheap calls it.

explain.py SAID WORDS..

SAID is the program's own line, WORDS are those that it was given. Of a faulty file: its name, the
faulty line, and what docs/FORMATS.md says of that kind of fault. Of a file that cannot be read: its
name and why. Of faulty words: which is wrong, and what it may be.
"""
import os
import re
import sys

TOP = os.path.dirname(os.path.dirname(os.path.abspath(__file__)))
# The heading of docs/FORMATS.md below which a file's kinds of faults stand.
HEADINGS = {"mail": "senders", "replay": "schedule", "load": "dump", "census": "heap"}
# As in crates/command_line: numbers with their ranges, flags, and how many other words.
ROOM = {"cells": (64, 4_194_304), "minor": (4_096, 262_144), "keep": (1, 100),
        "versions": (1, 1_000_000), "cycles": (0, 4_000_000_000)}
OPTIONS = {"run": ROOM, "image": ROOM, "mail": {it: ROOM[it] for it in ("cells", "cycles")},
           "gen": {"print": (1, 64)}}
FLAGS = {"run": ["history", "stats"]}
NUMBERS = {"START": (0, 2_147_483_647), "CLIENTS": (1, 64), "COMMANDS": (1, 10_000)}
MANY = ("run", "image", "dump", "mail")


def read(words):
    """What is wrong with the words, if it is found, and the words that are no options."""
    first, *words = words
    options, flags = OPTIONS.get(first, {}), FLAGS.get(first, [])
    others, seen, found = [], set(), {}
    while words:
        word = words.pop(0)
        if word == "--":
            others += words
            break
        if not word.startswith("-") or word == "-":
            others.append(word)
            continue
        name, equals, value = word[2:].partition("=") if word.startswith("--") else ("", "", "")
        if name not in options and name not in flags:
            known = " ".join(f"--{it}" for it in [*options, *flags]) or "no options"
            return f"{first} does not know {word}; it has {known}", others
        if name in seen:
            return f"--{name} stands twice", others
        seen.add(name)
        if name in flags:
            if equals:
                return f"--{name} takes no value", others
            continue
        if not equals:
            if not words:
                return f"--{name} lacks its number", others
            value = words.pop(0)
        least, most = options[name]
        if not is_within(value, least, most):
            return f"--{name} is a number from {least} to {most}, and not {value}", others
        found[name] = int(value)
    if first == "gen":
        return wrong_numbers(others, found), others
    if not others:
        return f"{first} needs a FILE", others
    if first not in MANY and len(others) > 1:
        return f"{first} takes one FILE, and {others[1]} is another", others
    return None, others


def is_within(word, least, most):
    return re.fullmatch(r"[0-9]+", word) is not None and least <= int(word) <= most


def wrong_numbers(others, found):
    for (name, (least, most)), word in zip(NUMBERS.items(), others):
        if not is_within(word, least, most):
            return f"{name} is a number from {least} to {most}, and not {word}"
    if len(others) != len(NUMBERS):
        return f"gen takes the numbers {' '.join(NUMBERS)}, and {len(others)} words stand there"
    if found.get("print", 0) > int(others[1]):
        return f"--print is a number of a client, from 1 to CLIENTS, which is {others[1]}"
    return None


def of_kind(first, kind):
    """What docs/FORMATS.md says of a line (or a cell) with this fault."""
    try:
        with open(f"{TOP}/docs/FORMATS.md") as it:
            sections = re.split(r"(?m)^## ", it.read())
    except OSError:
        return None
    wanted = HEADINGS.get(first, "scripts")
    sections.sort(key=lambda it: wanted not in it.partition("\n")[0].lower())
    for section in sections:
        for what, rows in re.findall(r"(?m)^\| kind \| (.*?) \|\n((?:\|.*\n)*)", section):
            row = re.search(rf"(?m)^\| `{kind}` \| (.*) \|$", rows)
            if row:
                return f"{kind}: {what} {row[1].replace('`', '')}"
    return None


def line_of(name, number):
    """The line of the file with this number, with what a terminal cannot show written out."""
    try:
        with open(name, "rb") as it:
            lines = it.read(1 << 20).split(b"\n")
    except OSError:
        return None
    if number > len(lines):
        return None
    text = lines[number - 1].decode("latin-1")[:200]
    return "".join(it if " " <= it <= "~" else f"\\x{ord(it):02x}" for it in text)


def explain(said, words):
    at = re.fullmatch(r"docheap: file (\d+): (?:line (\d+): (\w+)|.*)", said)
    wrong, files = read(words)
    if said == "docheap: usage":
        return [wrong, "docs/FORMATS.md, 'Words of the program', has all words and ranges"]
    if not at or int(at[1]) > len(files):
        return []
    name = files[int(at[1]) - 1]
    if at[2]:
        text = line_of(name, int(at[2]))
        return [f"{name}, line {at[2]}" + (f": {text}" if text is not None else ""),
                of_kind(words[0], at[3])]
    try:
        with open(name, "rb") as it:
            it.read(1)
    except OSError as error:
        return [f"{name}: {error.strerror}"]
    return [name]


def main():
    said, *words = sys.argv[1:]
    if words:
        for line in filter(None, explain(said.splitlines()[-1] if said else "", words)):
            print(f"  {line}".encode("utf-8", "backslashreplace").decode())


main()
