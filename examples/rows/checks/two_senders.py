#!/usr/bin/env python3
"""Reads the output of a `mail` of two senders that each send the numbers 0 to 499: the positions
are counted from 1, those of each sender rise, and each item is the line that was sent there.
"""
import sys

lines = sys.stdin.read().splitlines()
at = lines.index("received")
sent, sender, value, last = {}, 0, 0, 0
for line in lines[:at]:
    word, *rest = line.split(" ")
    if word == "sender":
        assert value == (500 if sender else 0)
        sender, value, last = sender + 1, 0, 0
        assert rest == [str(sender)]
        continue
    if word == "sent":
        position = int(rest[0])
        assert position > last and position not in sent
        sent[position], last = (sender, value), position
    else:
        assert line == "full"
    value += 1
assert sender == 2 and value == 500
items = [tuple(int(word) for word in line.split(" ")) for line in lines[at + 1:]]
assert items == [(position, *sent[position]) for position in range(1, len(sent) + 1)]
