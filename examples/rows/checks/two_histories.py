#!/usr/bin/env python3
"""Reads the output of `run --history` of two clients of 500 puts each: the versions 1 to 1,000 are
made once each, in this order, each client's in the order of its script, and each client was told
the versions that the history has.
"""
import sys

text = sys.stdin.read()
front, _, history = text.partition("history\n")
assert front.startswith("client 1\n") and text.endswith("\n")
first, _, second = front[len("client 1\n"):].partition("client 2\n")
replies = {1: first.splitlines(), 2: second.splitlines()}
assert [len(it) for it in replies.values()] == [500, 500]
entries = [line.split() for line in history.splitlines()]
assert len(entries) == 1000
numbers = {1: 0, 2: 0}
for place, (shown, client, number, *reply) in enumerate(entries, 1):
    client = int(client)
    numbers[client] += 1
    assert int(shown) == place and int(number) == numbers[client]
    assert reply == ["ok", str(place)]
    assert replies[client][numbers[client] - 1] == f"ok {place}"
