#!/usr/bin/env python3
"""Draws a schedule of events as an SVG: time from left to right, threads and cells under it.

    schedule.py SCHEDULE [--docheap PROGRAM] [--columns N] > PICTURE.svg

Every colour and field in the picture is the proved program's: after each event the script puts a
`show` of every cell, and has `docheap replay` run that (replays.py). A line `plain` is drawn as the
events that it stands for. Stage and status follow from the events that were taken: a post is the
stage, an answer takes its mutator to the next status. Where an event cannot happen the picture ends
with it. More than N events stand in several rows, one under the other. PROGRAM is the proved one
where none is given, or else the one without proof; nothing is built here. `play` makes a page of
HTML that plays the same schedule.
"""
import argparse
import os
import sys

from drawing import LETTER, LINE, colours, dot, legend, letter, rect, style, svg, text, title
from drawing import wide_of
from replays import Replay, built_program, events_of, lines_of

REQUESTED = {"idle": "async", "sync1": "sync1", "clear": "sync1", "sync2": "sync2",
             "trace": "async", "sweep": "async"}
NEXT = {"async": "sync1", "sync1": "sync2", "sync2": "async"}
MUTATOR = ("begin look answer end over read mark claim write fill seal keep fetch store").split()


class Threads:
    """Stage, and each mutator's status and whether it is in, as events go by."""

    def __init__(self, mutators):
        self.stage = "idle"
        self.of = [("async", "out")] * mutators

    def take(self, line):
        words = line.split()
        if words[0] == "post":
            self.stage = words[1]
        elif words[0] in MUTATOR or words[0] == "out":
            i = int(words[1])
            status, where = self.of[i]
            if words[0] == "begin":
                where = "in"
            elif words[0] == "end":
                where = "out"
            elif words[0] == "over":
                where = "over"
            elif words[0] == "answer":
                status = NEXT[status]
            elif words[0] == "out" and where == ("over" if words[2:] else "out"):
                status = REQUESTED[self.stage]
            self.of[i] = (status, where)
        return self.stage, tuple(self.of)


LIGHT = {"async": "#d3ecd6", "sync1": "#fdf0c0", "sync2": "#fbd3ae", "idle": "#eef0f2",
         "clear": "#e6dcf5", "trace": "#cfe3fb", "sweep": "#cdeeea"}
DARK = {"async": "#1d4228", "sync1": "#57490f", "sync2": "#66400f", "idle": "#262c34",
        "clear": "#43305f", "trace": "#123f6e", "sweep": "#0f4a45"}
OUT = f".out {{ fill: none; stroke: {LINE}; stroke-width: .6; stroke-dasharray: 2 3; }}"
COLUMN, LEFT, BAND, STRIP, CELL = 17, 96, 40, 15, 18


def runs(values):
    """The stretches of equal values: from, to (not included), value."""
    at = 0
    for end in range(1, len(values) + 1):
        if end == len(values) or values[end] != values[at]:
            yield at, end, values[at]
            at = end


class Picture:
    """One SVG: rows of columns, one under the other."""

    def __init__(self, replay, events, refused):
        self.shown = events + ([refused] if refused else [])
        self.known, self.mutators = len(events), replay.mutators
        self.states = replay.states(events)
        threads = Threads(replay.mutators)
        self.threads = [threads.take(line) for line in events]
        seen = [{state[cell][0] for state in self.states} for cell in range(replay.cells)]
        self.cells = [c for c in range(replay.cells) if replay.cells <= 12 or len(seen[c]) > 1]
        self.parts, self.y = [], 34

    def lane_of(self, line):
        words = line.split()
        return int(words[1]) if words[0] in MUTATOR and int(words[1]) < self.mutators else None

    def label(self, line):
        words = line.split()
        return line if self.lane_of(line) is None else " ".join([words[0], *words[2:]])

    def height(self, begin, end, lane):
        labels = [self.label(it) for it in self.shown[begin:end] if self.lane_of(it) == lane]
        return 14 + LETTER * max([5, *map(len, labels)])

    def band(self, begin, end):
        if begin:
            words = f"continued, from event {begin + 1} on"
            self.parts.append(text(LEFT, self.y - 6, words, "faint"))
        self.parts.append(text(4, self.y + BAND / 2 + 4, "stage", "ink name"))
        for one, two, stage in runs([self.threads[at][0] for at in range(begin, end)]):
            x, wide = LEFT + one * COLUMN, (two - one) * COLUMN
            self.parts.append(rect(x, self.y, wide, BAND, f"box {stage}"))
            if wide >= LETTER * len(stage) + 4:
                self.parts.append(text(x + 4, self.y + BAND / 2 + 4, stage))
            else:
                self.parts.append(text(x + COLUMN / 2 + 4, self.y + BAND - 3, stage, "ink", True))
        self.y += BAND + 4

    def presence(self, begin, end, i, high):
        """Around a mutator's events whether it is in, and its status under them."""
        for one, two, (status, where) in runs([self.threads[at][1][i] for at in range(begin, end)]):
            x, wide, low = LEFT + one * COLUMN, (two - one) * COLUMN, self.y + high
            kind = f"box {status}" if where == "in" else "out"
            self.parts.append(rect(x, self.y, wide, high, kind))
            self.parts.append(rect(x, low, wide, STRIP, f"box {status}"))
            word = "over" if where == "over" else status
            if wide >= LETTER * len(word) + 4:
                self.parts.append(text(x + 3, low + 11, word, "faint"))

    def lane(self, begin, end, lane, name):
        """A thread's name and its events, upright."""
        high = self.height(begin, end, lane)
        self.parts.append(text(4, self.y + high / 2 + 4, name, "ink name"))
        for at in range(begin, end):
            if self.lane_of(self.shown[at]) == lane:
                kind = "ink" if at < self.known else "no"
                x = LEFT + (at - begin) * COLUMN + COLUMN / 2 + 4
                words = self.label(self.shown[at])
                self.parts.append(text(x, self.y + high - 6, words, kind, True))
        self.y += high + 4

    def cell(self, begin, end, cell):
        self.parts.append(text(4, self.y + 12, f"cell {cell}" if cell else "anchor", "ink name"))
        told = None
        for at in range(begin, end):
            row, before = self.states[at + 1][cell], self.states[at][cell]
            x = LEFT + (at - begin) * COLUMN
            words = f"cell {cell} {' '.join(row[:7])}, after {self.shown[at]}"
            self.parts.append(rect(x + 1, self.y, COLUMN - 2, CELL - 3, f"box {row[0]}", words))
            if row[1:7] != before[1:7]:
                self.parts.append(dot(x + COLUMN / 2, self.y + CELL / 2 - 1.5))
            elif row[0] != told:
                told = row[0]
                self.parts.append(letter(x + COLUMN / 2 - LETTER / 2, self.y + 11, told))
        self.y += CELL

    def columns(self, begin, end):
        known = min(end, self.known)
        self.band(begin, known)
        self.lane(begin, end, None, "collector")
        for i in range(self.mutators):
            self.presence(begin, known, i, self.height(begin, end, i))
            self.lane(begin, end, i, f"mutator {i}")
            self.y += STRIP + 2
        for cell in self.cells:
            self.cell(begin, known, cell)
        self.y += 32

    def legends(self):
        """The rows of the legend, each of what there is in the picture and no more."""
        shown = [state[cell] for state in self.states[1:] for cell in self.cells]
        pairs = zip(self.states, self.states[1:])
        changed = any(one[cell][1:7] != two[cell][1:7] for one, two in pairs for cell in self.cells)
        found = {it for _, of in self.threads for it in of}
        y = self.y - 14
        first = colours(y, {row[0] for row in shown})
        low = y + 21
        statuses = [it for it in ("async", "sync1", "sync2") if it in {one for one, _ in found}]
        second = [(lambda x, it=it: rect(x, low, 13, 13, f"box {it}"), f"status {it}", "faint")
                  for it in statuses]
        if changed:
            second.append((lambda x: dot(x + 7, low + 7), "a field changed", "faint"))
        if any(where != "in" for _, where in found):
            second.append((lambda x: rect(x, low, 13, 13, "out"), "the mutator is out", "faint"))
        if self.known < len(self.shown):
            second.append((None, "red: cannot happen now", "no"))
        return [row for row in ((y, first), (low, second)) if row[1]]

    def legend(self):
        wide = 0
        for y, row in self.legends():
            self.parts += legend(4, y, row)
            self.y, wide = y + 21, max(wide, wide_of(row))
        words = ("numbers after an event: of a mutator its places, fields and values; "
                 "of the collector cells and mutators")
        self.parts.append(text(4, self.y + 11, words, "faint"))
        self.y += 24
        return 4 + max(wide, LETTER * len(words) + 12)

    def svg(self, columns, name):
        many = max(len(self.shown), 1)
        columns = -(-many // -(-many // columns))
        for begin in range(0, len(self.shown), columns):
            self.columns(begin, min(begin + columns, many))
        wide = max(LEFT + min(many, columns) * COLUMN + 12, self.legend())
        self.parts.append(text(4, 18, title(name), "ink title"))
        return svg(wide, self.y, title(name), style(LIGHT, DARK, OUT), self.parts)


def main():
    p = argparse.ArgumentParser()
    p.add_argument("schedule")
    p.add_argument("--docheap")
    p.add_argument("--columns", type=int, default=52, help="events in one row of the picture")
    args = p.parse_args()
    program = built_program(args.docheap)
    lines = lines_of(args.schedule)
    replay = Replay(program, lines[0])
    replay.run(lines[1:])
    events, refused = events_of(replay, lines[1:])
    name = os.path.basename(args.schedule)
    sys.stdout.write(Picture(replay, events, refused).svg(args.columns, name))


main()
