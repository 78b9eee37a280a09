"""Scripts of senders, and what the output of `mail` has to be, for stress.py.

The order in which the senders' values come into the mailbox is the program's to choose, so no
output is known before. What is told of each line and what was received have to say the same of one
order, though; and where a line was `full`, as many cells had to be claimed as the heap has.
"""
import re

WHOLE = 4_000_000_000
GREATEST = 4_294_967_295
# The cells that an empty mailbox has: the anchor, and a box before the first item.
OPENING = 2
NUMBER = r"(0|[1-9][0-9]*)"
SENT, ITEM = re.compile(f"sent {NUMBER}"), re.compile(f"{NUMBER} {NUMBER} {NUMBER}")


class Wrong(Exception):
    pass


def value(r):
    """A value, as it stands on its line."""
    number = r.choice((r.randrange(10), r.randrange(100_000), r.randint(0, GREATEST), GREATEST))
    digits = str(number)
    return digits.zfill(r.randint(len(digits), 10)) if r.random() < 0.2 else digits


def script_of(r, lines):
    """A script with so many values, and with lines between that have none."""
    text = ""
    for _ in range(lines):
        if r.random() < 0.05:
            text += r.choice(("\n", "\r\n", "# send 1\n", "#\r\n"))
        text += f"send {value(r)}" + ("\r\n" if r.random() < 0.1 else "\n")
    return text[:-1] if text and r.random() < 0.1 else text


def scripts_of(r, senders, most):
    """A script for each sender, some with no value at all."""
    return [script_of(r, r.choice((0, 1, most, r.randint(0, most)))) for _ in range(senders)]


def values_of(script):
    """The values of a script, in order."""
    lines = (line.removesuffix("\r") for line in script.split("\n"))
    return [int(line.removeprefix("send ")) for line in lines if line and line[0] != "#"]


def answers_of(lines, scripts):
    """The position of each line of each script, or None, and the lines behind."""
    at, answers = 0, []
    for number, script in enumerate(scripts, 1):
        own = lines[at + 1:at + 1 + len(script)]
        if lines[at:at + 1] != [f"sender {number}"] or len(own) < len(script):
            raise Wrong(f"line {at + 1}: no heading of sender {number}, or too few answers")
        answers.append([])
        for k, line in enumerate(own, at + 2):
            sent = SENT.fullmatch(line)
            if not sent and line != "full":
                raise Wrong(f"line {k}: {line!r}")
            answers[-1].append(int(sent[1]) if sent else None)
        at += 1 + len(own)
    if lines[at:at + 1] != ["received"]:
        raise Wrong(f"line {at + 1}: nothing received")
    return answers, lines[at + 1:]


def most_lost(answers, items):
    """How many cells the senders may have claimed in vain. A sender loses one where another sends
    first: at a position of another's, at each once at most, and at none behind its last line's,
    unless that was full."""
    lost = 0
    for own in answers:
        last = own[-1] if own else 0
        lost += (items if last is None else last) - (len(own) - own.count(None))
    return lost


def wrong_in_cells(answers, items, cells, cycles):
    """What is wrong with the number of items, or with where the heap was full."""
    room, full = cells - OPENING, any(None in own for own in answers)
    # Each item and each cell lost was one claim.
    if full and items + most_lost(answers, items) < room:
        return f"full, and {items} items on {cells} cells"
    # Each cycle frees each cell once, the anchor never.
    if items > room + cycles * (cells - 1):
        return f"{items} items on {cells} cells, and {cycles} cycles"
    if cycles == 0 and any(None in own and any(own[own.index(None):]) for own in answers):
        return "a cell behind a full heap, and no cycle"
    return None


def wrong_in_order(scripts, answers, received):
    """What is wrong with the positions and the items."""
    lines = {}
    for sender, (script, own) in enumerate(zip(scripts, answers), 1):
        positions = [position for position in own if position is not None]
        if any(one >= other for one, other in zip(positions, positions[1:])):
            return f"sender {sender}: positions that do not rise"
        for number, position in zip(script, own):
            if position in lines:
                return f"position {position} twice"
            if position is not None:
                lines[position] = (sender, number)
    if len(received) != len(lines):
        return f"{len(received)} items and {len(lines)} lines that were sent"
    for position, line in enumerate(received, 1):
        item = ITEM.fullmatch(line)
        if not item or int(item[1]) != position:
            return f"item {position}: {line!r}"
        if (int(item[2]), int(item[3])) != lines.get(position):
            return f"item {position}: {line!r} and not {lines.get(position)}"
    return None


def wrong_in(texts, data, cells, cycles, seen):
    """What is wrong with the output of these scripts, or None. It adds to what was seen."""
    lines = data.decode("latin-1").split("\n")
    if lines.pop():
        return "no line feed at the end"
    scripts = [values_of(text) for text in texts]
    try:
        answers, received = answers_of(lines, scripts)
    except Wrong as why:
        return str(why)
    full = sum(own.count(None) for own in answers)
    for what, many in (("lines", sum(map(len, scripts))), ("items", len(received)), ("full", full),
                       ("with a full heap", full > 0), ("without a cycle", cycles == 0),
                       ("with more items than cells", len(received) > cells)):
        seen[what] = seen.get(what, 0) + many
    return (wrong_in_order(scripts, answers, received)
            or wrong_in_cells(answers, len(received), cells, cycles))
