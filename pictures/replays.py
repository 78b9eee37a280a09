"""What the proved program's replay says of a schedule, event by event.

Shared by schedule.py and play. After each event a `show` of every cell is put, and `docheap replay`
runs that. A line `plain` is told as the events that it stands for: each is found by asking the
program which event can happen next, and the program's count of the `plain` itself has to agree.
"""
import os
import subprocess
import sys
import tempfile

TOP = os.path.dirname(os.path.dirname(os.path.abspath(__file__)))
BUILT = [f"{TOP}/crates/docheap_cli/out/docheap_cli", f"{TOP}/out/unproved/docheap_cli"]

# how many bytes of a schedule `show` lines may take, of 1,048,576
SHOWN = 700_000
STAGES = ["idle", "sync1", "clear", "sync2", "trace", "sweep"]


def built_program(given):
    """The program that was named, or else the proved one, or the one without proof. Nothing is
    built here."""
    program = given or next(filter(os.path.isfile, BUILT), BUILT[0])
    if not os.path.isfile(program):
        name = os.path.basename(sys.argv[0])
        sys.exit(f"{name}: no program is built, {program}; ./docheap builds one, and ./prove the "
                 "proved one")
    return program


class Replay:
    """What the proved program says of a schedule with this first line."""

    def __init__(self, program, head):
        self.program, self.head = program, head
        self.cells, self.mutators = (int(word) for word in head.split()[1:3])

    def run(self, lines):
        with tempfile.NamedTemporaryFile("w", suffix=".schedule") as it:
            it.write("\n".join([self.head, *lines]) + "\n")
            it.flush()
            ran = subprocess.run([self.program, "replay", it.name], capture_output=True, text=True)
        if ran.returncode:
            sys.exit(f"replay: {ran.stderr.strip()}")
        return ran.stdout.splitlines()

    def count(self, lines):
        """How many events these lines are; none where one of them cannot happen."""
        said = self.run(lines)
        if any(line.startswith("not now") for line in said):
            return None
        return next(int(line.split()[1]) for line in said if line.startswith("done"))

    def can(self, lines, event):
        return self.count([*lines, event]) is not None

    def states(self, lines):
        """The rows of all cells, at first and after each line. A schedule has a greatest size, so
        a few states are asked for at once."""
        shows = [f"show {cell}" for cell in range(self.cells)]
        at_once = max(1, SHOWN // (len(shows[-1]) * self.cells))
        found = []
        for begin in range(0, len(lines) + 1, at_once):
            end = min(begin + at_once, len(lines) + 1)
            asked = lines[:begin]
            for at in range(begin, end):
                asked += [*(lines[at - 1:at] if at > begin else []), *shows]
            rows = [line.split()[2:] for line in self.run(asked) if line.startswith("cell ")]
            found += [rows[at:at + self.cells] for at in range(0, len(rows), self.cells)]
        return found


def moved(replay, out, stage, cursor):
    """The stage, and the cell that clearing or tracing has come to, after the last event."""
    line = out[-1]
    words = line.split()
    if words[0] == "post":
        return words[1], 0
    if words[0] == "see" and replay.can(out, "scan"):
        return stage, 0 if line == "see 0" and cursor == replay.cells else cursor
    if words[0] == "clear" or line == f"see {cursor}":
        return stage, cursor + 1
    return stage, 1 if line == "see 0" and cursor == replay.cells else cursor


def plain_events(replay, out, stage, cursor):
    """Adds the events of one `plain` to the lines; gives stage and cursor after them."""
    post = f"post {STAGES[(STAGES.index(stage) + 1) % 6]}"
    turns = {"clear": ["clear"], "sync2": ["anchor"], "trace": ["shade", "scan", "blacken"],
             "sweep": ["sweep", "wipe", "free", "whiten", "advance"]}.get(stage, [])
    if stage in ("sync1", "sync2", "trace"):
        for i in range(replay.mutators):
            if replay.can(out, f"out {i}"):
                out.append(f"poll {i}")
            if out and out[-1] == f"poll {i}" and replay.can(out, f"out {i}"):
                over = replay.can([*out, f"out {i}"], f"out {i}")
                out.append(f"out {i} over" if over else f"out {i}")
    while not replay.can(out, post):
        look = f"see {cursor if cursor < replay.cells else 0}"
        tries = [*turns, look] if stage == "trace" else turns
        event = next((it for it in tries if replay.can(out, it)), None)
        if event is None:
            return None
        out.append(event)
        stage, cursor = moved(replay, out, stage, cursor)
    out.append(post)
    return moved(replay, out, stage, cursor)


def events_of(replay, lines):
    """The events, each `plain` as those that it stands for, and the one that cannot happen."""
    out, stage, cursor = [], "idle", 0
    for line in lines:
        if line.startswith("show") and int(line.split()[1]) < replay.cells:
            continue
        if not replay.can(out, line):
            return out, line
        if line == "plain":
            wanted, found = replay.count([*out, line]), list(out)
            stage, cursor = plain_events(replay, found, stage, cursor)
            if replay.count(found) != wanted:
                sys.exit("replay: the events of a plain are not as many as the program counts")
            out = found
        else:
            out.append(line)
            stage, cursor = moved(replay, out, stage, cursor)
    return out, None


def lines_of(path):
    """The lines of a schedule that count."""
    with open(path, encoding="latin-1") as it:
        lines = [line.rstrip("\r\n") for line in it]
    return [line for line in lines if line and not line.startswith("#")]
