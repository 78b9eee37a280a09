#!/usr/bin/env python3
"""Tries the wrong bodies of wrong_bodies/CRATE: bugs of the kind that an engineer makes. They are
too many for the gate; must-fail/ has the most telling.

    wrong_bodies.py [FLAGS] CRATE [NAME..]   all of the crate's, or these
    wrong_bodies.py [FLAGS] --all [CRATE..]  those of every crate, or of these, one after another
    wrong_bodies.py --write                  none: LISTS gets a line for each wrong body, and for
                                             nothing else

    --untried      only those of which LISTS does not know what they come to
    --write        writes into LISTS what came out, after each
    --seconds N    how long the check of one wrong body may take (300); a check of many has longer

What comes out is one of three words, and wrong_bodies/LISTS has the one that is to be expected:

    false   refused by a goal that was tried: a clause, or what a call asks for
    name    refused only since a proof names what the body took away, which says little of the
            contract
    proves  the contracts let it through; a test tells it, or nothing

A line that begins with DIFFERENT tells that another one came out, or that LISTS has none; then the
script ends with status 1, as it does where one could not be tried. The crate is checked as it
stands first. Each wrong body is tried on a copy, over what that check kept, so no source is ever
changed. One check tries as many as there are functions, one in each, so ten take little longer than
one. A function that is not proved counts as the refusal of its wrong body; where it is proved the
wrong body is tried once more, alone, since the refusal may come in a caller.

A wrong body with a line `law: CRATE PATH` changes definitions, and the code alike, so that its own
crate is still proved; the law of the other crate has to refuse it. That is checked over the sources
of all crates below, from nothing.
"""
import argparse
import importlib.machinery
import importlib.util
import os
import re
import shutil
import signal
import subprocess
import sys
import tempfile

TOP = os.path.dirname(os.path.dirname(os.path.abspath(__file__)))
BODIES = f"{TOP}/tools/wrong_bodies"
WORDS = ("false", "name", "proves")
# what LISTS says of those of which it is not known which of the three they come to
OPEN = ("refused", "untried")
PLACE = re.compile(
    r"(?m)^(?:so far: )?(?:(?:note|error): )?"
    r"(?:\./)?((?:src|proofs)/\S+?):(\d+):\d+: (.*)$"
)
# what is said where a proof names what is no more there, and of what cites a refused proof
NAMES = re.compile(r"error: .*(has no field|is not in scope|has no `)")
CITES = re.compile(r"error: .*(was not admitted|was rejected)")
FUNCTION = re.compile(r"\s*(?:pub(?:\([^)]*\))? )?(?:const )?fn (\w+)")
# the goal that is told of, in a written answer or where there is none
GOAL = re.compile(r"^error: `([^`]+)`|\(`([^`]+)`\)")


def kit():
    """The kit's own modules: rtlib, and `rt`, which stands on it."""
    sys.dont_write_bytecode = True
    folder = os.path.dirname(os.path.realpath(shutil.which("rt")))
    sys.path.insert(0, folder)
    import rtlib

    loader = importlib.machinery.SourceFileLoader("rt_of_kit", f"{folder}/rt")
    module = importlib.util.module_from_spec(importlib.util.spec_from_loader("rt_of_kit", loader))
    loader.exec_module(module)
    return rtlib, module


class Body:
    """A wrong body: its changes, each a file, its old and its new text; and if it is one of
    definitions that another crate's law has to refuse, that crate and the law."""

    def __init__(self):
        self.changes, self.law = [], None


def wrong_bodies(name):
    """Gives the wrong bodies of a crate by name."""
    found, source, old = {}, None, None
    if not os.path.exists(f"{BODIES}/{name}"):
        return found
    for line in open(f"{BODIES}/{name}", encoding="utf-8"):
        word, _, text = line.rstrip("\n").partition(" ")
        if word == "#":
            body = found.setdefault(text, Body())
        elif word == "law:":
            body.law = text.split(" ")
        elif word == "file:":
            source = text
        elif word == "old:":
            old = text
        elif word == "new:":
            body.changes.append((source, old, text))
    return found


def function_at(rows, row):
    """Gives the name of the function that this row belongs to."""
    for line in reversed(rows[:row]):
        match = FUNCTION.match(line)
        if match:
            return match.group(1)
    return None


class Lists:
    """What LISTS says: by crate and name a word, the text it was tried on, and the goal."""

    def __init__(self):
        self.head, self.lines = [], {}
        for line in open(f"{BODIES}/LISTS", encoding="utf-8"):
            words = line.rstrip("\n").split(" ", 4)
            if words[0] in WORDS + OPEN and len(words) > 2:
                words += ["-"] * (5 - len(words))
                self.lines[words[1], words[2]] = (words[0], words[3], words[4])
            elif not self.lines:
                self.head.append(line)

    def word(self, crate, body):
        return self.lines.get((crate, body), ("untried", "-", "-"))[0]

    def write(self):
        """Writes the file whole, with a line for each wrong body and for nothing else."""
        known = {}
        for crate in crates_with_bodies():
            for body in wrong_bodies(crate):
                known[crate, body] = self.lines.get((crate, body), ("untried", "-", "-"))
        self.lines = known
        text = "".join(self.head)
        for (crate, body), (word, tree, goal) in sorted(known.items()):
            text += f"{word} {crate} {body} {tree} {goal}\n"
        with open(f"{BODIES}/LISTS.new", "w", encoding="utf-8") as file:
            file.write(text)
        os.replace(f"{BODIES}/LISTS.new", f"{BODIES}/LISTS")


def crates_with_bodies():
    return sorted(it for it in os.listdir(BODIES) if os.path.isdir(f"{TOP}/crates/{it}"))


def git(*words):
    said = subprocess.run(["git", "-C", TOP, *words], stdout=subprocess.PIPE, text=True, check=True)
    return said.stdout.strip()


class Refused(Exception):
    """A crate or a wrong body that could not be tried, and why."""


def checked(rtlib, words, folder, seconds):
    """Runs a check in a folder, and gives its status and what it says."""
    ran = subprocess.Popen(
        [rtlib.RATTLE, "check", *words],
        cwd=folder,
        stdin=subprocess.DEVNULL,
        stdout=subprocess.PIPE,
        stderr=subprocess.STDOUT,
        text=True,
        errors="replace",
        start_new_session=True,
    )
    try:
        said = ran.communicate(timeout=seconds)[0]
    except subprocess.TimeoutExpired:
        raise Refused(f"no answer within {seconds} seconds")
    finally:
        if ran.poll() is None:
            os.killpg(ran.pid, signal.SIGKILL)
            ran.communicate()
    return ran.returncode, said


class Crate:
    def __init__(self, name, kit):
        self.rtlib, self.rt = kit
        self.name, self.folder, self.texts = name, f"{TOP}/crates/{name}", {}

    def prove(self):
        """Checks the crate as it stands, so that there is something to begin with."""
        ran = subprocess.run(["rt", "check", "--jobs", "1"], cwd=self.folder, capture_output=True)
        self.kept = f"{self.folder}/out/incremental"
        if ran.returncode or not os.path.isdir(self.kept):
            raise Refused("the crate as it stands is not proved")
        self.crate = self.rtlib.Crate(self.folder, TOP, {})
        self.crate.out = open(os.devnull, "w")

    def text(self, source):
        if source not in self.texts:
            with open(f"{self.folder}/{source}", encoding="utf-8") as file:
                self.texts[source] = file.read()
        return self.texts[source]

    def functions(self, changes):
        """Gives the functions that are changed, or None where an old text does not stand once."""
        found = set()
        for source, old, _ in changes:
            if not os.path.exists(f"{self.folder}/{source}"):
                return None
            text = self.text(source)
            if text.count(old) != 1:
                return None
            row = text[: text.index(old)].count("\n") + 1
            found.add(function_at(text.split("\n"), row) or f"{source}:{row}")
        return found

    def run(self, texts, seconds):
        """Checks a copy with these texts, and gives its status and what it says."""
        with tempfile.TemporaryDirectory(prefix="wrong-bodies-") as room:
            for part in self.rtlib.PARTS:
                if os.path.isdir(f"{self.folder}/{part}"):
                    shutil.copytree(f"{self.folder}/{part}", f"{room}/{part}")
            for source, text in texts.items():
                with open(f"{room}/{source}", "w", encoding="utf-8") as file:
                    file.write(text)
            # some kits have a quicker way than a copy
            getattr(self.rt, "linked", shutil.copytree)(self.kept, f"{room}/kept")
            words = self.crate.words(["--jobs", "1"], keeps=False) + ["--incremental", "kept"]
            return checked(self.rtlib, words, room, seconds)

    def changed(self, changes):
        """Gives the texts of the files that these changes leave."""
        texts = {}
        for source, old, new in changes:
            texts[source] = texts.get(source, self.text(source)).replace(old, new, 1)
        return texts

    def check(self, changes, seconds):
        """Gives whether the crate is still proved with these changes, and else what is said of
        which function."""
        texts = self.changed(changes)
        return self.read(texts, *self.run(texts, seconds))

    def check_law(self, changes, law, seconds):
        """Gives whether a law of a crate above is still proved with these changes, and else what
        is said of which function."""
        name, path = law
        texts = self.changed(changes)
        with tempfile.TemporaryDirectory(prefix="wrong-bodies-") as room:
            shutil.copy(f"{TOP}/crates.txt", room)
            for crate in os.listdir(f"{TOP}/crates"):
                for part in self.rtlib.PARTS:
                    if os.path.isdir(f"{TOP}/crates/{crate}/{part}"):
                        shutil.copytree(
                            f"{TOP}/crates/{crate}/{part}", f"{room}/crates/{crate}/{part}"
                        )
            for source, text in texts.items():
                with open(f"{room}/crates/{self.name}/{source}", "w", encoding="utf-8") as file:
                    file.write(text)
            crate = next(it for it in self.rtlib.crates_below(room) if it.name == name)
            words = crate.words(["--jobs", "1", "--only", path], as_source=True)
            crate.out = open(os.devnull, "w")
            status, output = checked(self.rtlib, words, crate.folder, seconds)
        return self.read(None, status, output)

    def named(self, texts, source, row):
        """Gives the function that a place belongs to, or else the file."""
        parts = source.split("/")
        if parts[0] == "src" and texts is not None:
            text = texts.get(source, self.text(source))
            return function_at(text.split("\n"), row) or source
        if parts[-1] in ("Answers.antt", "Invariants.antt"):
            return parts[-2].lstrip("+")
        return source

    def read(self, texts, status, output):
        """Gives whether all is proved, and else what is said of which function. The texts are those
        of the crate's files, where what is said is of this crate."""
        if status and not output.rstrip("\n").split("\n")[-1].startswith("logic=not-proved"):
            lines = [it for it in output.split("\n") if "error" in it] or [f"status {status}"]
            raise Refused(f"it did not come to the prover: {lines[0][:160]}")
        said = {}
        for source, row, words in PLACE.findall(output):
            # a remark at a place is no refusal
            if not words.startswith("note: "):
                said.setdefault(self.named(texts, source, int(row)), []).append(words)
        return status == 0, said


def told(said, functions):
    """Gives what is said of these functions, each with its name."""
    return [(name, words) for name in functions for words in said.get(name, [])]


def verdict(refusals):
    """Gives which word these refusals come to, and the goal that tells it."""
    tried = [it for it in refusals if not (NAMES.search(it[1]) or CITES.search(it[1]))]
    name, words = (tried or refusals)[0]
    goal = GOAL.search(words)
    goal = f"{name}: {goal.group(1) or goal.group(2)}" if goal else f"{name}: {words}"
    return ("false" if tried else "name"), goal[:90]


class Trial:
    """One run of this script over the crates that are asked for."""

    def __init__(self, given):
        self.given, self.lists, self.differ = given, Lists(), 0
        self.kit, self.tree = kit(), git("rev-parse", "--short=8", "HEAD")
        if given.write and git("status", "--short", "crates", "crates.txt"):
            sys.exit("crates/ has changes that are not committed, so no text could be named")

    def tell(self, crate, body, word, goal):
        expected = self.lists.word(crate, body)
        same = expected == word or expected == "refused" and word in ("false", "name")
        self.differ += not same
        start = "" if same else f"DIFFERENT ({expected} in LISTS): "
        print(f"{start}{word} {crate} {body}{': ' + goal if goal != '-' else ''}", flush=True)
        if self.given.write:
            self.lists.lines[crate, body] = (word, self.tree, goal)
            self.lists.write()

    def fail(self, crate, body, why):
        self.differ += 1
        print(f"NOT TRIED: {crate} {body}: {why}", flush=True)

    def wanted(self, name, names):
        """Gives the wrong bodies of a crate that are to be tried."""
        bodies = wrong_bodies(name)
        if missing := [it for it in names if it not in bodies]:
            sys.exit(f"{name} has no wrong body {missing[0]}")
        names = names or bodies
        if self.given.untried:
            names = [it for it in names if self.lists.word(name, it) in OPEN]
        return {it: bodies[it] for it in names}

    def crate(self, name, names):
        bodies, crate = self.wanted(name, names), Crate(name, self.kit)
        if not bodies:
            return
        try:
            crate.prove()
        except Refused as why:
            return [self.fail(name, body, why) for body in bodies]
        left, alone = {}, []
        for body, it in bodies.items():
            functions = crate.functions(it.changes)
            if functions is None:
                self.fail(name, body, "an old text does not stand once")
            elif any(source.startswith("specs/") for source, _, _ in it.changes):
                # a definition is cited by many functions, so it is changed alone
                alone.append(body)
            else:
                left[body] = functions
        while left:
            together, taken = {}, set()
            for body, functions in left.items():
                if not functions & taken:
                    together[body] = functions
                    taken |= functions
            alone += self.together(crate, together, bodies)
            left = {body: it for body, it in left.items() if body not in together}
        for body in alone:
            self.alone(crate, body, bodies[body])

    def together(self, crate, together, bodies):
        """Tries these in one check, and gives those of which it says nothing."""
        changes = [change for body in together for change in bodies[body].changes]
        try:
            proved, said = crate.check(changes, self.given.seconds + 60 * len(together))
        except Refused:
            return [*together]
        silent = []
        for body, functions in together.items():
            refusals = told(said, functions)
            if proved:
                self.tell(crate.name, body, "proves", "-")
            elif refusals:
                self.tell(crate.name, body, *verdict(refusals))
            else:
                silent.append(body)
        return silent

    def alone(self, crate, body, it):
        try:
            proved, said = crate.check(it.changes, self.given.seconds)
            if it.law and not proved:
                words = told(said, sorted(said, key=str)) or [("", "nothing is said of where")]
                raise Refused(f"its own crate refuses it: {': '.join(words[0])[:160]}")
            if it.law:
                proved, said = crate.check_law(it.changes, it.law, 3 * self.given.seconds)
        except Refused as why:
            return self.fail(crate.name, body, why)
        refusals = told(said, sorted(said, key=str))
        if proved:
            self.tell(crate.name, body, "proves", "-")
        elif refusals:
            self.tell(crate.name, body, *verdict(refusals))
        else:
            self.tell(crate.name, body, "false", "nothing is said of where")


def main():
    read = argparse.ArgumentParser(usage=__doc__)
    for flag in ("--all", "--untried", "--write"):
        read.add_argument(flag, action="store_true")
    read.add_argument("--seconds", type=int, default=300)
    read.add_argument("names", nargs="*")
    given = read.parse_args()
    if not (given.all or given.names or given.write):
        sys.exit(__doc__)
    crates = given.names if given.all else given.names[:1]
    for name in crates:
        if name not in crates_with_bodies():
            sys.exit(f"wrong_bodies has no {name}")
    # so that whatever was begun ends with this script
    signal.signal(signal.SIGTERM, lambda *_: sys.exit(1))
    if given.write:
        Lists().write()
    if not (given.all or crates):
        sys.exit(0)
    trial = Trial(given)
    for name in crates or crates_with_bodies():
        trial.crate(name, [] if given.all else given.names[1:])
    sys.exit(1 if trial.differ else 0)


if __name__ == "__main__":
    main()
