#!/usr/bin/env python3
"""Runs docheap on many random scripts and checks each output against a store of its own.

stress.py DOCHEAP [--runs N] [--seed S] [--jobs J] [--only NAME] [--limit SECONDS]

N runs of each kind; a run is made again by its kind and its seed. Some kinds are made only where
--only names them: 64 clients with 1,500 commands each on 64 cells, of all kinds or puts and gets
alone, 2 to 64 clients, a batch of 1,000 edits beside four clients that commit, and every damage of
a small image. Kinds with batches have scripts of version 2, some beside scripts of version 1; long
batches outgrow the private heap, so its records age or are collected between edits. In one kind
drafts do, some with so many records that an ageing leaves too little room.

The checker shares nothing with the program: it reads the scripts by the grammar, folds the merged
history over whole trees, and compares each reply; it compares the history with the clients' own
replies, and the totals with both. The numbers of the versions that the clients were shown are
looked at without the history too.

In every fourth run `image` stands in the place of `run`, and the image has to be that of a store:
its versions, its trees and the counts of `census` (heaps.py); some of these have one client, and
then the trees of all versions and the cells in use are known. Of images with a fault `census` has
to name line and kind. A dump beside 16 clients has to be of a version that some history of their
scripts has (dumps.py), and loading it has to say so. Of a mailbox each sender's values have to come
in its order, each once, and be refused only where as many cells were claimed (mailboxes.py). A
program that has no word for a census, a dump or a mailbox yet is not asked for one.

It prints a line for each kind of run, and where one is wrong the folder that has its files. A run
that has not ended within the limit is counted apart, as late, with its seed: each handshake waits
until every thread had a processor, so on a machine that is full of other work a run of some hundred
cycles takes minutes by `nice -n 10`, and under a second else.
"""
import argparse, atexit, concurrent.futures, functools, os, random, shutil, subprocess, sys
import tempfile

import dumps, heaps, mailboxes
from documents import Store, is_second, plain, quoted, read
from preloading import library_of


def line_of(reply, text_of):
    """A reply as a line, whose text is written so."""
    if not reply.startswith("val "):
        return reply
    word, number, text = reply.split(" ", 2)
    return f"{word} {number} {text_of(text)}"


MAY_BE_FULL = ("put", "del", "copy", "publish", "dput", "take", "batch")


def wrong_in_chain(replies):
    """What is wrong with the numbers that the clients were answered, without the history: each
    commit has a number of its own, from 1 on with none left out, and no client is shown a version
    older than one that it was shown before. `old` shows an older one by its nature, as do drafts
    the last that was shown."""
    made = []
    for c, own in enumerate(replies, 1):
        last = 0
        for reply, command in own:
            words = reply.split(" ")
            number = int(words[1])
            if words[0] == "ok":
                made.append(number)
                if number <= last:
                    return f"client {c}: its commit {number} is not behind {last}"
            elif number < last and command[0] != "old":
                return f"client {c}: shown {number} behind {last}"
            if command[0] == "old" and words[0] == "gone" and not int(words[2]) < number:
                return f"client {c}: {reply!r}"
            last = max(last, number)
    made.sort()
    if made != list(range(1, len(made) + 1)):
        return f"the commits are not numbered from 1 to {len(made)}, each once"
    return None


def check(scripts, output, cells, keep, versions, cycles, seen):
    """What is wrong with the output, or None. It adds to what was seen in all runs."""
    commands = [read(s) for s in scripts]
    texts_of = [quoted if is_second(s) else plain for s in scripts]
    lines = output.split("\n")
    if lines[-1]:
        return "no line feed at the end"
    lines.pop()
    at, replies = 0, []
    for c, own in enumerate(commands, 1):
        if at >= len(lines) or lines[at] != f"client {c}":
            return f"line {at + 1}: no heading of client {c}"
        replies.append(lines[at + 1:at + 1 + len(own)])
        at += 1 + len(own)
    if lines[at:at + 1] != ["history"]:
        return f"line {at + 1}: no history"
    wrong = wrong_in_chain([list(zip(*both)) for both in zip(replies, commands)])
    if wrong:
        return wrong
    many = sum(map(len, commands))
    history, stats = lines[at + 1:at + 1 + many], lines[at + 1 + many:]
    store, done, place_before, full = Store(len(scripts), keep, versions), [0] * len(scripts), 0, 0
    key_before = None
    for number, line in enumerate(history, 1):
        place, client, own, reply = line.split(" ", 3)
        place, client, own = int(place), int(client), int(own)
        if not 1 <= client <= len(scripts) or own != done[client - 1] + 1:
            return f"history {number}: out of the client's order"
        command = commands[client - 1][own - 1]
        told = replies[client - 1][own - 1]
        done[client - 1] = own
        key = (place, not reply.startswith("ok "), client, own)
        if key_before is not None and key_before >= key:
            return f"history {number}: not in order"
        key_before = key
        if reply == f"full {place}":
            full += 1
            if told != reply:
                return f"history {number}: {told!r} was the client answered"
            shown = store.lasts[client - 1] if command[0] == "dput" else len(store.trees) - 1
            if command[0] not in MAY_BE_FULL or place != shown:
                return f"history {number}: full where it may not be"
        else:
            wanted = store.answer(client, command, place)
            if reply != line_of(wanted, plain):
                return f"history {number}: {reply!r} and not {wanted!r}"
            if told != line_of(wanted, texts_of[client - 1]):
                return f"history {number}: {told!r} was the client answered and not {wanted!r}"
            is_draft = command[0] in ("dput", "dget")
            shown = store.lasts[client - 1] if is_draft else len(store.trees) - 1
            if place != shown:
                return f"history {number}: place {place} and not {shown}"
        if place < store.lasts[client - 1]:
            return f"history {number}: a place that falls"
        store.lasts[client - 1] = place
    if done != [len(c) for c in commands]:
        return "the history lacks commands"
    if not stats or stats[0] != "stats":
        return "no stats"
    found = {}
    for line in stats[1:]:
        word, value = line.split(" ")
        found[word] = int(value)
    made = len(store.trees) - 1
    names = ["commands", "versions", "claimed", "freed", "used", "free", "cycles"]
    wrong = [what for what, holds in (
        ("names", list(found) == names),
        ("commands", found.get("commands") == many), ("versions", found.get("versions") == made),
        ("number of ok", made == sum(r.startswith("ok ") for own in replies for r in own)),
        ("claims and frees", 3 + found["claimed"] == found["used"] + found["freed"]),
        ("cells", found["used"] + found["free"] == cells),
        ("claims", found["claimed"] >= made),
        ("cycles", found["cycles"] <= cycles),
        ("a full heap", not full or found["claimed"] >= cells - 3)) if not holds]
    batches = sum(c[0] == "batch" for own in commands for c in own)
    for what, more in (("commands", many), ("batches", batches), ("commits", made), ("full", full),
                       ("with a full heap", full > 0), ("freed", found.get("freed", 0))):
        seen[what] = seen.get(what, 0) + more
    return "stats: " + ", ".join(wrong) if wrong else None


# Kinds of runs: how many clients, cells, versions that stay, and so on.

def words(r, names):
    return "/".join(r.choice(names) for _ in range(r.randint(1, 3)))


def command(r, names):
    x = r.random()
    if x < 0.42:
        many = r.choice((0, 1, 5, 20, 21, 22, 60))
        return f"put {words(r, names)} {'x' * many}{r.randrange(100)}"
    if x < 0.50:
        return f"del {words(r, names)}"
    if x < 0.56:
        return f"copy {words(r, names)} {words(r, names)}"
    if x < 0.60:
        return f"publish {words(r, names)}"
    if x < 0.72:
        return f"get {words(r, names)}"
    if x < 0.77:
        return f"list {words(r, names)}"
    if x < 0.82:
        return f"size {words(r, names)}"
    if x < 0.88:
        return f"old {r.randrange(5)} {words(r, names)}"
    if x < 0.93:
        return f"dput {words(r, names)} d{r.randrange(100)}"
    if x < 0.96:
        return f"dget {words(r, names)}"
    return f"take {words(r, names)}"


def scripts_of(r, clients, commands, names):
    return ["".join(command(r, names) + "\n" for _ in range(commands)) for _ in range(clients)]


def text(r):
    """A text of version 2: any bytes that a text may have, and mostly few."""
    many = r.choice((0, 1, 5, 20, 21, 22, 60, 60)) if r.random() < 0.99 else 4096
    return "".join(r.choice('abc "\\\t\n~') for _ in range(many))


def edit(r, names):
    x = r.random()
    if x < 0.60:
        return f"put {words(r, names)} {quoted(text(r))}"
    if x < 0.70:
        return f"del {words(r, names)}"
    if x < 0.90:
        return f"copy {words(r, names)} {words(r, names)}"
    return f"publish {words(r, names)}"


def second_command(r, names, most):
    """A command of version 2, or a batch of so many edits at most, by its lines."""
    x = r.random()
    if x < 0.30:
        edits = [edit(r, names) for _ in range(r.randint(0, most))]
        return "\n".join(["begin", *edits, "commit"])
    if x < 0.50:
        return edit(r, names)
    if x < 0.60:
        return f"dput {words(r, names)} {quoted(text(r))}"
    while True:
        line = command(r, names)
        if line.split(" ")[0] not in ("put", "dput"):
            return line


def second_scripts_of(r, clients, commands, names, most):
    """Scripts of version 2, and every fourth of version 1."""
    first = scripts_of(r, clients, commands, names)
    return [one if r.random() < 0.25 else "docs 2\n" + "".join(
        second_command(r, names, most) + "\n" for _ in range(commands)) for one in first]


def draft_command(r, names, longest):
    """A command of version 2 on a draft with these names, or a batch that publishes it."""
    x, name = r.random(), r.choice(names)
    if x < 0.80:
        return f"dput {name} {quoted('t' * r.randint(0, longest))}"
    if x < 0.88:
        return f"dget {name}"
    if x < 0.92:
        edits = [f"put q/{r.choice(names)} {quoted('b' * r.randint(0, longest))}"
                 for _ in range(r.randint(1, 80))]
        return "\n".join(["begin", *edits, "publish p", "commit"])
    return r.choice(("publish p", "take p", f"get p/{name}", "size p"))


def drafts_of(r, clients, commands):
    """Scripts whose drafts have from a tenth to nearly all of the records of a private heap."""
    names = [f"n{k}" for k in range(r.choice((60, 120, 200, 250)))]
    longest = r.choice((0, 40, 150, 300))
    return ["docs 2\n" + "".join(draft_command(r, names, longest) + "\n" for _ in range(commands))
            for _ in range(clients)]


# Each kind gives its scripts, the cells, how many versions stay, and the number of the last one.
MILLION = 1_000_000
KINDS = {
    "64 clients, 64 cells": lambda r: (
        scripts_of(r, 64, 12, "ab"), 64, r.choice((1, 2, 8)), MILLION),
    "64 clients, 64 cells, 40 commands": lambda r: (
        scripts_of(r, 64, 40, "abc"), 64, 1, MILLION),
    "2 to 8 clients, keep 1": lambda r: (
        scripts_of(r, r.randint(2, 8), 60, "abc"), 2048, 1, MILLION),
    "2 to 8 clients, keep 1, 200 commands": lambda r: (
        scripts_of(r, r.randint(2, 8), 200, "abcde"), 4096, 1, MILLION),
    "2 to 8 clients, keep 1, 64 cells": lambda r: (
        scripts_of(r, r.randint(2, 8), 60, "ab"), 64, 1, MILLION),
    "2 to 8 clients, little heap": lambda r: (
        scripts_of(r, r.randint(2, 8), 40, "abcd"), r.choice((64, 100, 200)), r.randint(1, 4),
        MILLION),
    "2 clients, few versions": lambda r: (
        scripts_of(r, 2, 60, "abc"), 4096, r.randint(1, 100), r.randint(1, 30)),
    "16 clients, large heap": lambda r: (
        scripts_of(r, 16, 60, "abcdefgh"), 65_536, 8, MILLION),
    "2 to 8 clients, batches": lambda r: (
        second_scripts_of(r, r.randint(2, 8), 60, "abcd", 8), 16_384, r.randint(1, 8), MILLION),
    "2 to 8 clients, batches, little heap": lambda r: (
        second_scripts_of(r, r.randint(2, 8), 30, "ab", 5), r.choice((64, 100, 200)), 1, MILLION),
    "2 clients, batches, few versions": lambda r: (
        second_scripts_of(r, 2, 40, "abc", 4), 16_384, r.randint(1, 100), r.randint(1, 20)),
    "4 clients, long batches": lambda r: (
        second_scripts_of(r, 4, 8, "abcdefgh", 400), 65_536, 2, MILLION),
    "1 to 4 clients, drafts that nearly fill the private heap": lambda r: (
        drafts_of(r, r.randint(1, 4), 500), 65_536, r.randint(1, 4), MILLION),
}


def scripts_of_puts(r, commands):
    return "".join(r.choice(("put a x\n", "put b y\n", "get a\n")) for _ in range(commands))


def batch_of(edits):
    return "\n".join(["begin", *edits, "commit"]) + "\n"


def large_batch_and_commits(r):
    """A batch of 1,000 edits of a folder with 256 children, and four clients that commit."""
    names = [f"k{k:03}" for k in range(256)]
    laid = [f"put f/{name} {quoted(text(r))}" for name in names]
    edits = [f"put f/{r.choice(names)} {quoted(text(r))}" for _ in range(1000)]
    return ["docs 2\n" + batch_of(laid) + batch_of(edits)] + [
        "".join(f"put c{c}/{r.choice('abc')} {n}\n" for n in range(r.randint(100, 2000)))
        for c in range(4)]


# Long runs, made where --only names them. Drafts of 64 clients soon fill 64 cells for good, so one
# kind has none.
LONG = {
    "64 clients, 64 cells, 1500 commands": lambda r: (
        scripts_of(r, 64, 1500, "abc"), 64, 1, MILLION),
    "64 clients, 64 cells, 1500 puts and gets": lambda r: (
        [scripts_of_puts(r, 1500) for _ in range(64)], 64, 1, MILLION),
    "a batch of 1000 edits, 4 clients that commit": lambda r: (
        large_batch_and_commits(r), 65_536, r.randint(1, 8), MILLION),
    "2 to 64 clients, keep 1": lambda r: (
        scripts_of(r, r.randint(2, 64), 60, "abc"), r.choice((64, 200, 2048)), 1, MILLION),
}


class Program:
    """The program, with a folder that has the files of one run."""

    def __init__(self, docheap, limit):
        self.docheap, self.limit, self.ran = docheap, limit, None
        self.folder = tempfile.mkdtemp(prefix="docheap-stress-")

    def file(self, name, data):
        path = os.path.join(self.folder, name)
        with open(path, "wb") as it:
            it.write(data)
        return path

    def files(self, scripts):
        return [self.file(str(c), script.encode("ascii")) for c, script in enumerate(scripts, 1)]

    def run(self, *words, **named):
        """What the program answers to the words, with these variables of the environment."""
        self.ran = subprocess.run([self.docheap, *words], capture_output=True, timeout=self.limit,
                                  env={**os.environ, **named})
        return self.ran

    def has(self, word):
        """Whether it has this word: an absent file is a read fault then, and not usage."""
        return self.run(word, os.path.join(self.folder, "absent")).returncode != 1

    def wrong_status(self):
        """What is wrong where the last status is not 0."""
        return f"status {self.ran.returncode}: {self.ran.stderr.decode()}"


def totals_of(output):
    """The lines behind `stats` of an output, by their words."""
    lines = output.split("\n")
    lines = lines[lines.index("stats") + 1:]
    return {line.split(" ")[0]: int(line.split(" ")[1]) for line in lines if line}


def run_of(kind, program, r, seen):
    """Runs scripts, or has the image that they leave."""
    scripts, cells, keep, versions = kind(r)
    cycles = r.choice((heaps.WHOLE, heaps.WHOLE, heaps.WHOLE, 0, 1, 3))
    is_image, is_one = r.random() < 0.25, r.random() < 0.3
    limits = {"cells": cells, "keep": keep, "versions": versions, "cycles": cycles}
    words = ["--minor", "4096"]
    for name, value in limits.items():
        words += [f"--{name}", str(value)]
    if is_image:
        return image_of(program, scripts[:1] if is_one else scripts, words, limits, seen)
    ran = program.run("run", *words, "--history", "--stats", *program.files(scripts))
    if ran.returncode:
        return program.wrong_status()
    return check(scripts, ran.stdout.decode(), seen=seen, **limits)


def image_of(program, scripts, words, limits, seen):
    files, stored, used = program.files(scripts), None, None
    # One client's versions are known where no reply can be `full`.
    if len(scripts) == 1 and limits["cells"] >= 2048:
        ran = program.run("run", *words, "--history", "--stats", *files)
        if ran.returncode:
            return program.wrong_status()
        wrong = check(scripts, ran.stdout.decode(), seen=seen, **limits)
        if wrong:
            return wrong
        store = Store(1, limits["keep"], limits["versions"])
        for command in read(scripts[0]):
            store.answer(1, command, None)
        stored, used = store.trees, totals_of(ran.stdout.decode())["used"]
    data = program.run("image", *words, *files).stdout
    if program.ran.returncode:
        return program.wrong_status()
    image = program.file("image", data)
    wrong = heaps.wrong_in(data, stored=stored, **limits)
    if wrong:
        return wrong
    lines = data.count(b"\n") - 2
    if used is not None and limits["cycles"] == heaps.WHOLE and used != lines:
        return f"{lines} cells in use and not {used}"
    for what, many in (("images", 1), ("cells in use", lines), ("with known trees", bool(stored))):
        seen[what] = seen.get(what, 0) + many
    return wrong_census(program, image, data) if program.has("census") else None


def wrong_census(program, image, data):
    """What is wrong with the census of a text, which may be no image."""
    ran = program.run("census", image)
    if len(data) > heaps.LARGEST:
        wanted, status = "docheap: file 1: too large\n", 6
    else:
        wanted = heaps.census_of(data)
        status = 0 if wanted.startswith("cells") else 2
    said, silent = (ran.stderr, ran.stdout) if status else (ran.stdout, ran.stderr)
    if ran.returncode != status or said.decode() != wanted or silent:
        return f"census: status {ran.returncode}, {said.decode()!r} and not {status}, {wanted!r}"
    return None


def damages_of(is_every, program, r, seen):
    """Images of a small heap with a fault, some with two."""
    script = "".join(command(r, "ab") + "\n" for _ in range(r.randint(2, 6)))
    data = program.run("image", "--cells", "64", "--keep", str(r.randint(1, 3)), "--cycles", "0",
                       *program.files([script])).stdout
    if program.ran.returncode:
        return program.wrong_status()
    texts = [data, *heaps.damaged(data)]
    twice = [text for text in r.sample(texts, 300) if heaps.census_of(text).startswith("cells")]
    if not is_every:
        texts = r.sample(texts, 40)
    for text in twice[:10]:
        texts += r.sample(list(heaps.damaged(text)), 3)
    for text in texts:
        wrong = wrong_census(program, program.file("image", text), text)
        if wrong:
            return wrong
        kind = heaps.census_of(text).split("\n")[0].split(": ")[-1]
        kind = "as they are counted" if kind.startswith("cells") else kind
        for what in ("damages", kind):
            seen[what] = seen.get(what, 0) + 1
    return None


@functools.cache
def library():
    """Builds what holds up the thread that dumps or receives, and gives its path."""
    folder = tempfile.mkdtemp()
    atexit.register(shutil.rmtree, folder)
    return library_of("delay_threads", folder)


def dump_of(program, r, seen):
    """A dump of a version beside 16 clients that write to the same folders. Who dumps made the
    first of their threads, the second of all, and is held up behind it, so that there is a tree."""
    copies, most = r.choice((3, 10, 37, 37, 37)), r.choice((5, 20, 60))
    scripts = list(dumps.scripts_of(r, copies, most))
    delay = str(r.choice((0, 3, 30, 300, 3000)) * r.randint(500, 1000))
    held_up = {"LD_PRELOAD": library(), "DELAY_BEHIND": "2", "DELAY_FOR": delay}
    data = program.run("dump", *program.files(scripts), **held_up).stdout
    if program.ran.returncode:
        return program.wrong_status()
    dump = program.file("dump", data)
    wrong = dumps.wrong_in(scripts, data, seen)
    if wrong:
        return wrong
    if program.run("load", dump).returncode:
        return program.wrong_status()
    found, wanted = program.ran.stdout.decode(), dumps.loaded(data)
    return None if found == wanted else f"loaded: {found!r} and not {wanted!r}"


def mail_of(kind, program, r, seen):
    """Values that senders put into one mailbox, beside a receiver. It has but so many turns, and
    takes them at once; so it is held up in some runs, until there is something to be taken."""
    scripts, cells = kind(r)
    cycles = r.choice((mailboxes.WHOLE, mailboxes.WHOLE, mailboxes.WHOLE, 0, 1, 3))
    delay = str(r.choice((0, 1_000, 30_000, 30_000)))
    held_up = {"LD_PRELOAD": library(), "DELAY_BEHIND": "2", "DELAY_FOR": delay}
    ran = program.run("mail", "--cells", str(cells), "--cycles", str(cycles),
                      *program.files(scripts), **held_up)
    if ran.returncode:
        return program.wrong_status()
    return mailboxes.wrong_in(scripts, ran.stdout, cells, cycles, seen)


# Kinds of mailboxes: the scripts of their senders, and the cells.
MAILBOXES = {
    "a mailbox": lambda r: (
        mailboxes.scripts_of(r, r.choice((1, 1, 2, r.randint(3, 63))), r.choice((5, 20, 60))),
        r.choice((64, 64, 65, 100, 300, 2048, 65_536))),
    "63 senders on 64 cells": lambda r: (mailboxes.scripts_of(r, 63, 12), 64),
}

# The kinds of runs that are made, and those that have to be named.
WAYS = {name: functools.partial(run_of, kind) for name, kind in KINDS.items()}
WAYS["small images with a fault"] = functools.partial(damages_of, False)
WAYS["a dump beside 16 clients"] = dump_of
WAYS.update((name, functools.partial(mail_of, kind)) for name, kind in MAILBOXES.items())
NAMED = {name: functools.partial(run_of, kind) for name, kind in LONG.items()}
NAMED["every damage of a small image"] = functools.partial(damages_of, True)
# What a kind cannot do without, where a program may lack it.
WANTED = {"small images with a fault": "census", "every damage of a small image": "census",
          "a dump beside 16 clients": "dump", **dict.fromkeys(MAILBOXES, "mail")}


def one(docheap, name, seed, limit):
    """What is wrong with a run, or None, and what was seen in it."""
    seen, program = {}, Program(docheap, limit)
    try:
        wrong = {**WAYS, **NAMED}[name](program, random.Random(f"{name} {seed}"), seen)
    except subprocess.TimeoutExpired:
        shutil.rmtree(program.folder)
        return None, {"late": seed}
    if wrong:
        program.file("output", program.ran.stdout)
        return f"{wrong}: {' '.join(program.ran.args)}", seen
    shutil.rmtree(program.folder)
    return None, seen


def told(seen):
    return ", ".join(f"{many} {what}" for what, many in seen.items())


def main():
    p = argparse.ArgumentParser()
    p.add_argument("docheap")
    p.add_argument("--runs", type=int, default=200)
    p.add_argument("--seed", type=int, default=1)
    p.add_argument("--jobs", type=int, default=1)
    p.add_argument("--only")
    p.add_argument("--limit", type=int, default=120)
    args = p.parse_args()
    bad, runs, many_late, all_seen = 0, 0, 0, {}
    names = {**WAYS, **NAMED} if args.only else WAYS
    program = Program(os.path.abspath(args.docheap), args.limit)
    for name in [name for name in names if not args.only or args.only in name]:
        word = WANTED.get(name)
        if word and not program.has(word):
            print(f"{name}: not run, as this program has no word '{word}'")
            continue
        if word in ("dump", "mail"):
            library() # once, before any thread asks for it
        with concurrent.futures.ThreadPoolExecutor(args.jobs) as pool:
            seeds = range(args.seed, args.seed + args.runs)
            found = list(pool.map(lambda k: one(os.path.abspath(args.docheap), name, k, args.limit),
                                   seeds))
        wrong = [w for w, _ in found if w]
        bad += len(wrong)
        runs += len(found)
        sums, late = {}, [seen.pop("late") for _, seen in found if "late" in seen]
        many_late += len(late)
        for _, seen in found:
            for what, many in seen.items():
                sums[what] = sums.get(what, 0) + many
                all_seen[what] = all_seen.get(what, 0) + many
        print(f"{name}: {len(found)} runs, {len(wrong)} wrong, {len(late)} late; {told(sums)}",
              flush=True)
        if late:
            print(f"  late: seeds {late}")
        for w in wrong[:3]:
            print("  " + w)
    print(f"all: {runs} runs, {bad} wrong, {many_late} late; {told(all_seen)}")
    return 1 if bad or many_late else 0


if __name__ == "__main__":
    sys.exit(main())
