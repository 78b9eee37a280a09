#!/usr/bin/env python3
"""The whole program, and those that other languages' users would write.

baselines.py [PROGRAM] [--shared FOLDER] [--rounds N] [--only WORDS] [--also NAME=PROGRAM]
             [--with A,B]

One command, once `setup.sh` of a copy of the shared bench (FOLDER, /tmp/bench if none is given) has
built the other programs. They take turns, another one first in each round. The tables have the
medians of the wall time and of the processor time in ms with the ratio to Go in brackets, and the
largest resident memory in MB. Replies of one client are compared, and have to be alike.
"""
import hashlib, os, random, shutil, statistics, subprocess, sys, tempfile
sys.dont_write_bytecode = True
from running import SHARED, files_of, parser_of

DIGITS = "0123456789abcdefghijklmnopqrstuvwxyzABCDEFGHIJKLMNOPQRSTUVWXYZ-_"


def halves(commands=10_000):
    r = random.Random(1)
    paths = [f"dir{i}/page{j}" for i in range(10) for j in range(20)]
    return [[f"put {r.choice(paths)} text {k} of this page" if r.random() < 0.5
             else f"get {r.choice(paths)}" for k in range(commands)]]


def mostly_gets(commands=100_000):
    r = random.Random(2)
    names = [DIGITS[i % 36] + DIGITS[i // 36] for i in range(199)]
    out = [f"put d/{n} t{n}" for n in names]
    while len(out) < commands:
        p, x = "d/" + r.choice(names), r.random()
        out.append(f"get {p}" if x < 0.93 else f"put {p} x" if x < 0.97
                   else f"old {r.randrange(4)} {p}" if x < 0.99 else "size d" if x < 0.999 else "list d")
    return [out]


def two_to_three(commands, seed=9):
    r = random.Random(seed)
    out = []
    for _ in range(commands):
        p = f"{r.randrange(10)}/{DIGITS[r.randrange(20)]}"
        out.append(f"put {p} {r.randrange(10)}" if r.random() < 0.4 else f"get {p}")
    return [out]


def many_paths(commands, seed=3):
    r = random.Random(seed)
    out = []
    for _ in range(commands):
        page = r.randrange(200)
        p = f"{DIGITS[r.randrange(50)]}/{DIGITS[page // 64]}{DIGITS[page % 64]}"
        out.append(f"put {p} {r.randrange(10)}" if r.random() < 0.4 else f"get {p}")
    return [out]


def deep_copies(commands=10_000):
    r = random.Random(5)
    out = [f"put t{i}/a/b/c{j}/n{k} leaf {i} {j} {k}" for i in range(8) for j in range(4)
           for k in range(4)]
    while len(out) < commands:
        x, t, u, j, k = r.random(), r.randrange(8), r.randrange(8), r.randrange(4), r.randrange(12)
        to = f"u{u}/v{j}/w/x{k}"
        out.append(f"copy t{t}/a/b {to}" if x < 0.60
                   else f"put {to}/c{j}/n{r.randrange(4)}/z deep text" if x < 0.75
                   else f"del {to}" if x < 0.82
                   else f"put t{t}/a/b/c{j}/n{r.randrange(4)} changed {k}" if x < 0.85
                   else f"get {to}/c{j}/n{r.randrange(4)}" if x < 0.95 else f"size u{u}")
    return [out]


def drafts(commands=10_000):
    r = random.Random(6)
    out = []
    while len(out) < commands:
        x, p = r.random(), f"k{r.randrange(200)}"
        out.append(f"dput {p} draft text {r.randrange(10000)}" if x < 0.80 else f"dget {p}" if x < 0.90
                   else f"publish pub{r.randrange(10)}" if x < 0.95 else f"take pub{r.randrange(10)}")
    return [out]


def generated(program, clients, commands):
    words = [*program, "gen", "1", str(clients), str(commands), "--print"]
    texts = [subprocess.run([*words, str(c)], capture_output=True, check=True).stdout
             for c in range(1, clients + 1)]
    return [text.decode().splitlines() for text in texts]


def workloads(plain):
    return {
        "an empty script": lambda: [[]],
        "one client, 10,000, half puts, 200 paths": halves,
        "one client, 100,000, mostly gets of a folder of 199": mostly_gets,
        "one client, 10,000, deep copies": deep_copies,
        "one client, 10,000, drafts": drafts,
        "one client, 10,000, 2 puts to 3 gets, 200 paths": lambda: two_to_three(10_000),
        "one client, 100,000, 2 puts to 3 gets, 200 paths": lambda: two_to_three(100_000),
        "one client, 10,000, 2 puts to 3 gets, 10,000 paths": lambda: many_paths(10_000),
        "one client, 100,000, 2 puts to 3 gets, 10,000 paths": lambda: many_paths(100_000),
        "4 clients, 20,000, generated": lambda: generated(plain, 4, 5000),
        "16 clients, 16,000, generated": lambda: generated(plain, 16, 1000),
        "4 clients, 100,000, 2 puts to 3 gets, 200 paths":
            lambda: [two_to_three(25_000, 20 + c)[0] for c in range(4)],
        "4 clients, 100,000, 2 puts to 3 gets, 10,000 paths":
            lambda: [many_paths(25_000, 30 + c)[0] for c in range(4)],
        "10 clients, 100,000, generated": lambda: generated(plain, 10, 10_000),
    }


def once(shared, program, files, out):
    """Status, wall time and processor time in ms, and the largest resident memory in MB."""
    ran = subprocess.run([f"{shared}/build/clockrun", out, "120", *program, "run", *files],
                         capture_output=True, text=True)
    status, wall, user, system, memory = map(int, ran.stdout.split())
    return status, wall / 1e6, (user + system) / 1e3, memory / 1024


def main():
    p = parser_of(__doc__, "program")
    p.add_argument("--shared", default=SHARED)
    p.add_argument("--rounds", type=int, default=5)
    p.add_argument("--only", default="", help="workloads whose names have these words")
    p.add_argument("--also", action="append", default=[], help="NAME=PROGRAM: one more")
    p.add_argument("--with", dest="others", default="rust_plain,rust_rc,rust_epoch,ocaml_plain,"
                   "go_plain,java_g1,java_zgc")
    args = p.parse_args()
    known = {name: [f"{args.shared}/build/{name}"] for name in
             ("rust_plain", "rust_rc", "rust_epoch", "ocaml_plain", "go_plain")}
    for name, flags in (("java_g1", []), ("java_zgc", ["-XX:+UseZGC"])):
        known[name] = ["java", *flags, "-cp", f"{args.shared}/build/java", "Plain"]
    programs = {name: known[name] for name in args.others.split(",") if name in known
                and (name.startswith("java") or os.path.exists(known[name][0]))}
    programs["docheap"] = [os.path.abspath(args.program)]
    for word in args.also:
        name, _, path = word.partition("=")
        programs[name] = [os.path.abspath(path)]
    names, tables, bad = list(programs), {"wall": [], "processor": [], "memory": []}, 0
    folder = tempfile.mkdtemp(prefix="docheap-baselines-")
    try:
        for load, make in workloads([f"{args.shared}/build/rust_plain"]).items():
            if args.only not in load:
                continue
            files = files_of(folder, make())
            got, outputs = {name: [] for name in names}, {}
            for k in range(args.rounds):
                turn = k % len(names)
                for name in names[turn:] + names[:turn]:
                    one = once(args.shared, programs[name], files, f"{folder}/out")
                    if one[0]:
                        print(f"{load}: {name} ended with status {one[0]}")
                        bad += 1
                    got[name].append(one)
                    if len(files) == 1:
                        with open(f"{folder}/out", "rb") as it:
                            outputs.setdefault(hashlib.sha256(it.read()).hexdigest(), name)
            if len(outputs) > 1:
                print(f"{load}: outputs differ: {', '.join(outputs.values())}")
                bad += 1
            middle = lambda name, k: statistics.median(one[k] for one in got[name])
            for what, k in (("wall", 1), ("processor", 2)):
                to = middle("go_plain", k) if "go_plain" in names else 0
                tables[what].append([load, *(
                    f"{middle(n, k):.1f}" + (f" ({middle(n, k) / to:.2f})" if to else "")
                    for n in names)])
            tables["memory"].append([load, *(f"{middle(n, 3):.0f}" for n in names)])
            print(f"measured: {load}", file=sys.stderr)
    finally:
        shutil.rmtree(folder, ignore_errors=True)
    for what, head in (("wall", "wall time, ms (to Go)"), ("processor", "processor time, ms (to Go)"),
                       ("memory", "resident memory, MB")):
        print(f"\n| {head} | " + " | ".join(names) + " |")
        print("|---" * (1 + len(names)) + "|")
        for row in tables[what]:
            print("| " + " | ".join(row) + " |")
    return 1 if bad else 0


if __name__ == "__main__":
    sys.exit(main())
