#!/usr/bin/env python3
"""What an item costs that goes through a mailbox, and through queues of Rust, Go and Java.

mailbox.py [PROGRAM] [--rounds N] [--lines N] [--cells N] [--senders 1,4,16] [--runs N]
           [--registry FOLDER] [--go FILE] [--programs FOLDER]

The same job by each: so many senders share LINES numbers and send them, each on a thread of its
own, and one receiver takes all of them and keeps them with their position and sender.

- docheap, `mail_run`: the call alone, by timing/mail_timing.rt.txt, less the same call without
  numbers, which opens and closes the heap, makes the threads and runs the collector;
- docheap, `mail`: the whole PROGRAM on files, less the same with empty files; so reading them and
  writing the lines count too. PROGRAM may be left out;
- Rust: crossbeam_queue's SegQueue, where FOLDER has its source (Debian's package
  librust-crossbeam-queue-dev lays it in /usr/share/cargo/registry), and a channel of
  std::sync::mpsc;
- Go: a channel with room for as many as the heap has cells;
- Java: a ConcurrentLinkedQueue.

Rust's SegQueue and Java's queue are asked again and again while they are empty, with a yield
between, as the mailbox is. Those of Go and mpsc let the receiver sleep.

The programs take turns in each round: docheap's make RUNS runs, the others thirty in one process,
after ten that are not counted, in which Java compiles. A row has the middle of the rounds, in
brackets the least and the greatest: items a second by the clock, nanoseconds of processor time of
all threads an item, and the ratios of the times to those of SegQueue (or mpsc) within each round. A
mailbox may be full, and the last column says how many of the lines were refused.

A send walks over all items that nobody has taken. The receiver waits for an item before each of its
takes, so these are few.
"""
import argparse, os, shutil, statistics, subprocess, sys, tempfile
sys.dont_write_bytecode = True
from running import TIMING, built, files_with, in_turns, numbers_of, run, spread

# How many runs of the queues are made before any is counted, and how many are counted.
UNCOUNTED, COUNTED = 10, 30
RUST = "--edition 2021 -C opt-level=3 -C codegen-units=1 -C panic=abort".split()
# The crates of SegQueue, each with those it stands on and its features.
CRATES = (("cfg-if", (), ()), ("crossbeam-utils", ("cfg-if",), ("std",)),
          ("crossbeam-queue", ("cfg-if", "crossbeam-utils"), ("alloc", "std")))


def source_of(registry, name):
    """The folder of a crate's source, or None."""
    if not os.path.isdir(registry):
        return None
    found = sorted(one for one in os.listdir(registry) if one.startswith(f"{name}-"))
    return f"{registry}/{found[-1]}/src/lib.rs" if found else None


def build_segments(registry, into):
    """Builds the Rust program with SegQueue; gives whether its source is there."""
    sources = {name: source_of(registry, name) for name, _, _ in CRATES}
    if None in sources.values():
        return False

    def library(name):
        return f"{into}/lib{name.replace('-', '_')}.rlib"

    for name, below, features in CRATES:
        words = ["rustc", "--crate-type", "rlib", "--crate-name", name.replace("-", "_"),
                 "--edition", "2018", "-C", "opt-level=3", "--cap-lints", "allow", "-L", into]
        words += [word for one in features for word in ("--cfg", f'feature="{one}"')]
        words += [word for one in below
                  for word in ("--extern", f"{one.replace('-', '_')}={library(one)}")]
        subprocess.run([*words, "-o", library(name), sources[name]], check=True)
    queue = f"crossbeam_queue={library('crossbeam-queue')}"
    subprocess.run(["rustc", *RUST, "--cfg", "segments", "-L", into, "--extern", queue, "-o",
                    f"{into}/mailbox_segments", f"{TIMING}/mailbox.rs"], check=True)
    return True


def build_queues(registry, go, into):
    """Builds the programs in other languages that can be built, and gives each by its name."""
    made = {}
    if build_segments(registry, into):
        made["Rust, SegQueue"] = [f"{into}/mailbox_segments"]
    subprocess.run(["rustc", *RUST, "-o", f"{into}/mailbox_channel", f"{TIMING}/mailbox.rs"],
                   check=True)
    made["Rust, mpsc"] = [f"{into}/mailbox_channel"]
    if go:
        environment = {**os.environ, "GOCACHE": f"{into}/gocache"}
        subprocess.run([go, "build", "-o", f"{into}/mailbox_go", f"{TIMING}/mailbox.go"],
                       check=True, env=environment)
        made["Go, channel"] = [f"{into}/mailbox_go"]
    if shutil.which("javac"):
        subprocess.run(["javac", "-d", f"{into}/java", f"{TIMING}/Mailbox.java"], check=True)
        made["Java, ConcurrentLinkedQueue"] = ["java", "-Xms512m", "-Xmx512m", "-cp",
                                               f"{into}/java", "Mailbox"]
    return made


def nanos(rows, lines):
    """Of one item: by the clock the middle run, of the processors the mean of all."""
    return {"clock": statistics.median(row[0] for row in rows) / lines,
            "all": statistics.mean(row[1] for row in rows) / lines, "refused": 0}


def rows_of(words, numbers, limit):
    """The numbers of each line that a program tells; none where it is late."""
    ran = run([*words, *map(str, numbers)], limit)
    return ran and [tuple(map(int, line.split())) for line in ran.output.splitlines()]


def theirs(name, words, args):
    def measure(senders):
        room = [args.cells] if name.startswith("Go") else []
        rows = rows_of(words, (senders, args.lines, *room, UNCOUNTED + COUNTED), args.limit)
        return rows and nanos(rows[UNCOUNTED:], args.lines)
    return measure


def ours(program, args):
    def measure(senders):
        rows = rows_of([program], (senders, args.lines, args.cells, args.runs), args.limit)
        if not rows:
            return None
        found = nanos([(wall - empty, own - empty_own)
                       for wall, own, empty, empty_own, _ in rows], args.lines)
        return {**found, "refused": statistics.median(row[4] for row in rows)}
    return measure


def whole(program, folder, args):
    def once(files):
        return run([program, "mail", "--cells", str(args.cells), *files], args.limit)

    def measure(senders):
        script = "".join(f"send {value}\n" for value in range(args.lines // senders))
        full = files_with(folder, [(str(k), script) for k in range(senders)])
        empty = files_with(folder, [(f"empty{k}", "") for k in range(senders)])
        pairs = [(once(full), once(empty)) for _ in range(args.runs)]
        if any(None in pair for pair in pairs):
            return None
        found = nanos([((one.wall - none.wall) * 1e9, (one.processor - none.processor) * 1e9)
                       for one, none in pairs], args.lines)
        refused = statistics.median(one.output.count(b"\nfull\n") for one, _ in pairs)
        return {**found, "refused": refused}
    return measure


def tell(name, senders, rounds, base):
    mine = [one[name] for one in rounds if one[name]]
    if not mine:
        print(f"| {name} | {senders} | no run ended in time |||||", flush=True)
        return
    pairs = [(one[name], one[base]) for one in rounds if one[name] and one[base]]
    late = f" ({len(rounds) - len(mine)} of {len(rounds)} late)" if len(mine) < len(rounds) else ""
    ratios = [spread([one[key] / other[key] for one, other in pairs], ".2f") if pairs else ""
              for key in ("clock", "all")]
    refused = statistics.median(one["refused"] for one in mine)
    print(f"| {name}{late} | {senders} | {spread([1e9 / one['clock'] for one in mine], ',.0f')} | "
          f"{ratios[0]} | {spread([one['all'] for one in mine], ',.0f')} | {ratios[1]} | "
          f"{refused:.0f} |", flush=True)


def main():
    p = argparse.ArgumentParser()
    p.add_argument("program", nargs="?")
    p.add_argument("--rounds", type=int, default=5)
    p.add_argument("--lines", type=int, default=100_000)
    p.add_argument("--cells", type=int, default=65_536)
    p.add_argument("--senders", default="1,4,16")
    p.add_argument("--runs", type=int, default=3)
    p.add_argument("--limit", type=float, default=300)
    p.add_argument("--registry", default="/usr/share/cargo/registry")
    p.add_argument("--go", default=shutil.which("go"))
    p.add_argument("--programs", help="a folder that has mail_timing")
    args = p.parse_args()
    timing = f"{args.programs}/mail_timing" if args.programs else built("mail_timing")
    with tempfile.TemporaryDirectory(prefix="docheap-mailbox-") as folder:
        made = {"docheap, `mail_run`": ours(timing, args)}
        if args.program:
            made["docheap, `mail`"] = whole(os.path.abspath(args.program), folder, args)
        for name, words in build_queues(args.registry, args.go, folder).items():
            made[name] = theirs(name, words, args)
        base = "Rust, SegQueue" if "Rust, SegQueue" in made else "Rust, mpsc"
        print(f"{args.lines} lines, {args.cells} cells, {args.rounds} rounds; load",
              *(f"{load:.1f}" for load in os.getloadavg()))
        print(f"\n| queue | senders | items a second | time to {base} | "
              "processor ns an item | to the same | refused |")
        print("|---" * 7 + "|")
        for senders in numbers_of(args.senders):
            measures = {name: lambda measure=measure: measure(senders)
                        for name, measure in made.items()}
            rounds = in_turns(measures, args.rounds)
            for name in made:
                tell(name, senders, rounds, base)


if __name__ == "__main__":
    sys.exit(main())
