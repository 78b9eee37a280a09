#!/usr/bin/env python3
"""What a thread's operations on the collected heap cost, and the same work in other languages.

operations.py [--shared BUILD] [--rounds N] [--claims N] [--programs FOLDER] [--hints N]
operations.py --writes|--reads [--rounds N] [--each WRITES] [--nodes N] [--programs FOLDER]

One command: it builds the two programs of bench/timing, unless a folder is given that has them, and
runs them in turns with the programs of the shared bench's micro/ (BUILD is its folder build/, as its
setup.sh makes it): each thread claims cells of seven words, fills five fields, seals, links the cell
to the one before it, and drops the oldest one once half of the heap is its own. Where a collector
runs it is on a thread of its own.

- by the clock: the time of the run over the claims of one thread;
- in all: processor time of the whole process, the collector's share included, over all claims;
- the longest gap: in further runs, in which each thread reads its own processor time after each
  operation (ours, plain Rust), or the clock (the others, less the time in which the thread was ready
  and had no processor). Ours and plain Rust tell the claims, which may wait for the collector, from
  the safe points and from all else.

plain Rust is bench/timing/plain_heap.rs: the same words, operations, collector and queue, with
nothing proved. By `64 hints` it tries so many hints before it goes over all cells, and by `waits`
it goes over them only where it would else be refused.

--writes: a field of a box is written instead, so many times by each thread, while nobody collects
(async) and while the collector marks (tracing), with a safe point after each 64 writes. Next to
`update` and `store` of a mutator stand the same atomic operations on bare words, `store` with a
held list in plain Rust too, and the writes of Go and of Java (G1) by programs of timing/, with
their barriers. Ours stays in the stage Trace all the time. For the others, that begin one
collection after another over a live tree of N nodes, the last column has the part of the time in
which they marked. Their plain writes are no sequentially consistent stores, as all of ours are.

--reads: a field is read instead, in the same way. A read of a cell is timed with the `cut` that
gives up what it holds, for else the held list would be full; a read of a number holds nothing.
Next to them stand the load of a bare word, the same with a held list, an atomic (volatile) load and
a plain read of Go and of Java; Java's plain read is opaque, so that none is left out.
"""
import os, statistics, sys
sys.dont_write_bytecode = True
from running import BUILT, SHARED, built, numbers_of, parser_of, run, spread
import build, field_writes


def rows_of(words, limit):
    """The numbers that a program tells, and its processor seconds; none if it failed or is late."""
    ran = run(words, limit, strict=False)
    if ran is None:
        return None
    return [list(map(float, line.split())) for line in ran.output.splitlines()], ran.processor


def ours(program, more=()):
    """Nanoseconds by the clock and in all, the three gaps in us, cycles and how long a claim is."""
    def measure(threads, cells, keep, claims, timed, limit):
        words = [program, "work", *map(str, (threads, cells, keep, claims, timed)), *more]
        got = rows_of(words, limit)
        if got is None:
            return None
        rows, _ = got
        workers, collector, (wall, spent) = rows[:threads], rows[threads], rows[threads + 1]
        if any(w[5] != claims for w in workers):
            return None
        clock = max(w[0] for w in workers) / claims
        gaps = [max(w[k] for w in workers) / 1000 for k in (2, 3, 4)]
        return {"clock": clock, "all": spent / (threads * claims), "gaps": gaps,
                "collector": collector[1] / (threads * claims), "cycles": collector[2]}
    return measure


def theirs(program):
    def measure(threads, cells, keep, claims, timed, limit):
        got = rows_of([*program, *map(str, (threads, cells, keep, claims, timed))], limit)
        if got is None:
            return None
        rows, spent = got
        return {"clock": rows[0][0], "all": spent * 1e9 / (threads * claims), "gaps": [rows[0][2]],
                "cycles": rows[0][3]}
    return measure


def main():
    p = parser_of(__doc__)
    p.add_argument("--shared", default=f"{SHARED}/build")
    p.add_argument("--rounds", type=int, default=7)
    p.add_argument("--claims", type=int, default=1_000_000)
    p.add_argument("--cells", type=int, default=65_536)
    p.add_argument("--threads", default="1,4")
    p.add_argument("--limit", type=int, default=60)
    p.add_argument("--programs")
    p.add_argument("--writes", action="store_true", help="writes of a field, and nothing else")
    p.add_argument("--reads", action="store_true", help="reads of a field, and nothing else")
    p.add_argument("--each", type=int, default=8_000_000, help="so many writes, or reads, a thread")
    p.add_argument("--nodes", type=int, default=4_000_000, help="of the live tree in Go and Java")
    p.add_argument("--also", action="append", default=[], help="NAME=PROGRAM: one more of ours")
    args = p.parse_args()
    if not args.programs:
        args.programs = BUILT
        built("heap_timing")
        build.build_plain(BUILT)
        if args.writes or args.reads:
            build.build_others(BUILT)
    if args.writes or args.reads:
        threads = numbers_of(args.threads)
        field_writes.measure(args.programs, args.each, args.rounds, threads, args.nodes, args.limit,
                             args.reads)
        return
    plain = f"{args.programs}/plain_heap"
    made = {"docheap": ours(f"{args.programs}/heap_timing"), "plain Rust": ours(plain),
            "plain Rust, 64 hints": ours(plain, ("64",)), "plain Rust, waits": ours(plain, ("0",))}
    for word in args.also:
        name, _, program = word.partition("=")
        made[name] = ours(program)
    for name, file in (("Go", "micro_go"), ("OCaml", "micro_ocaml"),
                       ("no collector, C", "micro_atomic")):
        if os.path.exists(f"{args.shared}/{file}"):
            made[name] = theirs([f"{args.shared}/{file}"])
    keep = args.cells // 2
    print(f"{args.cells} cells a thread, half of them live, {args.claims} claims a thread, "
          f"{args.rounds} rounds in turns; medians, in brackets the least and the greatest")
    print()
    print("| program | threads | ns a claim, by the clock | ns a claim, in all | of it the collector's "
          "| cycles | longest gap, us: claim / other / safe point, least of the runs (median) |")
    print("|---|---|---|---|---|---|---|")
    for threads in numbers_of(args.threads):
        programs = dict(made)
        if os.path.exists(f"{args.shared}/java/Micro.class"):
            room = max(32, threads * args.cells * 72 // (1 << 20) * 2)
            for name, flags in (("Java, G1", []), ("Java, ZGC", ["-XX:+UseZGC"])):
                programs[name] = theirs(["java", *flags, f"-Xmx{room}m", "-cp",
                                         f"{args.shared}/java", "Micro"])
        if threads > 1:
            programs.pop("OCaml", None)
        got = {name: ([], []) for name in programs}
        for k in range(args.rounds):
            for name in list(programs)[::1 if k % 2 else -1]:
                for timed in (0, 1):
                    claims = args.claims // 2 if timed else args.claims
                    one = programs[name](threads, args.cells, keep, claims, timed, args.limit)
                    got[name][timed].append(one)
        for name, (plainly, timed) in got.items():
            bad = plainly.count(None) + timed.count(None)
            plainly, timed = ([one for one in list_ if one] for list_ in (plainly, timed))
            if not plainly or not timed:
                print(f"| {name} | {threads} | {bad} runs took over {args.limit} s |||||")
                continue
            if bad:
                name += f" ({bad} of {2 * args.rounds} runs took over {args.limit} s)"
            def cell(key):
                found = [one[key] for one in plainly if key in one]
                return spread(found, ".0f") if found else ""
            gaps = list(zip(*(one["gaps"] for one in timed)))
            shown = " / ".join(f"{min(g):.0f} ({statistics.median(g):.0f})" for g in gaps)
            print(f"| {name} | {threads} | {cell('clock')} | {cell('all')} | {cell('collector')} | "
                  f"{cell('cycles')} | {shown} |", flush=True)


if __name__ == "__main__":
    main()
