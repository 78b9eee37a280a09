"""What a write of a field costs, or a read, and the same of bare words, Go and Java: operations.py
--writes and --reads."""
import os, re, statistics

from running import in_turns, run, spread

JAVA = ["-XX:+UseG1GC", "-Xbatch", "-Xms1g", "-Xmx1g", "-XX:+ExplicitGCInvokesConcurrent",
        "-XX:MaxTenuringThreshold=0", "-Xlog:gc+marking=info:stderr:timemillis"]
GO_MARKS = re.compile(r"gc \d+ @([\d.]+)s \d+%: ([\d.]+)\+([\d.]+)\+")
JAVA_MARKS = re.compile(r"\[(\d+)ms\].*Concurrent (?:Mark|Scan Root Regions) ([\d.]+)ms")

# How long each kind lasts in Go and in Java, in ms: while they collect, for several cycles.
LEAST = (100, 600)

# Each row, and the row of plain Rust that it is compared with.
ROWS = {
    "docheap, update": "plain Rust, update",
    "docheap, store": "plain Rust, store",
    "plain Rust, update": "plain Rust, update",
    "plain Rust, store": "plain Rust, store",
    "plain Rust, store, with a held list": "plain Rust, store",
    "Go, compare and exchange": "plain Rust, update",
    "Go, atomic store": "plain Rust, store",
    "Go, plain write": "plain Rust, store",
    "Java, compare and exchange": "plain Rust, update",
    "Java, volatile store": "plain Rust, store",
    "Java, plain write": "plain Rust, store",
    "Java, plain write across regions": "plain Rust, store",
}
READS = {
    "docheap, read of a cell, and the cut": "plain Rust, load",
    "docheap, read of a number": "plain Rust, load",
    "plain Rust, load": "plain Rust, load",
    "plain Rust, load, with a held list": "plain Rust, load",
    "Go, atomic load": "plain Rust, load",
    "Go, plain read": "plain Rust, load",
    "Java, volatile load": "plain Rust, load",
    "Java, plain read": "plain Rust, load",
}
KINDS = {"plain": "plain write", "far": "plain write across regions", "exchange":
         "compare and exchange", "read": "plain read"}


def rows_of(words, limit):
    """The words of each line that a program tells, and its log; none if it failed or is late."""
    ran = run(words, limit, strict=False, GODEBUG="gctrace=1")
    return ran and ([line.split() for line in ran.output.decode().splitlines()], ran.errors)


def nanos(threads, share=None):
    """Of a write: of its thread's own processor time, the mean over all threads, and by the clock.
    Each thread is what it took by the clock, of its own, how many writes it made, and tried."""
    if not threads or any(made != tried for _, _, made, tried in threads):
        return None
    return {"own": statistics.mean(own / made for _, own, made, _ in threads),
            "clock": max(wall / made for wall, _, made, _ in threads), "share": share}


def ours(program, kind, name):
    def measure(threads, writes, tracing, limit):
        got = rows_of([program, "writes", str(threads), str(writes), kind, str(tracing)], limit)
        if got is None:
            return {}
        rows = [list(map(int, row)) for row in got[0][:threads]]
        return {name: nanos([(row[0], row[1], row[5], writes) for row in rows])}
    return measure


def marked(spans, start, end):
    """The part of a time in which the collector marked."""
    inside = sum(max(0, min(end, till) - max(start, since)) for since, till in spans)
    return inside / (end - start)


def go_spans(log):
    """The times in which it marked, in ms since the start."""
    found = [tuple(map(float, one)) for one in GO_MARKS.findall(log)]
    return [(1000 * at + before, 1000 * at + before + took) for at, before, took in found]


def java_spans(log):
    """The same, in ms since 1970."""
    found = [tuple(map(float, one)) for one in JAVA_MARKS.findall(log)]
    return [(at - took, at) for at, took in found]


def theirs(program, language, nodes, spans, more):
    def measure(threads, writes, tracing, limit):
        numbers = (threads, writes, tracing, nodes, LEAST[tracing], *more)
        got = rows_of([*program, *map(str, numbers)], limit)
        if got is None:
            return {}
        out, times = {}, spans(got[1])
        for kind in dict.fromkeys(row[0] for row in got[0] if len(row) == 7):
            rows = [list(map(float, row[1:])) for row in got[0] if row[0] == kind]
            share = marked(times, min(row[4] for row in rows), max(row[5] for row in rows))
            atomic = f"atomic {kind}" if language == "Go" else f"volatile {kind}"
            name = f"{language}, {KINDS.get(kind, atomic)}"
            out[name] = nanos([row[:4] for row in rows], share if tracing else None)
        return out
    return measure


def programs(folder, nodes, reads):
    rust, mine = f"{folder}/plain_heap", f"{folder}/heap_timing"
    held = "plain Rust, store, with a held list"
    made = [ours(mine, "update", "docheap, update"), ours(rust, "update", "plain Rust, update"),
            ours(mine, "store", "docheap, store"), ours(rust, "store", "plain Rust, store"),
            ours(rust, "held", held)]
    if reads:
        made = [ours(mine, "read", "docheap, read of a cell, and the cut"),
                ours(rust, "heldload", "plain Rust, load, with a held list"),
                ours(mine, "number", "docheap, read of a number"),
                ours(rust, "load", "plain Rust, load")]
    more = ["reads"] if reads else []
    if os.path.exists(f"{folder}/writes_go"):
        made.append(theirs([f"{folder}/writes_go"], "Go", nodes, go_spans, more))
    if os.path.exists(f"{folder}/java/Writes.class"):
        java = ["java", *JAVA, "-cp", f"{folder}/java", "Writes"]
        made.append(theirs(java, "Java", nodes, java_spans, more))
    return made


def ratios(rounds, name, beside, tracing):
    """To plain Rust, within each round."""
    pairs = [(one.get((name, tracing)), one.get((beside, tracing))) for one in rounds]
    return spread([one["own"] / other["own"] for one, other in pairs if one and other])


def tell(rounds, name, beside, threads):
    def values(key, tracing):
        found = [one[name, tracing][key] for one in rounds if one.get((name, tracing))]
        return [value for value in found if value is not None]
    if not values("own", 0) and not values("own", 1):
        return
    clock = " / ".join(f"{statistics.median(values('clock', tracing)):.1f}"
                       if values("clock", tracing) else "-" for tracing in (0, 1))
    share = values("share", 1)
    share = f"{100 * statistics.median(share):.0f} %" if share else ""
    missing = sum(1 for one in rounds for tracing in (0, 1) if not one.get((name, tracing)))
    told = f"{name} ({missing} of {2 * len(rounds)} runs missing)" if missing else name
    plainly, traced = (ratios(rounds, name, beside, tracing) for tracing in (0, 1))
    print(f"| {told} | {threads} | {spread(values('own', 0))} | {plainly} | "
          f"{spread(values('own', 1))} | {traced} | {clock} | {share} |", flush=True)


def measure(folder, writes, rounds, threads_list, nodes, limit, reads):
    made = programs(folder, nodes, reads)
    writes -= writes % 64
    kind = "read" if reads else "write"
    print(f"{writes} {kind}s a thread, {rounds} rounds in turns, ns of own processor time a "
          f"{kind}; medians, in brackets the least and the greatest")
    print()
    print(f"| program, {kind} | threads | async | to plain Rust | tracing | to plain Rust | "
          "by the clock, async / tracing | of the time it marked |")
    print("|---" * 8 + "|")
    for threads in threads_list:
        def of_both(program):
            return {(name, tracing): what for tracing in (0, 1)
                    for name, what in program(threads, writes, tracing, limit).items()}
        measures = {k: lambda program=program: of_both(program) for k, program in enumerate(made)}
        found = [{name: what for one in turn.values() for name, what in one.items()}
                 for turn in in_turns(measures, rounds)]
        for name, beside in (READS if reads else ROWS).items():
            tell(found, name, beside, threads)
