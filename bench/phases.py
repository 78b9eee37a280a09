#!/usr/bin/env python3
"""What each thread does, millisecond by millisecond, in one run of the program.

phases.py PROGRAM WORDS..        as: phases.py crates/docheap_cli/out/docheap_cli run FILE

With Linux's `perf`, 20 samples a millisecond. A line is a millisecond; a column a thread, the first
one's first, with how many samples it has there and the function that has most of them. So one sees
how long the opening takes, how long the clients, how long the cycles after them, and who waits.
"""
import collections, re, subprocess, sys, tempfile


def samples(words):
    """Of each sample its millisecond, its thread, the main one as 0, and its function."""
    with tempfile.TemporaryDirectory() as folder:
        data = f"{folder}/perf"
        subprocess.run(["perf", "record", "-q", "-e", "cpu-clock", "-F", "20000", "-o", data, "--",
                        *words], stdout=subprocess.DEVNULL, stderr=subprocess.DEVNULL)
        said = subprocess.run(["perf", "script", "-i", data, "-F", "pid,tid,time,ip,sym"],
                              capture_output=True, text=True).stdout
    rows = re.findall(r"^\s*(\d+)/(\d+)\s+([\d.]+):\s+\w+ (.*)$", said, re.M)
    first = float(rows[0][2]) if rows else 0
    return [(int((float(at) - first) * 1000), 0 if pid == tid else int(tid),
             re.sub(r"::<.*", "", name).split("::", 1)[-1]) for pid, tid, at, name in rows]


def main():
    if len(sys.argv) < 3:
        print(__doc__.strip())
        return 2
    found = samples(sys.argv[1:])
    threads = sorted({thread for _, thread, _ in found})
    cells = collections.defaultdict(collections.Counter)
    for at, thread, name in found:
        cells[at, thread][name] += 1
    for at in range(max((row[0] for row in found), default=-1) + 1):
        columns = [cells[at, thread] for thread in threads]
        print(f"{at:4} " + " | ".join(
            f"{sum(column.values()):2} {column.most_common(1)[0][0][-28:] if column else '':28}"
            for column in columns).rstrip())
    return 0


if __name__ == "__main__":
    sys.exit(main())
