#!/usr/bin/env python3
"""Where the program's time goes, and how often commits are lost and cells are tried in vain.

profile.py [PROGRAM] [--counted PROGRAM] [--shared FOLDER] [--top N]

One command, with Linux's `perf`. For each script it prints the functions with the greatest shares of
the processor time of all threads, and the crates. Then a build with counters, which is made without
proof unless one is given, runs several scripts, and the calls that it counted are a table.
"""
import collections, os, re, shutil, struct, subprocess, sys, tempfile
sys.dont_write_bytecode = True
import baselines
from running import SHARED, built, files_of, parser_of, run, totals_of
from build import COUNTED

PROFILED = (
    "one client, 10,000, 2 puts to 3 gets, 10,000 paths",
    "one client, 100,000, 2 puts to 3 gets, 10,000 paths",
    "one client, 100,000, 2 puts to 3 gets, 200 paths",
    "4 clients, 20,000, generated",
    "16 clients, 16,000, generated",
    "4 clients, 100,000, 2 puts to 3 gets, 10,000 paths",
)
COUNTS_OF = PROFILED[2:] + (
    "4 clients, 100,000, 2 puts to 3 gets, 200 paths", "10 clients, 100,000, generated")


def profile(docheap, files, folder, top):
    data = f"{folder}/perf"
    subprocess.run(["perf", "record", "-q", "-F", "4000", "-o", data, docheap, "run", *files],
                   stdout=subprocess.DEVNULL, stderr=subprocess.DEVNULL, check=True)
    said = subprocess.run(["perf", "report", "-i", data, "--stdio", "--sort", "symbol"],
                          capture_output=True, text=True).stdout
    rows = re.findall(r"^\s*([\d.]+)%\s+\[(.)\]\s+(\S+)", said, re.M)
    crates = collections.Counter()
    for share, where, name in rows:
        crate = "kernel" if where == "k" else name.split("::")[0] if "::" in name else "C library"
        crates[crate] += float(share)
    for share, _, name in rows[:top]:
        print(f"| {share} | {re.sub(r'::<#.*', '', name)} |")
    print("\ncrates: " + ", ".join(f"{name} {share:.1f}" for name, share in crates.most_common(12)))


def counts(program, files, folder):
    at = f"{folder}/counts"
    if os.path.exists(at):
        os.remove(at)
    stats = totals_of(run([program, "run", "--stats", *files], COUNTS=at).output)
    with open(at, "rb") as it:
        found = it.read()
    return stats, [struct.unpack_from("Q", found, 64 * k)[0] for k in range(len(COUNTED))]


def main():
    p = parser_of(__doc__, "program")
    p.add_argument("--counted")
    p.add_argument("--shared", default=SHARED)
    p.add_argument("--top", type=int, default=10)
    args = p.parse_args()
    loads = baselines.workloads([f"{args.shared}/build/rust_plain"])
    folder = tempfile.mkdtemp(prefix="docheap-profile-")
    try:
        for load in PROFILED:
            print(f"\n{load}\n\n| % | function |\n|---|---|")
            files = files_of(folder, loads[load]())
            profile(os.path.abspath(args.program), files, folder, args.top)
        counted = args.counted or built("docheap_cli", name="docheap_counted", told="count")
        print("\n| script | commits | lost | " + " | ".join(COUNTED) + " | cycles |")
        print("|---" * (4 + len(COUNTED)) + "|")
        for load in COUNTS_OF:
            stats, found = counts(counted, files_of(folder, loads[load]()), folder)
            lost = 1 - stats["versions"] / max(1, found[0])
            print(f"| {load} | {stats['versions']} | {100 * lost:.0f} % | "
                  + " | ".join(map(str, found)) + f" | {stats['cycles']} |", flush=True)
    finally:
        shutil.rmtree(folder, ignore_errors=True)


if __name__ == "__main__":
    main()
