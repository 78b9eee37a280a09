#!/usr/bin/env python3
"""Where the time of a crate's last check went, by function.

    cd crates/NAME && rm -r out/incremental; rt check --jobs 1
    python3 ../../tools/module_seconds.py

A check keeps each module in out/incremental when it is done with it. So with one job the time
between two of those files is what the later one took, on the clock: of a function its `Lts` (the
loans and lifetimes of its code), its `Proof`, and so on. Without the `rm` only what the last check
made anew is listed.
"""
import collections
import os
import re
import sys

KEPT = "out/incremental"
SHOWN = 30


def saved():
    """Gives the times of the files of the last check, with their modules, in order."""
    found, begins = [], 0.0
    for at, _, names in os.walk(KEPT):
        for name in names:
            time = os.stat(os.path.join(at, name)).st_mtime
            # written as a check begins
            if name == "rattle-last-used":
                begins = max(begins, time)
            found.append((time, re.sub(r"(\.decls)?\.oantt$", "", name)))
    return begins, sorted(it for it in found if it[0] > begins)


def main():
    if not os.path.isdir(KEPT):
        sys.exit(f"there is no {KEPT}: run this in a crate's folder, after `rt check --jobs 1`")
    last, files = saved()
    all_of, parts = collections.Counter(), collections.defaultdict(collections.Counter)
    for time, module in files:
        function, _, part = module.rpartition(".")
        all_of[function] += time - last
        parts[function][part] += time - last
        last = time
    for function, seconds in all_of.most_common(SHOWN):
        dearest = ", ".join(f"{part} {took:.1f}" for part, took in parts[function].most_common(3))
        print(f"{seconds:7.1f} {function} ({dearest})")
    print(f"{sum(all_of.values()):7.1f} in all, {len(files)} files")


if __name__ == "__main__":
    main()
