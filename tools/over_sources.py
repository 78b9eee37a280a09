#!/usr/bin/env python3
"""Checks a crate while the crates below it are not built, over their sources.

over_sources.py CRATE [FLAGS of `rattle check`, as --only PATH, --allow-holes, --start PATH]

It runs what `rt check` runs, but hands the crates below as sources, so nothing of them is built
first. With --only it checks the named functions and all that they cite, also in the crates below;
without it every function of the crate and of those. It keeps its work in crates/CRATE/out/sources,
and is no verdict: `rt ci` is.
"""
import importlib.machinery
import importlib.util
import os
import subprocess
import sys
import time

TOP = os.path.dirname(os.path.dirname(os.path.abspath(__file__)))


def toolchain():
    """The library that `rt` itself is made of."""
    sys.dont_write_bytecode = True
    said = subprocess.run(["rt", "doc"], stdout=subprocess.PIPE, text=True, check=True).stdout
    file = f"{os.path.dirname(said.strip())}/bin/rtlib.py"
    loader = importlib.machinery.SourceFileLoader("rtlib", file)
    made = importlib.util.module_from_spec(importlib.util.spec_from_loader("rtlib", loader))
    sys.modules["rtlib"] = made
    loader.exec_module(made)
    return made


def main():
    if len(sys.argv) < 2 or sys.argv[1].startswith("-"):
        print(__doc__.strip())
        return 2
    rtlib, flags = toolchain(), sys.argv[2:]
    crates = {it.name: it for it in rtlib.crates_below(TOP)}
    if sys.argv[1] not in crates:
        print(f"over_sources.py: no crate {sys.argv[1]}", file=sys.stderr)
        return 2
    crate = crates[sys.argv[1]]
    if not any(it.startswith("--jobs") for it in flags):
        flags += ["--jobs", "1"]
    words = crate.words(flags, tests="--test" in flags, as_source=True)
    os.makedirs(f"{crate.folder}/out/sources", exist_ok=True)
    kept = ["--incremental", "out/sources"]
    start = time.monotonic()
    command = [*rtlib.guarded(), rtlib.RATTLE, "check", *words, *kept]
    status = subprocess.run(command, cwd=crate.folder).returncode
    print(f"over_sources.py: {time.monotonic() - start:.0f} s, status {status}")
    return status


if __name__ == "__main__":
    sys.exit(main())
