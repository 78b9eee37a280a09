#!/usr/bin/env python3
"""Which goal refuses each must-fail edit of a crate, and what that takes.

    edit_goals.py CRATE [WORD..]

It stands at the top of the repository, after an `rt check` of the crate, and tries its edits as
the gate does, each over a copy of what that check kept; with words only those that have one of them
in their name. A line an edit tells the processor seconds, and on the clock those of the front end,
of the session (what was proved anew) and of the offers, the second reading that is there only where
a function has no written answer for a goal that fails. The lines below it tell the function and its
goals, or the written answer that fails. docs/GATE.md says what to make of it.
"""
import os
import re
import sys
import tempfile

from wrong_bodies import kit

STAGES = ["front-end", "session", "offers"]


def told(output):
    """Which functions are not proved, for which goals, and which written answers fail."""
    for line in output.split("\n"):
        missing = re.match(r"fn (\S+): (?:no proof|not proved)(.*)", line)
        if missing and "it calls" not in missing[2]:
            yield f"  fn {missing[1]}{missing[2][:200]}"
        answer = re.match(r"(?:\./)?proofs/(\S+?):(\d+):\d+: error: (.*)", line)
        if answer:
            yield f"  written in {answer[1]}:{answer[2]}: {answer[3][:150]}"


def main():
    if len(sys.argv) < 2 or not os.path.isdir(f"crates/{sys.argv[1]}/must-fail"):
        sys.exit(__doc__)
    name, words = sys.argv[1], sys.argv[2:]
    rtlib, rt = kit()
    crate = rtlib.Crate(f"{os.getcwd()}/crates/{name}", os.getcwd(), {})
    crate.out = open(os.devnull, "w")
    kept, whole = f"{crate.folder}/out/incremental", 0.0
    if not os.path.isdir(kept):
        sys.exit(f"there is no {kept}: run `rt check` in the crate's folder before")
    for edit in sorted(os.listdir(f"{crate.folder}/must-fail")):
        if not edit.endswith(".edit") or words and not any(it in edit for it in words):
            continue
        texts, why = rt.read_edit(f"{crate.folder}/must-fail/{edit}", crate.folder)
        if why:
            print(f"{edit[:-5]}: {why}")
            continue
        with tempfile.TemporaryDirectory(prefix="edit-goals-") as room:
            rt.linked(kept, f"{room}/kept")
            before = os.times()
            flags = ["--jobs", "1", "--stage-times", f"{room}/times"]
            ran = rt.checked(crate, texts, flags, f"{room}/kept")
            after = os.times()
            with open(f"{room}/times") as it:
                lines = [line.split() for line in it if line.startswith("stage ")]
        times = {line[1]: float(line[2]) for line in lines}
        used = sum(after[2:4]) - sum(before[2:4])
        whole += used
        parts = ", ".join(f"{it} {times.get(it, 0.0):.1f}" for it in STAGES)
        answer = "PROVED" if ran.returncode == 0 else "refused"
        print(f"{used:6.1f} {edit[:-5]}: {answer} ({parts})", flush=True)
        print("".join(f"{it}\n" for it in told(ran.stdout)), end="", flush=True)
    print(f"{whole:6.1f} in all")


if __name__ == "__main__":
    main()
