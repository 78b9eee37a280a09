#!/usr/bin/env python3
"""Lays the libraries that runs of `rt ci` proved on this machine into a clone of the same text.

lay_libraries.py CLONE [FROM]

What `rt ci` passes some kits keep outside of any clone, by the checksums of all that it read. This
lays of it what fits the clone, with the stamps that `rt check`, `rt must-fail` and `rt plant` look
for: a check in the clone then begins with the crate itself. A kit that keeps nothing leaves its
libraries where it ran: FROM is that repository, or else the clone itself, and those are laid whose
text and whose lower crates' text is the same there. It is no verdict.
"""
import os
import shutil
import sys

from wrong_bodies import kit


def remember_stamps(kinds):
    """Has each crate's stamp computed once. By itself a high crate's goes over every way down."""
    known = {}
    for kind in kinds:
        plain = kind.stamp

        def stamp(crate, plain=plain):
            if crate.folder not in known:
                known[crate.folder] = plain(crate)
            return known[crate.folder]

        kind.stamp = stamp


def libraries(crates):
    """Those that other crates stand on."""
    return [it for it in crates if not (it.is_program or it.is_static or
                                        it.name.endswith("_tests"))]


def write_stamp(crate):
    with open(f"{crate.folder}/out/rlib/stamp", "w") as it:
        it.write(crate.stamp())


def lay_kept(rt, crates):
    """Lays what the kit keeps: the names of those that it does not."""
    kept, lacking = rt.Kept(crates), []
    for crate in libraries(crates):
        place = f"{crate.folder}/out/rlib"
        shutil.rmtree(place, ignore_errors=True)
        is_ready = all(below.name in kept.rlibs for below in crate.below())
        if not is_ready or not kept.give(crate, False, kept.key(crate)):
            lacking.append(crate.name)
            continue
        kept.is_built(crate)
        write_stamp(crate)
    return lacking


def lay_left(crates, theirs):
    """Lays what a run left: the names of those that it did not. A library that some other command
    stamped fits that command's alone."""
    left, lacking = {it.name: it for it in theirs}, set()
    for crate in libraries(crates):
        place, run = f"{crate.folder}/out/rlib", left[crate.name]
        made = f"{run.folder}/out/rlib"
        is_same = run.stamp() == crate.stamp() and not (lacking & {it.name for it in crate.below()})
        if not is_same or not os.path.isdir(run.rlib) or os.path.exists(f"{made}/stamp"):
            lacking.add(crate.name)
            continue
        if made != place:
            shutil.rmtree(place, ignore_errors=True)
            shutil.copytree(made, place)
    for crate in libraries(crates):
        if crate.name not in lacking:
            write_stamp(crate)
    return sorted(lacking)


def main():
    if len(sys.argv) not in (2, 3) or not all(map(os.path.isdir, sys.argv[1:])):
        print(__doc__.strip())
        return 2
    clone, run = os.path.realpath(sys.argv[1]), os.path.realpath(sys.argv[-1])
    os.chdir(clone)
    rtlib, rt = kit()
    rt.Crate.cuts_libraries = True
    rtlib.guarded()
    rt.Crate.allowed = rt.handles_of(os.getcwd())
    if hasattr(rt, "Kept"):
        crates = rt.crates_of(clone)
        remember_stamps({type(crate) for crate in crates})
        lacking = lay_kept(rt, crates)
    else:
        crates = rtlib.crates_below(clone)
        theirs = crates if run == clone else rtlib.crates_below(run)
        remember_stamps({type(crate) for crate in crates})
        lacking = lay_left(crates, theirs)
    laid = len(libraries(crates)) - len(lacking)
    print(f"laid {laid} libraries; not kept: {' '.join(lacking) or 'none'}")
    return 0


if __name__ == "__main__":
    sys.exit(main())
