#!/usr/bin/env python3
"""Builds a program of this repository without proof, near to what a proof lets the gate build.

build_unproved.py --into FOLDER [--program docheap_cli] [--repository FOLDER]

How: copies of the crates are laid into a folder of their own, `rt try` compiles all of them without
proof, and the module (LLVM IR) that it hands to clang is kept on the way; what `rt try` would do
with it, a build that looks at each address, is left out. In the module then

- what the proof would drop is dropped: the checks and the traps of `rt try`;
- the functions with a hint on inlining get it back, which `rt try` leaves out;
- `spin_loop` has the processor's `pause`, as in what `rt ci` and `rt run` build. In what `rt try`
  makes it is empty, and a loop of nothing else is then removed, which costs waiting threads much.

clang's -O3 makes the program of it. Nothing of that program is proved, and nothing is claimed of
it: it lacks the checks that a proof makes needless too. Nothing is written below the repository but
where FOLDER lies there. bench/timing/build.py builds measuring programs by this file.
"""
import argparse
import os
import re
import shutil
import signal
import subprocess
import sys
import tempfile

TOP = os.path.dirname(os.path.dirname(os.path.abspath(__file__)))
TARGET = "x86_64-unknown-linux-gnu"
FLAGS = f"""--target={TARGET} -march=x86-64 -mllvm -no-trap-after-noreturn
-ffunction-sections -fdata-sections -mllvm -trap-unreachable -mllvm -no-x86-call-frame-opt -mllvm
-disable-machine-licm -mllvm -disable-postra-machine-licm -mllvm -sink-common-insts=false
--no-default-config -fPIE -O3""".split()
# Stands in clang's place below `rt try`: keeps the module, and ends there.
KEEPER = """#!/bin/bash
for a in "$@"; do
  case "$a" in *.bc)
    [ -f "$a" ] && [ $(stat -c %s "$a") -gt 10000 ] && cp "$a" "{kept}/module.bc" && exit 1;;
  esac
done
exec -a "$0" {kit}/toolchain/bin/clang "$@"
"""
SPIN = 'define internal void @"core::hint::spin_loop"()'
PAUSE = '  call void asm sideeffect "pause", ""()\n'


def tell(step):
    """Shows a step: on a terminal on one line that is written again, else not at all."""
    if sys.stderr and sys.stderr.isatty():
        print(f"\r\033[K{step and 'docheap: ' + step}", end="", file=sys.stderr, flush=True)


def fail(why):
    tell("")
    sys.exit(f"docheap: {why}")


def kit():
    found = shutil.which("rt")
    if not found:
        fail("building needs the toolchain's rt on the PATH")
    return os.path.dirname(os.path.dirname(os.path.realpath(found)))


def write_script(path, text):
    with open(path, "w") as it:
        it.write(text)
    os.chmod(path, 0o755)


def kit_of_links(real, folder, kept=None):
    """A kit in a folder, of links into the real one, whose `rt try` does nothing alongside. Where
    `kept` is given, its clang puts the module that it is handed there, and ends."""
    os.makedirs(f"{folder}/bin")
    for name in os.listdir(real):
        if name != "bin" and (name != "toolchain" or not kept):
            os.symlink(f"{real}/{name}", f"{folder}/{name}")
    for name in os.listdir(f"{real}/bin"):
        here = f"{folder}/bin/{name}"
        if name in ("rt", "rtlib.py"):
            shutil.copy(f"{real}/bin/{name}", here)
        elif name == "rattle":
            # `rt try` has it look for refused names, which a check finds anyway
            write_script(here, "#!/bin/sh\n")
        else:
            os.symlink(f"{real}/bin/{name}", here)
    if kept:
        os.makedirs(f"{folder}/toolchain/bin")
        os.symlink(f"{real}/toolchain/lib", f"{folder}/toolchain/lib")
        os.symlink(f"{real}/toolchain/bin/rattle-x64", f"{folder}/toolchain/bin/rattle-x64")
        write_script(f"{folder}/toolchain/bin/clang", KEEPER.format(kit=real, kept=kept))
        for name in ("ld.lld", "llvm-ar"):
            os.symlink("clang", f"{folder}/toolchain/bin/{name}")


def lay_out(repository, folder):
    """Copies what `rt try` reads: the code of each crate, the list of crates and HANDLES."""
    for name in os.listdir(f"{repository}/crates"):
        if os.path.isdir(f"{repository}/crates/{name}/src"):
            shutil.copytree(f"{repository}/crates/{name}/src", f"{folder}/crates/{name}/src")
    for name in ("crates.txt", "HANDLES"):
        shutil.copy(f"{repository}/{name}", folder)


def without_checks(text):
    """The module without what `rt try` looks at and a proof has shown."""
    kept = []
    for line in text.splitlines(True):
        is_check = '@"rattle-llvm-checks::' in line and "define" not in line
        is_trap = "call void @llvm.trap()" in line
        is_poison = "@llvm.memset.p0.i64(ptr %" in line and "i8 -86" in line
        if not (is_check or is_trap or is_poison):
            kept.append(line)
    return "".join(kept)


def hinted(repository):
    """The functions with a hint on inlining: the path of each one's module, and its name."""
    paths = []
    for crate in sorted(os.listdir(f"{repository}/crates")):
        src = f"{repository}/crates/{crate}/src"
        for folder, _, names in os.walk(src):
            for name in sorted(n for n in names if n.endswith(".rt")):
                inner = os.path.relpath(os.path.join(folder, name), src)[:-3].split(os.sep)
                module = [] if inner == ["lib"] else inner
                with open(os.path.join(folder, name)) as it:
                    found = re.findall(r"#\[inline\(always\)\]\s*(?:pub(?:\([a-z]+\))? )?fn (\w+)",
                                       it.read())
                paths += [("::".join([crate, *module, ""]), name) for name in found]
    return paths


def with_inlining(text, repository):
    """The module in which those functions are inlined, as in the one that the gate builds."""
    paths, kept = hinted(repository), []
    for line in text.splitlines(True):
        named = re.match(r'define [^@]*@"([^"<]*?)(?:::<[^"]*)?"', line)
        if named and any(named[1].startswith(module) and named[1].endswith(f"::{name}")
                         for module, name in paths):
            line = re.sub(r"\) (?=#\d+ |\{)", ") alwaysinline ", line, count=1)
        kept.append(line)
    return "".join(kept)


def with_pause(text):
    """The module whose `spin_loop` is the processor's pause, where it has that function."""
    at = text.find(SPIN)
    if at < 0:
        if '@"core::hint::spin_loop"' in text:
            fail("the module's spin_loop is written in a way that this does not know")
        return text
    body = text.index("start:\n", at) + len("start:\n")
    return text[:body] + PAUSE + text[body:]


def run(words, **how):
    """Runs a command in a session of its own, and ends it where this script is ended."""
    with subprocess.Popen(words, stdin=subprocess.DEVNULL, start_new_session=True, **how) as it:
        try:
            said, faults = it.communicate()
        except BaseException:
            it.terminate()
            raise
    return it.returncode, said, faults


def must(words):
    if run(words, stdout=subprocess.DEVNULL, stderr=subprocess.DEVNULL)[0]:
        fail(f"this failed: {' '.join(words)}")


def build(repository, to, program, laid=None, changed=None, objects=()):
    """Builds the program of this crate into the file. Before it compiles it hands the folder of the
    copies to `laid`, and before it optimises the module's text to `changed`, where given."""
    real = kit()
    with tempfile.TemporaryDirectory(prefix="docheap-unproved-") as folder:
        tell("step 1 of 3, about a minute: compiling the crates")
        os.makedirs(f"{folder}/kept")
        kit_of_links(real, f"{folder}/kit", f"{folder}/kept")
        lay_out(repository, folder)
        if laid:
            laid(folder)
        _, said, faults = run([f"{folder}/kit/bin/rt", "try"], cwd=f"{folder}/crates/{program}",
                              stdout=subprocess.PIPE, stderr=subprocess.PIPE, text=True)
        module = f"{folder}/kept/module.bc"
        if not os.path.isfile(module):
            fail(f"{program} was not compiled:\n{said}{faults}")
        tell("step 2 of 3, a few seconds: checks that a proof makes needless go")
        clang = f"{real}/toolchain/bin/clang"
        plain, small, unit = (f"{folder}/{n}" for n in ("a.ll", "b.ll", "b.o"))
        must([clang, "-x", "ir", module, "-S", "-emit-llvm", "-Xclang", "-disable-llvm-passes",
              "-o", plain])
        with open(plain) as it:
            text = with_pause(with_inlining(without_checks(it.read()), repository))
        with open(small, "w") as it:
            it.write(changed(text) if changed else text)
        tell("step 3 of 3, about half a minute: clang makes the program")
        must([clang, *FLAGS, f"--sysroot={real}/toolchain", "-c", "-x", "ir", small, "-o", unit])
        must([f"{real}/bin/rattle-link", "--target", TARGET, "--toolchain", f"{real}/toolchain",
              "-o", to, unit, *objects, f"{real}/c/libos_c.a", f"{real}/c/liblibc_c.a"])
    tell("")
    return to


def end_by_signal(number, _):
    """Ends as if by the signal, and removes on the way out what lies in the temporary folder."""
    sys.exit(128 + number)


def main():
    p = argparse.ArgumentParser()
    p.add_argument("--into", required=True)
    p.add_argument("--repository", default=TOP)
    p.add_argument("--program", default="docheap_cli")
    args = p.parse_args()
    for number in (signal.SIGINT, signal.SIGTERM, signal.SIGQUIT, signal.SIGHUP):
        signal.signal(number, end_by_signal)
    os.makedirs(args.into, exist_ok=True)
    print(build(args.repository, f"{args.into}/{args.program}", args.program))


if __name__ == "__main__":
    main()
