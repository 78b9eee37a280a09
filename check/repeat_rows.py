"""Runs the rows with threads of collector_tests and heap_tests many times.

    python3 check/repeat_rows.py [TIMES]

In a copy of the crates each test of the files below stands so many times, 50 where nothing is said,
and `rt try --test` runs them all. It proves nothing.
"""
import pathlib
import re
import shutil
import subprocess
import sys
import tempfile
import time

ROWS = {
    "collector_tests": ["threads", "sleeping", "running"],
    "heap_tests": ["block_threads", "missing", "sleeping", "threads"],
}

if len(sys.argv) > 2 or sys.argv[1:] and not sys.argv[1].isdigit():
    sys.exit(__doc__.strip())
times = int(sys.argv[1]) if len(sys.argv) > 1 else 50
top = pathlib.Path(__file__).resolve().parent.parent


def repeat(rows):
    """Has each test of the file so many times; gives how many there are. A row ends at the first
    line that is a brace alone; what other rows call stands between them."""
    text = rows.read_text()
    tests = re.findall(r"(?ms)^#\[test\]\n.*?^\}\n", text)
    rest = re.sub(r"(?ms)^#\[test\]\n.*?^\}\n", "", text)
    again = [
        re.sub(r"(?m)^fn (\w+)", rf"fn \1_{number}", test, count=1)
        for test in tests
        for number in range(1, times + 1)
    ]
    rows.write_text(rest + "\n" + "\n".join(again))
    return len(tests)


status = 0
with tempfile.TemporaryDirectory() as folder:
    copy = pathlib.Path(folder)
    shutil.copytree(top / "crates", copy / "crates", ignore=shutil.ignore_patterns("out"))
    shutil.copy(top / "crates.txt", copy)
    shutil.copy(top / "HANDLES", copy)
    for name, files in ROWS.items():
        crate = copy / "crates" / name
        count = sum(repeat(crate / "src" / f"{file}.rt") for file in files)
        began = time.monotonic()
        run = subprocess.run(
            ["rt", "try", "--test", "--seconds", "1800"],
            cwd=crate,
            capture_output=True,
            text=True,
        )
        lines = (run.stdout + run.stderr).splitlines()
        failed = [line for line in lines if "failed" in line and " 0 failed" not in line]
        print("\n".join(failed + lines[-2:]))
        print(f"{name}: {count * times} runs of {count} rows, {time.monotonic() - began:.0f} s")
        status = status or run.returncode
sys.exit(status)
