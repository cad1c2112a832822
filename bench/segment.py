#!/usr/bin/env python3
"""What calls of a segment of recoverable memory cost, in instructions of the processor.

    bench/segment.py

Over a memory of 1 MiB: a load, beside a read of a plain vector in the same kind of loop, and a commit after 1, 10 and
1,000 lines were stored to. Each figure is the difference of two runs under callgrind that differ in their count alone,
so what a program does once is not in it. A benchmark, and no test: it measures the program as it was built."""
import os
import re
import shutil
import subprocess
import sys

TOP = os.path.dirname(os.path.dirname(os.path.abspath(__file__)))
FOLDER = os.path.join(TOP, "crates", "dc_bench")
PROGRAM = os.path.join(FOLDER, "out", "dc_bench")


def instructions(words):
    """The processor's instructions of a run."""
    counting = ["valgrind", "--tool=callgrind", "--callgrind-out-file=/dev/null", PROGRAM, *words]
    told = subprocess.run(counting, capture_output=True, text=True, check=True)
    return int(re.search(r"Collected : (\d+)", told.stderr).group(1))


def each(words, few, many):
    """The instructions of one more call."""
    return (instructions([*words, str(many)]) - instructions([*words, str(few)])) / (many - few)


def main():
    if not shutil.which("valgrind"):
        sys.exit("valgrind is not installed: nothing is measured")
    if not os.path.exists(PROGRAM):
        subprocess.run(["rt", "run", "--", "vector", "1"], cwd=FOLDER, capture_output=True, check=True)
    load = each(["load"], 100_000, 600_000)
    vector = each(["vector"], 100_000, 600_000)
    print(f"load: {load:.1f} instructions, {load / vector:.2f} times those of a vector ({vector:.1f})")
    for lines in (1, 10, 1_000):
        print(f"commit after {lines} lines: {each(['commit', str(lines)], 20, 120):,.0f} instructions")


if __name__ == "__main__":
    main()
