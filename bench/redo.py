#!/usr/bin/env python3
"""What calls of a redo log on a disk cost, in instructions of the processor.

    bench/redo.py

A load, beside that of a segment. A commit after 1, 10 and 1,000 lines were stored to, over a memory of 1 MiB and over one of a
quarter: it is to cost the same, however large the memory is. And a recovery of halves of one size and of twice that size, each
of which holds a whole state and the lines of three quarters of the memory: it is to cost twice as much. Both disks are below
2 MiB, since the C library copies more in another way, which takes fewer instructions. Each figure is the difference of two runs
under callgrind that differ in their count alone, so what a program does once is not in it. Commits are so few that no half is
full, since a whole state costs what the memory is. A benchmark, and no test: it measures the program as it was built."""
import os
import re
import shutil
import subprocess
import sys

TOP = os.path.dirname(os.path.dirname(os.path.abspath(__file__)))
FOLDER = os.path.join(TOP, "crates", "dc_bench")
PROGRAM = os.path.join(FOLDER, "out", "dc_bench")

# In pages of 1024 words: 1 MiB, a quarter, and half of that.
WHOLE, QUARTER, EIGHTH = 256, 64, 32


def instructions(words):
    """The processor's instructions of a run."""
    counting = ["valgrind", "--tool=callgrind", "--callgrind-out-file=/dev/null", PROGRAM, *words]
    told = subprocess.run(counting, capture_output=True, text=True, check=True)
    return int(re.search(r"Collected : (\d+)", told.stderr).group(1))


def each(words, few, many, behind=()):
    """The instructions of one more call."""
    less, more = ([*words, str(count), *behind] for count in (few, many))
    return (instructions(more) - instructions(less)) / (many - few)


def commit(lines, pages):
    """The instructions of a commit after so many lines."""
    few, many = (1, 3) if lines == 1_000 else (20, 120)
    return each(["redo-commit", str(lines)], few, many, (str(pages),))


def main():
    if not shutil.which("valgrind"):
        sys.exit("valgrind is not installed: nothing is measured")
    if not os.path.exists(PROGRAM):
        subprocess.run(["rt", "run", "--", "vector", "1"], cwd=FOLDER, capture_output=True, check=True)
    load = each(["redo-load"], 100_000, 600_000)
    segment = each(["load"], 100_000, 600_000)
    print(f"load: {load:.1f} instructions, {load / segment:.2f} times those of a segment ({segment:.1f})")
    for lines in (1, 10, 1_000):
        large = commit(lines, WHOLE)
        small = commit(lines, QUARTER)
        print(f"commit after {lines} lines: {large:,.0f} instructions, {large / small:.2f} times those over a quarter of the memory ({small:,.0f})")
    small = each(["redo-recover", str(EIGHTH)], 2, 7)
    large = each(["redo-recover", str(QUARTER)], 2, 7)
    print(f"recovery: {small:,.0f} instructions, {large / small:.2f} times as many of halves of twice the size ({large:,.0f})")


if __name__ == "__main__":
    main()
