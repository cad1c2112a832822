#!/usr/bin/env python3
"""What entries of a world of processes over recoverable memory cost, in instructions of the processor.

    bench/world.py

An entry at which a process that has ended does nothing, an entry of a guest that computes beside a turn of such a process by itself, and
1,000,000 entries of eight guests beside 100,000. Figures of one entry are differences of two runs under callgrind that differ in their
count alone, so what a program does once is not in them; the two of the last ratio are whole runs less one of no entries. A benchmark, and
no test: it measures the program as it was built."""
import os
import re
import shutil
import subprocess
import sys

TOP = os.path.dirname(os.path.dirname(os.path.abspath(__file__)))
FOLDER = os.path.join(TOP, "crates", "dc_bench")
PROGRAM = os.path.join(FOLDER, "out", "dc_bench")


def run(*words):
    """The processor's instructions of a run."""
    counting = ["valgrind", "--tool=callgrind", "--callgrind-out-file=/dev/null", PROGRAM, *map(str, words)]
    told = subprocess.run(counting, capture_output=True, text=True, check=True)
    return int(re.search(r"Collected : (\d+)", told.stderr).group(1))


def each(few, many, what, *rest):
    """The instructions of one more."""
    return (run(what, many, *rest) - run(what, few, *rest)) / (many - few)


def main():
    if not shutil.which("valgrind"):
        sys.exit("valgrind is not installed: nothing is measured")
    if not os.path.exists(PROGRAM):
        subprocess.run(["rt", "run", "--", "vector", "1"], cwd=FOLDER, capture_output=True, check=True)
    print(f"idle entry: {each(1_000, 101_000, 'idle', 1):.0f} instructions")
    entry, turn = each(1_000, 101_000, "entries", 1), each(1_000, 101_000, "computing")
    print(f"entry that computes: {entry:.0f} instructions, a turn of its process alone {turn:.0f}, ratio {entry / turn:.2f}")
    none = run("entries", 0, 8)
    fewer, more = run("entries", 100_000, 8) - none, run("entries", 1_000_000, 8) - none
    print(f"1,000,000 entries of eight guests: {more:,} instructions, {more / fewer:.2f} times those of 100,000")


if __name__ == "__main__":
    main()
