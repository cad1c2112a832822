#!/usr/bin/env python3
"""What turns of one process over recoverable memory cost, in instructions of the processor.

    bench/process.py

A turn of a guest that computes, out of 1,000,000, and an output under cpvs, out of 100,000: each has a commit before it.
Beside them a plain loop over the same device that makes as many stores of words as the output makes calls, and the ratio.
Each figure is the difference of two runs under callgrind that differ in their count alone, so what a program does once is
not in it. A benchmark, and no test: it measures the program as it was built."""
import os
import re
import shutil
import subprocess
import sys

TOP = os.path.dirname(os.path.dirname(os.path.abspath(__file__)))
FOLDER = os.path.join(TOP, "crates", "dc_bench")
PROGRAM = os.path.join(FOLDER, "out", "dc_bench")


def run(what, count):
    """The processor's instructions of a run, and the calls of the device that it made."""
    counting = ["valgrind", "--tool=callgrind", "--callgrind-out-file=/dev/null", PROGRAM, what, str(count)]
    told = subprocess.run(counting, capture_output=True, text=True, check=True)
    return int(re.search(r"Collected : (\d+)", told.stderr).group(1)), int(told.stdout)


def each(what, few, many):
    """The instructions and the device's calls of one more."""
    less, more = run(what, few), run(what, many)
    return tuple((b - a) / (many - few) for a, b in zip(less, more))


def main():
    if not shutil.which("valgrind"):
        sys.exit("valgrind is not installed: nothing is measured")
    if not os.path.exists(PROGRAM):
        subprocess.run(["rt", "run", "--", "vector", "1"], cwd=FOLDER, capture_output=True, check=True)
    store, _ = each("stores", 100_000, 1_100_000)
    turn, calls = each("computing", 1_000, 1_001_000)
    print(f"turn that computes: {turn:.0f} instructions, {calls:.2f} calls of the device")
    # The guest jumps back after each output: two turns an output.
    output, calls = (2 * figure for figure in each("showing", 2_000, 202_000))
    print(f"output under cpvs: {output:,.0f} instructions, {calls:.0f} calls of the device")
    print(f"as many stores of words by a plain loop: {calls * store:,.0f} instructions ({store:.1f} each)")
    print(f"ratio: {output / (calls * store):.2f}")


if __name__ == "__main__":
    main()
