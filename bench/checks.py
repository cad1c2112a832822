#!/usr/bin/env python3
"""How the cost of a check grows with its acts and lines.

    bench/checks.py [ACTS]      1,000,000 acts where none are given

Runs a guest that shows a line at nearly every turn, for a tenth of the acts and for all of them, and checks what it wrote. Prints
seconds and peak memory of both checks, the peak by the size of the files that are read, and where valgrind is installed by how much
the processor's instructions grow from the one to the other. A benchmark, and no test: it measures the program as it was built."""
import os
import re
import shutil
import subprocess
import sys
import tempfile
import time

from turns import PROGRAM, TOP, elf, lay_out

# addi x17, x0, 2; a thousand times ecall; jal x0, the first of them
SHOWING = [0x00200893] + 1000 * [0x00000073] + [0x860FF06F]
FILES = ["plan.toml", "hi.elf", "schedule", "dc.report", "lines"]
CHECK = [PROGRAM, "check", "plan.toml", "dc.report", "lines"]


def written(folder, acts):
    """What is checked: a plan, its guest and its schedule, and what a run of them wrote."""
    lay_out(folder, elf(SHOWING), acts)
    with open(os.path.join(folder, "lines"), "wb") as lines:
        subprocess.run([PROGRAM, "run", "plan.toml"], cwd=folder, stdout=lines, stderr=subprocess.DEVNULL, check=False)
    return sum(os.path.getsize(os.path.join(folder, name)) for name in FILES)


def measure(acts):
    """Prints seconds and peak memory of a check, and its own line."""
    with tempfile.TemporaryDirectory() as folder:
        size = written(folder, acts)
        start = time.perf_counter()
        process = subprocess.Popen(CHECK, cwd=folder, stdout=subprocess.PIPE, stderr=subprocess.DEVNULL)
        said = process.stdout.read().decode().strip()
        _, _, used = os.wait4(process.pid, 0)
        seconds = time.perf_counter() - start
    peak = used.ru_maxrss * 1024
    print(f"{said}: {seconds:.3f} s, peak {peak / 2**20:.0f} MiB, {peak / size:.2f} times the {size / 2**20:.0f} MiB of its files")
    return seconds


def instructions(acts):
    """The processor's instructions of a check."""
    with tempfile.TemporaryDirectory() as folder:
        written(folder, acts)
        counting = ["valgrind", "--tool=callgrind", "--callgrind-out-file=/dev/null"] + CHECK
        told = subprocess.run(counting, cwd=folder, capture_output=True, text=True, check=False)
    return int(re.search(r"Collected : (\d+)", told.stderr).group(1))


def main():
    acts = int(sys.argv[1]) if len(sys.argv) > 1 else 1_000_000
    # A first call builds what is missing.
    subprocess.run([os.path.join(TOP, "dc")], capture_output=True, check=False)
    few, many = measure(acts // 10), measure(acts)
    print(f"  ten times the acts in {many / few:.2f} times the seconds")
    if shutil.which("valgrind"):
        few, many = instructions(acts // 10), instructions(acts)
        print(f"  and {many / few:.2f} times the instructions of the processor, {many / acts:,.0f} an act")
    else:
        print("  valgrind is not installed: instructions are not counted")


if __name__ == "__main__":
    sys.exit(main())
