#!/usr/bin/env python3
"""What a large run costs: eight guests in a ring that send to each other, commit, and show what they received.

    bench/ring.py

Runs both plans of examples/ring, of 200,000 turns each, and prints seconds and peak memory; then, by the processor's instructions where
valgrind is installed, a turn of 20,000, 200,000 and 1,000,000 turns and of two runs of 1,000,000 with different seeds, so that a run that
is not linear in its turns is seen; and a turn where all guests commit together, by one where each commits by itself, also by the least
time of a processor of six runs. A benchmark, and no test: it measures the program as it was built."""
import os
import re
import shutil
import subprocess
import sys
import tempfile
import time

from turns import PROGRAM, TOP

RING = os.path.join(TOP, "examples", "ring")
PLANS = ["plan.toml", "logged.toml"]


def lay_out(folder, plan, turns, seed, protocol=None):
    """A plan of the ring with so many turns, perhaps under another protocol, and its guest."""
    shutil.copy(os.path.join(RING, "ring.elf"), folder)
    with open(os.path.join(RING, plan), encoding="ascii") as file:
        text = file.read()
    text = re.sub(r"turns = \d+", f"turns = {turns}", re.sub(r"seed = \d+", f"seed = {seed}", text))
    if protocol:
        text = re.sub(r'protocol = "[^"]*"', f'protocol = "{protocol}"', text)
    with open(os.path.join(folder, "plan.toml"), "w", encoding="ascii") as file:
        file.write(text)


def measure(plan, turns=200_000, seed=20001023):
    """Prints seconds and peak memory of a run."""
    with tempfile.TemporaryDirectory() as folder:
        lay_out(folder, plan, turns, seed)
        start = time.perf_counter()
        process = subprocess.Popen([PROGRAM, "run", "plan.toml"], cwd=folder, stdout=subprocess.DEVNULL, stderr=subprocess.PIPE)
        said = process.stderr.read().decode().strip()
        _, _, used = os.wait4(process.pid, 0)
        seconds = time.perf_counter() - start
    print(f"{plan}: {said}, {seconds:.3f} s, peak {used.ru_maxrss / 1024:.0f} MiB, {os.cpu_count()} cores")


def least_seconds(protocol, times=6):
    """The least time of a processor of some runs under a protocol."""
    least = float("inf")
    for _ in range(times):
        with tempfile.TemporaryDirectory() as folder:
            lay_out(folder, "plan.toml", 200_000, 20001023, protocol)
            process = subprocess.Popen([PROGRAM, "run", "plan.toml"], cwd=folder, stdout=subprocess.DEVNULL, stderr=subprocess.DEVNULL)
            _, _, used = os.wait4(process.pid, 0)
            least = min(least, used.ru_utime + used.ru_stime)
    return least


def instructions(plan, turns, seed, protocol=None):
    """The processor's instructions of a run."""
    with tempfile.TemporaryDirectory() as folder:
        lay_out(folder, plan, turns, seed, protocol)
        counting = ["valgrind", "--tool=callgrind", "--callgrind-out-file=/dev/null", PROGRAM, "run", "plan.toml"]
        told = subprocess.run(counting, cwd=folder, capture_output=True, text=True, check=False)
    return int(re.search(r"Collected : (\d+)", told.stderr).group(1))


def main():
    # A first call builds what is missing.
    subprocess.run([os.path.join(TOP, "dc")], capture_output=True, check=False)
    for plan in PLANS:
        measure(plan)
    alone, together = (least_seconds(protocol) for protocol in ("cbndvs", "cbndv-2pc"))
    print(f"cbndvs: {alone:.3f} s of a processor; cbndv-2pc: {together:.3f} s, {together / alone:.2f} times that")
    if not shutil.which("valgrind"):
        print("valgrind is not installed: instructions are not counted")
        return
    alone, together = (instructions("plan.toml", 200_000, 20001023, protocol) / 200_000 for protocol in ("cbndvs", "cbndv-2pc"))
    print(f"cbndvs: {alone:,.0f} instructions a turn of 200,000; cbndv-2pc: {together:,.0f}, {together / alone:.2f} times that")
    for plan in PLANS:
        none = instructions(plan, 1, 1)
        each = [(instructions(plan, turns, 20001023) - none) / turns for turns in (20_000, 200_000, 1_000_000)]
        both = (instructions(plan, 1_000_000, 1) + instructions(plan, 1_000_000, 2) - 2 * none) / 2_000_000
        print(f"{plan}: {each[0]:,.0f}, {each[1]:,.0f} and {each[2]:,.0f} instructions a turn of 20,000, 200,000 and 1,000,000; {both:,.0f} of two runs of 1,000,000")


if __name__ == "__main__":
    sys.exit(main())
