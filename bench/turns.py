#!/usr/bin/env python3
"""How fast a long schedule is read and run.

    bench/turns.py [LINES]      1,000,000 lines where none are given

Runs two guests under a schedule of so many lines: one that ends at once, so that nearly all turns are idle, and one
that computes in a loop of loads, stores, branches and arithmetic to the end. Prints turns per second and the peak
memory of each, and for the second the processor's instructions per turn where valgrind is installed. A benchmark,
and no test: it measures the program as it was built."""
import os
import re
import shutil
import struct
import subprocess
import sys
import tempfile
import time

TOP = os.path.dirname(os.path.dirname(os.path.abspath(__file__)))
EXAMPLE = os.path.join(TOP, "examples", "hi")
PROGRAM = os.path.join(TOP, "crates", "dc_main", "out", "dc_main")

# loop: lw x5, 512(x0); addi x5, x5, 1; xor x6, x6, x5; sw x5, 512(x0); sltu x7, x5, x6; add x8, x8, x7; bne x5, x0, loop
LOOP = [0x20002283, 0x00128293, 0x00534333, 0x20502023, 0x0062B3B3, 0x00740433, 0xFE0294E3]


def elf(words):
    """A guest's file: this code at 1024, its entry."""
    size = 4 * len(words)
    ident = b"\x7fELF\x01\x01\x01" + bytes(9)
    header = struct.pack("<HHIIIIIHHHHHH", 2, 243, 1, 1024, 52, 0, 0, 52, 32, 1, 0, 0, 0)
    part = struct.pack("<8I", 1, 84, 1024, 1024, size, size, 7, 4)
    return ident + header + part + struct.pack(f"<{len(words)}I", *words)


def lay_out(folder, guest, lines):
    """A plan, its guest and its schedule."""
    shutil.copy(os.path.join(EXAMPLE, "plan.toml"), folder)
    with open(os.path.join(folder, "hi.elf"), "wb") as file:
        file.write(guest)
    with open(os.path.join(folder, "schedule"), "w", encoding="ascii") as schedule:
        schedule.write("0 0 0\n" * lines)


def measure(what, guest, lines):
    with tempfile.TemporaryDirectory() as folder:
        lay_out(folder, guest, lines)
        start = time.perf_counter()
        process = subprocess.Popen([PROGRAM, "run", "plan.toml"], cwd=folder, stdout=subprocess.DEVNULL, stderr=subprocess.PIPE)
        said = process.stderr.read().decode().strip()
        _, _, used = os.wait4(process.pid, 0)
        seconds = time.perf_counter() - start
    print(f"{what}: {said}")
    print(f"  {lines} turns in {seconds:.3f} s: {lines / seconds:,.0f} turns/s, peak {used.ru_maxrss / 1024:.0f} MiB, {os.cpu_count()} cores")


def instructions(guest, lines):
    """The processor's instructions of a run."""
    with tempfile.TemporaryDirectory() as folder:
        lay_out(folder, guest, lines)
        counting = ["valgrind", "--tool=callgrind", "--callgrind-out-file=/dev/null", PROGRAM, "run", "plan.toml"]
        told = subprocess.run(counting, cwd=folder, capture_output=True, text=True, check=False)
    return int(re.search(r"Collected : (\d+)", told.stderr).group(1))


def main():
    lines = int(sys.argv[1]) if len(sys.argv) > 1 else 1_000_000
    # A first call builds what is missing.
    subprocess.run([os.path.join(TOP, "dc")], capture_output=True, check=False)
    with open(os.path.join(EXAMPLE, "hi.elf"), "rb") as file:
        measure("idle", file.read(), lines)
    measure("computing", elf(LOOP), lines)
    if shutil.which("valgrind"):
        few, many = 10_000, 60_000
        per_turn = (instructions(elf(LOOP), many) - instructions(elf(LOOP), few)) / (many - few)
        print(f"  {per_turn:,.0f} instructions per turn, with its line of the schedule and of the report")
    else:
        print("  valgrind is not installed: instructions per turn are not counted")


if __name__ == "__main__":
    sys.exit(main())
