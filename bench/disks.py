#!/usr/bin/env python3
"""What a run on disks costs beside one in recoverable memory: the ring of eight guests, which send to each other, log, commit and show.

    bench/disks.py [TURNS]      200,000 turns where none are given

Runs examples/ring under CBNDVS-LOG, whose commits and records are many, on both media, and prints the least time of a processor of six
runs of each and their ratio, with the peak memory by what the stores take: a segment of memory, and of a disk a log of two halves; and what the
program takes beside disks in memory, which stand for disks that are none, against what it takes with segments and twice a half a guest. Then,
where valgrind is installed, the processor's instructions a turn of a tenth of the turns, of all, and of five times as many, so that a run that
is not linear in its turns is seen. A benchmark, and no test: it measures the program as it was built."""
import os
import re
import shutil
import subprocess
import sys
import tempfile

from ring import lay_out
from turns import PROGRAM, TOP

SEED = 20001023
MEDIA = ["rio", "disk"]
GUESTS = 8
# The words of a kernel's text, beside those for each guest; of a line, of a segment's header and of its log; and the bytes that a half of a disk
# has beside two whole states.
KERNEL, OF_EACH = 41, 139
LINE, HEADER, LOG, BESIDE = 16, 16, 1408, 12368
# What a disk in memory holds for each of its bytes: it, what the last sync made sure of, and whether it was written since.
HELD = 3


def lay_out_on(folder, medium, turns):
    """The plan of the ring on that medium."""
    lay_out(folder, "logged.toml", turns, SEED, "cbndvs-log")
    plan = os.path.join(folder, "plan.toml")
    with open(plan, encoding="ascii") as file:
        text = file.read()
    with open(plan, "w", encoding="ascii") as file:
        file.write(re.sub(r'medium = "[^"]*"', f'medium = "{medium}"', text))


def store_bytes(medium, turns):
    """The bytes of the store of one guest: of its memory and the words of a kernel's text, on a disk twice in each of two halves."""
    with tempfile.TemporaryDirectory() as folder:
        lay_out_on(folder, medium, turns)
        with open(os.path.join(folder, "plan.toml"), encoding="ascii") as file:
            memory = int(re.search(r"memory = (\d+)", file.read()).group(1)) // 4
    words = memory + KERNEL + OF_EACH * GUESTS
    if medium == "disk":
        return 2 * (8 * words + BESIDE)
    lines = -(-words // LINE)
    return 4 * (HEADER + LOG + (2 * LINE + 1) * lines)


def measured(medium, turns, times=6):
    """The least seconds of a processor of some runs on a medium, what the program said, and its peak memory in bytes."""
    least, said, peak = float("inf"), "", 0
    for _ in range(times):
        with tempfile.TemporaryDirectory() as folder:
            lay_out_on(folder, medium, turns)
            process = subprocess.Popen([PROGRAM, "run", "plan.toml"], cwd=folder, stdout=subprocess.DEVNULL, stderr=subprocess.PIPE)
            said = process.stderr.read().decode().strip()
            _, _, used = os.wait4(process.pid, 0)
            least = min(least, used.ru_utime + used.ru_stime)
            peak = max(peak, used.ru_maxrss * 1024)
    return least, said, peak


def instructions(medium, turns):
    """The processor's instructions of a run."""
    with tempfile.TemporaryDirectory() as folder:
        lay_out_on(folder, medium, turns)
        counting = ["valgrind", "--tool=callgrind", "--callgrind-out-file=/dev/null", PROGRAM, "run", "plan.toml"]
        told = subprocess.run(counting, cwd=folder, capture_output=True, text=True, check=False)
    return int(re.search(r"Collected : (\d+)", told.stderr).group(1))


def main():
    turns = int(sys.argv[1]) if len(sys.argv) > 1 else 200_000
    # A first call builds what is missing.
    subprocess.run([os.path.join(TOP, "dc")], capture_output=True, check=False)
    seconds, peaks, stores = {}, {}, {}
    for medium in MEDIA:
        seconds[medium], said, peaks[medium] = measured(medium, turns)
        stores[medium] = GUESTS * store_bytes(medium, turns)
        print(f"{medium}: {said}, {seconds[medium]:.3f} s of a processor, peak {peaks[medium] / 2**20:.1f} MiB, stores {stores[medium] / 2**20:.1f} MiB")
    print(f"disk: {seconds['disk'] / seconds['rio']:.2f} times the time of rio")
    beside, most = peaks["disk"] - HELD * stores["disk"], peaks["rio"] + stores["disk"]
    print(f"disk: peak {beside / 2**20:.1f} MiB beside the disks, at most {most / 2**20:.1f} wanted")
    if not shutil.which("valgrind"):
        print("valgrind is not installed: instructions are not counted")
        return
    for medium in MEDIA:
        none = instructions(medium, 1)
        each = [(instructions(medium, some) - none) / some for some in (turns // 10, turns, 5 * turns)]
        print(f"{medium}: {each[0]:,.0f}, {each[1]:,.0f} and {each[2]:,.0f} instructions a turn of {turns // 10:,}, {turns:,} and {5 * turns:,}")


if __name__ == "__main__":
    sys.exit(main())
