#!/usr/bin/env python3
"""What an entry of a run and an act of its check cost, load by load, beside what was aimed at.

    bench/loads.py [--profile [LOAD]]

Each figure is the difference of two lengths of the same load, in instructions of the processor under callgrind, by the entries or acts
between them: so what a program does once is not in it. With --profile it prints instead where the instructions of each load go, or of
the one of that name, by function of the program. A benchmark, and no test: it measures the program as it was built."""
import os
import re
import shutil
import subprocess
import sys
import tempfile

from ring import lay_out as lay_out_ring
from turns import EXAMPLE, LOOP, PROGRAM, TOP, elf

# A clock of six digits, as a run of some length has it.
TURN = "0 0 104217\n"
# addi x5, x0, 1; lui x7, 8; from: lui x6, 1; loop: sw x5, 0(x6); addi x6, x6, 64; bltu x6, x7, loop; jal x0, from
STORING = [0x00100293, 0x000083B7, 0x00001337, 0x00532023, 0x04030313, 0xFE736CE3, 0xFF1FF06F]
# addi x17, x0, 2; two hundred times: four of addi x5, x5, 1, and an ecall; jal x0, the first of them
FIFTH = [0x00200893] + 200 * (4 * [0x00128293] + [0x00000073]) + [0x860FF06F]


def lay_out(folder, guest, schedule):
    """A plan of one guest, its file and its schedule."""
    shutil.copy(os.path.join(EXAMPLE, "plan.toml"), folder)
    with open(os.path.join(folder, "hi.elf"), "wb") as file:
        file.write(guest)
    with open(os.path.join(folder, "schedule"), "w", encoding="ascii") as file:
        file.write(schedule)


def hi():
    with open(os.path.join(EXAMPLE, "hi.elf"), "rb") as file:
        return file.read()


def computing(folder, entries):
    lay_out(folder, elf(LOOP), TURN * entries)


def ended(folder, entries):
    lay_out(folder, hi(), TURN * entries)


def stopped(folder, entries):
    lay_out(folder, elf(STORING), (TURN * 49 + "stop 0\n") * (entries // 50))


def fifth(folder, entries):
    lay_out(folder, elf(FIFTH), TURN * entries)


def ring(plan, protocol=None):
    return lambda folder, entries: lay_out_ring(folder, plan, entries, 20001023, protocol)


RUN = [PROGRAM, "run", "plan.toml"]
CHECK = [PROGRAM, "check", "plan.toml", "dc.report", "lines"]
# A load: its name, what lays it out, what is measured, what was aimed at, and what it is.
LOADS = [
    ("computing", computing, RUN, 700, "a turn of a guest that computes"),
    ("ended", ended, RUN, 350, "a turn of a guest that has ended"),
    ("ring", ring("logged.toml", "cbndvs-log"), RUN, 900, "an entry of the ring of eight, cbndvs-log"),
    ("joint", ring("plan.toml", "cbndv-2pc"), RUN, 3_000, "the same, cbndv-2pc"),
    ("stopped", stopped, RUN, 800, "an entry of a guest that stores to many lines, stopped at each 50th"),
    ("check", computing, CHECK, 900, "a check: an act of a guest that computes"),
    ("check-fifth", fifth, CHECK, 1_200, "a check: an act of a guest that shows at each fifth"),
]
FEW, MANY = 10_000, 60_000


def counted(load, entries, where="/dev/null"):
    """The processor's instructions of a load of so many entries, whose profile goes to a file."""
    _, laid_out, words, _, _ = load
    with tempfile.TemporaryDirectory() as folder:
        laid_out(folder, entries)
        if words is CHECK:
            with open(os.path.join(folder, "lines"), "wb") as lines:
                subprocess.run(RUN, cwd=folder, stdout=lines, stderr=subprocess.DEVNULL, check=False)
        counting = ["valgrind", "--tool=callgrind", f"--callgrind-out-file={where}"] + words
        told = subprocess.run(counting, cwd=folder, stdout=subprocess.DEVNULL, stderr=subprocess.PIPE, text=True, check=False)
    return int(re.search(r"Collected : (\d+)", told.stderr).group(1))


def by_function(profile):
    """The instructions of each function itself, from a profile."""
    shown = subprocess.run(["callgrind_annotate", "--threshold=100", profile], capture_output=True, text=True, check=True).stdout
    found = {}
    for count, name in re.findall(r"^ *([\d,]+) \([^)]*\) +\S*?:(.+?)(?: \[.*)?$", shown, re.MULTILINE):
        found[name] = found.get(name, 0) + int(count.replace(",", ""))
    return found


def show_profile(load):
    """Prints where the instructions of an entry go."""
    with tempfile.TemporaryDirectory() as folder:
        files = [os.path.join(folder, name) for name in ("few", "many")]
        few, many = (counted(load, entries, file) for entries, file in zip((FEW, MANY), files))
        before, after = (by_function(file) for file in files)
    print(f"{load[4]}: {(many - few) / (MANY - FEW):,.0f}")
    each = {name: (after[name] - before.get(name, 0)) / (MANY - FEW) for name in after}
    for name, count in sorted(each.items(), key=lambda row: -row[1]):
        if count >= 5:
            print(f"  {count:7,.0f}  {name}")


def main():
    if not shutil.which("valgrind"):
        sys.exit("valgrind is not installed: nothing is measured")
    # A first call builds what is missing.
    subprocess.run([os.path.join(TOP, "dc")], capture_output=True, check=False)
    words = sys.argv[1:]
    if words[:1] == ["--profile"]:
        for load in LOADS:
            if not words[1:] or load[0] in words[1:]:
                show_profile(load)
        return
    if words:
        sys.exit(__doc__)
    for load in LOADS:
        _, _, _, aim, what = load
        each = (counted(load, MANY) - counted(load, FEW)) / (MANY - FEW)
        print(f"{what}: {each:,.0f} instructions, {aim:,} were aimed at")


if __name__ == "__main__":
    main()
