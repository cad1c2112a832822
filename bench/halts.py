#!/usr/bin/env python3
"""Tries whether a halt is to the guests as a line `power` of the schedule, over plans that are drawn.

    bench/halts.py [--plans N] [--seed N]

Draws plans on disks (25 where not given) of one to three guests under any protocol, with inputs, stops of the schedule's and stops inside turns, some of them filled,
and up to three halts. Runs each in parts, checks the lines of all parts, and runs the same with a line `power` in place of each halt: its lines are the
same, and its acts are, but for the numbers of their turns. Ends with 1 where not. A trial, and no test: it tries the program as it was built."""
import argparse
import os
import random
import shutil
import subprocess
import sys
import tempfile
from typing import NamedTuple

from turns import PROGRAM, TOP

PROTOCOLS = ["cand", "cand-log", "cpvs", "cbndvs", "cbndvs-log", "cpv-2pc", "cbndv-2pc"]
GUESTS = ["ring/ring.elf", "protocols/asking.elf", "protocols/telling.elf", "hi/hi.elf"]


class Drawn(NamedTuple):
    """A plan: its keys, the lines of its schedule, its stops inside turns, and its halts."""

    keys: str
    entries: list
    stops: list
    halts: list

    def text(self, schedule, halt=None, moved=int):
        """The plan with a schedule, perhaps with a halt, and with its turns moved."""
        lines = [] if halt is None else [f"halt = {halt}\n"]
        lines += [self.keys, f'schedule = "{schedule}"\n']
        for stop in self.stops:
            lines += ["[[stop]]\n", *[f"{key} = {moved(value) if key == 'turn' else value}\n" for key, value in stop.items()]]
        return "".join(lines)


def drawn(draw):
    n = draw.choice([1, 2, 2, 3])
    guests = ["ring.elf"] * n if draw.random() < 0.5 else [os.path.basename(draw.choice(GUESTS)) for _ in range(n)]
    inputs = [[draw.randbytes(draw.randrange(9)).hex() for _ in range(draw.randrange(4))] for _ in range(n)]
    turns, entries = draw.randrange(40, 200), []
    for turn in range(turns):
        kind = draw.random()
        entries.append(f"stop {draw.randrange(n)}" if kind < 0.03 else "power" if kind < 0.05 else f"{draw.randrange(n)} {draw.randrange(2**32)} {10 * turn}")
    stops = []
    for _ in range(draw.randrange(6)):
        stop = {"turn": draw.randrange(turns), "process": draw.randrange(n), "call": draw.randrange(1, 9), "keep": draw.choice([0, 1, 5, 100, 300, 70000])}
        stops.append({**stop, "fill": draw.choice([0, 1, 7, 255])} if draw.random() < 0.5 else stop)
    keys = f'protocol = "{draw.choice(PROTOCOLS)}"\nmedium = "disk"\nmemory = 65536\nguests = {guests}\ninputs = {inputs}\n'.replace("'", '"')
    return Drawn(keys, entries, stops, sorted(draw.sample(range(turns), draw.randrange(1, 4))))


def write(folder, name, text):
    with open(os.path.join(folder, name), "w", encoding="ascii") as file:
        file.write(text)


def dc(folder, wanted, *words):
    """What the program writes; it ends with a status that is wanted."""
    done = subprocess.run([PROGRAM, *words], cwd=folder, capture_output=True, check=False)
    if done.returncode not in wanted:
        raise RuntimeError(f"dc {' '.join(words)}: status {done.returncode}: {done.stderr.decode().strip()}")
    return done.stdout


def acts(folder, moved=int):
    """The acts of the report, with their turns moved."""
    with open(os.path.join(folder, "dc.report"), encoding="ascii") as file:
        lines = [line.split(" ", 2) for line in file if line.startswith("act ")]
    return [(moved(int(turn)), rest) for _, turn, rest in lines]


def try_plan(folder, plan):
    """Runs a plan in parts, and with `power` in place of its halts."""

    def moved(turn):
        return turn + sum(halt <= turn for halt in plan.halts)

    for guest in GUESTS:
        shutil.copy(os.path.join(TOP, "examples", guest), folder)
    write(folder, "halted", "".join(f"{entry}\n" for entry in plan.entries))
    write(folder, "powered", "".join(("power\n" if turn in plan.halts else "") + f"{entry}\n" for turn, entry in enumerate(plan.entries)))
    lines, words = b"", ["run", "plan.toml"]
    for halt in [*plan.halts, None]:
        write(folder, "plan.toml", plan.text("halted", halt))
        lines += dc(folder, (0, 1) if halt is None else (15,), *words)
        words = ["resume", "plan.toml", "dc.report"]
    with open(os.path.join(folder, "lines"), "wb") as file:
        file.write(lines)
    dc(folder, (0,), "check", "plan.toml", "dc.report", "lines")
    mine = acts(folder, moved)
    write(folder, "powered.toml", plan.text("powered", moved=moved))
    if dc(folder, (0, 1), "run", "powered.toml") != lines:
        raise RuntimeError("with `power` in place of the halts there are other lines")
    if acts(folder) != mine:
        raise RuntimeError("with `power` in place of the halts there are other acts")
    return len(mine), lines.count(b"\n")


def main():
    reader = argparse.ArgumentParser(description=__doc__, formatter_class=argparse.RawDescriptionHelpFormatter)
    reader.add_argument("--plans", type=int, default=25)
    reader.add_argument("--seed", type=int, default=1)
    asked = reader.parse_args()
    if not os.access(PROGRAM, os.X_OK):
        sys.exit("dc is not built: call ./dc once")
    counts = []
    for seed in range(asked.seed, asked.seed + asked.plans):
        folder = tempfile.mkdtemp()
        try:
            counts.append(try_plan(folder, drawn(random.Random(seed))))
        except RuntimeError as error:
            sys.exit(f"seed {seed}: {error}; its files stand in {folder}")
        shutil.rmtree(folder)
    print(f"{len(counts)} plans, {sum(it for it, _ in counts)} acts and {sum(it for _, it in counts)} lines: a halt is as a line `power`")


main()
