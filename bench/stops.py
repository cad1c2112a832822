#!/usr/bin/env python3
"""Stops a run at each call of a guest's store, in four of its turns and in the recovery behind each.

    bench/stops.py [--protocols A,B] [--turns N]

Runs two guests that ask for much, by each protocol on both media, and picks the first N turns (4 where not given) in which the guest's store is
called. A run has a stop at one call of such a turn, or one at its last call and another at one call of the guest's next turn, which recovers; for each
call with several `keep`s and, on a disk, several `fill`s. Each run ends with 0 or 1 and passes its check, and shows, without repeats, as many records
of each guest as its report says. Prints how many runs there were of each protocol and medium, and ends with 1 where one went otherwise. A trial, and
no test: it tries the program as it was built."""
import argparse
import itertools
import os
import random
import subprocess
import sys
import tempfile
from concurrent.futures import ThreadPoolExecutor

from turns import PROGRAM, TOP

PROTOCOLS = ["cand", "cand-log", "cpvs", "cbndvs", "cbndvs-log", "cpv-2pc", "cbndv-2pc"]
PLAN = 'protocol = "{protocol}"\nmedium = "{medium}"\nmemory = 65536\nguests = ["asking.elf", "asking.elf"]\nschedule = "schedule"\n'
STOP = "[[stop]]\nturn = {turn}\nprocess = {process}\ncall = {call}\nkeep = {keep}\n"
KEEPS, FILLS = [0, 1, 7, 1_000_000], [None, 0, 1, 255]
ENTRIES, GUESTS = 120, 2
# More calls than a turn makes.
MANY = 5_000


def schedule():
    """Turns of both guests by turns, with words of a seed."""
    words = random.Random(20001023)
    return "".join(f"{turn % GUESTS} {words.randrange(2**32)} {10 * turn}\n" for turn in range(ENTRIES))


def stop(turn, call, keep, fill=None):
    text = STOP.format(turn=turn, process=turn % GUESTS, call=call, keep=keep)
    return text if fill is None else text + f"fill = {fill}\n"


def run(plan):
    """What a run of a plan comes to: its status and that of its check, its lines, and its report."""
    with tempfile.TemporaryDirectory() as folder:
        os.symlink(os.path.join(TOP, "examples", "protocols", "asking.elf"), os.path.join(folder, "asking.elf"))
        for name, text in [("plan.toml", plan), ("schedule", schedule())]:
            with open(os.path.join(folder, name), "w", encoding="ascii") as file:
                file.write(text)
        ran = subprocess.run([PROGRAM, "run", "plan.toml"], cwd=folder, capture_output=True, check=False)
        with open(os.path.join(folder, "lines"), "wb") as file:
            file.write(ran.stdout)
        check = subprocess.run([PROGRAM, "check", "plan.toml", "dc.report", "lines"], cwd=folder, capture_output=True, check=False)
        with open(os.path.join(folder, "dc.report"), encoding="ascii") as file:
            report = file.read()
    return ran.returncode, check.returncode, check.stdout.decode(), ran.stdout.decode(), report


def is_well(came):
    """Whether a run went as it has to: its records are those that its check counts."""
    status, checked, said, lines, _ = came
    records = {tuple(line.split()[1:3]) for line in lines.splitlines()}
    return status in (0, 1) and checked == 0 and said.split()[0] == "ok" and said.split()[2] == str(len(records))


def calls_of(plan, turn, before, unstopped):
    """How many calls a turn's guest makes of its store: a stop at one of them changes the report, one at a later call does not."""
    if run(plan + before + stop(turn, 1, 0))[4] == unstopped:
        return 0
    low, high = 1, MANY
    while high - low > 1:
        middle = (low + high) // 2
        low, high = (low, middle) if run(plan + before + stop(turn, middle, 0))[4] == unstopped else (middle, high)
    return low


def plans(plan, medium, turns):
    """The plan with each stop, of the first turns in which a store is called."""
    ways = [(keep, fill) for keep in KEEPS for fill in (FILLS if medium == "disk" else FILLS[:1])]
    unstopped = run(plan)[4]
    called = ((turn, calls) for turn in range(ENTRIES - GUESTS) if (calls := calls_of(plan, turn, "", unstopped)))
    for turn, calls in itertools.islice(called, turns):
        last = stop(turn, calls, 0)
        again = calls_of(plan, turn + GUESTS, last, run(plan + last)[4])
        for call, (keep, fill) in itertools.product(range(1, calls + 1), ways):
            yield plan + stop(turn, call, keep, fill)
        for call, (keep, fill) in itertools.product(range(1, again + 1), ways):
            yield plan + last + stop(turn + GUESTS, call, keep, fill)


def main():
    reader = argparse.ArgumentParser(description=__doc__, formatter_class=argparse.RawDescriptionHelpFormatter)
    reader.add_argument("--protocols", type=lambda text: text.split(","), default=PROTOCOLS)
    reader.add_argument("--turns", type=int, default=4)
    asked = reader.parse_args()
    # A first call builds what is missing.
    subprocess.run([os.path.join(TOP, "dc")], capture_output=True, check=False)
    total, bad = 0, 0
    with ThreadPoolExecutor(os.cpu_count()) as pool:
        for protocol, medium in itertools.product(asked.protocols, ["rio", "disk"]):
            stopped = list(plans(PLAN.format(protocol=protocol, medium=medium), medium, asked.turns))
            went = list(pool.map(lambda plan: is_well(run(plan)), stopped))
            for plan in itertools.islice((plan for plan, well in zip(stopped, went) if not well), 3):
                print(f"went otherwise:\n{plan}", file=sys.stderr)
            total, bad = total + len(went), bad + went.count(False)
            print(f"{protocol} on {medium}: {len(went)} runs", flush=True)
    print(f"{total} runs with a stop, {bad} of which went otherwise")
    sys.exit(1 if bad else 0)


if __name__ == "__main__":
    main()
