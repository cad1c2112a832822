#!/usr/bin/env python3
"""What one example costs under each protocol: the table of docs/IDEA.md.

    bench/protocols.py [PROGRAM] [--seeds N] [--into PAGE]

Runs two plans, asking.toml and telling.toml of examples/protocols, under the seven protocols in recoverable memory, with N seeds (200 where not
given), each run followed by its check, by sdk/many, which calls the program at that path (the one of ./dc where none is given). Prints a table in
Markdown: of each plan the commits for 1,000 events where nothing fails, the records seen again for 1,000 that are shown where things fail, and the
milliseconds of a processor that a run takes with its stops and recoveries, on the average. With --into it takes the place of the table in that
page, between the line that says what makes it and the next `<!-- end -->`. Wants GNU parallel (apt-get install parallel). A benchmark, and no test:
it measures the program as it was built."""
import argparse
import csv
import os
import re
import shutil
import subprocess
import sys
import tempfile
from statistics import mean

sys.dont_write_bytecode = True
from turns import PROGRAM, TOP

sys.path.insert(1, os.path.join(TOP, "sdk", "sweep"))
from chart import number_text, per_thousand
from plans import PROTOCOLS

PLANS = ["asking", "telling"]
COLUMNS = ["commits", "seen again", "ms"]
PLACE = re.compile(r"(<!-- table: made by bench/protocols.py -->\n).*?(<!-- end -->\n)", re.DOTALL)


def laid_out(room, program):
    """sdk/many in a folder of its own, laid out as ./install does, so that it calls this program."""
    shutil.copytree(os.path.join(TOP, "sdk"), os.path.join(room, "sdk"), ignore=shutil.ignore_patterns("__pycache__"))
    os.symlink(os.path.abspath(program), os.path.join(room, "dc_main"))
    return os.path.join(room, "sdk", "many")


def rows_of(folder, name):
    """The rows of a table of a sweep."""
    with open(os.path.join(folder, name), encoding="utf-8", newline="") as file:
        return list(csv.DictReader(file))


def swept(many, room, plan, seeds):
    """For each protocol what the runs of a plan come to, in the order of the columns."""
    folder = os.path.join(room, plan)
    source = os.path.join(TOP, "examples", "protocols", f"{plan}.toml")
    words = [many, source, "--to", folder, "--protocols", "all", "--medium", "rio", "--seeds", f"1-{seeds}"]
    if subprocess.run(words, check=False).returncode:
        sys.exit(f"{plan}.toml: sdk/many says above what went wrong")
    seconds = {protocol: [] for protocol in PROTOCOLS}
    for row in rows_of(folder, "runs.csv"):
        seconds[row["protocol"]].append(float(row["seconds"]))
    costs = {}
    for row in rows_of(folder, "protocols.csv"):
        commits, again = per_thousand(row["commits"], row["events"]), per_thousand(row["repeats"], int(row["records"]))
        costs[row["protocol"]] = [commits, again, 1000 * mean(seconds[row["protocol"]])]
    return costs


def cell(number):
    return "none" if number is None else number_text(number)


def table_of(costs):
    """The table: a row for each protocol, with the columns of each plan."""
    heads = ["Protocol", *[f"{plan}: {COLUMNS[0]}" if at == 0 else name for plan in PLANS for at, name in enumerate(COLUMNS)]]
    rows = [[f"`{protocol}`", *[cell(number) for plan in PLANS for number in costs[plan][protocol]]] for protocol in PROTOCOLS]
    return "".join(f"| {' | '.join(row)} |\n" for row in [heads, *rows]).replace("\n", f"\n|{'---|' * len(heads)}\n", 1)


def text_of(page):
    """The text of a page, which has one place for the table."""
    with open(page, encoding="utf-8") as file:
        text = file.read()
    if len(PLACE.findall(text)) != 1:
        sys.exit(f"{page} has not one place for the table")
    return text


def put_into(page, table):
    """Puts the table into its place in a page."""
    text = PLACE.sub(lambda place: f"{place[1]}{table}{place[2]}", text_of(page))
    with open(page, "w", encoding="utf-8") as file:
        file.write(text)


def main():
    reader = argparse.ArgumentParser(description=__doc__, formatter_class=argparse.RawDescriptionHelpFormatter)
    reader.add_argument("program", metavar="PROGRAM", nargs="?", default=PROGRAM)
    reader.add_argument("--seeds", metavar="N", type=int, default=200)
    reader.add_argument("--into", metavar="PAGE")
    asked = reader.parse_args()
    if not os.access(asked.program, os.X_OK):
        sys.exit(f"{asked.program} is no program: give its path, or call ./dc once")
    if asked.into:
        text_of(asked.into)
    with tempfile.TemporaryDirectory() as room:
        many = laid_out(room, asked.program)
        table = table_of({plan: swept(many, room, plan, asked.seeds) for plan in PLANS})
    print(table, end="")
    if asked.into:
        put_into(asked.into, table)


main()
