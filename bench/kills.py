#!/usr/bin/env python3
"""Tries sdk/long as it is used: killed at random moments, with its program or alone, and started again until it ends.

    bench/kills.py [--kills N] [--turns N] [--every N] [--seed N]

Runs two guests of examples/ring on disks once without a kill, and then again and again until there were N kills (100 where not given), each after a
time that is drawn up to that of three parts; of five kills one is of the script alone. After each kill the lines of the parts that are whole pass the check of the last one's report, and at each
end the lines and the report are byte for byte those of the run without a kill. Where strace is installed (apt-get install strace) it also looks at the order of the
system's calls, as a power cut would: a file gets its name, and a part too, only when all of it is made sure of, and what was before goes only when
the new name is. A trial, and no test: it tries the program as it was built."""
import argparse
import os
import random
import re
import shutil
import signal
import subprocess
import sys
import tempfile
import time

from turns import PROGRAM, TOP

LONG = os.path.join(TOP, "sdk", "long")
PLAN = 'protocol = "{protocol}"\nmedium = "disk"\nmemory = 65536\nguests = ["ring.elf", "ring.elf"]\nseed = 20001023\nturns = {turns}\n'
PROTOCOLS = ["cbndvs-log", "cbndv-2pc", "cand"]


def read(*names):
    with open(os.path.join(*names), "rb") as file:
        return file.read()


def checked(folder, report, lines):
    """What the check says of lines and a report."""
    with tempfile.NamedTemporaryFile() as file:
        file.write(lines)
        file.flush()
        done = subprocess.run([PROGRAM, "check", "../plan.toml", report, file.name], cwd=f"{folder}/work", capture_output=True, text=True, check=False)
    return done.stdout.strip() or done.stderr.strip()


def try_parts(folder):
    """The lines of the parts that are whole pass the check of the last report. How many these are."""
    if not os.path.isdir(f"{folder}/parts"):
        return 0
    parts = sorted((name for name in os.listdir(f"{folder}/parts") if name.isdigit()), key=int)
    if parts and not os.path.exists(f"{folder}/dc.report"):
        said = checked(folder, f"../parts/{parts[-1]}/dc.report", b"".join(read(folder, "parts", part, "lines") for part in parts))
        if not said.startswith("ok "):
            sys.exit(f"the parts up to {parts[-1]}: {said}")
    return len(parts)


class Order:
    """The files and folders whose last change was not made sure of yet, by the calls of a trace in their order."""

    CALLS = "openat,mkdir,write,pwrite64,sendfile,copy_file_range,ftruncate,fsync,fdatasync,rename,unlink,unlinkat,rmdir"
    FILES = re.compile(r'(?:AT_FDCWD|\d+)<([^>]*)>(?:, "([^"]*)")?')
    TEXTS = re.compile(r'"([^"]*)"')

    def __init__(self, folder):
        self.folder, self.unsure, self.named, self.taken = folder, set(), 0, 0

    def below(self, path):
        return {it for it in self.unsure if it == path or it.startswith(f"{path}/")}

    def take(self, line):
        """Takes the next call, which has to come when what it relies on is sure."""
        call = re.match(r"\d+ +(\w+)\(", line)
        if not call or " = -1 " in line:
            return
        files, texts = self.FILES.findall(line), self.TEXTS.findall(line)
        if call[1] in ("fsync", "fdatasync"):
            self.unsure.discard(files[0][0])
        elif call[1] == "openat" and "O_CREAT" in line:
            self.unsure.add(os.path.dirname(os.path.join(*files[0])))
        elif call[1] == "mkdir":
            self.unsure.add(os.path.dirname(texts[0]))
        elif call[1] in ("write", "pwrite64", "sendfile", "ftruncate", "copy_file_range"):
            self.unsure.add(files[-1 if call[1] == "copy_file_range" else 0][0])
        elif call[1] == "rename":
            self.rename(*texts[:2])
        elif call[1].startswith(("unlink", "rmdir")):
            self.remove(os.path.join(*files[0]) if call[1] == "unlinkat" else texts[0])

    def rename(self, path, to):
        if path.endswith((".new", "/at-work")):
            self.named += 1
            if self.below(path):
                sys.exit(f"{to} got its name before {self.below(path)} were sure")
        for it in self.below(path):
            self.unsure.remove(it)
            self.unsure.add(to + it[len(path) :])
        self.unsure |= {os.path.dirname(path), os.path.dirname(to)}

    def remove(self, path):
        """Of a whole part goes what the next one, or the end, has."""
        if not re.match(r"parts/\d+/", os.path.relpath(path, self.folder)):
            return
        self.taken += 1
        unsure = {self.folder, f"{self.folder}/parts", f"{self.folder}/lines", f"{self.folder}/dc.report"} & self.unsure
        if unsure:
            sys.exit(f"{path} went before {unsure} were sure")


def try_order(words, folder):
    """Looks at the order of the calls of a run without a kill."""
    if not shutil.which("strace"):
        print("strace is not installed: the order of the system's calls is not looked at")
        return
    with tempfile.NamedTemporaryFile(mode="r") as trace:
        ended(["strace", "-f", "-y", "-qq", "-e", f"trace={Order.CALLS}", "-o", trace.name, *words, folder], 3600, False)
        order = Order(folder)
        for line in trace:
            order.take(line)
    print(f"order: {order.named} files and parts got their names, and {order.taken} files of parts went, when what they rely on was sure", flush=True)


def ended(words, seconds, is_alone):
    """The status of a call that is killed after so many seconds, alone or with all that it started; None where it was."""
    process = subprocess.Popen(words, stdout=subprocess.DEVNULL, stderr=subprocess.PIPE, text=True, start_new_session=True)
    try:
        _, said = process.communicate(timeout=seconds)
    except subprocess.TimeoutExpired:
        (os.kill if is_alone else os.killpg)(process.pid, signal.SIGKILL)
        process.communicate()
        return None
    if process.returncode not in (0, 1):
        sys.exit(f"status {process.returncode}: {said}")
    return process.returncode


def try_protocol(room, protocol, asked, draw, kills):
    """A run without a kill, and one with many. How many kills there were."""
    home = f"{room}/{protocol}"
    os.mkdir(home)
    shutil.copy(os.path.join(TOP, "examples", "ring", "ring.elf"), home)
    with open(f"{home}/plan.toml", "w", encoding="ascii") as file:
        file.write(PLAN.format(protocol=protocol, turns=asked.turns))
    words = [LONG, f"{home}/plan.toml", "--every", str(asked.every), "--to"]
    start = time.perf_counter()
    status = ended([*words, f"{home}/whole"], 3600, False)
    seconds = time.perf_counter() - start
    parts = -(-asked.turns // asked.every)
    wanted = read(home, "whole", "lines"), read(home, "whole", "dc.report")
    if protocol == PROTOCOLS[0]:
        try_order(words, f"{home}/order")
    count, runs, seen = 0, 0, []
    while count < kills:
        folder, before = f"{home}/{runs}", count
        while (came := ended([*words, folder], draw.uniform(0, 3 * seconds / parts), draw.random() < 0.2)) is None:
            count += 1
            seen.append(try_parts(folder))
        if came != status or (read(folder, "lines"), read(folder, "dc.report")) != wanted:
            sys.exit(f"{protocol}: killed {count - before} times, another end: {folder}")
        runs += 1
        shutil.rmtree(folder)
    acts, _, shown = re.search(rb"close \d+ \d+ (\d+)( )(\d+)", wanted[1]).groups()
    print(
        f"{protocol}: {asked.turns} turns in {parts} parts, {seconds:.1f} s; {int(acts)} acts, {int(shown)} lines; {count} kills over {runs} runs, with "
        f"{min(seen)} to {max(seen)} whole parts behind them; each run ended with the lines and the report of the one without a kill",
        flush=True,
    )
    return count


def main():
    reader = argparse.ArgumentParser(description=__doc__, formatter_class=argparse.RawDescriptionHelpFormatter)
    for name, number in (("--kills", 100), ("--turns", 200000), ("--every", 10000), ("--seed", 1)):
        reader.add_argument(name, type=int, default=number)
    asked = reader.parse_args()
    if not os.access(PROGRAM, os.X_OK):
        sys.exit("dc is not built: call ./dc once")
    draw = random.Random(asked.seed)
    with tempfile.TemporaryDirectory() as name:
        room = os.path.realpath(name)
        left = asked.kills
        for number, protocol in enumerate(PROTOCOLS):
            # Each protocol has one kill at least, also where those before it had more than was asked.
            left -= try_protocol(room, protocol, asked, draw, max(1, -(-left // (len(PROTOCOLS) - number))))


main()
