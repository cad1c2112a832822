#!/usr/bin/env python3
"""What commits on real files cost beside SQLite's, and what it costs to go on with a long run.

    bench/files.py [TURNS [ACTS]]      20,000 turns and 1,000,000 acts where none are given

Runs two guests of examples/ring under CPVS, which commit before whatever they show or send, with their disks in files, and lets SQLite commit as many
bytes as often to a file of the same folder: a transaction for each commit, which puts the bytes of its record in place of that guest's before (WAL,
synchronous=FULL). Prints the least seconds of three of each, and, where strace is installed, the syncs and the bytes written, with their ratios; the same
run on rio shows what the turns take without files. Then it halts a run of so many acts before its last entry, and prints what the resume of it takes beside its
check, at most twice which is wanted. The files lie where TMPDIR says, or in /tmp. A benchmark, and no test: it measures the program as it was built."""
import os
import re
import shutil
import sqlite3
import subprocess
import sys
import tempfile
import time

from turns import PROGRAM, TOP

RING = os.path.join(TOP, "examples", "ring", "ring.elf")
PLAN = 'protocol = "cpvs"\nmedium = "{medium}"\nmemory = 65536\nguests = ["ring.elf", "ring.elf"]\nseed = 20001023\nturns = {turns}\n'
# A guest that counts, and shows every 1024th count, before which it commits.
SOURCE = """loop:
lw x5,512(x0)
addi x5,x5,1
sw x5,512(x0)
andi x9,x5,1023
bne x9,x0,loop
addi x17,x0,2
addi x10,x0,512
addi x11,x0,4
ecall
jal x0,loop
"""
LONG = 'protocol = "cpvs"\nmedium = "disk"\nmemory = 65536\nguests = ["guest.elf"]\nschedule = "schedule"\n'
TIMES = 3
WRITTEN = re.compile(r"^\d+ +(?:write|pwrite64)\(\d+<([^>]*)>.* = (\d+)$")
SYNCED = re.compile(r"^\d+ +(?:fsync|fdatasync)\(\d+<([^>]*)>")


def timed(words, folder, wanted=(0,), out=subprocess.DEVNULL):
    """The seconds of a command in a folder, and what it said."""
    start = time.perf_counter()
    done = subprocess.run(words, cwd=folder, stdout=out, stderr=subprocess.PIPE, text=True, check=False)
    seconds = time.perf_counter() - start
    if done.returncode not in wanted:
        sys.exit(f"{' '.join(words)}: status {done.returncode}: {done.stderr}")
    return seconds, done.stderr.strip()


def least(words, folder, lay_out, wanted=(0,)):
    """The least seconds of some calls, each in a folder that is laid out anew."""
    found = []
    for _ in range(TIMES):
        lay_out(folder)
        found.append(timed(words, folder, wanted)[0])
    return min(found)


def traced(words, folder, lay_out, files, wanted=(0,)):
    """Each write to files of these names, as the name and the bytes, and the number of syncs of them and of the folder."""
    lay_out(folder)
    with tempfile.NamedTemporaryFile(mode="r") as trace:
        timed(["strace", "-f", "-y", "-qq", "-s", "1", "-e", "trace=write,pwrite64,fsync,fdatasync", "-o", trace.name, *words], folder, wanted)
        lines = trace.read().splitlines()
    home = os.path.realpath(folder)
    writes = [(os.path.relpath(it[1], home), int(it[2])) for it in map(WRITTEN.match, lines) if it]
    syncs = [os.path.relpath(it[1], home) for it in map(SYNCED.match, lines) if it]
    return [it for it in writes if it[0].startswith(files)], sum(it.startswith(files) or it == "." for it in syncs)


# Commits.


def lay_out_ring(medium, turns):
    def lay_out(folder):
        for name in os.listdir(folder):
            if name != "commits":
                os.remove(os.path.join(folder, name))
        shutil.copy(RING, folder)
        with open(os.path.join(folder, "plan.toml"), "w", encoding="ascii") as file:
            file.write(PLAN.format(medium=medium, turns=turns))

    return lay_out


def records(folder):
    """The commits that SQLite is to make: the guest and the bytes of each."""
    with open(os.path.join(folder, "commits"), encoding="ascii") as file:
        return [tuple(map(int, line.split())) for line in file]


def commit_all(folder):
    """Makes the commits of the list in a database of the folder."""
    commits = records(folder)
    base = sqlite3.connect(os.path.join(folder, "sqlite.db"), isolation_level=None)
    base.execute("pragma journal_mode = wal")
    base.execute("pragma synchronous = full")
    base.execute("create table guests (p integer primary key, state blob)")
    start = time.perf_counter()
    for p, size in commits:
        base.execute("replace into guests values (?, zeroblob(?))", (p, size))
    print(f"{time.perf_counter() - start:.3f}", file=sys.stderr)
    base.close()


def lay_out_sqlite(folder):
    for name in os.listdir(folder):
        if name.startswith("sqlite.db"):
            os.remove(os.path.join(folder, name))


def measure_commits(turns):
    """Prints what commits to disks in files cost beside SQLite's."""
    run, sqlite = [PROGRAM, "run", "plan.toml"], [sys.executable, os.path.abspath(__file__), "--sqlite", "."]
    with tempfile.TemporaryDirectory() as folder:
        if shutil.which("strace"):
            writes, syncs = traced(run, folder, lay_out_ring("disk", turns), "dc.disk.", (0, 1))
        else:
            print("strace is not installed: syncs and bytes are not counted, and SQLite commits 400 bytes for each 30 turns")
            writes, syncs = [("dc.disk.0", 400)] * (turns // 30), None
        commits = [(name[-1], size) for name, size in writes if size > 1]
        with open(os.path.join(folder, "commits"), "w", encoding="ascii") as file:
            file.writelines(f"{p} {size}\n" for p, size in commits)
        taken = {medium: least(run, folder, lay_out_ring(medium, turns), (0, 1)) for medium in ("disk", "rio")}
        said = []
        for _ in range(TIMES):
            lay_out_sqlite(folder)
            said.append(float(timed(sqlite, folder)[1]))
        taken["sqlite"] = min(said)
        print(f"{turns:,} turns: {len(commits):,} records of {sum(size for _, size in commits):,} bytes")
        beside = taken["disk"] - taken["rio"]
        print(f"  on disks {taken['disk']:.3f} s, on rio {taken['rio']:.3f} s; SQLite's commits alone {taken['sqlite']:.3f} s: disks take {taken['disk'] / taken['sqlite']:.2f} times that, and {beside / taken['sqlite']:.2f} times beside rio")
        if syncs is not None:
            others, other_syncs = traced(sqlite, folder, lay_out_sqlite, "sqlite.db")
            mine, other = (sum(size for _, size in it) for it in (writes, others))
            print(f"  {syncs:,} syncs, {syncs / other_syncs:.2f} times SQLite's {other_syncs:,}; {mine:,} bytes written, {mine / other:.2f} times SQLite's {other:,}")


# Going on.


def measure_reopen(acts):
    """Prints what going on with a run of so many acts costs beside its check."""
    with tempfile.TemporaryDirectory() as folder:
        texts = {"guest.s": SOURCE, "schedule": "0 0 0\n" * acts, "plan.toml": LONG, "halted.toml": f"halt = {acts - 1}\n{LONG}"}
        for name, text in texts.items():
            with open(os.path.join(folder, name), "w", encoding="ascii") as file:
                file.write(text)
        with open(os.path.join(folder, "guest.elf"), "wb") as file:
            timed([PROGRAM, "asm", "guest.s"], folder, out=file)
        with open(os.path.join(folder, "lines"), "wb") as file:
            timed([PROGRAM, "run", "halted.toml"], folder, (15,), file)
        for name in ("dc.report", "dc.disk.0"):
            os.rename(os.path.join(folder, name), os.path.join(folder, f"kept {name}"))
        shutil.copy(os.path.join(folder, "kept dc.report"), os.path.join(folder, "report"))

        def lay_out(folder):
            shutil.copy(os.path.join(folder, "kept dc.disk.0"), os.path.join(folder, "dc.disk.0"))

        resume = least([PROGRAM, "resume", "plan.toml", "report"], folder, lay_out, (1,))
        check = least([PROGRAM, "check", "plan.toml", "report", "lines"], folder, lay_out)
    print(f"{acts - 1:,} acts: a resume takes {resume:.3f} s, {resume / check:.2f} times the {check:.3f} s of the check, at most 2 wanted")


def main():
    if sys.argv[1:2] == ["--sqlite"]:
        return commit_all(sys.argv[2])
    turns, acts = (int(sys.argv[at]) if len(sys.argv) > at else number for at, number in ((1, 20_000), (2, 1_000_000)))
    # A first call builds what is missing.
    subprocess.run([os.path.join(TOP, "dc")], capture_output=True, check=False)
    measure_commits(turns)
    measure_reopen(acts)
    return 0


if __name__ == "__main__":
    sys.exit(main())
