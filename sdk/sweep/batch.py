"""Does the runs of a batch one after the other, each followed by its check, and notes in the folder of each what came of it.

Called in the folder of a sweep, or in a copy of what it needs on another host: batch.py BATCH [--packed]. Needs Python alone."""
import ctypes
import json
import os
import subprocess
import sys
import tarfile
import tempfile

sys.dont_write_bytecode = True
from plans import TURNS, files_of, plan_of, plan_text, run_named
from schedules import stops_drawn, stops_listed

SWEEP, RUNS, FILES, PROGRAM = "sweep.json", "runs", "files", "tools/dc"
# Folders of attempts at a batch, where it is done over ssh: hosts may share a folder, and one that went away may still be at work.
ATTEMPT = "attempt-"
# What stands in the folder of a run; of it LINES and REPORT go where the run and its check went well.
PLAN, SAID, CAME, LINES, REPORT = "plan.toml", "stderr", "came.json", "lines", "dc.report"
# For a shell: starts the program and ends. The first line on standard error is the program's number.
START = """sh -c 'echo $$ >&2; exec "$@"' sh "$@" &"""
PR_SET_CHILD_SUBREAPER = 36
# Statuses that come of the machine and not of the plan: a file that cannot be read or written, a device that fails, no memory.
MACHINE = (6, 7, 8, 10)
# What the events of a journal are called in the table.
KINDS = {"nd": "nd", "logged": "logged", "visible": "visible", "send": "sends", "receive": "receives"}


def read(path):
    """The bytes of a file; none where it is not there."""
    if not os.path.exists(path):
        return b""
    with open(path, "rb") as file:
        return file.read()


def write(path, text):
    """Writes a file whole or not at all."""
    with open(path + ".part", "w", encoding="utf-8") as file:
        file.write(text)
    os.replace(path + ".part", path)


def came_of(run, folder="."):
    """What came of a run; nothing where it was not done."""
    return json.loads(read(os.path.join(folder, RUNS, run.name, CAME)) or "{}")


def is_done(run, folder="."):
    """Whether a run was done, and would come to the same again."""
    came = came_of(run, folder)
    return bool(came) and not came["spoiled"]


def is_spoiled(*statuses):
    """Whether the machine is what ended the program, with one of these statuses, or by a signal."""
    return any(status in MACHINE or status < 0 for status in statuses)


def lay_out(run, plan):
    """The folder of a run, with its plan and links to the files that this names."""
    home = os.path.join(RUNS, run.name)
    for name in files_of(plan):
        link(home, name, os.path.join(FILES, name))
    if run.is_journal:
        link(home, TURNS, TURNS)
    write(os.path.join(home, PLAN), plan_text(plan_of(run, plan)))
    return home


def link(home, name, source):
    """A link in the folder of a run to a file of the sweep."""
    path = os.path.join(home, name)
    os.makedirs(os.path.dirname(path), exist_ok=True)
    if not os.path.lexists(path):
        os.symlink(os.path.relpath(source, os.path.dirname(path)), path)


def adopts():
    """Makes this process the parent of what it starts by way of a shell that has ended: the peak memory of a child of its own begins with what it has
    itself, and that of a shell's child does not."""
    ctypes.CDLL(None).prctl(PR_SET_CHILD_SUBREAPER, 1, 0, 0, 0)


def ended(words, home, out):
    """Runs the program there, with its output in a file; its status, what it said, its seconds of the processor and its peak memory."""
    words = ["/bin/sh", "-c", START, "sh", os.path.abspath(PROGRAM), *words]
    # The sweep's lock is kept until the program has ended too.
    with open(os.path.join(home, out), "wb") as file:
        told = subprocess.run(words, cwd=home, stdout=file, stderr=subprocess.PIPE, close_fds=False, check=False).stderr
    number, _, said = told.partition(b"\n")
    _, how, used = os.wait4(int(number), 0)
    return os.waitstatus_to_exitcode(how), said, round(used.ru_utime + used.ru_stime, 3), used.ru_maxrss


def counts_of(home):
    """Entries, acts, lines, records and repeats of a run, by its report and its output."""
    close = (read(os.path.join(home, REPORT)).splitlines() or [b""])[-1].split(b" ")
    entries, acts = (int(close[2]), int(close[3])) if close[0] == b"close" else (0, 0)
    seen = [tuple(line.split(b" ")[1:3]) for line in read(os.path.join(home, LINES)).splitlines()]
    return {"entries": entries, "acts": acts, "lines": len(seen), "records": len(set(seen)), "repeats": len(seen) - len(set(seen))}


def stops_of(home, run, plan):
    """How often each guest is stopped by the schedule of a run and by its plan."""
    guests = len(plan["guests"])
    if run.seed is not None:
        stops = list(stops_drawn(run.seed, plan["turns"], guests))
    else:
        stops = stops_listed(read(os.path.join(home, plan["schedule"])).decode().splitlines(), guests)
    for table in plan.get("stop", []):
        stops[table["process"]] += 1
    return stops


def done(home, run, plan, keep):
    """Does a run and its check; what came of them."""
    status, said, seconds, peak = ended(["run", PLAN], home, LINES)
    write(os.path.join(home, SAID), said.decode(errors="replace"))
    came = {"status": status, "seconds": seconds, "peak_kib": peak, **counts_of(home), "check": "none", "spoiled": is_spoiled(status)}
    if status in (0, 1):
        came["stops"] = stops_of(home, run, plan)
        passed, told, _, _ = ended(["check", PLAN, REPORT, LINES], home, "checked")
        came["spoiled"] = is_spoiled(passed)
        came["check"] = "ok" if passed == 0 else told.decode(errors="replace").strip()
        os.remove(os.path.join(home, "checked"))
    if came["check"] == "ok" and not keep:
        os.remove(os.path.join(home, LINES))
        os.remove(os.path.join(home, REPORT))
    return came


def events_of(path):
    """How many events of each kind a journal has, and how many commits. A receive that was logged counts as both."""
    came = dict.fromkeys(("turns", "events", *KINDS.values(), "commits"), 0)
    with open(path, encoding="ascii") as file:
        for line in file:
            word, *rest = line.split()
            if word == "commit":
                came["commits"] += 1
            elif word == "e":
                came["events"] += 1
                came[KINDS[rest[1]]] += 1
                if rest[1] == "receive":
                    came[rest[4]] += 1
    return came


def written(home, keep):
    """Writes the journal of a protocol; what it has."""
    status, said, seconds, peak = ended(["journal", PLAN], home, LINES)
    write(os.path.join(home, SAID), said.decode(errors="replace"))
    came = {"status": status, "seconds": seconds, "peak_kib": peak, "check": "none", "spoiled": is_spoiled(status)}
    if status in (0, 1):
        came.update(events_of(os.path.join(home, REPORT)), check="ok")
        came["turns"] = read(os.path.join(home, TURNS)).count(b"\n")
    if came["check"] == "ok" and not keep:
        os.remove(os.path.join(home, LINES))
        os.remove(os.path.join(home, REPORT))
    return came


def do(run, sweep):
    """Does a run, or writes a journal, unless that was done."""
    if is_done(run):
        return
    home = lay_out(run, sweep["plan"])
    came = written(home, sweep["keep"]) if run.is_journal else done(home, run, sweep["plan"], sweep["keep"])
    write(os.path.join(home, CAME), json.dumps(came))


def do_all(batch):
    """Does the runs of a batch. Which they are."""
    sweep = json.loads(read(SWEEP))
    runs = [run_named(name) for name in read(batch).decode().split()]
    for run in runs:
        do(run, sweep)
    return runs


def packed(batch):
    """Does the runs of a batch in a folder that no other attempt has, and leaves their folders as one file beside the batch, to be handed back."""
    with tempfile.TemporaryDirectory(prefix=ATTEMPT, dir=".") as room:
        for name in os.listdir("."):
            if not name.startswith(ATTEMPT) and name != RUNS:
                os.symlink(os.path.join("..", name), os.path.join(room, name))
        os.chdir(room)
        runs = do_all(batch)
        with tarfile.open("packed", "w") as file:
            for run in runs:
                file.add(os.path.join(RUNS, run.name))
        os.replace("packed", f"{batch}.tar")
        os.chdir("..")


def main(batch, *flags):
    adopts()
    if "--packed" in flags:
        packed(batch)
    else:
        do_all(batch)


if __name__ == "__main__":
    try:
        main(*sys.argv[1:])
    except OSError as error:
        sys.exit(f"{sys.argv[1]}: {error}")
