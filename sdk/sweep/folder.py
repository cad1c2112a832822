"""The folder of a sweep: whose it is, and what its runs need."""
import fcntl
import glob
import hashlib
import json
import os
import shutil
import tarfile

from batch import ATTEMPT, FILES, PROGRAM, RUNS, SWEEP, is_done, read, write
from plans import TURNS, Refused, files_of
from schedules import turns_drawn, turns_listed

HERE = os.path.dirname(os.path.realpath(__file__))
TOOLS = ["batch.py", "plans.py", "schedules.py"]
BATCHES, LOCK = "batches", "lock"
# A batch has at most so many runs, on this machine and over ssh, where each takes several connections; and there are at least so many batches for
# each processor, so that the last ones take none alone for long.
MOST_HERE, MOST_OVER_SSH, LEAST_BATCHES = 16, 64, 8


def sum_of(path):
    with open(path, "rb") as file:
        return hashlib.sha256(file.read()).hexdigest()


def sweep_of(plan, source, runs, program, keep):
    """What decides a sweep: its plan, what the files of this and the program hold, its runs, and what is kept of them."""
    sums = {name: sum_of(os.path.join(source, name)) for name in files_of(plan)}
    return {"plan": plan, "files": sums, "program": sum_of(program), "runs": [run.name for run in runs], "keep": keep}


def claim(folder, sweep):
    """Makes the folder this sweep's, or finds that it is."""
    path = os.path.join(folder, SWEEP)
    if os.path.exists(path):
        if json.loads(read(path)) != sweep:
            raise Refused(f"{folder} holds the runs of another plan, of other words or by another build of dc; nothing was changed")
        return
    if os.path.lexists(folder) and (not os.path.isdir(folder) or set(os.listdir(folder)) - {f"{SWEEP}.part"}):
        raise Refused(f"{folder} is no empty folder; nothing was changed")
    os.makedirs(folder, exist_ok=True)
    write(path, json.dumps(sweep))


def hold(folder, say):
    """Waits until no other call is at work in the folder. Others wait until this one, and all that was started with what is given, has ended."""
    lock = os.open(os.path.join(folder, LOCK), os.O_CREAT | os.O_RDWR, 0o666)
    try:
        fcntl.flock(lock, fcntl.LOCK_EX | fcntl.LOCK_NB)
    except BlockingIOError:
        say(f"runs of another call are at work in {folder}; waiting for them")
        fcntl.flock(lock, fcntl.LOCK_EX)
    os.set_inheritable(lock, True)
    return lock


def give_up(folder):
    """Empties a folder that was this sweep's."""
    for name in os.listdir(folder):
        path = os.path.join(folder, name)
        if os.path.isdir(path) and not os.path.islink(path):
            shutil.rmtree(path)
        else:
            os.remove(path)


def put(source, path):
    """A copy of a file, whole or not at all."""
    if not os.path.exists(path):
        os.makedirs(os.path.dirname(path), exist_ok=True)
        shutil.copy(source, f"{path}.part")
        os.replace(f"{path}.part", path)


def turns_of(plan, source):
    """The lines of a schedule of this plan that has no stops."""
    if "seed" in plan:
        return turns_drawn(plan["seed"], plan["turns"], len(plan["guests"]))
    with open(os.path.join(source, plan["schedule"]), encoding="ascii") as file:
        return list(turns_listed(file))


def furnish(folder, plan, source, program):
    """Puts what runs need: the program, what does them, and the files of the plan. Their names."""
    needed = {PROGRAM: program, **{f"tools/{name}": os.path.join(HERE, name) for name in TOOLS}}
    needed.update({os.path.join(FILES, name): os.path.join(source, name) for name in files_of(plan)})
    for name, path in needed.items():
        put(path, os.path.join(folder, name))
    return [SWEEP, *needed]


def furnish_turns(folder, plan, source):
    """Puts the schedule of which journals are written. Its name."""
    if not os.path.exists(os.path.join(folder, TURNS)):
        write(os.path.join(folder, TURNS), "".join(turns_of(plan, source)))
    return TURNS


def unpack(folder):
    """Takes in what other hosts handed back."""
    batches = os.path.join(folder, BATCHES)
    for name in sorted(os.listdir(batches) if os.path.isdir(batches) else []):
        if name.endswith(".tar"):
            with tarfile.open(os.path.join(batches, name)) as file:
                file.extractall(folder, [it for it in file if it.name.startswith(f"{RUNS}/") and ".." not in it.name.split("/")])
            os.remove(os.path.join(batches, name))


def left_of(folder, runs):
    """The runs that are not done."""
    return [run for run in runs if not is_done(run, folder)]


def batched(folder, runs, most=MOST_HERE):
    """Writes the batches of these runs, each of no more than so many: journals first, and runs with one seed together, whose stops are drawn once.
    The names of the batches."""
    runs = sorted(runs, key=lambda run: -1 if run.seed is None else run.seed)
    batches = os.path.join(folder, BATCHES)
    for path in [batches, *glob.glob(os.path.join(glob.escape(folder), f"{ATTEMPT}*"))]:
        shutil.rmtree(path, ignore_errors=True)
    os.makedirs(batches)
    size = max(1, min(most, len(runs) // (LEAST_BATCHES * os.cpu_count())))
    names = []
    for first in range(0, len(runs), size):
        names.append(f"{BATCHES}/{len(names)}")
        write(os.path.join(folder, names[-1]), "".join(f"{run.name}\n" for run in runs[first : first + size]))
    return names
