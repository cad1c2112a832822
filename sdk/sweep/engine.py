"""The runs of a sweep side by side, by GNU parallel: on this machine, or over ssh on a list of hosts."""
import csv
import os
import re
import shlex
import signal
import subprocess
import sys

from folder import MOST_HERE, MOST_OVER_SSH, batched, left_of, unpack
from plans import Refused

JOBS, REACHED, PROBE = "joblog", "hosts", "probe"
# Over ssh nothing is asked for, and a host that says nothing for half a minute is gone.
SSH = "ssh -o BatchMode=yes -o ConnectTimeout=10 -o ServerAliveInterval=10 -o ServerAliveCountMax=3"
# On how many hosts a batch is tried.
TRIES = 4


def environment():
    return {"PARALLEL_SSH": SSH, **os.environ}


def logins_of(path):
    """The hosts of a list, as parallel takes them: a line each, `8/NAME` for one that takes eight batches at a time."""
    with open(path, encoding="utf-8") as file:
        lines = [line.split("#")[0].strip() for line in file]
    logins = [line for line in lines if line]
    if not logins:
        raise Refused(f"{path} names no host")
    return logins


def host_of(login):
    """A host as it is logged: without how many batches it takes."""
    return re.sub(r"^[0-9+%]+/", "", login)


def reached(folder, path, say):
    """The hosts of a list that can be reached and have what is needed; the others are named."""
    logins = logins_of(path)
    log = os.path.join(folder, PROBE)
    words = ["parallel", "--will-cite", "--nonall", "--jobs", "0", *[word for it in logins for word in ("--sshlogin", it)], "--joblog", log]
    words.append("command -v python3 && command -v rsync")
    subprocess.run(words, env=environment(), stdin=subprocess.DEVNULL, stdout=subprocess.DEVNULL, stderr=subprocess.DEVNULL, check=False)
    with open(log, encoding="utf-8", newline="") as file:
        well = {row["Host"] for row in csv.DictReader(file, delimiter="\t") if row["Exitval"] == "0"}
    for login in logins:
        if host_of(login) not in well:
            say(f"{host_of(login)} cannot be reached over ssh, or lacks python3 or rsync; it gets no runs")
    found = [login for login in logins if host_of(login) in well]
    if not found:
        raise Refused(f"no host of {path} can be reached")
    return found


def words_here(jobs):
    """The words for parallel, where all runs go on this machine: what goes wrong with a batch would with each."""
    return ["--jobs", jobs, "--halt", "soon,fail=1", f"{shlex.quote(sys.executable)} -S tools/batch.py {{}}"]


def words_over(folder, jobs, needed, logins):
    """The words for parallel, where runs go over ssh: what is needed goes to each host once, and what came of a batch comes back."""
    with open(os.path.join(folder, REACHED), "w", encoding="utf-8") as file:
        file.writelines(f"{login}\n" for login in logins)
    workdir = f".dc-sweep-{os.uname().nodename}-{os.getpid()}"
    given = [word for it in needed for word in ("--basefile", it)]
    # This machine, where it is in the list, has the sweep's folder.
    there = f'test "$PARALLEL_SSHLOGIN" != : || cd {shlex.quote(os.path.abspath(folder))}; python3 -S tools/batch.py {{}} --packed'
    return [
        *["--sshloginfile", REACHED, "--jobs", jobs, "--retries", str(TRIES), "--workdir", workdir, *given],
        *["--transferfile", "{}", "--return", "{}.tar", "--cleanup", there],
    ]


def hand_out(folder, names, words, lock):
    """Hands batches to parallel, and takes in what came back."""
    words = ["parallel", "--will-cite", "--joblog", JOBS, *(["--bar"] if sys.stderr.isatty() else []), *words]
    with subprocess.Popen(words, cwd=folder, stdin=subprocess.PIPE, env=environment(), stdout=subprocess.DEVNULL, pass_fds=[lock]) as engine:
        try:
            engine.communicate("".join(f"{name}\n" for name in names).encode())
        except KeyboardInterrupt:
            # The first makes parallel start nothing more, and the second end what runs.
            engine.send_signal(signal.SIGTERM)
            engine.send_signal(signal.SIGTERM)
            raise
    unpack(folder)


def run_here(folder, runs, jobs, lock):
    """Does the runs that are not done on this machine."""
    left = left_of(folder, runs)
    if left:
        hand_out(folder, batched(folder, left, MOST_HERE), words_here(jobs), lock)


def run_over(folder, runs, words, lock):
    """Does the runs that are not done over ssh. What a host that goes away had done is lost, so this goes on as long as it helps."""
    left, before = left_of(folder, runs), []
    while left and left != before:
        hand_out(folder, batched(folder, left, MOST_OVER_SSH), words, lock)
        left, before = left_of(folder, runs), left
