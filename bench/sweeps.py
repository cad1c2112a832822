#!/usr/bin/env python3
"""Tries sdk/many as it is used, and measures it: on this machine, over ssh on two hosts of which one goes away, and ended and started again.

    bench/sweeps.py [--seeds N] [--runs N]

Sweeps three examples, of 20,000 turns each, under the seven protocols, on both media, with N seeds (200 where not given): here; over two hosts, both this machine
(ssh servers on its loopback address, with keys of their own, which the trial starts and ends), one of which is ended in the middle; and here again,
killed at five moments and started again each time. The tables are the same but for times and memory. Then it measures sdk/many over N runs
(1,000 where not given) of the guest of examples/hi: what it takes of its own for each, and how many runs four processors do in the time of one.
Wants GNU parallel, openssh-server and rsync (apt-get install parallel openssh-server rsync). A trial and a benchmark, and no test."""
import argparse
import csv
import glob
import os
import re
import resource
import shutil
import signal
import socket
import subprocess
import sys
import tempfile
import time

from turns import PROGRAM, TOP

MANY = os.path.join(TOP, "sdk", "many")
EXAMPLES = [("ring", "plan.toml"), ("protocols", "asking.toml"), ("protocols", "telling.toml")]
TURNS = 20000
# What differs between two runs of the same.
MEASURED = ("seconds", "peak_kib")
# The moments at which a sweep is killed, in seconds after its start.
MOMENTS = [0.5, 1.5, 3, 6, 10]
HI = 'protocol = "cpvs"\nmedium = "rio"\nmemory = 65536\nguests = ["hi.elf"]\nseed = 1\nturns = 8\n'
CONFIG = """Port {port}
ListenAddress 127.0.0.1
HostKey {room}/key
AuthorizedKeysFile {room}/key.pub
PidFile {room}/{name}.pid
StrictModes no
UsePAM no
MaxStartups 100
SetEnv HOME={room}/{name}
"""


def free_port():
    """A port of the loopback address that nobody listens on."""
    with socket.socket() as it:
        it.bind(("127.0.0.1", 0))
        return it.getsockname()[1]


class Host:
    """An ssh server of the trial, on the loopback address, with a home folder of its own."""

    def __init__(self, room, name):
        port = free_port()
        os.makedirs(f"{room}/{name}", exist_ok=True)
        self.config = f"{room}/{name}.conf"
        with open(self.config, "w", encoding="ascii") as file:
            file.write(CONFIG.format(room=room, name=name, port=port))
        with open(f"{room}/ssh_config", "a", encoding="ascii") as file:
            file.write(f"Host {name}\n  HostName 127.0.0.1\n  Port {port}\n")
        self.server = subprocess.Popen([shutil.which("sshd"), "-D", "-e", "-f", self.config], stderr=subprocess.DEVNULL, start_new_session=True)

    def end(self):
        """Ends the server, and what it was doing for others."""
        if self.server.poll() is not None:
            return
        found = subprocess.run(["pgrep", "-g", str(os.getpgid(self.server.pid))], capture_output=True, text=True, check=False).stdout.split()
        below = [pid for it in found for pid in children_of(int(it))]
        for pid in [*map(int, found), *below]:
            try:
                os.kill(pid, signal.SIGKILL)
            except ProcessLookupError:
                pass
        self.server.wait()


def children_of(pid):
    """The processes below one."""
    told = subprocess.run(["pgrep", "-P", str(pid)], capture_output=True, text=True, check=False).stdout.split()
    return [below for it in told for below in [int(it), *children_of(int(it))]]


def table_of(folder, name="runs.csv"):
    """A table of a sweep, without what was measured."""
    with open(os.path.join(folder, name), encoding="utf-8", newline="") as file:
        return [{key: value for key, value in row.items() if key not in MEASURED} for row in csv.DictReader(file)]


def laid_out(room, example, plan):
    """A copy of an example, of fewer turns where it has more."""
    folder = f"{room}/{example}"
    shutil.copytree(os.path.join(TOP, "examples", example), folder, dirs_exist_ok=True)
    with open(f"{folder}/{plan}", encoding="ascii") as file:
        text = re.sub(r"turns = \d+", f"turns = {TURNS}", file.read())
    with open(f"{folder}/{plan}", "w", encoding="ascii") as file:
        file.write(text)
    return f"{folder}/{plan}"


def words_for(plan, folder, seeds, *more):
    return [MANY, plan, "--to", folder, "--protocols", "all", "--medium", "all", "--seeds", f"1-{seeds}", *more]


def swept(words, **more):
    """Does a sweep, which goes well."""
    start = time.perf_counter()
    done = subprocess.run(words, capture_output=True, text=True, check=False, **more)
    if done.returncode:
        sys.exit(f"{' '.join(words)}: status {done.returncode}: {done.stderr}")
    return time.perf_counter() - start, done.stderr


def is_same(what, one, other):
    same = all(table_of(one, name) == table_of(other, name) for name in ("runs.csv", "protocols.csv"))
    print(f"  {what}: {'the same' if same else 'ANOTHER'}")


def hosts_of(room):
    """Two hosts, with how ssh is called for them, and a list of them."""
    for name in ("key", "key.pub", "ssh_config"):
        if os.path.exists(f"{room}/{name}"):
            os.remove(f"{room}/{name}")
    subprocess.run(["ssh-keygen", "-q", "-t", "ed25519", "-N", "", "-f", f"{room}/key"], check=True)
    hosts = [Host(room, "first"), Host(room, "second")]
    with open(f"{room}/ssh_config", "a", encoding="ascii") as file:
        file.write(f"Host *\n  IdentityFile {room}/key\n  UserKnownHostsFile {room}/known\n  StrictHostKeyChecking accept-new\n  LogLevel ERROR\n")
    with open(f"{room}/list", "w", encoding="ascii") as file:
        file.write("2/first\n2/second\n")
    time.sleep(1)
    return hosts, f"ssh -F {room}/ssh_config -o BatchMode=yes -o ConnectTimeout=10 -o ServerAliveInterval=5"


def try_hosts(room, plan, seeds, here):
    """The same sweep over two hosts, one of which goes away when the first runs have come back."""
    hosts, ssh = hosts_of(room)
    folder = f"{here}.hosts"
    words = words_for(plan, folder, seeds, "--hosts", f"{room}/list")
    try:
        process = subprocess.Popen(words, stderr=subprocess.PIPE, text=True, env={**os.environ, "PARALLEL_SSH": ssh})
        while process.poll() is None and not glob.glob(f"{folder}/batches/*.tar"):
            time.sleep(0.2)
        hosts[1].end()
        said = process.communicate()[1]
    finally:
        for host in hosts:
            host.end()
    print(f"  over two hosts, one of which goes away: status {process.returncode}, {said.strip().splitlines()[-1]}")
    is_same("its tables", here, folder)


def try_killed(room, plan, seeds, here):
    """The same sweep, killed at some moments and started again."""
    folder = f"{here}.killed"
    words = words_for(plan, folder, seeds)
    for moment in MOMENTS:
        process = subprocess.Popen(words, stderr=subprocess.DEVNULL, start_new_session=True)
        time.sleep(moment)
        os.killpg(process.pid, signal.SIGKILL)
        process.wait()
    swept(words)
    is_same(f"killed after {', '.join(f'{it:g}' for it in MOMENTS)} s and started again, its tables", here, folder)


def measure(room, runs):
    """What a run takes beside the program's time, and how much more four processors do than one."""
    shutil.copy(os.path.join(TOP, "examples", "hi", "hi.elf"), room)
    with open(f"{room}/hi.toml", "w", encoding="ascii") as file:
        file.write(HI)
    seconds = {}
    for jobs in (1, 4):
        before = resource.getrusage(resource.RUSAGE_CHILDREN)
        folder = f"{room}/hi.{jobs}"
        seconds[jobs], _ = swept([MANY, f"{room}/hi.toml", "--to", folder, "--seeds", f"1-{runs}", "--jobs", str(jobs)])
        after = resource.getrusage(resource.RUSAGE_CHILDREN)
        taken = after.ru_utime + after.ru_stime - before.ru_utime - before.ru_stime
        with open(f"{folder}/runs.csv", encoding="utf-8", newline="") as file:
            program = sum(float(row["seconds"]) for row in csv.DictReader(file))
        each = f"{1000 * taken / runs:.1f} ms of a processor for each, {1000 * program / runs:.1f} of them the program's run"
        print(f"{runs} runs of hi, {jobs} at a time: {seconds[jobs]:.1f} s; {each}")
    print(f"four at a time do {seconds[1] / seconds[4]:.2f} times the runs of one")


def main():
    reader = argparse.ArgumentParser(description=__doc__, formatter_class=argparse.RawDescriptionHelpFormatter)
    reader.add_argument("--seeds", type=int, default=200)
    reader.add_argument("--runs", type=int, default=1000)
    asked = reader.parse_args()
    subprocess.run([os.path.join(TOP, "dc")], capture_output=True, check=False)
    if not os.access(PROGRAM, os.X_OK):
        sys.exit("dc is not built")
    with tempfile.TemporaryDirectory() as room:
        for example, name in EXAMPLES:
            plan, here = laid_out(room, example, name), f"{room}/{example}.{name}.here"
            took, said = swept(words_for(plan, here, asked.seeds))
            print(f"{example}/{name}: {took:.0f} s here; {said.strip().splitlines()[-1]}", flush=True)
            try_killed(room, plan, asked.seeds, here)
            try_hosts(room, plan, asked.seeds, here)
        measure(room, asked.runs)


main()
