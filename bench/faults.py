#!/usr/bin/env python3
"""Tries what a run and a resume do where the system's calls fail, on real files.

    bench/faults.py [--most N] [--turns N] [--protocols A,B] [--show]

Lets strace fail, one at a time, the calls of `dc run` of a plan with a halt and of the `dc resume` behind it that reach their files: each open, read,
write, lseek, fstat, ftruncate, fsync and fdatasync, of each at most N spread over the whole (10 where not given), with EIO, ENOSPC and EINTR, and reads and
writes that answer 0. A resume is run under limits of a file's size too, so that a write to a disk is really cut short before the rest of it fails. Each time

- the program goes on, with the output and the report of a run in which nothing fails, or ends with 6, 7 or 8 and names the file that failed; a plan, guest or
  report of which a read answers 0 too early may be refused, as one that was cut off;
- what it wrote till then is what comes first in that output, but for a last line that was cut;
- its own report is no report to go on from, or is the one of a run in which nothing failed;
- a resume of what it left on the disks, with the report that was there before (of a run: of one in which nothing failed), refuses them, or its lines
  behind those that were shown pass the check.

Prints what was tried and what came of it. Ends with 1 where something else came. Wants strace (apt-get install strace). A trial, and no test."""
import argparse
import collections
import os
import re
import resource
import shutil
import subprocess
import sys
import tempfile

from turns import PROGRAM, TOP

CALLS = ["openat", "read", "write", "lseek", "newfstatat", "fstat", "statx", "ftruncate", "fsync", "fdatasync"]
FAULTS = {"EIO": "error=EIO", "ENOSPC": "error=ENOSPC", "EINTR": "error=EINTR", "0": "retval=0"}
PLAN = 'protocol = "{protocol}"\nmedium = "disk"\nmemory = 65536\nguests = ["first.elf", "second.elf"]\nseed = 20001023\nturns = {turns}\n'
# What a file that was cut off is refused by.
CUT = {"plan.toml": (3, "plan refused: "), "first.elf": (4, "guest 0 refused: "), "second.elf": (4, "guest 1 refused: "), "before": (13, "report line ")}
# The status and the line of each file that may fail.
NAMED = {
    "plan.toml": (6, "library failed: plan"),
    "first.elf": (6, "library failed: guest 0"),
    "second.elf": (6, "library failed: guest 1"),
    "before": (6, "library failed: report"),
    "dc.disk.0": (7, "device of 0 failed"),
    "dc.disk.1": (7, "device of 1 failed"),
    "lines": (8, "sink failed: out"),
    "dc.report": (8, "sink failed: report"),
}
LINE = re.compile(r"^\d+ +(\w+)\((?:AT_FDCWD<[^>]*>, \"([^\"]*)\"|\d+<([^>]*)>)")
DISKS = ["dc.disk.0", "dc.disk.1"]


class Site:
    """A call of the system's: the number that it has among those of its name, and the file that it reaches."""

    def __init__(self, call, number, file, line):
        self.call, self.number, self.file, self.line = call, number, file, line


class Part:
    """One of the two parts of a run: its words, what is there before it, and what comes of it where nothing fails."""

    def __init__(self, name, words, given):
        self.name, self.words, self.given = name, words, given
        self.status, self.lines, self.report, self.disks, self.sites = None, b"", b"", {}, []

    def lay_out(self, room):
        """A new folder with what is there before the part."""
        folder = tempfile.mkdtemp(dir=room)
        for name, data in self.given.items():
            write(data, folder, name)
        return folder

    def run(self, folder, tracing=(), limit=None):
        """The status of the part in a folder, and what the program said."""
        cap = (lambda: resource.setrlimit(resource.RLIMIT_FSIZE, (limit, limit))) if limit else None
        with open(f"{folder}/lines", "wb") as out, open(f"{folder}/said", "wb") as said:
            # Without restored signals a write past the limit fails, and ends no process.
            done = subprocess.run([*tracing, PROGRAM, *self.words], cwd=folder, stdout=out, stderr=said, restore_signals=limit is None, preexec_fn=cap, check=False)
        return done.returncode, read(folder, "said").decode().strip()


def read(*names):
    """The bytes of a file; none where it is not there."""
    path = os.path.join(*names)
    if not os.path.exists(path):
        return None
    with open(path, "rb") as file:
        return file.read()


def write(data, *names):
    with open(os.path.join(*names), "wb") as file:
        file.write(data)


def dc(folder, *words):
    done = subprocess.run([PROGRAM, *words], cwd=folder, capture_output=True, check=False)
    return done.returncode, done.stdout, done.stderr.decode().strip()


def sites_in(trace, folder):
    """The calls that reach the files of a folder."""
    counts, sites, made = collections.Counter(), [], None
    for line in trace.splitlines():
        found = LINE.match(line)
        name = re.match(r"^\d+ +(\w+)\(", line)
        if not name:
            continue
        counts[name[1]] += 1
        if not found:
            continue
        path = found[2] if found[2] is not None else found[3]
        file = os.path.relpath(os.path.join(folder, path), folder)
        if "O_CREAT" in line:
            made = file
        if not file.startswith(".."):
            sites.append(Site(name[1], counts[name[1]], made if file == "." else file, line))
    return sites


def traced(calls, to, *more):
    return ["strace", "-f", "-y", "-qq", "-o", to, "-e", f"trace={','.join(calls)}", *more]


def sampled(sites, most):
    """At most so many of each call and file kind, spread over the whole, the first and the last among them."""
    groups = collections.defaultdict(list)
    for site in sites:
        groups[site.call, "disk" if site.file.startswith("dc.disk.") else site.file].append(site)
    for group in groups.values():
        count = min(most, len(group))
        yield from [group[round(at * (len(group) - 1) / max(1, count - 1))] for at in range(count)]


class Trial:
    """What was tried under a protocol, and what came of it."""

    def __init__(self, room, protocol, turns, show):
        self.room, self.show, self.rows, self.wrong = room, show, collections.defaultdict(collections.Counter), []
        guest = read(TOP, "examples", "ring", "ring.elf")
        plan, self.turns = PLAN.format(protocol=protocol, turns=turns), turns
        self.files = {"plan.toml": plan.encode(), "halted.toml": f"halt = {turns // 2}\n{plan}".encode(), "first.elf": guest, "second.elf": guest}
        self.first = self.begun(Part("run", ["run", "plan.toml"], {**self.files, "plan.toml": self.files["halted.toml"]}))
        given = {**self.files, **self.first.disks, "before": self.first.report}
        self.second = self.begun(Part("resume", ["resume", "plan.toml", "before"], given))

    def begun(self, part):
        """A part with what comes of it where nothing fails."""
        folder = part.lay_out(self.room)
        part.status, said = part.run(folder, traced(CALLS, f"{folder}.trace"))
        if part.status not in (1, 15):
            sys.exit(f"dc {part.name}: {said}")
        part.lines, part.report = read(folder, "lines"), read(folder, "dc.report")
        part.disks = {name: read(folder, name) for name in DISKS}
        part.sites = sites_in(read(f"{folder}.trace").decode(), folder)
        return part

    def blame(self, what, text):
        self.wrong.append(f"{what}: {text}")
        print(f"WRONG: {what}: {text}", flush=True)

    def judge(self, part, what, row, folder, status, said, files):
        """Whether what came of a part in which one of these files failed is as it should be."""
        lines, report = read(folder, "lines"), read(folder, "dc.report")
        went_on = status == part.status
        named = [NAMED[file] for file in files if file in NAMED]
        if went_on:
            came = "went on"
            if (lines, report) != (part.lines, part.report):
                self.blame(what, "it went on to another end")
        elif (status, said.removeprefix("dc: ")) in named:
            came = {6: "library", 7: "device", 8: "sink"}[status]
        elif row[1:] == ("read", "0") and CUT.get(files[0], (0, ""))[0] == status and CUT[files[0]][1] in said:
            came = "cut off"
        else:
            came = "other"
            self.blame(what, f"status {status}, {said!r}")
        if not part.lines.startswith(lines):
            self.blame(what, f"it wrote {lines!r}")
        self.rows[row][came] += 1
        if self.show:
            print(f"{what}: {status} {said}", flush=True)
        if not went_on and report is not None and report != part.report:
            again, out, _ = dc(folder, "resume", "plan.toml", "dc.report")
            if again not in (13, 16) or out:
                self.blame(what, f"its own report goes on: status {again}")
        shown = lines[: lines.rfind(b"\n") + 1]
        self.go_on(part, what, row, folder, went_on, shown)

    def go_on(self, part, what, row, folder, went_on, shown):
        """Goes on from what a part left on the disks, with the report that was there before."""
        if part is self.second and went_on:
            report, lines = read(folder, "dc.report"), self.first.lines + shown
        else:
            write(self.first.report, folder, "held")
            write(self.files["plan.toml"], folder, "plan.toml")
            status, out, said = dc(folder, "resume", "plan.toml", "held")
            if status in (7, 12) and not out:
                self.rows[row]["refused"] += 1
                return
            if status != 1:
                self.blame(what, f"the resume of what it left: {status} {said}")
                return
            report, lines = read(folder, "dc.report"), self.first.lines + (shown if part is self.second else b"") + out
        write(report, folder, "last")
        write(lines, folder, "joined")
        status, _, said = dc(folder, "check", "plan.toml", "last", "joined")
        self.rows[row]["read rightly"] += 1
        if status:
            self.blame(what, f"the check of all parts: {said}")

    def fail(self, part, site, fault):
        """Runs a part with one call that fails."""
        folder = part.lay_out(self.room)
        injected = ["-e", f"inject={site.call}:{FAULTS[fault]}:when={site.number}"]
        status, said = part.run(folder, traced([site.call], f"{folder}.trace", *injected))
        hit = [line for line in read(f"{folder}.trace").decode().splitlines() if "(INJECTED)" in line]
        what = f"{part.name}, {site.call} {site.number} of {site.file}, {fault}"
        if len(hit) != 1 or sites_in(hit[0], folder)[:1] and sites_in(hit[0], folder)[0].file not in (site.file, None):
            self.blame(what, f"another call failed: {hit}")
        else:
            self.judge(part, what, (part.name, site.call, fault), folder, status, said, [site.file])
        shutil.rmtree(folder)
        os.remove(f"{folder}.trace")

    def cut(self, most):
        """Runs the resume under limits of a file's size that cut its writes to the disks short."""
        offset, ends = {}, []
        for site in self.second.sites:
            if site.file in DISKS and site.call == "lseek":
                offset[site.file] = int(re.search(r"= (\d+)", site.line)[1])
            if site.file in DISKS and site.call == "write":
                size = int(re.search(r"= (\d+)$", site.line)[1])
                ends += [offset[site.file] + size // 2] if size > 1 else []
        for limit in sorted(set(ends))[:: max(1, len(set(ends)) // most)]:
            folder = self.second.lay_out(self.room)
            status, said = self.second.run(folder, limit=limit)
            self.judge(self.second, f"resume, no file over {limit} bytes", ("resume", "write", "short"), folder, status, said, [*DISKS, "lines", "dc.report"])
            shutil.rmtree(folder)

    def tell(self, protocol):
        columns = ["went on", "library", "device", "sink", "cut off", "other", "refused", "read rightly"]
        print(f"{protocol}: {self.turns // 2} entries, halted, and {self.turns - self.turns // 2} more: {len(self.first.sites)} and {len(self.second.sites)} calls reach their files")
        print(f"{'part':8}{'call':11}{'fails with':11}{'tried':>6}" + "".join(f"{it:>13}" for it in columns))
        for row, came in self.rows.items():
            tried = sum(came[it] for it in columns[:6])
            print(f"{row[0]:8}{row[1]:11}{row[2]:11}{tried:6}" + "".join(f"{came[it] or '':>13}" for it in columns), flush=True)


def main():
    reader = argparse.ArgumentParser(description=__doc__, formatter_class=argparse.RawDescriptionHelpFormatter)
    reader.add_argument("--most", type=int, default=10)
    reader.add_argument("--turns", type=int, default=600)
    reader.add_argument("--protocols", default="cbndvs-log,cbndv-2pc")
    reader.add_argument("--show", action="store_true", help="say what came of each")
    asked = reader.parse_args()
    if not os.access(PROGRAM, os.X_OK):
        sys.exit("dc is not built: call ./dc once")
    if not shutil.which("strace"):
        sys.exit("strace is not installed: apt-get install strace")
    wrong = []
    for protocol in asked.protocols.split(","):
        with tempfile.TemporaryDirectory() as room:
            trial = Trial(os.path.realpath(room), protocol, asked.turns, asked.show)
            for part in (trial.first, trial.second):
                for site in sampled(part.sites, asked.most):
                    for fault in FAULTS:
                        if fault != "0" or site.call in ("read", "write"):
                            trial.fail(part, site, fault)
            trial.cut(asked.most)
            trial.tell(protocol)
            wrong += trial.wrong
    print(f"{len(wrong)} wrong")
    return 1 if wrong else 0


if __name__ == "__main__":
    sys.exit(main())
