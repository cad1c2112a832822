#!/usr/bin/env python3
"""What an audit and the journal of a run cost.

    bench/audit.py [LINES]      journals to 1,000,000 lines where none are given; at most 4,000,000

Writes journals of eight processes that commit what they were told before they send or show it, and prints the processor's instructions of an
audit for each line of 100,000 lines and of more, so that an audit that is not linear in its lines is seen; and, where a C compiler is installed
too, by those of a plain check by vectors of counts in C, which asks for no well-formed text and names no event. Then the least time of a processor
of six runs of the ring of eight guests, 200,000 turns without stops, with a report and with a journal, and their ratio, with the audit of that
journal. Instructions are counted where valgrind is installed. A benchmark, and no test: it measures the program as it was built."""
import os
import random
import re
import shutil
import subprocess
import sys
import tempfile

from ring import RING
from turns import PROGRAM, TOP

PROCESSES = 8
TURNS = 200_000

# Reads a journal from its standard input, and says whether it has Save-work. Of each process it keeps how many lines of each it knows, and among
# these the last chance and the last commit; a message carries what its sender knew.
PLAIN_CHECK = r"""
#include <stdio.h>
#include <stdlib.h>
#include <string.h>

enum { PROCESSES = 16 };
typedef struct { unsigned chance[PROCESSES], commit[PROCESSES]; } Known;
typedef struct { Known *sent; unsigned count, room, received; } Way;

static Known known[PROCESSES];
static Way ways[PROCESSES][PROCESSES];
static unsigned line = 1;

static void join(Known *to, const Known *from) {
    for (int q = 0; q < PROCESSES; q++) {
        if (from->chance[q] > to->chance[q]) to->chance[q] = from->chance[q];
        if (from->commit[q] > to->commit[q]) to->commit[q] = from->commit[q];
    }
}

static void show(const Known *of) {
    for (int q = 0; q < PROCESSES; q++)
        if (of->chance[q] > of->commit[q]) { printf("not saved before line %u\n", line); exit(1); }
}

static void send(Way *way, const Known *of) {
    if (way->count == way->room) way->sent = realloc(way->sent, (way->room = 2 * way->room + 16) * sizeof *way->sent);
    way->sent[way->count++] = *of;
}

static void commit(char *members) {
    Known all = {0};
    int of[PROCESSES], count = 0;
    for (char *word = strtok(members, ",\n"); word; word = strtok(NULL, ",\n")) join(&all, &known[of[count++] = atoi(word)]);
    for (int i = 0; i < count; i++) all.commit[of[i]] = line;
    show(&all);
    for (int i = 0; i < count; i++) known[of[i]] = all;
}

static void happen(int p, char *deed) {
    int q;
    char how[8] = "nd";
    if (!strncmp(deed, "visible", 7)) show(&known[p]);
    else if (sscanf(deed, "send %d", &q) == 1) send(&ways[p][q], &known[p]);
    else if (sscanf(deed, "receive %d %*d %7s", &q, how) == 2) {
        Way *way = &ways[q][p];
        join(&known[p], &way->sent[way->received++]);
        if (!strcmp(how, "nd")) known[p].chance[p] = line;
    } else if (!strncmp(deed, "nd", 2)) known[p].chance[p] = line;
}

int main(void) {
    char text[256];
    while (fgets(text, sizeof text, stdin)) {
        int p, at;
        if (!strncmp(text, "commit ", 7)) commit(text + 7);
        else if (sscanf(text, "e %d %n", &p, &at) == 1) happen(p, text + at);
        line++;
    }
    puts("saved");
    return 0;
}
"""


def write_journal(name, lines):
    """A journal of so many lines: turn by turn a process is told something, commits, sends to another, which receives, commits and shows."""
    draw = random.Random(lines)
    counts = [[0] * PROCESSES for _ in range(PROCESSES)]
    with open(name, "w", encoding="ascii") as file:
        file.write(f"dc-journal 1 {PROCESSES} plain\n")
        for _ in range((lines - 2) // 6):
            p = draw.randrange(PROCESSES)
            q = (p + draw.randrange(1, PROCESSES)) % PROCESSES
            k = counts[p][q]
            counts[p][q] += 1
            file.write(f"e {p} nd\ncommit {p}\ne {p} send {q} {k}\ne {q} receive {p} {k} nd\ncommit {q}\ne {q} visible\n")
        file.write("end\n")


def counted(command, folder, text=None):
    """The processor's instructions of a command, which has to end with 0."""
    counting = ["valgrind", "--tool=callgrind", "--callgrind-out-file=/dev/null", *command]
    with open(text, "rb") if text else open(os.devnull, "rb") as given:
        told = subprocess.run(counting, cwd=folder, stdin=given, capture_output=True, text=True, check=True)
    return int(re.search(r"Collected : (\d+)", told.stderr).group(1))


def plain_check(folder):
    """The plain check, compiled; None where there is no compiler."""
    if not shutil.which("cc"):
        return None
    program = os.path.join(folder, "plain_check")
    subprocess.run(["cc", "-O2", "-w", "-x", "c", "-o", program, "-"], input=PLAIN_CHECK, text=True, check=True)
    return program


def show_audits(folder, most):
    """Prints the instructions a line of audits, by those of the plain check."""
    plain = plain_check(folder)
    name = os.path.join(folder, "journal")
    for lines in sorted({100_000, most // 4, most}):
        write_journal(name, lines)
        audit = counted([PROGRAM, "audit", "journal"], folder) / lines
        said = f"audit of {lines:,} lines: {audit:,.0f} instructions a line"
        if plain:
            said += f", {audit / (counted([plain], folder, name) / lines):.2f} times a plain check in C"
        print(said)


def lay_out_turns(folder):
    """The ring under CBNDVS-LOG with a schedule of turns that were drawn."""
    shutil.copy(os.path.join(RING, "ring.elf"), folder)
    draw = random.Random(TURNS)
    with open(os.path.join(RING, "logged.toml"), encoding="ascii") as file:
        text = re.sub(r"(?m)^(seed|turns|protocol) = .*\n", "", file.read())
    with open(os.path.join(folder, "plan.toml"), "w", encoding="ascii") as file:
        file.write('protocol = "cbndvs-log"\n' + text + 'schedule = "schedule"\n')
    with open(os.path.join(folder, "schedule"), "w", encoding="ascii") as file:
        file.writelines(f"{draw.randrange(PROCESSES)} {draw.randrange(2**32)} {at}\n" for at in range(TURNS))


def least_seconds(command, folder, times=6):
    """The least time of a processor of some runs."""
    least = float("inf")
    for _ in range(times):
        process = subprocess.Popen([PROGRAM, command, "plan.toml"], cwd=folder, stdout=subprocess.DEVNULL, stderr=subprocess.DEVNULL)
        _, _, used = os.wait4(process.pid, 0)
        least = min(least, used.ru_utime + used.ru_stime)
    return least


def show_runs(folder):
    """Prints what the journal of a run costs beside its report."""
    lay_out_turns(folder)
    run, journal = least_seconds("run", folder), least_seconds("journal", folder)
    audit = subprocess.run([PROGRAM, "audit", "dc.report"], cwd=folder, capture_output=True, text=True, check=False)
    print(f"{TURNS:,} turns of the ring: run {run:.3f} s of a processor, journal {journal:.3f}, {journal / run:.2f} times; {audit.stderr.strip()}")
    if shutil.which("valgrind"):
        with open(os.path.join(folder, "dc.report"), "rb") as file:
            lines = sum(1 for _ in file)
        print(f"audit of its {lines:,} lines: {counted([PROGRAM, 'audit', 'dc.report'], folder) / lines:,.0f} instructions a line")


def main():
    most = int(sys.argv[1]) if len(sys.argv) > 1 else 1_000_000
    # A first call builds what is missing.
    subprocess.run([os.path.join(TOP, "dc")], capture_output=True, check=False)
    with tempfile.TemporaryDirectory() as folder:
        show_runs(folder)
        if shutil.which("valgrind"):
            show_audits(folder, most)
        else:
            print("valgrind is not installed: instructions are not counted")


if __name__ == "__main__":
    sys.exit(main())
