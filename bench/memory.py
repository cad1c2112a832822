#!/usr/bin/env python3
"""What the program answers where memory is wanting: each of its allocations is refused once.

    bench/memory.py

Runs three examples, and checks what each wrote, under a library in C that refuses one allocation, for each that the command makes. Each time the
program has to end with status 10 and nothing on its output or in its report: memory is taken before the first turn, and a check writes nothing
before it has passed; or as if nothing had been refused, where it can do without. Prints for each command how many were tried and how many it did
without, and ends with 1 where one was answered in another way. Wants a C compiler (cc), and a program that is linked with the C library as a shared one. No test: it runs the program as it
was built, and is no part of the gate."""
import os
import shutil
import subprocess
import sys
import tempfile

from turns import PROGRAM, TOP

# Refuses the allocation of the number DC_REFUSED, of those that are made from the program's first one on, and writes how many were made to DC_MADE.
REFUSING = """
#define _GNU_SOURCE
#include <dlfcn.h>
#include <fcntl.h>
#include <stdio.h>
#include <stdlib.h>
#include <unistd.h>

static unsigned long refused, made;

static int is_refused(void) {
    if (!made++) {
        const char *number = getenv("DC_REFUSED");
        refused = number ? strtoul(number, 0, 10) : 0;
    }
    return made == refused;
}

static void __attribute__((destructor)) tell(void) {
    const char *name = getenv("DC_MADE");
    int to = name ? open(name, O_WRONLY | O_CREAT | O_TRUNC, 0600) : -1;
    if (to >= 0) {
        dprintf(to, "%lu", made);
        close(to);
    }
}

void *malloc(size_t size) {
    static void *(*next)(size_t);
    if (!next) next = (void *(*)(size_t))dlsym(RTLD_NEXT, "malloc");
    return is_refused() ? 0 : next(size);
}

void *realloc(void *at, size_t size) {
    static void *(*next)(void *, size_t);
    if (!next) next = (void *(*)(void *, size_t))dlsym(RTLD_NEXT, "realloc");
    return is_refused() ? 0 : next(at, size);
}
"""

EXAMPLES = {"hi": "stopped.toml", "c/talk": "plan.toml", "ring": "plan.toml"}
WANTING = (10, b"", b"dc: out of memory\n", b"")


def library_built(folder):
    """The library that refuses, built."""
    source, library = os.path.join(folder, "refusing.c"), os.path.join(folder, "refusing.so")
    with open(source, "w", encoding="ascii") as file:
        file.write(REFUSING)
    subprocess.run(["cc", "-shared", "-fPIC", "-O1", "-o", library, source, "-ldl"], check=True)
    return library


def read(path):
    """The bytes of a file; none where there is no such file."""
    if not os.path.exists(path):
        return b""
    with open(path, "rb") as file:
        return file.read()


def ended(words, folder, library=None, number=0):
    """Status, output, standard error and report of a command, with that allocation refused."""
    report = os.path.join(folder, "dc.report")
    if words[0] == "run" and os.path.exists(report):
        os.remove(report)
    more = {"LD_PRELOAD": library, "DC_REFUSED": str(number), "DC_MADE": os.path.join(folder, "made")} if library else {}
    done = subprocess.run([PROGRAM, *words], cwd=folder, env={**os.environ, **more}, capture_output=True, check=False)
    return done.returncode, done.stdout, done.stderr, read(report) if words[0] == "run" else b""


def tried(what, words, folder, library):
    """Whether each allocation of a command that is refused ends it as it should; prints how many there were."""
    whole = ended(words, folder, library)
    made, spared, well = int(read(os.path.join(folder, "made"))), 0, True
    for number in range(1, made + 1):
        came = ended(words, folder, library, number)
        if came == whole:
            spared += 1
        elif came != WANTING:
            well = False
            print(f"{what}: allocation {number}: status {came[0]}, {len(came[1])} bytes of output, {len(came[3])} of report: {came[2].decode()!r}")
    print(f"{what}: {made} allocations, each refused once, of which it did without {spared}: {'as it should' if well else 'NOT AS IT SHOULD'}")
    return well and spared < made


def main():
    # A first call builds what is missing.
    subprocess.run([os.path.join(TOP, "dc")], capture_output=True, check=False)
    well = True
    with tempfile.TemporaryDirectory() as room:
        library = library_built(room)
        for name, plan in EXAMPLES.items():
            folder = os.path.join(room, name)
            shutil.copytree(os.path.join(TOP, "examples", name), folder)
            well = tried(f"{name}: run", ["run", plan], folder, library) and well
            _, output, _, _ = ended(["run", plan], folder)
            with open(os.path.join(folder, "lines"), "wb") as lines:
                lines.write(output)
            well = tried(f"{name}: check", ["check", plan, "dc.report", "lines"], folder, library) and well
    return 0 if well else 1


if __name__ == "__main__":
    sys.exit(main())
