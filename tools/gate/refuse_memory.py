#!/usr/bin/env python3
"""Refuse each request for memory of the built programs in turn.

Usage:

    python3 tools/gate/refuse_memory.py PROGRAM ..

runs each PROGRAM, the executable of the crate of its name, on the rows below: as
it is, where it asks for memory so many times, and then once for each of these,
which is refused.  Each such run has to end with status 7 and print nothing, or
to answer as the first one did.  It prints a line for each row, and its exit
status is 1 where a run answers something else.

The rows are the commands of `run_rows`, and for `picky` also those of
`run_program`, one for each command, status and line.  What refuses memory is a
library in C between the program and the system's `malloc` and `realloc`; it is
compiled by `cc`, as system libraries for Linux are.
"""

import os
import subprocess
import sys
import tempfile
from pathlib import Path

sys.path.insert(0, str(Path(__file__).resolve().parents[1]))

from cases import run_rows
from common import command
from gate import run_program

SECONDS = 60
# A demonstration asks for memory some 170 times a step.
MOST_STEPS = 10
NO_MEMORY = (7, b"")

LIBRARY = r"""
#define _GNU_SOURCE
#include <dlfcn.h>
#include <stdio.h>
#include <stdlib.h>

static long refused, asked;

static int refuses(void) {
    const char *word = getenv("REFUSED");
    if (word) refused = atol(word);
    return ++asked == refused;
}

void *malloc(size_t size) {
    static void *(*real)(size_t);
    if (!real) real = dlsym(RTLD_NEXT, "malloc");
    return refuses() ? NULL : real(size);
}

void *realloc(void *old, size_t size) {
    static void *(*real)(void *, size_t);
    if (!real) real = dlsym(RTLD_NEXT, "realloc");
    return refuses() ? NULL : real(old, size);
}

__attribute__((destructor)) static void count(void) {
    const char *path = getenv("COUNTED");
    long until_now = asked;
    FILE *file = path ? fopen(path, "w") : NULL;
    if (file) { fprintf(file, "%ld", until_now); fclose(file); }
}
"""


def rows(name):
    """Rows of a program whose report goes to standard output, one for each command and answer."""
    if name == "picky":
        wanted = {}
        for row in run_program.ROWS:
            is_long = row.words[:1] == ("demo",) and row.status == 0 and int(row.words[1]) > MOST_STEPS
            if row.output == "read" and row.given == b"" and row.status in (0, 1, 3) and not is_long:
                wanted.setdefault((row.words[0], row.status, row.line), row)
        yield from wanted.values()
    for one in run_rows.commands():
        if one.program == name:
            yield run_program.Row("a command", one.words, one.status, f"{one.line}\n", one.files)


def run(program, row, folder, library, **environment):
    done = subprocess.run([program, *row.words], cwd=folder, stdin=subprocess.DEVNULL, capture_output=True, timeout=SECONDS,
                          env={"LD_PRELOAD": str(library), **environment})
    return done.returncode, done.stdout


def compiled(folder):
    source = folder / "refuse.c"
    source.write_text(LIBRARY)
    library = folder / "refuse.so"
    subprocess.run(["cc", "-O2", "-shared", "-fPIC", "-o", library, source, "-ldl"], check=True)
    return library


def judged(program, row, library):
    """What the program answers, how often it asks for memory, and the refusals that it answers otherwise."""
    with tempfile.TemporaryDirectory() as name:
        folder = Path(name)
        counted = folder / "counted"
        for path, octets in row.files.items():
            run_program.make_file(folder / os.fsdecode(path), octets)
        expected = run(program, row, folder, library, COUNTED=str(counted))
        asked = int(counted.read_text())
        counted.unlink()
        answers = {at: run(program, row, folder, library, REFUSED=str(at)) for at in range(1, asked + 1)}
    wrong = {at: answer for at, answer in answers.items() if answer not in (expected, NO_MEMORY)}
    if expected != (row.status, row.line.encode()):
        wrong[0] = expected
    same = sum(answer == expected for answer in answers.values())
    return asked, same, wrong


def told(program, library):
    """Prints a line for each row of a program: how many rows and refusals there are, and whether all are answered as they have to be."""
    name, kept, rows_run, runs = os.path.basename(program), True, 0, 0
    for row in rows(name):
        asked, same, wrong = judged(program, row, library)
        print(f"{name} {row.words[0]}, status {row.status}, {row.line.strip() or 'no line'}: "
              f"{asked} refusals, {same} with the same answer, {len(wrong)} with another", flush=True)
        for at, answer in wrong.items():
            print(f"    refusal {at}: {answer}")
        kept &= not wrong
        rows_run, runs = rows_run + 1, runs + asked
    if not rows_run:
        raise command.Refusal(f"there are no rows for a program {name}")
    print(f"refused memory: {name}: {rows_run} rows, {runs} refusals, {'none' if kept else 'some'} with another answer")
    return kept


def main(words):
    if not words:
        return command.usage(__doc__)
    programs = list(map(os.path.abspath, words))
    for program, word in zip(programs, words):
        if not os.access(program, os.X_OK) or not os.path.isfile(program):
            raise command.Refusal(f"{word} is no program")
    with tempfile.TemporaryDirectory() as name:
        library = compiled(Path(name))
        return 0 if all([told(program, library) for program in programs]) else 1


if __name__ == "__main__":
    command.run(main, __doc__)
