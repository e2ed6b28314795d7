#!/usr/bin/env python3
"""How many times its octets a certificate takes.

Usage:

    python3 bench/program/values.py PROGRAM

PROGRAM is the path of the executable `picky`, which runs `chain` on one
certificate of 200 KB whose bulk is many small values of one kind.  A row says the
most octets that are allocated at a time, blocks with their heads, as a multiple of
the file's.  Then `basic` is run on files of 8 to 16 octets that state lengths of
4 GiB: they have to take no more than a piece of a file does.  What counts is a
library in C between the program and the system's `malloc`; it is compiled by `cc`.
"""

import subprocess
import sys
import tempfile
from pathlib import Path

sys.path.insert(0, str(Path(__file__).resolve().parents[2] / "tools"))

from cases.basic_making import certificate, extension
from cases.first_path import element, identifier, octet_string, sequence, set_of
from common import command

SIZE, WORST, PIECE = 200_000, 45, 16_384
STATING = "ffffffff00020200", "1000000000020200 3084ffffffff0000", "1000000000020200 0484ffffffff0000"
LIBRARY = r"""
#define _GNU_SOURCE
#include <dlfcn.h>
#include <malloc.h>
#include <stdio.h>
#include <stdlib.h>

/* The octets of a block's head. */
enum { HEAD = 8 };
static long now, most;

static void *counted(void *block, long before) {
    now += (block ? (long)malloc_usable_size(block) + HEAD : 0) - before;
    if (now > most) most = now;
    return block;
}

void *malloc(size_t size) {
    static void *(*real)(size_t);
    if (!real) real = dlsym(RTLD_NEXT, "malloc");
    return counted(real(size), 0);
}

void *realloc(void *old, size_t size) {
    static void *(*real)(void *, size_t);
    if (!real) real = dlsym(RTLD_NEXT, "realloc");
    long before = old ? (long)malloc_usable_size(old) + HEAD : 0;
    return counted(real(old, size), before);
}

void free(void *old) {
    static void (*real)(void *);
    if (!real) real = dlsym(RTLD_NEXT, "free");
    if (old) now -= (long)malloc_usable_size(old) + HEAD;
    real(old);
}

__attribute__((destructor)) static void told(void) {
    long until_now = most;
    fprintf(stderr, "%ld\n", until_now);
}
"""

OID = identifier("1.2")
ATTRIBUTE = sequence(OID, element(0x05))


def many(part):
    return SIZE // len(part) * part


def named(*sets):
    return certificate(issuer_name=sequence(*sets))


def names(part):
    return certificate(extensions=(extension("2.5.29.17", sequence(many(part))),))


def kinds():
    """What the bulk is, the octets of one part of it, and the certificate."""
    yield "general names without octets", 2, names(element(0x82))
    yield "extensions without octets", 7, certificate(extensions=(many(sequence(OID, octet_string(b""))),))
    yield "general names, directory names without sets", 4, names(element(0xA4, sequence()))
    yield "sets of a name with one short attribute", 9, named(many(set_of(ATTRIBUTE)))
    yield "extended key usages", 3, certificate(extensions=(extension("2.5.29.37", sequence(many(OID))),))
    yield "attributes of one set", 7, named(set_of(many(ATTRIBUTE)))
    yield "sets of a name without attributes", 2, named(many(set_of()))
    yield "one long extension", "", certificate(extensions=(extension("1.2.3", bytes(SIZE)),))


def compiled(folder):
    source, library = folder / "count.c", folder / "count.so"
    source.write_text(LIBRARY)
    subprocess.run(["cc", "-O2", "-shared", "-fPIC", "-o", library, source, "-ldl"], check=True)
    return library


def allocated(program, words, folder, library):
    """The status of a run, and the most octets that are allocated at a time."""
    done = subprocess.run([program, *words], cwd=folder, env={"LD_PRELOAD": str(library)}, capture_output=True)
    return done.returncode, int(done.stderr)


def of_values(program, folder, library):
    """Prints a row for each kind: the greatest multiple."""
    worst = 0.0
    print("| bulk of the certificate | octets of one | times the file |\n|---|---:|---:|")
    for label, size, octets in kinds():
        (folder / "c").write_bytes(octets)
        status, most = allocated(program, ("chain", "t", "2025-01-01", "c"), folder, library)
        if status != 1:
            raise command.Refusal(f"{label}: status {status}")
        worst = max(worst, most / len(octets))
        print(f"| {label} | {size} | {most / len(octets):.1f} |", flush=True)
    return worst


def of_lengths(program, folder, library):
    """Prints a line for each file that states 4 GiB: the most octets."""
    most = 0
    for text in STATING:
        (folder / "s").write_bytes(bytes.fromhex(text))
        status, octets = allocated(program, ("basic", "s", "t", "00" * 32), folder, library)
        print(f"{text}: status {status}, {octets} octets", flush=True)
        most = max(most, octets)
    return most


def main(words):
    if len(words) != 1:
        return command.usage(__doc__)
    program = command.executable(words[0]).resolve()
    with tempfile.TemporaryDirectory() as name:
        folder = Path(name)
        library = compiled(folder)
        (folder / "t").write_bytes(b"")
        worst = of_values(program, folder, library)
        return 0 if worst <= WORST and of_lengths(program, folder, library) <= PIECE else 1


if __name__ == "__main__":
    command.run(main, __doc__)
