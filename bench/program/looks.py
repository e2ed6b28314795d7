#!/usr/bin/env python3
"""How often `picky check` loads the octets of a signature.

Usage:

    python3 bench/program/looks.py PROGRAM

PROGRAM is the path of the executable of the crate `xgolden_run`, which calls `run` of
`picky_check` on files in memory.  A program is signed as for `check.py`: its signature, of
some 12 KB, has three certificates, the signer's, its authority's and one of another
subject, and the token of a time stamp with four, which isn't needed, since today is
within the window of each certificate.

Valgrind's tool lackey prints each load.  Allocations of the signature's length are
given addresses of their own by a library in C, which is loaded before the system's, so
that loads from the last of them, the one that `run` reads the file into, are told from
others.  Loads from copies of parts of it aren't counted.

A line is printed for each part of the signature: how many octets it has, how many of
them are never loaded, how often an octet is loaded, and how often the identifier octet
of an element.  The run must accept.
"""

import argparse
import os
import re
import subprocess
import sys
import tempfile
from datetime import datetime, timezone
from pathlib import Path

sys.path.insert(0, str(Path(__file__).resolve().parents[2] / "tools"))

from basic_files import checked_case
from common import command
from judges.der_reader import Constructed, encoding, read_first

BASE = 0x5_0000_0000
APART = 0x10_0000
HEADER = 8

LIBRARY = f"""
#include <stdlib.h>
#include <string.h>
#include <sys/mman.h>
extern void *__libc_malloc(size_t);
extern void *__libc_realloc(void *, size_t);
extern void __libc_free(void *);
static char *next;
static int apart(void *p) {{ return next && (char *)p >= (char *){BASE}UL && (char *)p < next; }}
void *malloc(size_t n) {{
  if (n != LENGTH) return __libc_malloc(n);
  if (!next) next = mmap((void *){BASE}UL, 64 * {APART}UL, 3, MAP_PRIVATE | MAP_ANONYMOUS | MAP_FIXED, -1, 0);
  next += {APART}UL;
  return next - {APART}UL;
}}
void free(void *p) {{ if (!apart(p)) __libc_free(p); }}
void *realloc(void *p, size_t n) {{
  if (!apart(p)) return __libc_realloc(p, n);
  return memcpy(malloc(n), p, n < LENGTH ? n : LENGTH);
}}
"""


def loads(program, case, folder):
    """How often each octet of the signature is loaded."""
    octets = case.signature.read_bytes()
    today = datetime.now(timezone.utc).strftime("%Y-%m-%dT%H:%M:%S")
    row, source, library = folder / "row", folder / "apart.c", folder / "apart.so"
    row.write_text(f"picky 1000 - s={octets.hex()},t={case.table.read_bytes().hex()} check s t {case.file_hash} {today}\n")
    source.write_text(LIBRARY)
    subprocess.run(["gcc", "-O1", "-shared", "-fPIC", f"-DLENGTH={len(octets)}", source, "-o", library], check=True)
    log = folder / "log"
    words = ["valgrind", "--tool=lackey", "--trace-mem=yes", f"--log-file={log}", program, "run", str(row)]
    ran = subprocess.run(words, env={**os.environ, "LD_PRELOAD": str(library)}, capture_output=True, check=True)
    if ran.stdout != b"0 " + case.answer:
        raise command.Refusal(f"{program}: {ran.stdout.decode()}")
    buffers = {}
    with open(log) as lines:
        for line in lines:
            found = re.match(r" [LSM] ([0-9a-f]+),(\d+)", line)
            if found and 0 <= (place := int(found[1], 16) - BASE) < 64 * APART:
                buffer = buffers.setdefault(place // APART, [0] * len(octets))
                if line[1] != "S":
                    for at in range(place % APART, min(place % APART + int(found[2]), len(octets))):
                        buffer[at] += 1
    return octets, buffers[max(buffers)]


def places(element, at):
    """The offsets of an element and of all elements in it."""
    yield at
    if isinstance(element, Constructed):
        for kid, start in kids(element, at):
            yield from places(kid, start)


def kids(element, at):
    """The kids of an element at an offset, with their own."""
    at += len(encoding(element)) - sum(len(encoding(kid)) for kid in element.kids)
    for kid in element.kids:
        yield kid, at
        at += len(encoding(kid))


def inside(place, *numbers):
    """The element that the numbers lead to, with its offset."""
    for number in numbers:
        place = list(kids(*place))[number]
    return place


def line(name, elements, counts):
    """The line of a part that consists of these elements, one after another."""
    start = elements[0][1]
    end = elements[-1][1] + len(encoding(elements[-1][0]))
    octets = counts[start:end]
    tags = [counts[at] for element in elements for at in places(*element)]
    return f"| {name} | {end - start} | {octets.count(0)} | {sum(octets) / len(octets):.1f} | {sum(tags) / len(tags):.1f} |"


def report(octets, counts):
    whole = read_first(octets[HEADER:])[0], HEADER
    certificates = list(kids(*inside(whole, 1, 0, 3)))
    *signer, unsigned = kids(*inside(whole, 1, 0, 4, 0))
    print("| part | octets | never loaded | loads of an octet | of an identifier octet |\n|---|---:|---:|---:|---:|")
    print(line("the signature", [whole], counts))
    for name, member in zip(("the signer's certificate", "its CA's", "one off the path"), certificates):
        print(line(name, [member], counts))
    print(line("the signer, but for the token", signer, counts))
    print(line("the token, not needed", [unsigned], counts))


def main(words):
    parser = argparse.ArgumentParser(description="How often `picky check` loads the octets of a signature.")
    parser.add_argument("program", type=command.executable, help="path of xgolden_run")
    options = parser.parse_args(words)
    with tempfile.TemporaryDirectory() as name:
        folder = Path(name)
        report(*loads(str(options.program.resolve()), checked_case(folder), folder))
    return 0


if __name__ == "__main__":
    command.run(main, __doc__)
