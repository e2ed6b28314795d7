#!/usr/bin/env python3
"""What the worst files cost that someone can send.

Usage:

    python3 bench/program/strangers.py [--repetitions N] PROGRAM

PROGRAM is the path of the executable.  Files are made of some 4 and 16 MiB, with
tables that accept their signatures, and a row says what a run took, the median of
the repetitions: the seconds that processors worked, and the memory that was resident.

  - `links`: a signer, and the certificate of its authority, a root, over and over.  It
    is its own issuer, so that each of its places is one link of the path more.  The
    table has the three rows of the file, or as many rows of other files before them as
    fit into 16 MiB, among which each link is looked for.
  - `sets`: the name of a signer's issuer, of sets with one short attribute each; by
    `basic`, where no certificate has it and it is written into the error, and by
    `check`, where the signer's certificate has it.
  - `parents`: a certificate, and 31 parents of which each has such a name, of a 31st
    of the file each, by `chain`.
  - `table`: `check` on a signer under a root, with a verdict table of 1 to 16 MiB in
    either version, of rows of other files in random order before the two of the file.

A run has to answer as it is known that it does, else the status is 1.  Nothing else
is judged.
"""

import argparse
import subprocess
import sys
import tempfile
from hashlib import sha256
from pathlib import Path
from statistics import median
from typing import NamedTuple

sys.path.insert(0, str(Path(__file__).resolve().parents[2] / "tools"))

from basic import MEASURE, Run
from basic_files import MIB
from cases.basic_making import Signed, certificate, extension, named, rsa_key, rsa_octets
from cases.first_path import FILE_HASH, element, identifier, integer, sequence, set_of
from common import command
from judges.der_reader import read_exact, write

SIZES = (4, 16)
TABLE_SIZES = (1, 2, 4, 8, 16)
DATE = "2025-01-01"
ABOVE = 0x22
AUTHORITY = (extension("2.5.29.19", sequence(element(0x01, b"\xff"))),)
# A set with one attribute, of type 1.2 and without contents octets, is nine octets.
SET = set_of(sequence(identifier("1.2"), element(0x05)))
PARENTS = 31


class Job(NamedTuple):
    """What is run, and what it says."""

    label: str
    words: list
    status: int
    said: str


def row(key, octets):
    """The row that accepts the signature of a certificate by a key."""
    to_be_signed, _, signature = read_exact(octets).kids
    parts = rsa_octets(key), write(to_be_signed), signature.contents[1:]
    return " ".join(["rsa-sha256", *(sha256(part).hexdigest() for part in parts)]) + "\n"


def others(total):
    """Rows of other files, as many as fit."""
    for number in range(total // 206):
        yield " ".join(["rsa-sha256", *(sha256(b"%d %d" % (number, part)).hexdigest() for part in range(3))]) + "\n"


def written(folder, name, octets):
    path = folder / name
    path.write_bytes(octets)
    return str(path)


def links(folder, size):
    root = certificate(subject=b"R", issuer=b"R", serial=b"\x02", key=rsa_key(ABOVE), extensions=AUTHORITY)
    own = certificate(issuer=b"R")
    many = (size * MIB - 2048) // len(root)
    signed = Signed(members=(own, *(many * (root,))), named=named(issuer=b"R"))
    rows = signed.table() + row(ABOVE, own) + row(ABOVE, root)
    said = f"accepted signer=0 path={','.join(str(1 + place) for place in range(many))} excuse=none\n"
    file = written(folder, f"links-{size}.bin", signed.file())
    for label, before in (f"links: {many}, rows: 3", ""), (f"links: {many}, rows: {16 * MIB // 206}", "".join(others(16 * MIB - 1024))):
        table = written(folder, f"links-{size}-{len(before)}.txt", (before + rows).encode())
        yield Job(label, ["check", file, table, FILE_HASH.hex(), DATE], 0, said)


def sets(folder, size):
    name = sequence(*(((size * MIB - 2048) // len(SET)) * (SET,)))
    unnamed = Signed(named=sequence(name, integer(b"\x01")))
    files = written(folder, f"unnamed-{size}.bin", unnamed.file()), written(folder, f"unnamed-{size}.txt", unnamed.table().encode())
    yield Job("sets of a name that no certificate has", ["basic", *files, FILE_HASH.hex()], 1, "refused NoCertificatesAssociatedWithIssuerAndSerialNumber\n")
    half = sequence(*(((size * MIB // 2 - 2048) // len(SET)) * (SET,)))
    own = certificate(issuer_name=half)
    signed = Signed(named=sequence(half, integer(b"\x01")), members=(own,))
    files = written(folder, f"named-{size}.bin", signed.file()), written(folder, f"named-{size}.txt", signed.table().encode())
    yield Job("sets of a name, twice", ["check", *files, FILE_HASH.hex(), DATE], 0, "accepted signer=0 path= excuse=none\n")


def parents(folder, size):
    name = sequence(*(((size * MIB // PARENTS - 2048) // len(SET)) * (SET,)))
    checked = certificate(issuer=b"R")
    parent = certificate(subject=b"R", issuer_name=name, serial=b"\x02", key=rsa_key(ABOVE), extensions=AUTHORITY)
    files = [written(folder, f"checked-{size}.bin", checked), *(PARENTS * [written(folder, f"parent-{size}.bin", parent)])]
    table = written(folder, f"parents-{size}.txt", row(ABOVE, checked).encode())
    yield Job("parents", ["chain", table, DATE, *files], 1, "refused InvalidCertificate:InvalidChain:IssuerNameMismatch\n")


def tables(folder, size):
    root = certificate(subject=b"R", issuer=b"R", serial=b"\x02", key=rsa_key(ABOVE), extensions=AUTHORITY)
    own = certificate(issuer=b"R")
    signed = Signed(members=(own, root), named=named(issuer=b"R"))
    file = written(folder, "signed.bin", signed.file())
    for version, head, verdict in (1, "", ""), (2, "picky-verdicts 2\n", "accept "):
        room = (size * MIB - 2048) * 206 // (206 + len(verdict))
        rows = [*others(room), *(signed.table() + row(ABOVE, own)).splitlines(keepends=True)]
        text = head + "".join(verdict + line for line in rows)
        table = written(folder, f"table-{version}-{size}.txt", text.encode())
        label = f"table of version {version}, rows: {len(rows)}"
        yield Job(label, ["check", file, table, FILE_HASH.hex(), DATE], 0, "accepted signer=0 path=1 excuse=none\n")


def measured(program, job):
    """What a run took, None where it doesn't answer as it has to."""
    done = subprocess.run([*MEASURE, program, *job.words], check=True, stdout=subprocess.PIPE, stderr=subprocess.DEVNULL)
    said, _, figures = done.stdout.rstrip(b"\n").rpartition(b"\n")
    clock, processor, resident, status = figures.split()
    if (int(status), said.decode()) != (job.status, job.said):
        print(f"{job.label}: status {int(status)}, printed {said[:200]!r}", file=sys.stderr)
        return None
    return Run(float(clock), float(processor), int(resident))


def main(words):
    parser = argparse.ArgumentParser(description="What the worst files cost.")
    parser.add_argument("--repetitions", type=int, default=3)
    parser.add_argument("program", type=command.executable, help="path of the executable")
    options = parser.parse_args(words)
    program, well = str(options.program.resolve()), True
    print("| files | MiB | s | resident MiB |\n|---|---:|---:|---:|")
    with tempfile.TemporaryDirectory() as name:
        for made, sizes in (links, SIZES), (sets, SIZES), (parents, SIZES), (tables, TABLE_SIZES):
            for size in sizes:
                for job in made(Path(name), size):
                    runs = [measured(program, job) for _ in range(options.repetitions)]
                    if None in runs:
                        well = False
                        continue
                    print(f"| {job.label} | {size} | {median(run.processor for run in runs):.2f} | {median(run.resident for run in runs) / MIB:.0f} |")
    return 0 if well else 1


if __name__ == "__main__":
    command.run(main, __doc__)
