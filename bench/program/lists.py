#!/usr/bin/env python3
"""How long and with how much memory `picky check` takes with a trust list.

Usage:

    python3 bench/program/lists.py [--repetitions N] PROGRAM

PROGRAM is the path of the executable.  A signature file has a signer that issued
itself, whose name is that of the CA; the script makes trust lists in a folder of its
own, and prints two markdown tables of medians, of seconds that processors worked.

The first is of lists of 500 entries with the attributes that Microsoft's have: a
friendly name, digests of the name and the key, extended key usages, and of some an
end, a beginning and its usages.  The CA has the first entry, the last one, or none.
In turn run

    PROGRAM check SIG TABLE HASH DATE
    PROGRAM check SIG TABLE HASH DATE --list LIST SECONDS

The second is of lists of 1, 4 and 16 MiB, on which the CA has the last entry: of such
entries, of entries with the digest of a name alone, of one long attribute, and of an
entry with many attributes.

  growth   from 4 to 16 MiB the median grows at most 5 times;
  memory   the greatest resident memory is at most 2 times the list.

Each run has to answer as it is known that it does.  The status is 1 where it doesn't or
a limit is passed, else 0.  Of memory `basic.py` says more.
"""

import argparse
import sys
import tempfile
from datetime import datetime, timezone
from hashlib import md5, sha256
from pathlib import Path
from statistics import median

sys.path.insert(0, str(Path(__file__).resolve().parents[2] / "tools"))

from basic import MOST_GROWTH, in_turn, judged, measured as run_of, memory_of
from basic_files import MIB, SIZES
from cases.basic_making import CODE_SIGNING, Signed
from cases.first_path import (
    FILE_HASH, SHA256, SIGNED_DATA, algorithm, attribute, context, identifier, integer, name, octet_string, sequence, set_of, utc_time,
)
from common import command
from strangers import Job, measured, written

TRUST_LIST = "1.3.6.1.4.1.311.10.1"
ROOTS = "1.3.6.1.4.1.311.10.3.9"
PROPERTY = "1.3.6.1.4.1.311.10.11"
SERVER = "1.3.6.1.5.5.7.3.1"
ENTRIES = 500
PER_SECOND = 10_000_000
DATE = datetime(2025, 1, 1, tzinfo=timezone.utc)
SECONDS = int((DATE - datetime(1601, 1, 1, tzinfo=timezone.utc)).total_seconds())
CA = name(b"A")
ACCEPTED, UNLISTED = "accepted signer=0 path= excuse=none\n", "refused CAIsNotTrusted\n"


# Entries.

def property_of(number, value):
    return attribute(f"{PROPERTY}.{number}", octet_string(value))


def time_of(seconds):
    return (seconds * PER_SECOND).to_bytes(8, "little")


def entry(subject, *attributes):
    return sequence(octet_string(subject[:20]), set_of(*attributes))


def usual_entry(ca, number):
    """An entry with the attributes that most have, and of every eighth one times."""
    key = sha256(b"key %d" % number).digest()
    times = (
        property_of(104, time_of(SECONDS + number + 1)), property_of(126, time_of(SECONDS - number)),
        property_of(127, sequence(identifier(CODE_SIGNING))),
    ) if number % 8 == 0 else ()
    return entry(
        key, property_of(9, sequence(identifier(SERVER), identifier(CODE_SIGNING))), property_of(11, f"CA {number} of the benchmark\0".encode("utf-16-le")),
        property_of(20, key[:20]), property_of(29, md5(ca).digest()), property_of(98, key), *times,
    )


def short_entry(ca, number):
    return entry(b"%020d" % number, property_of(29, md5(ca).digest()))


def ca_of(number):
    return name(b"CA %07d" % number)


def list_of(*entries):
    """Signed data whose content is a trust list of these entries."""
    content = sequence(sequence(identifier(ROOTS)), utc_time("250101000000Z"), algorithm(SHA256), sequence(*entries))
    signed = sequence(integer(b"\x01"), set_of(), sequence(identifier(TRUST_LIST), context(0, content)), set_of())
    return sequence(identifier(SIGNED_DATA), context(0, signed))


# Lists of 500 entries, and what is answered.

def others(count):
    return [usual_entry(ca_of(number), number) for number in range(count)]


def small_lists():
    own = usual_entry(CA, 0)
    yield "the first entry", list_of(own, *others(ENTRIES - 1)), ACCEPTED
    yield "the last entry", list_of(*others(ENTRIES - 1), own), ACCEPTED
    yield "no entry", list_of(*others(ENTRIES)), UNLISTED


# Entries of about so many octets.

def many(made, total):
    """As many entries of other CAs as fit, and that of the CA."""
    found, size = [], 0
    while size < total:
        found.append(made(ca_of(len(found)), len(found)))
        size += len(found[-1])
    return [*found, made(CA, 0)]


def usual_entries(total):
    return many(usual_entry, total)


def short_entries(total):
    return many(short_entry, total)


def long_attribute(total):
    return [entry(b"A", property_of(11, bytes(total)), property_of(29, md5(CA).digest()))]


def many_attributes(total):
    other = property_of(29, md5(ca_of(0)).digest())
    return [entry(b"A", *((total // len(other)) * (other,)), property_of(29, md5(CA).digest()))]


LONG = {"entries with many attributes": usual_entries, "entries with one attribute": short_entries, "one long attribute": long_attribute,
        "attributes of one entry": many_attributes}


# Runs.

def files(folder):
    """The words of a check of the signature file."""
    signed = Signed()
    paths = written(folder, "signature.bin", signed.file()), written(folder, "table.txt", signed.table().encode())
    return ["check", *paths, FILE_HASH.hex(), DATE.strftime("%Y-%m-%d")]


def job_of(words, label, path, said):
    return Job(label, [*words, "--list", path, str(SECONDS)], 0 if said == ACCEPTED else 1, said)


def shown(runs):
    return f"{1000 * median(run.processor for run in runs):.1f}"


def report_small(program, folder, repetitions):
    """Print the table of lists of 500 entries; whether each run answers as it is known."""
    words, well = files(folder), True
    print("| the CA has | octets | without a list ms | with the list ms |\n|---|---:|---:|---:|")
    for label, octets, said in small_lists():
        path = written(folder, f"{label}.stl", octets)
        jobs = {"without": Job("no list", words, 0, ACCEPTED), "with": job_of(words, label, path, said)}
        runs = in_turn({which: lambda job=job: measured(program, job) for which, job in jobs.items()}, repetitions)
        if None in [*runs["without"], *runs["with"]]:
            well = False
            continue
        print(f"| {label} | {len(octets)} | {shown(runs['without'])} | {shown(runs['with'])} |")
    print()
    return well


def report_long(program, folder, repetitions):
    """Print the table of long lists; whether each run answers as it is known and no limit is passed."""
    words, kept, before = files(folder), True, {}
    floor = max(run_of(["true"]).resident for _ in range(3))
    print(f"| bulk in | MiB | entries | ms | growth from 4 to 16 MiB, at most {MOST_GROWTH} | resident MiB | memory, at most 2 |\n"
          "|---|---:|---:|---:|---:|---:|---:|")
    for bulk, made in LONG.items():
        for size in SIZES:
            entries = made(size * MIB - 2048)
            path = written(folder, f"{bulk}-{size}.stl", list_of(*entries))
            runs = [measured(program, job_of(words, f"{bulk}, {size} MiB", path, ACCEPTED)) for _ in range(repetitions)]
            if None in runs:
                kept = False
                continue
            seconds, resident = median(run.processor for run in runs), max(run.resident for run in runs)
            memory, in_memory = memory_of(resident, Path(path).stat().st_size, floor)
            growth = seconds / before[bulk, 4] if size == 16 and (bulk, 4) in before else 0
            before[bulk, size] = seconds
            kept &= growth <= MOST_GROWTH and in_memory
            print(f"| {bulk} | {size} | {len(entries)} | {1000 * seconds:.1f} | {judged(growth, MOST_GROWTH) if growth else ''} | {resident / MIB:.1f} | {memory} |")
    return kept


def main(words):
    parser = argparse.ArgumentParser(description="Time and memory of `picky check` with a trust list.")
    parser.add_argument("--repetitions", type=int, default=7)
    parser.add_argument("program", type=command.executable, help="path of the executable")
    options = parser.parse_args(words)
    program = str(options.program.resolve())
    with tempfile.TemporaryDirectory() as folder:
        kept = report_small(program, Path(folder), options.repetitions)
        kept &= report_long(program, Path(folder), options.repetitions)
    return 0 if kept else 1


if __name__ == "__main__":
    command.run(main, __doc__)
