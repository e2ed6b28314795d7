#!/usr/bin/env python3
"""How fast a cursor goes through all elements of a long file, beside openssl.

Usage:

    python3 bench/cursor/cursor.py [--repetitions N] [--cryptobyte PROGRAM] PROGRAM

makes files of 4 and 16 MiB, one SEQUENCE each, and runs in turn

    openssl asn1parse -inform DER -in FILE
    PROGRAM count FILE

PROGRAM is the path of `xgolden_der`, and must print how many elements the
file has.  What openssl prints goes to the null device.  `--cryptobyte` names
the program of `bench/cursor/cursor.go`, which does the same with Go's cryptobyte:

    GO111MODULE=off GOPATH=/usr/share/gocode go build -o cursor_go bench/cursor/cursor.go

with Debian's packages golang-go and golang-golang-x-crypto-dev.  In a `deep` file the
SEQUENCE has elements with 62 levels each, in a `flat` one NULL values alone.
A markdown table is printed, and the status is 1 where a limit is passed,
else 0:

  speed    openssl takes at least 10 times the program's time;
  growth   from 4 to 16 MiB the program's time grows at most 5 times.

Each figure is the median of the seconds that processors worked.  With
`-noout` openssl looks at no element: it reads the file and ends.

This is no part of the gate: the figures depend on the machine.
"""

import argparse
import os
import subprocess
import sys
import tempfile
from pathlib import Path
from statistics import median
from typing import NamedTuple

sys.path.insert(0, str(Path(__file__).resolve().parents[2] / "tools"))

from common import command
from judges.der_reader import Constructed, Primitive, encoding

MIB = 1 << 20
SIZES = (4, 16)
LEAST_SPEED = 10
MOST_GROWTH = 5
NULL = encoding(Primitive(0x05, b""))


class Block(NamedTuple):
    """What a file has many of: its octets, and how many elements are in it."""

    octets: bytes
    elements: int


def chain(levels):
    tree = Primitive(0x05, b"")
    for _ in range(levels - 1):
        tree = Constructed(0x30, (tree,))
    return Block(encoding(tree), levels)


BLOCKS = {"deep": chain(62), "flat": Block(NULL, 1)}


def file_of(block, size):
    """A SEQUENCE of many blocks in at most `size` octets, and how many elements it has."""
    count = (size - 6) // len(block.octets)
    return encoding(Primitive(0x30, block.octets * count)), 1 + count * block.elements


def seconds(words):
    """The seconds that processors worked for a command that must succeed."""
    process = subprocess.Popen(words, stdout=subprocess.DEVNULL)
    _, status, usage = os.wait4(process.pid, 0)
    process.returncode = os.waitstatus_to_exitcode(status)
    if process.returncode != 0:
        sys.exit(f"{' '.join(words)}: status {process.returncode}")
    return usage.ru_utime + usage.ru_stime


def counts(words, elements):
    """That a command prints how many elements there are."""
    printed = subprocess.run(words, check=True, stdout=subprocess.PIPE).stdout
    if printed != b"%d\n" % elements:
        sys.exit(f"{' '.join(words)}: printed {printed!r}, not {elements}")


def figures(options, path, elements):
    """The medians of openssl, of the program, and of cryptobyte where it is asked for, for a file."""
    commands = [["openssl", "asn1parse", "-inform", "DER", "-in", str(path)],
                [options.program, "count", str(path)]]
    if options.cryptobyte:
        commands.append([options.cryptobyte, str(path)])
    for words in commands[1:]:
        counts(words, elements)
    times = [[seconds(words) for words in commands] for _ in range(options.repetitions)]
    return [median(each) for each in zip(*times)]


def main(words):
    parser = argparse.ArgumentParser(description="Speed of a cursor.")
    parser.add_argument("--repetitions", type=int, default=3)
    parser.add_argument("--cryptobyte", help="path of the program of bench/cursor/cursor.go")
    parser.add_argument("program", type=command.executable, help="path of xgolden_der")
    options = parser.parse_args(words)
    kept = True
    print(f"| file | MiB | elements | openssl s | cryptobyte s | cursor s | speed, at least {LEAST_SPEED} "
          f"| growth from 4 to 16 MiB, at most {MOST_GROWTH} |")
    print("|---|---:|---:|---:|---:|---:|---:|---:|")
    for name, block in BLOCKS.items():
        medians = {}
        for size in SIZES:
            octets, elements = file_of(block, size * MIB)
            with tempfile.NamedTemporaryFile() as file:
                file.write(octets)
                file.flush()
                parse, count, *go = figures(options, Path(file.name), elements)
            medians[size] = count
            kept &= parse >= LEAST_SPEED * count
            growth = ""
            if size == 16:
                kept &= count <= MOST_GROWTH * medians[4]
                growth = f"{count / medians[4]:.2f}"
            cryptobyte = f"{go[0]:.3f}" if go else ""
            print(f"| {name} | {size} | {elements:,} | {parse:.2f} | {cryptobyte} | {count:.3f} | {parse / count:.1f} | {growth} |",
                  flush=True)
    return 0 if kept else 1


if __name__ == "__main__":
    command.run(main, __doc__)
