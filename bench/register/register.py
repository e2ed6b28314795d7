#!/usr/bin/env python3
"""How long the calls of a register take: issuing, `usable`, `verify`, by its size and by the number of ancestors.

Usage:

    python3 bench/register/register.py [--rounds N] [--times N] [--entries N] PROGRAM
    python3 bench/register/register.py [--rounds N] --lines PICKY_CA

PROGRAM is the executable of the crate `xgolden_run`.  A register has a root, a line of CAs below
it, and certificates of the last CA.  Two markdown tables are printed.  The first is of registers of 200
entries and of an eighth, a quarter, half and all of N (100,000 by default) with ten ancestors each:
microseconds a certificate to issue and to verify, nanoseconds a call of `usable`, and the memory.  The
second is of 1,000 entries with 1, 10, 100 and 900 ancestors of the last: nanoseconds a call of `usable`.

With `--lines` PICKY_CA, the executable of `picky_ca`, runs on registers of 200 lines in place of that: a
root and certificates below it, and a line of CAs.  Of each the processor time of a run in milliseconds
is printed, and the memory.

The scheme is the demonstration's, which does no arithmetic: a signature is a digest.  The processor
time is that of PROGRAM's own clock, and a figure is the median of the rounds.  The status is 1 if a
certificate of the largest register takes more than 1.5 times as long as of one of an eighth, or `usable`
there 1.5 times as long, else 0.  This is no part of the gate: the figures depend on the machine.
"""

import argparse
import os
import subprocess
import sys
import tempfile
from pathlib import Path
from statistics import median
from typing import NamedTuple

sys.path.insert(0, str(Path(__file__).resolve().parents[2] / "tools"))

from common import command

MEASURE = [sys.executable, "-I", "-S", str(Path(__file__).resolve().parent.parent / "program/measure.py")]
DATE = "20250101000000Z"
GRANT = "-,20200101000000Z,20300101000000Z"
MOST_GROWTH = 1.5
DEPTHS = 1, 10, 100, 900
DEPTH, SMALL = 10, 1000
# As many as a file of `picky_ca` has lines at the most.
LINES = 200


class Figures(NamedTuple):
    """Nanoseconds: of a certificate issued, of a call of `usable`, of a certificate verified; resident octets."""

    issued: float
    usable: float
    verified: float
    memory: float


def row(entries, depth):
    """The calls: a root, a line of CAs, and as many below the last as are left; the last has so many ancestors."""
    calls = [f"root,0,0,ca,{GRANT}"]
    calls += [f"child,{number - 1},{number - 1},ca,{GRANT}" for number in range(1, depth)]
    calls += [f"child,{depth - 1},{depth - 1},end,{GRANT}"] * (entries - depth)
    return " ".join((DATE, *calls))


def measured(program, file, entries, times):
    """The figures of one run."""
    output = subprocess.run([*MEASURE, program, "time", "register", file, str(times)], stdout=subprocess.PIPE, check=True).stdout.decode("ascii")
    line, last = output.rstrip("\n").rsplit("\n", 1)
    count, issued, usable, verified, accepted = map(int, line.split())
    _, _, memory, status = last.split()
    if status != "0" or count != entries or accepted != entries:
        raise command.Refusal(f"{program} ended with {status} and printed {line!r}")
    return Figures(issued / entries, usable / times, verified / entries, float(memory))


def medians(program, folder, entries, depth, options):
    file = folder / "row"
    file.write_text(f"{row(entries, depth)}\n")
    runs = [measured(program, file, entries, options.times) for _ in range(options.rounds)]
    return Figures(*(median(figures) for figures in zip(*runs)))


def lines_of(issuer_of):
    """The text of a register of 200 lines, each but the first below the one that the function names."""
    below = (f"child {issuer_of(number)} 11 N{number} y - 2020-01-01 2030-01-01\n" for number in range(1, LINES))
    return "".join(["root 11 N0 - 2020-01-01 2030-01-01\n", *below])


def run_of_lines(program, file):
    """Processor seconds and resident octets of one run."""
    output = subprocess.run([*MEASURE, program, file, "2025-01-01"], stdout=subprocess.PIPE, check=True).stdout.decode("ascii")
    line, last = output.rstrip("\n").rsplit("\n", 1)
    _, seconds, memory, status = last.split()
    if (line, status) != (f"ca issued={LINES} accepted={LINES}\n", "0"):
        raise command.Refusal(f"{program} ended with {status} and printed {line!r}")
    return float(seconds), float(memory)


def print_lines(program, rounds):
    """Print the table of registers of 200 lines."""
    print(f"{rounds} rounds, load {os.getloadavg()[0]:.0f}\n\n| lines | ancestors of the last | ms | resident MiB |\n|---:|---:|---:|---:|")
    with tempfile.TemporaryDirectory() as name:
        file = Path(name) / "register"
        for depth, issuer_of in ((1, lambda _: 0), (LINES - 1, lambda number: number - 1)):
            file.write_text(lines_of(issuer_of))
            seconds, memory = (median(figures) for figures in zip(*(run_of_lines(program, file) for _ in range(rounds))))
            print(f"| {LINES} | {depth} | {seconds * 1000:.1f} | {memory / 2**20:.0f} |")


def main(words):
    parser = argparse.ArgumentParser(description="Time of a register's calls.")
    parser.add_argument("--rounds", type=int, default=5)
    parser.add_argument("--times", type=int, default=100000)
    parser.add_argument("--entries", type=int, default=100000)
    parser.add_argument("--lines", action="store_true", help="PROGRAM is that of picky_ca")
    parser.add_argument("program", type=command.executable, help="the executable of xgolden_run")
    options = parser.parse_args(words)
    program = str(options.program.resolve())
    if options.lines:
        print_lines(program, options.rounds)
        return 0
    sizes = [options.entries // part for part in (8, 4, 2, 1)]
    with tempfile.TemporaryDirectory() as name:
        folder = Path(name)
        by_size = {size: medians(program, folder, size, DEPTH, options) for size in (LINES, *sizes)}
        by_depth = {depth: medians(program, folder, SMALL, depth, options) for depth in DEPTHS}
    print(f"{options.rounds} rounds, load {os.getloadavg()[0]:.0f}\n")
    print("| entries | issue us | verify us | usable ns | resident MiB |\n|---:|---:|---:|---:|---:|")
    for size, figures in by_size.items():
        print(f"| {size:,} | {figures.issued / 1000:.1f} | {figures.verified / 1000:.1f} | {figures.usable:.0f} | {figures.memory / 2**20:.0f} |")
    print("\n| ancestors | usable ns |\n|---:|---:|")
    for depth, figures in by_depth.items():
        print(f"| {depth} | {figures.usable:.0f} |")
    least, most = by_size[sizes[0]], by_size[sizes[-1]]
    pairs = (most.issued, least.issued), (most.verified, least.verified), (most.usable, least.usable)
    return 1 if any(last > MOST_GROWTH * first for last, first in pairs) else 0


if __name__ == "__main__":
    command.run(main, __doc__)
