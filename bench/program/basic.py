#!/usr/bin/env python3
"""How long and with how much memory `picky basic` takes.

Usage:

    python3 bench/program/basic.py [--repetitions N] [--processor] PROGRAM

PROGRAM is the path of the executable.  The script makes its files in a folder of
its own (`basic_files.py`) and prints two markdown tables.

The first is of a program that `osslsigncode` signed, its signature some 12 KB
with a chain and the token of a timestamp; in turn run

    PROGRAM basic SIG TABLE HASH
    osslsigncode verify -CAfile root.pem -TSA-CAfile root.pem -in signed.exe
    sbverify --cert root.pem signed.exe

and the whole command takes at most a quarter of the faster one's time.  These
two read the whole program, do the arithmetic and judge the chain, and `basic`
does none of it: it is what a check costs beside them.

The second is of long files, of 1, 4 and 16 MiB, with the bulk in one part or
another, among them a bag of some 100,000 certificates; in turn run

    openssl dgst -sha256 SIG
    PROGRAM basic SIG TABLE HASH

  time     the median of the whole command is at most 3 times the median of
           openssl for the same file in the same run;
  growth   from 4 to 16 MiB the median grows at most 5 times;
  memory   the greatest resident memory is at most 2 times the file.

Each run must accept.  The status is 1 where a limit is passed, else 0.

Time is that on the clock.  On a machine that is busy with other things it
says little: `--processor` takes the time that processors worked instead.

Resident memory is what the system reports when the command ends.  It counts
what the process had that started the command (`measure.py`, some 9 MiB), so
nothing below that can be seen: the column then says `under`, and no limit is
asked.

This is no part of the gate: the figures depend on the machine.  The script
takes `openssl` and Debian's packages osslsigncode and sbsigntool.
"""

import argparse
import subprocess
import sys
import tempfile
from pathlib import Path
from statistics import median
from typing import NamedTuple

sys.path.insert(0, str(Path(__file__).resolve().parents[2] / "tools"))

from basic_files import HERE, MIB, OTHERS, long_cases, signed_case
from common import command

MEASURE = [sys.executable, "-I", "-S", str(HERE / "measure.py")]

MOST_TIME = 3
MOST_GROWTH = 5
MOST_MEMORY = 2
PART_OF_OTHERS = 0.25

# What starts the commands has not always the same memory.
UNSEEN = MIB // 2


class Run(NamedTuple):
    clock: float
    processor: float
    resident: int


# The runs.

def measured(words, folder=None, expected=None):
    """Run a command, and see that it ends with status 0 and prints what is expected."""
    done = subprocess.run([*MEASURE, *words], check=True, cwd=folder, stdout=subprocess.PIPE, stderr=subprocess.DEVNULL)
    output, _, figures = done.stdout.rstrip(b"\n").rpartition(b"\n")
    clock, processor, resident, status = figures.split()
    if int(status) != 0 or expected not in (None, output):
        sys.exit(f"{' '.join(words)}: status {int(status)}, printed {output!r}")
    return Run(float(clock), float(processor), int(resident))


def openssl(case):
    return measured(["openssl", "dgst", "-sha256", str(case.signature)])


def basic(program, case):
    words = [program, "basic", str(case.signature), str(case.table), case.file_hash]
    return measured(words, expected=case.answer)


def in_turn(commands, repetitions):
    """The runs of each command, by its name, in turn. A first round warms the caches and isn't counted."""
    rounds = [{name: run() for name, run in commands.items()} for _ in range(repetitions + 1)]
    return {name: [each[name] for each in rounds[1:]] for name in commands}


def seconds(runs, time):
    return median(getattr(run, time) for run in runs)


def judged(value, limit):
    return f"{value:.2f}" if value <= limit else f"**{value:.2f}**"


# A signed program.

def report_signed(program, folder, options):
    """Print the table of a signed program; whether the limit is kept."""
    case = signed_case(folder)
    commands = {name: lambda words=words: measured(list(words), folder) for name, words in OTHERS.items()}
    runs = in_turn({"basic": lambda: basic(program, case), **commands}, options.repetitions)
    times = {name: seconds(found, options.time) for name, found in runs.items()}
    part = times["basic"] / min(times[name] for name in OTHERS)
    print(f"| octets | {' | '.join(f'{name} ms' for name in times)} | basic / the faster, at most {PART_OF_OTHERS} |")
    print(f"|---:|{len(times) * '---:|'}---:|")
    print(f"| {case.signature.stat().st_size} | {' | '.join(f'{1000 * one:.1f}' for one in times.values())} | {judged(part, PART_OF_OTHERS)} |")
    print()
    return part <= PART_OF_OTHERS


# Long files.

def memory_of(resident, octets, floor):
    """What is said of memory, and whether the limit is kept."""
    ratio = resident / octets
    if resident <= floor + UNSEEN:
        return f"under {ratio:.2f}", True
    return judged(ratio, MOST_MEMORY), ratio <= MOST_MEMORY


def report_long(program, folder, options):
    """Print the table of long files; whether every limit is kept."""
    floor = max(measured(["true"]).resident for _ in range(3))
    kept, before = True, {}
    print(f"| bulk in | MiB | openssl ms | basic ms | time, at most {MOST_TIME} | growth from 4 to 16 MiB, at most {MOST_GROWTH} "
          f"| resident MiB | memory, at most {MOST_MEMORY} |")
    print("|---|---:|---:|---:|---:|---:|---:|---:|")
    for case in long_cases(folder):
        runs = in_turn({"openssl": lambda: openssl(case), "basic": lambda: basic(program, case)}, options.repetitions)
        digest, check = (seconds(runs[name], options.time) for name in ("openssl", "basic"))
        resident = max(run.resident for run in runs["basic"])
        memory, in_memory = memory_of(resident, case.signature.stat().st_size, floor)
        growth = check / before[case.bulk, 4] if case.size == 16 else 0
        before[case.bulk, case.size] = check
        kept &= check / digest <= MOST_TIME and growth <= MOST_GROWTH and in_memory
        print(f"| {case.bulk} | {case.size} | {1000 * digest:.1f} | {1000 * check:.1f} | {judged(check / digest, MOST_TIME)} "
              f"| {judged(growth, MOST_GROWTH) if growth else ''} | {resident / MIB:.1f} | {memory} |")
    return kept


def main(words):
    parser = argparse.ArgumentParser(description="Time and memory of `picky basic`.")
    parser.add_argument("--repetitions", type=int, default=7)
    parser.add_argument("--processor", dest="time", action="store_const",
                        const="processor", default="clock",
                        help="judge by the time that processors worked")
    parser.add_argument("program", type=command.executable, help="path of the executable")
    options = parser.parse_args(words)
    program = str(options.program.resolve())
    with tempfile.TemporaryDirectory() as name:
        kept = report_signed(program, Path(name), options)
        kept &= report_long(program, Path(name), options)
    return 0 if kept else 1


if __name__ == "__main__":
    command.run(main, __doc__)
