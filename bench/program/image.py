#!/usr/bin/env python3
"""How long and with how much memory `picky_pe` takes on a program of almost 16 MiB.

Usage:

    python3 bench/program/image.py [--repetitions N] [--processor] PROGRAM

PROGRAM is the path of the executable `picky_pe`.  A program with random octets behind its
headers is signed by `osslsigncode` (`basic_files.py`), so that its signature, of some
12 KB, has three certificates, the signer's, its authority's and one of another subject,
and the token of a time stamp with four.  In turn run

    openssl dgst -sha256 signed.exe
    PROGRAM signed.exe table.txt DATE
    osslsigncode verify -CAfile root.pem -TSA-CAfile root.pem -in signed.exe
    sbverify --cert root.pem signed.exe

DATE being today.  `picky_pe` is faster than the other two checks, and its greatest
resident memory is at most 1.2 times the file.  These two also do the arithmetic and
judge the chain; `openssl` reads and digests the file alone.  Each run must accept.  The
status is 1 where a limit is passed, else 0.

Of time, `--processor`, memory, and what the script takes, `basic.py` says more.
"""

import argparse
import random
import sys
import tempfile
from datetime import datetime, timezone
from pathlib import Path

sys.path.insert(0, str(Path(__file__).resolve().parents[2] / "tools"))

import basic_files
from basic import MIB, in_turn, judged, measured, seconds
from basic_files import OTHERS, checked_case
from common import command

MOST_MEMORY = 1.2
# The signature has room behind it, up to the longest file that is read.
LENGTH = 16 * MIB - 32768


def long_program(short):
    """The maker of a program whose octets go on up to this length."""
    return lambda: short() + random.Random(1).randbytes(LENGTH - len(short()))


def report(program, folder, options):
    """Print the table; whether the limits are kept."""
    basic_files.portable_executable = long_program(basic_files.portable_executable)
    case = checked_case(folder)
    file = folder / "signed.exe"
    today = datetime.now(timezone.utc).strftime("%Y-%m-%dT%H:%M:%S")
    commands = {
        "openssl": lambda: measured(["openssl", "dgst", "-sha256", str(file)]),
        "picky_pe": lambda: measured([program, str(file), str(case.table), today], expected=case.answer),
        **{name: lambda words=words: measured(list(words), folder) for name, words in OTHERS.items()},
    }
    runs = in_turn(commands, options.repetitions)
    times = {name: seconds(found, options.time) for name, found in runs.items()}
    part = times["picky_pe"] / min(times[name] for name in OTHERS)
    memory = max(run.resident for run in runs["picky_pe"]) / file.stat().st_size
    print(f"| octets | {' | '.join(f'{name} ms' for name in times)} | picky_pe / the faster check, below 1 | memory, at most {MOST_MEMORY} |")
    print(f"|---:|{len(times) * '---:|'}---:|---:|")
    print(f"| {file.stat().st_size} | {' | '.join(f'{1000 * one:.1f}' for one in times.values())} | {judged(part, 1)} | {judged(memory, MOST_MEMORY)} |")
    return part < 1 and memory <= MOST_MEMORY


def main(words):
    parser = argparse.ArgumentParser(description="Time and memory of `picky_pe`.")
    parser.add_argument("--repetitions", type=int, default=7)
    parser.add_argument("--processor", dest="time", action="store_const",
                        const="processor", default="clock",
                        help="judge by the time that processors worked")
    parser.add_argument("program", type=command.executable, help="path of the executable")
    options = parser.parse_args(words)
    program = str(options.program.resolve())
    with tempfile.TemporaryDirectory() as name:
        kept = report(program, Path(name), options)
    return 0 if kept else 1


if __name__ == "__main__":
    command.run(main, __doc__)
