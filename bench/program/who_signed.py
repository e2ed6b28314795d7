#!/usr/bin/env python3
"""How long `check_program.py` takes to say who signed a program.

Usage:

    python3 bench/program/who_signed.py [--repetitions N] PROGRAMS

PROGRAMS is a folder with the executables, or the folder `crates`.  The program is that
of `check.py`, whose signature of some 12 KB has three certificates and a time stamp.
In turn run

    python3 tools/check_program.py signed.exe --root root.pem --programs PROGRAMS
    osslsigncode verify -CAfile root.pem -TSA-CAfile root.pem -in signed.exe
    sbverify --cert root.pem signed.exe

of which each accepts; printed are the times by the clock and of processors.  The status
is 1 where `check_program.py` takes more than a second by the clock.
"""

import argparse
import sys
import tempfile
from pathlib import Path

TOOLS = Path(__file__).resolve().parents[2] / "tools"
sys.path.insert(0, str(TOOLS))

from basic import in_turn, judged, measured, seconds
from basic_files import OTHERS, checked_case
from common import command

MOST_SECONDS = 1


def report(programs, folder, repetitions):
    """Print the table; whether the limit is kept."""
    size = checked_case(folder).signature.stat().st_size
    words = [sys.executable, str(TOOLS / "check_program.py"), "signed.exe", "--root", "root.pem", "--programs", str(programs)]
    commands = {"check_program.py": words, **OTHERS}
    runs = in_turn({name: lambda words=words: measured(list(words), folder) for name, words in commands.items()}, repetitions)
    clock, processor = ({name: seconds(found, time) for name, found in runs.items()} for time in ("clock", "processor"))
    print(f"| octets | time | {' | '.join(f'{name} ms' for name in commands)} | seconds, at most {MOST_SECONDS} |")
    print(f"|---:|---|{len(commands) * '---:|'}---:|")
    for name, times, limit in ("by the clock", clock, judged(clock["check_program.py"], MOST_SECONDS)), ("of processors", processor, ""):
        print(f"| {size} | {name} | {' | '.join(f'{1000 * one:.0f}' for one in times.values())} | {limit} |")
    return clock["check_program.py"] <= MOST_SECONDS


def main(words):
    parser = argparse.ArgumentParser(description="Time of `check_program.py`.")
    parser.add_argument("--repetitions", type=int, default=7)
    parser.add_argument("programs", type=Path, help="the folder of the executables")
    options = parser.parse_args(words)
    with tempfile.TemporaryDirectory() as name:
        kept = report(options.programs.resolve(), Path(name), options.repetitions)
    return 0 if kept else 1


if __name__ == "__main__":
    command.run(main, __doc__)
