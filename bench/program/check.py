#!/usr/bin/env python3
"""How long `picky check` takes on a signed program.

Usage:

    python3 bench/program/check.py [--repetitions N] [--processor] PROGRAM

PROGRAM is the path of the executable.  A program is signed by `osslsigncode`
(`basic_files.py`) so that its signature, of some 12 KB, has three certificates, the
signer's, its authority's and one of another subject, and the token of a time stamp
with four.  In turn run

    PROGRAM check SIG TABLE HASH DATE
    PROGRAM basic SIG TABLE HASH
    osslsigncode verify -CAfile root.pem -TSA-CAfile root.pem -in signed.exe
    sbverify --cert root.pem signed.exe

DATE being today, within the windows of all certificates, and `check` takes at most a
quarter of the time of the faster one of the other two programs.  These read the
whole program and do the arithmetic, which `check` doesn't: it is what a check costs
beside them.  Each run must accept.  The status is 1 where the limit is passed, else 0.

Of time, `--processor`, and what the script takes, `basic.py` says more.
"""

import argparse
import subprocess
import sys
import tempfile
from datetime import datetime, timezone
from pathlib import Path

sys.path.insert(0, str(Path(__file__).resolve().parents[2] / "tools"))

from basic import PART_OF_OTHERS, in_turn, judged, measured, seconds
from basic_files import OTHERS, accepted, checked_case
from common import command


def report(program, folder, options):
    """Print the table; whether the limit is kept."""
    case = checked_case(folder)
    words = [str(case.signature), str(case.table), case.file_hash]
    today = datetime.now(timezone.utc).strftime("%Y-%m-%dT%H:%M:%S")
    commands = {
        "check": lambda: measured([program, "check", *words, today], expected=case.answer),
        "basic": lambda: measured([program, "basic", *words], expected=accepted(0)),
        **{name: lambda words=words: measured(list(words), folder) for name, words in OTHERS.items()},
    }
    runs = in_turn(commands, options.repetitions)
    times = {name: seconds(found, options.time) for name, found in runs.items()}
    part = times["check"] / min(times[name] for name in OTHERS)
    print(f"| octets | {' | '.join(f'{name} ms' for name in times)} | check / the faster, at most {PART_OF_OTHERS} |")
    print(f"|---:|{len(times) * '---:|'}---:|")
    print(f"| {case.signature.stat().st_size} | {' | '.join(f'{1000 * one:.1f}' for one in times.values())} | {judged(part, PART_OF_OTHERS)} |")
    return part <= PART_OF_OTHERS


def main(words):
    parser = argparse.ArgumentParser(description="Time of `picky check`.")
    parser.add_argument("--repetitions", type=int, default=7)
    parser.add_argument("--processor", dest="time", action="store_const", const="processor", default="clock",
                        help="judge by the time that processors worked")
    parser.add_argument("program", type=command.executable, help="path of the executable")
    options = parser.parse_args(words)
    with tempfile.TemporaryDirectory() as name:
        try:
            kept = report(str(options.program.resolve()), Path(name), options)
        except subprocess.CalledProcessError as failed:
            sys.exit(f"{' '.join(map(str, failed.cmd))}: status {failed.returncode}")
    return 0 if kept else 1


if __name__ == "__main__":
    command.run(main, __doc__)
