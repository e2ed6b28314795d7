#!/usr/bin/env python3
"""How long `picky demo N` takes, beside OpenSSL building and verifying as many certificates.

Usage:

    python3 bench/demonstration/demonstration.py [--rounds N] [--steps N] PROGRAM

PROGRAM is the executable of the crate `picky`.  The script builds the other
program from `demonstration.c`, with Debian's package libssl-dev, which gets the
steps as `demo_lines.py` draws them.  It builds the same certificates, octet by
octet, writes and reads each, and verifies it over all its ancestors, but for
the signature: neither program does arithmetic.  Both have to print the line of
`demo_lines.py`.

The processor time of whole runs is taken, in turn; a figure is the median of
the rounds.  The memory of both is below some 9 MiB, what a process has that
starts them (`bench/program/measure.py`), so it can't be seen.  A markdown table
is printed, and the status is 1 if our time is more than OpenSSL's, else 0.
This is no part of the gate: the figures depend on the machine.
"""

import argparse
import os
import subprocess
import sys
import tempfile
from datetime import datetime, timezone
from pathlib import Path
from statistics import median

sys.path.insert(0, str(Path(__file__).resolve().parents[2] / "tools"))

from common import command
from golden import demo_lines
from judges import demo_maker

HERE = Path(__file__).resolve().parent
MEASURE = [sys.executable, "-I", "-S", str(HERE.parent / "program/measure.py")]
MOMENT = int(datetime(demo_maker.CHECKED_YEAR, 1, 1, tzinfo=timezone.utc).timestamp())


def built(folder):
    """The path of OpenSSL's program."""
    path = folder / "openssl"
    subprocess.run(["cc", "-O2", "-o", path, HERE / "demonstration.c", "-lcrypto"], check=True)
    return path


def measured(words, wanted):
    """Milliseconds that the processor worked."""
    output = subprocess.run([*MEASURE, *words], stdout=subprocess.PIPE, check=True).stdout.decode("ascii")
    line, figures = output.rstrip("\n").rsplit("\n", 1)
    _, processor, _, status = figures.split()
    if status != "0" or line != wanted:
        raise command.Refusal(f"{words[0]} ended with {status} and printed {line!r}")
    return float(processor) * 1000


def medians(programs, wanted, rounds):
    """By its name the median of each program."""
    runs = [{name: measured(words, wanted) for name, words in programs.items()} for _ in range(rounds + 1)][1:]
    return {name: median(one[name] for one in runs) for name in programs}


def main(words):
    parser = argparse.ArgumentParser(description="Time of a demonstration of issuing.")
    parser.add_argument("--rounds", type=int, default=21)
    parser.add_argument("--steps", type=int, default=demo_maker.MOST_STEPS)
    parser.add_argument("program", type=command.executable, help="the executable of picky")
    options = parser.parse_args(words)
    steps = demo_maker.history(options.steps)
    with tempfile.TemporaryDirectory() as name:
        folder = Path(name)
        file = folder / "steps"
        file.write_text("".join(f"{demo_lines.step_line(steps, k)}\n" for k in range(options.steps)))
        programs = {
            "ours": [str(options.program.resolve()), "demo", str(options.steps)],
            "openssl": [str(built(folder)), str(file), str(MOMENT)],
        }
        figures = medians(programs, f"{demo_maker.line(options.steps)}\n", options.rounds)
    print(f"{options.steps} steps, {options.rounds} rounds, load {os.getloadavg()[0]:.0f}\n")
    print("| steps | ours ms | openssl ms |\n|---:|---:|---:|")
    print(f"| {options.steps} | {figures['ours']:.1f} | {figures['openssl']:.1f} |")
    return 1 if figures["ours"] > figures["openssl"] else 0


if __name__ == "__main__":
    command.run(main, __doc__)
