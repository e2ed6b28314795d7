#!/usr/bin/env python3
"""How long `picky_ask` takes, on a signed program's signature and on long files.

Usage:

    python3 bench/program/questions.py [--repetitions N] PROGRAM

PROGRAM is the path of the executable `picky_ask`.  Three tables are printed, of medians:

  - on the signature of some 12 KB of `check.py`: the program, and the reader in Python
    that lists signatures for the tests (`asked_signatures.py`), without openssl, in processor time;
  - on files of 1 to 16 MiB whose first certificates are the signer's and its authority's, a
    root, over and over, each a question about a signature: processor time and memory;
  - on files of 1 to 16 MiB with one question, the signer's, over long attributes.

The lines of a file are about twice as long as what is signed in it.  Twice as many octets
have to take at most 2.5 times as long, from 4 MiB on, else the status is 1.
"""

import argparse
import subprocess
import sys
import tempfile
from pathlib import Path
from statistics import median

sys.path.insert(0, str(Path(__file__).resolve().parents[2] / "tools"))

from basic import MEASURE
from basic_files import MIB, checked_case, in_attribute
from cases.basic_making import Signed, certificate, named, rsa_key
from common import command
from strangers import ABOVE, AUTHORITY

SIZES = 1, 2, 4, 8, 16
MOST_GROWTH, LEAST_SIZE = 2.5, 4
READER = "import sys; sys.path.insert(0, {!r}); from judges import asked_signatures as a; print(len(list(a.asked_of(open({!r}, 'rb').read()))))"


def measured(words):
    """Seconds by the clock and of processors, the resident memory, and the number of lines."""
    done = subprocess.run([*MEASURE, *words], check=True, stdout=subprocess.PIPE, stderr=subprocess.DEVNULL)
    output, _, figures = done.stdout.rstrip(b"\n").rpartition(b"\n")
    clock, processor, resident, status = figures.split()
    if int(status) != 0:
        sys.exit(f"{' '.join(map(str, words))}: status {int(status)}")
    # Behind the lines `measure.py` prints an empty one.
    return float(clock), float(processor), int(resident), output.count(b"\n")


def of_links(size):
    """A signer and its authority, over and over: of each certificate but the last a question."""
    root = certificate(subject=b"R", issuer=b"R", serial=b"\x02", key=rsa_key(ABOVE), extensions=AUTHORITY)
    own = certificate(issuer=b"R")
    many = (size * MIB - 2048) // len(root)
    return Signed(members=(own, *(many * (root,))), named=named(issuer=b"R")).file()


def of_attribute(size):
    return in_attribute(size * MIB - 2048)[0].file()


def report_signed(program, folder, repetitions):
    case = checked_case(folder)
    commands = {
        "picky_ask": [program, case.signature],
        "Python": [sys.executable, "-c", READER.format(str(Path(__file__).resolve().parents[2] / "tools"), str(case.signature))],
    }
    print("| octets | questions | picky_ask ms | a reader in Python ms |\n|---:|---:|---:|---:|")
    runs = {name: [measured(words) for _ in range(repetitions)] for name, words in commands.items()}
    times = [1000 * median(run[1] for run in found) for found in runs.values()]
    print(f"| {case.signature.stat().st_size} | {runs['picky_ask'][0][3]} | {times[0]:.1f} | {times[1]:.1f} |\n")


def report_long(program, folder, made, repetitions):
    """Print a table over sizes; whether the growth is kept."""
    print("| MiB | questions | processor seconds | MiB resident | growth |\n|---:|---:|---:|---:|---:|")
    before, kept = None, True
    for size in SIZES:
        file = folder / f"{size}.bin"
        file.write_bytes(made(size))
        runs = [measured([program, file]) for _ in range(repetitions)]
        taken = median(run[1] for run in runs)
        growth = taken / before if before else None
        kept &= growth is None or size < LEAST_SIZE or growth <= MOST_GROWTH
        print(f"| {size} | {runs[0][3]} | {taken:.3f} | {max(run[2] for run in runs) / MIB:.0f} | {'' if growth is None else f'{growth:.2f}'} |")
        before = taken
    print()
    return kept


def main(words):
    parser = argparse.ArgumentParser(description="Time of `picky_ask`.")
    parser.add_argument("--repetitions", type=int, default=5)
    parser.add_argument("program", type=command.executable)
    options = parser.parse_args(words)
    program = options.program.resolve()
    with tempfile.TemporaryDirectory() as place:
        folder = Path(place)
        report_signed(program, folder, options.repetitions)
        kept = [report_long(program, folder, made, options.repetitions) for made in (of_links, of_attribute)]
    return 0 if all(kept) else 1


if __name__ == "__main__":
    command.run(main, __doc__)
