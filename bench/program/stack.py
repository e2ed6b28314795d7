#!/usr/bin/env python3
"""How much stack the programs take at the most.

Usage:

    python3 bench/program/stack.py PROGRAM ..

runs each PROGRAM, the executable of the crate of its name, on the commands of
`run_rows`, and on files that are nested as deep as they may be, or have as many
parts: counter-signatures and tokens in one another, 64 levels in an extension, a
name of 10,000 sets, 2,000 members and 4,000 attributes; and a register of 200
lines, each below the one before.  A row says the least limit of the stack, in KiB,
under which the run answers as without one, found by halving, and the beginning of
the answer.  Exit status 1 says that one takes more than an eighth of the usual 8 MiB.
"""

import os
import resource
import subprocess
import sys
import tempfile
from pathlib import Path

sys.path.insert(0, str(Path(__file__).resolve().parents[2] / "tools"))

from cases import ca_run_rows, hostile_files, run_rows
from cases.check_parts import BASIC, IN, OVER
from cases.first_path import FILE_HASH
from cases.hostile_certificates import LEVELS
from common import command

MOST, USUAL, SHOWN = 1024, 8192, 60
# The rows of `hostile_files` that are nested deepest or have most parts.
DEEP = ("13 counter-signatures", "14 counter-signatures", "six tokens", "seven tokens", "a name of 10,000 sets", "4,000 unsigned", "2,000 members")
DATES = {BASIC: None, IN: "2025-01-01", OVER: "2031-01-01"}


def signatures():
    """The words and the files of each of these."""
    for why, file, policy, _ in hostile_files.rows():
        label = why.removeprefix("hostile: ")
        if label.startswith(DEEP):
            date = DATES[policy]
            words = ("check", "s", "t", FILE_HASH.hex(), date) if date else ("basic", "s", "t", FILE_HASH.hex())
            yield label, words, {"s": file.octets, "t": file.table.encode()}


def certificates():
    """Certificates with the deepest elements, one by one."""
    for _, octets, why in LEVELS:
        yield why, ("chain", "t", "2025-01-01", "c"), {"t": b"", "c": octets}


def rows(name):
    """What the row is, its words and its files."""
    for one in run_rows.commands():
        if one.program == name:
            yield one.words[0] if name == "picky" else "a command", one.words, one.files
    if name == "picky":
        yield from signatures()
        yield from certificates()
    if name == "picky_ask":
        yield from ((label, ("s",), {"s": files["s"]}) for label, _, files in signatures())
        yield from ((label, ("--chain", "c", "c"), {"c": files["c"]}) for label, _, files in certificates())
    if name == "picky_ca":
        yield "200 lines", ("r", "2025-01-01"), {"r": (ca_run_rows.ROOT + ca_run_rows.LINE_OF_CAS).encode()}


def answer(program, words, folder, limit):
    """The status and the line under a limit of the stack in KiB."""
    def narrow():
        resource.setrlimit(resource.RLIMIT_STACK, (limit * 1024, limit * 1024))
        resource.setrlimit(resource.RLIMIT_CORE, (0, 0))
    try:
        done = subprocess.run([program, *words], cwd=folder, env={}, stdin=subprocess.DEVNULL, capture_output=True, preexec_fn=narrow)
    except OSError:
        return None
    return done.returncode, done.stdout


def least(program, words, files):
    """The least limit under which a run answers as under the usual one, and that answer."""
    with tempfile.TemporaryDirectory() as name:
        for path, octets in files.items():
            Path(name, path).write_bytes(octets)
        said = answer(program, words, name, USUAL)
        low, high = 0, USUAL
        while high - low > 4:
            middle = (low + high) // 2
            low, high = (low, middle) if answer(program, words, name, middle) == said else (middle, high)
    return high, said


def main(words):
    if not words:
        return command.usage(__doc__)
    most = 0
    print("| program | run | KiB of stack | answer |\n|---|---|---:|---|")
    for program in map(os.path.abspath, words):
        name = os.path.basename(program)
        for label, line, files in rows(name):
            size, (status, text) = least(program, line, files)
            print(f"| {name} | {label} | {size} | {status} {text.decode().strip()[:SHOWN]} |", flush=True)
            most = max(most, size)
    return 1 if most > MOST else 0


if __name__ == "__main__":
    command.run(main, __doc__)
