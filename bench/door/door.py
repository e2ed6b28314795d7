#!/usr/bin/env python3
"""How long the calls of the static library take, beside OpenSSL reading the same octets.

Usage:

    python3 bench/door/door.py [--times N] [--calls N] LIBRARY

LIBRARY is a folder with `libpicky_door.a` and `liblibc_c.a`.  The signature is that of
`bench/program/check.py`, some 12 KB; the script builds `bindings/c/rows.c`, and `door.c`
with Debian's package libssl-dev, and takes osslsigncode.  Printed are microseconds of
processor time a call: with the table as octets and as a handle, of the rows that the
signature needs, and of 10,000; of `d2i_PKCS7`, and of its certificates' keys alone.  Then
the resident memory before and after a million calls (`--calls`), and four threads with four handles.

The status is 1 where a call by a handle of 10,000 rows takes more than a third of one by
octets, or where the memory has grown by more than 256 KiB.  This is no part of the
gate: the figures depend on the machine.
"""

import argparse
import random
import re
import subprocess
import sys
from datetime import datetime, timezone
from pathlib import Path
from tempfile import TemporaryDirectory

ROOT = Path(__file__).resolve().parents[2]
sys.path[:0] = [str(ROOT / "tools"), str(ROOT / "bench/program")]

from basic_files import checked_case
from common import command

ROWS, MILLION, THREADS = 10_000, 1_000_000, 4
MOST_PART, MOST_GROWTH = 1 / 3, 256
MEASURED = re.compile(r"(\d+) calls, ([\d.]+) microseconds of processor time each, ([\d.]+) by the clock; (\d+) KiB before, (\d+) KiB after")


def built(folder, source, *words):
    program = folder / source.stem
    subprocess.run(["cc", "-std=gnu11", "-O2", f"-I{ROOT}/bindings/c", source, *words, "-o", program], check=True)
    return program


def long_table(table, count):
    """The rows of a table behind so many that no question has."""
    first, *rows = table.decode().splitlines()
    chance = random.Random(1)
    others = ["accept rsa-sha256 " + " ".join(chance.randbytes(32).hex() for _ in range(3)) for _ in range(count - len(rows))]
    return "".join(f"{line}\n" for line in (first, *others, *rows)).encode()


def row(kind, words, file, table):
    return " ".join([kind, "4096", "\n".join(words).encode().hex(), file.hex(), table.hex(), "-"]) + "\n"


def measured(program, line, expected, *words):
    """Microseconds of processor time and by the clock, and KiB before and after."""
    done = subprocess.run([program, *map(str, words)], input=line, capture_output=True, text=True, check=True)
    if done.stdout != expected:
        raise command.Refusal(f"the answer is {done.stdout!r}")
    _, processor, clock, before, after = MEASURED.search(done.stderr).groups()
    return float(processor), float(clock), int(before), int(after)


def main(words):
    parser = argparse.ArgumentParser(add_help=False)
    parser.add_argument("--times", type=int, default=2000)
    parser.add_argument("--calls", type=int, default=MILLION)
    parser.add_argument("library")
    given = parser.parse_args(words)
    library = Path(given.library).resolve()
    with TemporaryDirectory() as name:
        folder = Path(name)
        rows = built(folder, ROOT / "bindings/c/rows.c", f"-L{library}", "-lpicky_door", "-llibc_c", "-lpthread")
        openssl = built(folder, ROOT / "bench/door/door.c", "-lcrypto")
        case = checked_case(folder)
        signature, table, program = case.signature.read_bytes(), case.table.read_bytes(), (folder / "signed.exe").read_bytes()
        if not table.startswith(b"picky-verdicts 2\n"):
            table = b"picky-verdicts 2\n" + b"".join(b"accept " + line for line in table.splitlines(keepends=True))
        long = long_table(table, ROWS)
        needed = table.count(b"\n") - 1
        today = datetime.now(timezone.utc).strftime("%Y-%m-%dT%H:%M:%S")
        kinds = {"check": (("check", "SIG", "TABLE", case.file_hash, today), signature), "pe": (("PROGRAM", "TABLE", today), program)}
        expected = f"0 {case.answer.decode().strip()}|\n"
        print("| call | rows | table as octets, us | as a handle, us |\n|---|---:|---:|---:|")
        parts = []
        for kind, (kind_words, file) in kinds.items():
            for count, text, times in ((needed, table, given.times), (ROWS, long, max(1, given.times // 50))):
                line = row(kind, kind_words, file, text)
                octets, handle = measured(rows, line, expected, times)[0], measured(rows, line, expected, "-t", given.times)[0]
                parts += [handle / octets] if count == ROWS else []
                print(f"| {kind}, {len(file):,} octets | {count:,} | {octets:.1f} | {handle:.1f} |")
        whole, keys = map(float, subprocess.run([openssl, case.signature, str(max(1, given.times // 10))], capture_output=True, text=True, check=True).stdout.split())
        print(f"\nd2i_PKCS7 {whole:.1f} us, of which {keys:.1f} us would be for the keys of its certificates")
        line = row("check", *kinds["check"], table)
        _, _, before, after = measured(rows, line, expected, "-t", given.calls)
        print(f"{given.calls:,} calls: {before:,} KiB before, {after:,} KiB after")
        processor, clock, _, _ = measured(rows, line, expected, "-t", given.times, THREADS)
        print(f"{THREADS} threads with {THREADS} handles: {processor:.1f} us of processor time a call, one in {clock:.1f} us by the clock")
    return 1 if after - before > MOST_GROWTH or max(parts) > MOST_PART else 0


if __name__ == "__main__":
    command.run(main, __doc__)
