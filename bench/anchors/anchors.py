#!/usr/bin/env python3
"""How long the search for a path to an anchor takes on the pools that cost it most, beside OpenSSL and Go.

Usage:

    python3 bench/anchors/anchors.py [--repetitions N] [--certificates N] [--anchors N] PROGRAM

PROGRAM is the executable of the crate `xgolden_run`.  A pool has N certificates of
one name and key (256 by default), each of which may have issued each other one, and N
anchors of that name and another key (64 by default), so that there is no path:

  all signed   each certificate is signed by the key;
  one signed   the last alone is, so that each certificate is compared with each other.

The script prints a markdown table: how many signatures are verified, the bound
16 (n + 1) (n + m), and the medians of the processor time of PROGRAM, which also reads
the certificates, of `anchors.go`, which has Go's crypto/x509 look for a path, and of

    openssl verify -trusted anchors.pem -untrusted pool.pem leaf.pem

on the same pool, signed by Ed25519.  Each must find no path.  The number of signatures
is what `find_counted` counts: `find` calls it, and valgrind counts how often PROGRAM
calls the one function that counts a signature and verifies it.  Exit status 1 says that
it passes the bound.  This is no part of the gate: the times depend on the machine.  It
needs Debian's packages golang-go and valgrind.
"""

import argparse
import re
import subprocess
import sys
import tempfile
from pathlib import Path
from resource import RUSAGE_CHILDREN, getrusage
from statistics import median

sys.path.insert(0, str(Path(__file__).resolve().parents[2] / "tools"))

from cases.anchor_rows import CODE
from cases.issuing_chains import certificate
from common import command
from common.openssl import openssl
from golden.compare_anchor import row

HERE = Path(__file__).resolve().parent
KINDS = "all signed", "one signed"
# The function that counts a signature and verifies it; if it is inlined, the one that it alone calls.
COUNTING = "trust_anchors::search::Search::is_signed_link::", "x509_core::cert::Cert::expect_link::"
FORM = "basicConstraints=critical,CA:{}\nsubjectKeyIdentifier=none\nauthorityKeyIdentifier=none\n"


# The pools.

def is_signed(kind, index, count):
    return kind == "all signed" or index == count - 1


def drawn_row(kind, count, anchors):
    """The row of a pool under the demonstration scheme; certificates have numbers by their key identifiers."""
    pool = [certificate("Same", "Same", ca=True, own=index.to_bytes(2), changed=not is_signed(kind, index, count)) for index in range(count)]
    above = [(certificate("Same", "Same", ca=True, own=index.to_bytes(2), owner="Another"), CODE) for index in range(anchors)]
    return row(certificate("Leaf", "Same", ca=False), pool, above, CODE)


def issued(folder, name, subject, signer, *, ca):
    """A certificate for the key of a name, in PEM, by the key of the signer under the name Same."""
    form = folder / "form.cnf"
    form.write_text(FORM.format("true" if ca else "false"))
    request = openssl("req", "-new", "-key", folder / f"{name}.key", "-subj", f"/CN={subject}")
    by = "-CA", folder / f"{signer}.pem", "-CAkey", folder / f"{signer}.key"
    return openssl("x509", "-req", *by, "-extfile", form, "-days", "3650", given=request)


def make_files(folder, kind, count, anchors):
    """The same pool in PEM: the files leaf.pem, pool.pem and anchors.pem."""
    for name in ("same", "another", "leaf", "stranger"):
        key = folder / f"{name}.key"
        openssl("genpkey", "-algorithm", "ed25519", "-out", key)
        (folder / f"{name}.pem").write_bytes(openssl("req", "-x509", "-new", "-key", key, "-subj", "/CN=Same", "-days", "3650"))
    signers = ["same" if is_signed(kind, index, count) else "stranger" for index in range(count)]
    files = {
        "leaf": [issued(folder, "leaf", "Leaf", "same", ca=False)],
        "pool": [issued(folder, "same", "Same", signer, ca=True) for signer in signers],
        "anchors": [issued(folder, "another", "Same", "another", ca=True) for _ in range(anchors)],
    }
    for name, all_made in files.items():
        (folder / f"{name}.pem").write_bytes(b"".join(all_made))


# The runs.

def bound(count, anchors):
    return 16 * (count + 1) * (count + anchors)


def calls_in(profile, name):
    """How often a function was called, by a profile of callgrind; a name stands in it once, and its number after that."""
    called, calls, counts = {}, 0, False
    for line in profile.splitlines():
        if line.startswith("cfn="):
            number, _, text = line[len("cfn="):].partition(" ")
            called.setdefault(number, text)
            counts = name in called[number]
        elif line.startswith("fn="):
            number, _, text = line[len("fn="):].partition(" ")
            called.setdefault(number, text)
        elif counts and (found := re.match(r"calls=(\d+) ", line)):
            calls, counts = calls + int(found[1]), False
    return calls


def counted(program, file):
    """How many signatures the program verifies, by valgrind."""
    profile = file.with_suffix(".callgrind")
    words = "valgrind", "--tool=callgrind", f"--callgrind-out-file={profile}", program, "anchor", file
    subprocess.run(words, check=True, capture_output=True)
    text = profile.read_text(encoding="utf-8", errors="replace")
    calls = next((calls for name in COUNTING if (calls := calls_in(text, name))), None)
    if calls is None:
        raise command.Refusal(f"{program} has no function that verifies a signature")
    return calls


def milliseconds(words, is_expected, repetitions):
    """The median of the processor time of a command; the first run isn't counted."""
    times = []
    for _ in range(repetitions + 1):
        before = getrusage(RUSAGE_CHILDREN)
        done = subprocess.run(words, capture_output=True, check=False)
        after = getrusage(RUSAGE_CHILDREN)
        if not is_expected(done):
            raise command.Refusal(f"{words[0]} finds another result: status {done.returncode}, {done.stdout[:80]!r}")
        times.append(after.ru_utime + after.ru_stime - before.ru_utime - before.ru_stime)
    return 1000 * median(times[1:])


def others(go, folder):
    """The other two, with what each prints of a pool without a path."""
    leaf, pool, anchors = (folder / f"{name}.pem" for name in ("leaf", "pool", "anchors"))
    yield ["openssl", "verify", "-trusted", anchors, "-untrusted", pool, leaf], lambda done: done.returncode == 2
    yield [go, leaf, pool, anchors], lambda done: done.stdout.startswith(b"x509: ")


def report(program, options, folder):
    """Print the table; whether every count is within the bound."""
    go, file, kept = folder / "go", folder / "row.txt", True
    subprocess.run(["go", "build", "-o", go, HERE / "anchors.go"], check=True, cwd=folder)
    most = bound(options.certificates, options.anchors)
    print("| pool | certificates | anchors | signatures | bound | ms | openssl ms | go ms |\n|---|---:|---:|---:|---:|---:|---:|---:|")
    for kind in KINDS:
        file.write_text(" ".join(drawn_row(kind, options.certificates, options.anchors)) + "\n", encoding="ascii")
        make_files(folder, kind, options.certificates, options.anchors)
        commands = ([program, "anchor", file], lambda done: done.stdout == b"none\n"), *others(go, folder)
        times = [f"{milliseconds(*one, options.repetitions):.0f}" for one in commands]
        steps = counted(program, file)
        print(f"| {kind} | {options.certificates} | {options.anchors} | {steps:,} | {most:,} | {' | '.join(times)} |", flush=True)
        kept &= steps <= most
    return kept


def main(words):
    parser = argparse.ArgumentParser(description="The search for a path to an anchor on the worst pools.")
    parser.add_argument("--repetitions", type=int, default=5)
    parser.add_argument("--certificates", type=int, default=256)
    parser.add_argument("--anchors", type=int, default=64)
    parser.add_argument("program", type=command.executable, help="path of xgolden_run")
    options = parser.parse_args(words)
    with tempfile.TemporaryDirectory() as name:
        return 0 if report(str(options.program.resolve()), options, Path(name)) else 1


if __name__ == "__main__":
    command.run(main, __doc__)
