#!/usr/bin/env python3
"""What the built program reads of the roots that the system trusts.

Usage:

    python3 tools/interop/system_roots.py [--folder FOLDER] PROGRAM

PROGRAM is the path of `xgolden_certificate`.  It is asked for each root of
Debian's package ca-certificates, as a value of its own, as one that is lent, and
as one that is kept; the answers are compared with those of `value_reader`, and these field by
field with what `openssl x509` and Python's package `cryptography` say.  Printed
are the certificates that aren't read, with the refusal, and each difference; the
status is 1 where there is one.
"""

import argparse
import ssl
import subprocess
import sys
import tempfile
from pathlib import Path

sys.path.insert(0, str(Path(__file__).resolve().parents[1]))

from common import command
from common.openssl import openssl
from golden.value_vectors import threefold
from interop.certificate_fields import check

FOLDER = Path("/usr/share/ca-certificates/mozilla")


def certificates(folder=FOLDER):
    """The octets of the certificates in a folder, one a file."""
    for file in sorted(folder.glob("*.crt")):
        yield ssl.PEM_cert_to_DER_cert(file.read_text(encoding="ascii"))


def subject(octets):
    return openssl("x509", "-inform", "DER", "-noout", "-subject", "-nameopt", "RFC2253", given=octets).decode().strip()


def answers(program, found):
    """What the program prints of each certificate."""
    with tempfile.NamedTemporaryFile("w") as rows:
        rows.writelines(f"both certificate {octets.hex()}\n" for octets in found)
        rows.flush()
        return subprocess.run([program, "certificate", rows.name], check=True, stdout=subprocess.PIPE, text=True).stdout.splitlines()


def main(words):
    parser = argparse.ArgumentParser(description="Roots of the system.")
    parser.add_argument("--folder", type=Path, default=FOLDER)
    parser.add_argument("program", type=Path, help="path of xgolden_certificate")
    options = parser.parse_args(words)
    found = list(certificates(options.folder))
    differing, read = 0, []
    for octets, answer in zip(found, answers(options.program.resolve(), found), strict=True):
        expected = threefold(octets)
        if answer != expected:
            differing += 1
            print(f"differs: {subject(octets)}: {answer}, not {expected}")
        if answer.startswith(("same ", "changed ")):
            read.append((subject(octets), octets))
        else:
            print(f"not read: {subject(octets)}: {answer}")
        if answer.startswith("changed "):
            print(f"written otherwise: {subject(octets)}")
    print(f"{len(found)} certificates, {len(read)} read, {differing} differences from the reader in Python")
    return int(check(read) > 0 or differing > 0)


if __name__ == "__main__":
    command.run(main, __doc__)
