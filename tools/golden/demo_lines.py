#!/usr/bin/env python3
"""Print the line of `picky demo N`, made without the program.

Usage:

    python3 tools/golden/demo_lines.py N
    python3 tools/golden/demo_lines.py --steps N
    python3 tools/golden/demo_lines.py --certificates N
    python3 tools/golden/demo_lines.py --check N

N is from 1 to 200.  The first prints the line, which `demo_maker` makes.  The
second prints a line for each step: its number, its issuer, the CA flag, the
path length, the years of its validity, and whether it is valid on 2025-01-01,
`-` for none.  The third prints each certificate in hexadecimal digits.

The last has openssl (3.0 or later) read each certificate, and compares the
fields that it prints with the steps.  Signatures are those of the demonstration
scheme, which openssl doesn't check.
"""

import re
import sys
from pathlib import Path

sys.path.insert(0, str(Path(__file__).resolve().parents[1]))

from common import command
from common.openssl import openssl
from judges import demo_maker as maker

FIELDS = "-noout", "-subject", "-issuer", "-serial", "-startdate", "-enddate", "-ext", "basicConstraints,subjectKeyIdentifier,authorityKeyIdentifier"


def count_of(word):
    """The number that a word writes without leading zeros."""
    if not re.fullmatch("[1-9][0-9]*", word) or len(word) > 3 or int(word) > maker.MOST_STEPS:
        raise command.Refusal(f"{word!r} isn't a number from 1 to {maker.MOST_STEPS} without leading zeros")
    return int(word)


def shown(value):
    return "-" if value is None else str(value)


def step_line(steps, k):
    one = steps[k]
    words = k, shown(one.issuer), "ca" if one.ca else "end", shown(one.path_length), one.first, one.last
    return " ".join(map(str, words)) + (" valid" if maker.is_valid(steps, k) else " -")


def colons(octets):
    return octets.hex(":").upper()


def expected(steps, k):
    """What openssl prints of the certificate of step k."""
    one, issuer = steps[k], k if steps[k].issuer is None else steps[k].issuer
    limit = "" if one.path_length is None else f", pathlen:{one.path_length}"
    serial = f"{k + 1:X}"
    return [
        f"subject=CN = N{k}", f"issuer=CN = N{issuer}", f"serial={serial.zfill(len(serial) + len(serial) % 2)}",
        f"notBefore=Jan  1 00:00:00 {one.first} GMT", f"notAfter=Jan  1 00:00:00 {one.last} GMT",
        "X509v3 Basic Constraints:", f"CA:{'TRUE' if one.ca else 'FALSE'}{limit}",
        "X509v3 Subject Key Identifier:", colons(maker.key_identifier(k)),
        "X509v3 Authority Key Identifier:", colons(maker.key_identifier(issuer)),
    ]


def said(octets):
    lines = openssl("x509", "-inform", "DER", *FIELDS, given=octets).decode().splitlines()
    return [re.sub("^(subject|issuer)=CN ?= ?", r"\1=CN = ", line.strip().removeprefix("keyid:")) for line in lines]


def check(count):
    """Compare the fields of each certificate; 1 where one differs."""
    steps = maker.history(count)
    different = [k for k, octets in enumerate(maker.certificates(steps)) if said(octets) != expected(steps, k)]
    print(f"{count} certificates read, {len(different)} different", *different)
    return 1 if different else 0


def main(words):
    options = {"--steps", "--certificates", "--check"}
    option, *others = words if words[:1] and words[0] in options else ("", *words)
    if len(others) != 1:
        return command.usage(__doc__)
    count = count_of(others[0])
    if option == "--check":
        return check(count)
    steps = maker.history(count)
    lines = {
        "": lambda: [maker.line(count)],
        "--steps": lambda: (step_line(steps, k) for k in range(count)),
        "--certificates": lambda: (octets.hex() for octets in maker.certificates(steps)),
    }[option]
    print(*lines(), sep="\n")
    return 0


if __name__ == "__main__":
    command.run(main, __doc__)
