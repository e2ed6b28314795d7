#!/usr/bin/env python3
"""Requests of openssl that a register of `xgolden_run` enrols, and what openssl says of its certificates.

Usage:

    python3 tools/interop/enrolled_requests.py --make
    python3 tools/interop/enrolled_requests.py --check

The first prints `tools/cases/enrolling_keys.txt` anew: openssl (3.0 or later) makes the keys of a root and of an
intermediate CA, fresh each time, and the request of the intermediate.  A row is a label and octets in base64, a bar
between.

The second rests on the stored run of `xgolden_run`.  openssl prints each field and each extension of each
certificate that was asked for, and `openssl verify -attime` accepts, over the CA's certificates, exactly those that the
register accepts at the date of the row, but for the last second of a validity, which openssl takes as past it.
`openssl req -verify` accepts the requests that are enrolled, and refuses the others, but for those whose key or
algorithm isn't supported.
"""

import sys
from base64 import b64encode
from calendar import timegm
from collections import Counter
from pathlib import Path
from subprocess import run
from tempfile import TemporaryDirectory
from time import strptime

sys.path.insert(0, str(Path(__file__).resolve().parents[1]))

from cases import enrolled_requests as cases
from common import command
from common.openssl import openssl
from golden.stored_run import stored
from interop.issuing_check import Differs, certificate_check, same

KEY_WORDS = "genpkey", "-algorithm", "RSA", "-pkeyopt", "rsa_keygen_bits:2048", "-outform", "DER"


def make():
    """Print the keys and the request."""
    with TemporaryDirectory() as place:
        file = Path(place, "key.der")
        for label in ("root", "ca"):
            file.write_bytes(openssl(*KEY_WORDS))
            key = openssl("pkcs8", "-topk8", "-nocrypt", "-inform", "DER", "-in", file, "-outform", "DER")
            print(f"{label}|{b64encode(key).decode()}")
        request = openssl("req", "-new", "-batch", "-sha256", "-key", file, "-keyform", "DER", "-subj", "/O=Example/CN=CA", "-outform", "DER")
        print(f"ca request|{b64encode(request).decode()}")
    return 0


class Accepting:
    """What `openssl verify` says of the certificates of a register, over its root and the CA below it."""

    def __init__(self, folder, certificates):
        self.folder, self.certificates = folder, certificates
        for name, octets in zip(("root", "ca"), certificates):
            (folder / name).write_bytes(openssl("x509", "-inform", "DER", given=octets))

    def accepts(self, index, date):
        between = ("-untrusted", self.folder / "ca") if index > 1 else ()
        moment = str(timegm(strptime(date, "%Y%m%d%H%M%S")))
        words = "verify", "-attime", moment, "-no-CApath", "-no-CAstore", "-CAfile", self.folder / "root", *between
        return run(["openssl", *words], input=openssl("x509", "-inform", "DER", given=self.certificates[index]), capture_output=True).returncode == 0


def is_verified(request):
    """Whether `openssl req` reads the request, and finds it signed by its own key."""
    done = run(["openssl", "req", "-inform", "DER", "-noout", "-verify"], input=request, capture_output=True)
    return done.returncode == 0 and b"verify OK" in done.stderr


def check_requests(made, answers):
    """The counts of those that are enrolled, that openssl refuses, and that it alone accepts."""
    counts = [0, 0, 0]
    for one, answer in zip(made, answers, strict=True):
        if not one.request or answer not in ("issued", "Build", "Request"):
            continue
        verified = is_verified(one.request)
        if answer == "issued":
            same("signature of a request", True, verified)
        counts[0 if answer == "issued" else 2 if verified else 1] += 1
    return counts


def answers_in(words, count):
    """The names of the answers to so many calls, and the words that are left."""
    fields = {"NoIssuer": 2, "TooDeep": 1}
    names = []
    for _ in range(count):
        name, *words = words
        names.append("issued" if name.isdigit() else name)
        words = words[fields.get(name, 0):]
    return names, words


def check_row(folder, row, line, made):
    """Compare the verdicts of a row, and print where openssl's differ; its certificates, the names of the answers, and
    how many verdicts are alike, differ, and differ as the date is the last second of a validity."""
    date = row.split(" ")[4].rstrip("Z")
    names, (marks, *printed) = answers_in(line.split(" "), len(made.made))
    certificates = [bytes.fromhex(word) for word in printed]
    accepting, counts = Accepting(folder, certificates), Counter()
    for index, mark in enumerate(marks):
        alike = accepting.accepts(index, date) == (mark == "1")
        last = mark == "1" and date == cases.OF_CA[1]
        counts["alike" if alike else "last second" if last else "other"] += 1
        if not alike and not last:
            print(f"certificate {index} at {date}: {mark} is printed")
    return certificates, names, counts


def check():
    """Print what openssl says otherwise; the status to end with."""
    made, verdicts = cases.ca(), Counter()
    for row, line in zip(*stored("xgolden_run", "register"), strict=True):
        if row.startswith("stored "):
            with TemporaryDirectory() as place:
                certificates, names, counts = check_row(Path(place), row, line, made)
            verdicts += counts
    for one, octets in zip(made.certificates, certificates, strict=True):
        certificate_check(cases.settings_words(one), octets)
    enrolled, refused, alone = check_requests(made.made, names)
    print(f"{len(certificates)} certificates read; verdicts alike {verdicts['alike']}, at a last second {verdicts['last second']}, others {verdicts['other']}")
    print(f"requests enrolled {enrolled}, refused by both {refused}, by the register alone {alone}")
    return 1 if verdicts["other"] else 0


def main(words):
    calls = {("--make",): make, ("--check",): check}
    if tuple(words) not in calls:
        return command.usage(__doc__)
    try:
        return calls[tuple(words)]()
    except Differs as difference:
        raise command.Refusal(difference) from difference


if __name__ == "__main__":
    command.run(main, __doc__)
