#!/usr/bin/env python3
"""Print the verdict table for the questions of `picky_ask`, by the arithmetic of Python's package `cryptography`.

    python3 tools/verdict_table.py < QUESTIONS > TABLE

QUESTIONS are what `picky_ask SIG`, `picky_ask --chain CERT ..` or `tools/pool_questions.py
CERT ..` prints.  Each line is a question in the form that docs/FORMATS.md gives: the row
that a table has for it, then key bytes, message and signature in hexadecimal.  The table is
of version 2: it says `malformed` of a signature whose length or form none of the algorithm
has, `accept` of another that `cryptography` verifies, and `reject` of one that it finds
false.
`malformed` are

  - of RSA, a length other than that of the modulus, and a number not below the
    modulus (RFC 8017 8.2.2, 5.2.2);
  - of ECDSA, anything but a SEQUENCE of two INTEGERs in DER, each from 1 to n - 1 for
    the order n of the curve (RFC 3279 2.2.3, SEC 1 4.1.4);
  - of Ed25519, a length other than 64 octets, and an S that isn't below the order of
    the group (RFC 8032 5.1.7); its R isn't looked at.

The table has no row by a key whose octets have no form of the algorithm, whatever the
signature:

  - of RSA, a SEQUENCE of two positive INTEGERs in DER with nothing behind, the modulus
    odd, the exponent odd, 3 or more, and below the modulus (RFC 8017 3.1, A.1.1);
  - of ECDSA, 04 and both coordinates of a point on the curve, or 02 or 03 and the first
    one (SEC 1 2.3.4);
  - of Ed25519, the 32 octets of a point (RFC 8032 5.1.3), none of order 1, 2, 4 or 8.

Nor has it one past 16,384 bits of a modulus or 64 of an exponent, or below the length that
the digest needs (RFC 8017 9.2).  The key is handed to `cryptography` in numbers; no file
is written, and nothing else is started.

Each signature that isn't accepted has a line on standard error, with its number; questions
count from 1, and one that comes again doesn't count.  There is no table, and the status is
1, if a line is none of a question, as `refused NAME` or one that is cut, or ends otherwise
than by one newline, if an octet is past ASCII, if a SHA-256 in a line isn't that of the
octets in it, if two questions with one row have different verdicts, and past 10,000
questions.  Whether a certificate may be believed isn't said: that is for who reads the
table.
"""

import re
import sys
from binascii import unhexlify
from collections.abc import Iterable, Iterator
from enum import Enum
from hashlib import blake2b, sha256
from pathlib import Path
from typing import NamedTuple

from common import command
from common.signature_forms import NoForm, NotJudged, has_form, key_of

try:
    from cryptography.exceptions import InternalError, InvalidSignature, UnsupportedAlgorithm
    from cryptography.hazmat.primitives import hashes
    from cryptography.hazmat.primitives.asymmetric import ec, ed25519, padding, rsa
except ImportError:
    print(f"{Path(sys.argv[0]).name}: Python's package cryptography isn't there: install python3-cryptography",
        file=sys.stderr)
    sys.exit(command.CANT)

FIRST_LINE = "picky-verdicts 2"
DIGESTS = {one.name: one for one in (hashes.MD5(), hashes.SHA1(), hashes.SHA224(), hashes.SHA256(), hashes.SHA384(),
    hashes.SHA512())}
CURVES = {"p256": ec.SECP256R1(), "p384": ec.SECP384R1(), "p521": ec.SECP521R1()}
NAMES = {f"rsa-{digest}" for digest in DIGESTS} | {"p256-sha256", "p384-sha384", "p521-sha512", "ed25519"}
ROW = rf"(?:{'|'.join(sorted(NAMES))})(?: [0-9a-f]{{64}}){{3}}"
QUESTION = re.compile(f"({ROW}) ([0-9a-f]*) ([0-9a-f]*) ([0-9a-f]*)".encode())
REFUSED = re.compile(rb"refused [A-Za-z0-9:]{1,80}")
PARTS = "key", "message", "signature"
MOST_ASKED = 10_000


class NoTable(command.Refusal):
    """Why there is no table."""


class Reason(Enum):
    """Why a question has the verdict that it has, or none."""

    ACCEPTED = "accepted"
    FALSE = "the signature is false"
    SIGNATURE_FORM = "the signature has no form of the algorithm"
    KEY_FORM = "the key has no form of the algorithm"
    UNSUPPORTED = "the key or the algorithm isn't computed with"


class Finding(NamedTuple):
    """What is found of a question: its number, row and algorithm; the verdict, None where there is no row; and why."""

    place: int
    row: str
    name: str
    verdict: str | None
    reason: Reason
    why: str

    def line(self) -> str:
        """The same in a line of printable ASCII."""
        return f"question {self.place}: {self.why}"


class Judged(NamedTuple):
    """The lines of a table, and what is found of each question."""

    rows: list[str]
    findings: list[Finding]

    def lacking(self) -> list[str]:
        """A line for each question that isn't accepted."""
        return [one.line() for one in self.findings if one.reason is not Reason.ACCEPTED]


def verify(kind, digest, key, message, signature):
    """InvalidSignature where `cryptography` finds the signature false."""
    if kind == "rsa":
        rsa.RSAPublicNumbers(key.exponent, key.modulus).public_key().verify(signature, message, padding.PKCS1v15(),
            DIGESTS[digest])
    elif kind == "ed25519":
        ed25519.Ed25519PublicKey.from_public_bytes(key).verify(signature, message)
    else:
        ec.EllipticCurvePublicNumbers(key.x, key.y, CURVES[kind]).public_key().verify(signature, message,
            ec.ECDSA(DIGESTS[digest]))


def is_accepted(kind, digest, key, message, signature) -> bool:
    """Whether `cryptography` finds the signature true by a key in numbers; NotJudged where it doesn't compute."""
    try:
        verify(kind, digest, key, message, signature)
    except InvalidSignature:
        return False
    except (ValueError, UnsupportedAlgorithm, InternalError) as refusal:
        raise NotJudged("the library doesn't compute with its algorithm or key") from refusal
    return True


def verdict(name: str, key: bytes, message: bytes, signature: bytes) -> str:
    """What a table says of a signature; NotJudged where it has no row."""
    kind, _, digest = name.partition("-")
    numbers = key_of(kind, key)
    if not has_form(kind, digest, numbers, signature):
        return "malformed"
    return "accept" if is_accepted(kind, digest, numbers, message, signature) else "reject"


def found_of(name, key, message, signature):
    """The verdict or None, the reason, and a sentence on it."""
    try:
        found = verdict(name, key, message, signature)
    except NotJudged as why:
        return None, Reason.KEY_FORM if isinstance(why, NoForm) else Reason.UNSUPPORTED, f"it has no row: {why}"
    return found, *{
        "accept": (Reason.ACCEPTED, ""), "reject": (Reason.FALSE, f"not accepted as {name}"),
        "malformed": (Reason.SIGNATURE_FORM, f"malformed as {name}"),
    }[found]


def question_in(place: int, line: bytes) -> tuple[str, list[bytes]]:
    """The row of the question on a line, and its key bytes, message and signature."""
    found = QUESTION.fullmatch(line)
    spans = [found.span(part) for part in (2, 3, 4)] if found else []
    if found is None or any((end - begin) % 2 for begin, end in spans):
        if REFUSED.fullmatch(line):
            raise NoTable(f"picky_ask says: {line.decode()}")
        raise NoTable(f"question {place} isn't in the form of one")
    row = found[1].decode("ascii")
    # A line may have many megabytes: no part of it is copied.
    octets = [unhexlify(memoryview(line)[begin:end]) for begin, end in spans]
    for part, digest, held in zip(PARTS, row.split(" ")[1:], octets):
        if sha256(held).hexdigest() != digest:
            raise NoTable(f"question {place} has another SHA-256 than that of its {part}")
    return row, octets


def rows_of(lines: Iterable[str | bytes]) -> Judged:
    """The table for lines without their newline, and what is found of each; NoTable where one is no question."""
    verdicts, findings, seen = {}, [], set()
    for line in lines:
        line = line.encode(errors="backslashreplace") if isinstance(line, str) else line
        # Of each line its digest stays, and nothing else of it.
        own = blake2b(line).digest()
        if own in seen:
            continue
        if len(seen) == MOST_ASKED:
            raise NoTable(f"more than {MOST_ASKED} signatures are asked for")
        seen.add(own)
        row, octets = question_in(len(seen), line)
        name = row.partition(" ")[0]
        one = Finding(len(seen), row, name, *found_of(name, *octets))
        findings.append(one)
        if one.verdict is not None and verdicts.setdefault(row, one.verdict) != one.verdict:
            raise NoTable(f"question {one.place} has the row of an earlier one and another verdict")
    return Judged([FIRST_LINE, *(f"{found} {row}" for row, found in verdicts.items())], findings)


def lines_in(stream: Iterable[bytes]) -> Iterator[bytes]:
    """The lines of a stream, which end by one newline each."""
    for line in stream:
        if not line.isascii():
            raise NoTable("an octet of the questions is past ASCII")
        if not line.endswith(b"\n"):
            raise NoTable("the last question has no newline at its end")
        yield line[:-1]


def main(arguments):
    if arguments:
        return command.usage(__doc__)
    try:
        judged = rows_of(lines_in(sys.stdin.buffer))
    except NoTable as why:
        command.say(f"verdict_table.py: {command.sentence(why)}")
        return 1
    print(*judged.rows, sep="\n")
    for line in judged.lacking():
        command.say(f"verdict_table.py: {line}")
    return 0


if __name__ == "__main__":
    command.run(main, __doc__)
