#!/usr/bin/env python3
"""The signatures of `world_signatures.txt` as signature files, each with its table, and with one octet changed, for `xgolden_check`.

Usage:

    python3 tools/cases/basic_world.py --make
    python3 tools/cases/basic_world.py --check

The first prints `tools/cases/world_tables.txt` anew: for each signature its label and the
rows of the table that `asked_signatures` has openssl find for it, bars between.  The
second compares that file with what openssl finds.

A file is asked for the digest in it.  `CHANGES` lists the octets that
are changed, one at a time; of the file EVERY each octet is.
"""

import sys
from pathlib import Path
from typing import NamedTuple

sys.path.insert(0, str(Path(__file__).resolve().parents[1]))

from cases.first_path import FILE_HASH
from common import command, folders
from interop.world_signatures import stored
from judges.asked_signatures import NotASignatureFile, table
from judges.basic_judge import answer
from judges.der_reader import read_first

STORED = folders.CASES / "world_tables.txt"
HEADER = 8
EVERY = "program, RSA, sha256"
INDIRECT_DATA = bytes.fromhex("060a2b060104018237020104")
MESSAGE_DIGEST = bytes.fromhex("06092a864886f70d010904")
CODE_SIGNING = bytes.fromhex("06082b06010505070303")


def signature_file(value):
    """A WIN_CERTIFICATE of revision 2.0 and type 2, padded to a multiple of eight octets."""
    padded = value + bytes(-len(value) % 8)
    return (HEADER + len(padded)).to_bytes(4, "little") + b"\x00\x02\x02\x00" + padded


def made():
    """Each label, signature file and table."""
    for label, kind, octets in stored():
        if kind != "pkcs7":
            continue
        file = signature_file(octets)
        try:
            lines, _ = table(file)
        except NotASignatureFile:
            lines = []
        yield label, file, lines


def tables():
    """The stored rows by their labels."""
    words = (line.split("|") for line in STORED.read_text(encoding="ascii").splitlines())
    return {label: rows for label, *rows in words}


# Where octets stand.

class Placed(NamedTuple):
    """An element where it stands in a file: its place, that of its contents, that of its end, and its kids."""

    at: int
    begin: int
    end: int
    tag: int
    kids: list


def placed(octets, at, end):
    """The elements from a place on up to an end."""
    found = []
    while at < end:
        size, begin = octets[at + 1], at + 2
        if size > 0x80:
            begin += size - 0x80
            size = int.from_bytes(octets[at + 2:begin], "big")
        kids = placed(octets, begin, begin + size) if octets[at] & 0x20 else []
        found.append(Placed(at, begin, begin + size, octets[at], kids))
        at = begin + size
    return found


def with_tag(elements, *tags):
    return next((one for one in elements if one.tag in tags), None)


class Places:
    """The places of octets in a signature file that holds signed data."""

    def __init__(self, octets):
        self.octets = octets
        _, self.length = read_first(octets[HEADER:])
        whole, = placed(octets, HEADER, HEADER + self.length)
        fields = whole.kids[1].kids[0].kids
        self.version, self.algorithms, self.content, *rest = fields
        self.certificates = with_tag(rest, 0xA0)
        self.signer = next(iter(rest[-1].kids), None)
        self.certificate = self.named()

    def named(self):
        """The certificate of the signer's issuer and serial number, else the first one."""
        wanted = [self.octets[one.at:one.end] for one in kids_of(kid(self.signer, 1))]
        members = kids_of(self.certificates)
        for member in members:
            found = [self.octets[one.at:one.end] for one in (kid(member, 0, 3), kid(member, 0, 1)) if one]
            if found == wanted:
                return member
        return members[0] if members else None

    def find(self, sought, within):
        """Where octets end in an element, None where they don't stand there."""
        found = self.octets.find(sought, within.begin, within.end) if within else -1
        return found + len(sought) if found >= 0 else None


def kids_of(element):
    return element.kids if element else []


def last(element):
    """The place of the last octet, None of an empty element."""
    return element.end - 1 if element and element.end > element.begin else None


def kid(element, *places):
    """The kid of a kid of an element, None where there is none."""
    for place in places:
        if element is None or not -len(element.kids) <= place < len(element.kids):
            return None
        element = element.kids[place]
    return element


def end_of(places, sought, within):
    found = places.find(sought, within)
    return None if found is None else found - 1


def indirect(places):
    """The digest in the content, None where the content is of another kind."""
    whole = kid(places.content, 1, 0)
    return kid(whole, 1, 1) if places.find(INDIRECT_DATA, places.content) else None


def after_message_digest(places):
    """The first octet of the value of the message digest: a set and a string begin behind the identifier."""
    found = places.find(MESSAGE_DIGEST, places.signer)
    return None if found is None else found + 4


def signature(places):
    if places.signer is None:
        return None
    return next(one for one in reversed(places.signer.kids) if one.tag == 0x04)


# What is changed, where it stands, and the octet that it becomes: one that is given, or its own with
# the last bit turned.
CHANGES = [
    ("stated length, low octet", lambda places: 0, None),
    ("stated length, high octet", lambda places: 3, None),
    ("revision", lambda places: 5, None),
    ("type", lambda places: 6, 0x04),
    ("first tag", lambda places: HEADER, 0x31),
    ("type of the whole", lambda places: places.find(bytes.fromhex("06092a864886f70d0107"), Placed(0, HEADER, HEADER + 20, 0, [])), None),
    ("version", lambda places: places.version.begin, None),
    ("version that there is none of", lambda places: places.version.begin, 0x06),
    ("listed digest", lambda places: last(kid(places.algorithms, 0, 0)), None),
    ("type of the content", lambda places: last(kid(places.content, 0)), None),
    ("digest of the content's digest", lambda places: last(kid(places.content, 1, 0, 1, 0, 0)), None),
    ("digest in the content", lambda places: last(indirect(places)), None),
    ("what is signed", lambda places: last(kid(places.content, 1, 0, 0, 0)), None),
    ("tag of the certificates", lambda places: places.certificates and places.certificates.at, 0xA1),
    ("tag of the signer's certificate", lambda places: places.certificate and places.certificate.at, 0x31),
    ("serial number of the signer's certificate", lambda places: last(kid(places.certificate, 0, 1)), None),
    ("issuer of the signer's certificate", lambda places: last(kid(places.certificate, 0, 3)), None),
    ("key of the signer's certificate", lambda places: last(kid(places.certificate, 0, 6)), None),
    ("purpose of the signer's certificate", lambda places: end_of(places, CODE_SIGNING, places.certificate), None),
    ("signature of the signer's certificate", lambda places: last(places.certificate), None),
    ("version of the signer", lambda places: kid(places.signer, 0) and kid(places.signer, 0).begin, 0x06),
    ("identifier of the signer", lambda places: last(kid(places.signer, 1)), None),
    ("digest of the signer", lambda places: last(kid(places.signer, 2, 0)), None),
    ("first attribute", lambda places: last(kid(places.signer, 3, 0)), None),
    ("message digest", after_message_digest, None),
    ("signature", lambda places: last(signature(places)), None),
    ("last octet", lambda places: len(places.octets) - 1, None),
]


def changes_of(octets):
    """What is changed, the place and the octet there, for each of CHANGES that the file has."""
    try:
        places = Places(octets)
    except Exception:  # No element of DER, or no signed data: octets of the header and the first tag alone.
        places = None
    for what, place_of, octet in CHANGES if places else CHANGES[:5]:
        at = place_of(places)
        if at is not None:
            yield what, at, octets[at] ^ 1 if octet is None else octet


def with_octet(octets, at, octet):
    return octets[:at] + bytes([octet]) + octets[at + 1:]


def asked_hash(octets):
    """The digest in the content, where there is one."""
    try:
        places = Places(octets)
        digest = indirect(places)
    except Exception:
        digest = None
    return octets[digest.begin:digest.end] if digest else FILE_HASH


def rows():
    """What each file is, its octets, the digest that is asked for, a table, the octets that are changed, and what is answered to each."""
    known = tables()
    for label, kind, octets in stored():
        if kind == "pkcs7":
            file, table_text = signature_file(octets), "".join(f"{line}\n" for line in known[label])
            file_hash = asked_hash(file)
            changed = [(at, octet) for _, at, octet in changes_of(file)]
            if label == EVERY:
                changed = [(at, octet ^ 1) for at, octet in enumerate(file)]
            files = [file, *(with_octet(file, *change) for change in changed)]
            yield label, file, file_hash.hex(), table_text, changed, [answer(one, file_hash, table_text) for one in files]


def main(arguments):
    if arguments == ["--make"]:
        for label, _, lines in made():
            print("|".join((label, *lines)))
        return 0
    if arguments == ["--check"]:
        known = tables()
        unlike = [label for label, _, lines in made() if known.get(label) != lines]
        print(f"tables: {len(known) - len(unlike)} as openssl has them, {len(unlike)} not: {unlike}")
        return 1 if unlike else 0
    return command.usage(__doc__)


if __name__ == "__main__":
    command.run(main, __doc__)
