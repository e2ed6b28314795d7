"""Vectors of issuer walks, for `xgolden_check`: signed data in hexadecimal digits.

What is answered to them is the number of certificates, the place of the
signer's, and the places of the issuer walk, those with the signer's subject in
parentheses.  The first rows are those of `CASES`, which have their answers;
the others are the signatures of `world_signatures`, whose answers are found
by the definitions, with the readers of `der_reader`, `cms_reader` and
`value_reader`.  What these find of the first rows has to be their answers.
"""

from cases.first_path import (
    COMMON_NAME, RSA_ENCRYPTION, SIGNED_DATA, SHA256, SignatureFile, algorithm, context, context_primitive, element, identifier, integer, name, octet_string, sequence, set_of,
)
from golden.stored_run import Vectors
from interop.world_signatures import stored
from judges.cms_reader import pkcs7
from judges.der_reader import Constructed, Malformed, read_exact
from judges.value_reader import Shape, certificate as read_certificate


def certificate(subject, issuer, serial=1, spelled=None):
    """A certificate by the texts of its names and its serial number, in one octet or as it is spelled."""
    return SignatureFile(subject=subject.encode(), issuer=issuer.encode(), serial=spelled or bytes([serial])).certificate()


def signer(sid):
    """A signer of this identifier."""
    return sequence(integer(b"\x01"), sid, algorithm(SHA256), algorithm("1.2.840.113549.1.1.1"), octet_string(b"\xAA"))


def named(issuer, serial=1, spelled=None):
    """A signer by issuer and serial number."""
    return signer(sequence(name(issuer.encode()), integer(spelled or bytes([serial]))))


def signed_data(signers, *members):
    """Signed data with these signers; without members the field of certificates is left out."""
    return with_members(signers, *((context(0, *members),) if members else ()))


def with_members(signers, *certificates):
    """Signed data with these signers and a field of certificates, or none."""
    return around(sequence(
        integer(b"\x01"), set_of(algorithm(SHA256)), sequence(identifier("1.2.840.113549.1.7.1")), *certificates, set_of(*signers),
    ))


def around(value):
    return sequence(identifier(SIGNED_DATA), context(0, value))


S, A, B, ROOT = certificate("S", "A"), certificate("A", "B"), certificate("B", "R"), certificate("R", "R")
PRINTABLE_A = sequence(set_of(sequence(identifier(COMMON_NAME), element(0x13, b"A"))))
BY_A = [named("A")]
# Algorithms of keys: one of them isn't read.
RSA, OTHER = identifier(RSA_ENCRYPTION), identifier("1.2.840.113549.1.1.2")

# What it is, signed data, and what is answered.
CASES = [
    ("a signer and its issuers in order", signed_data(BY_A, S, A, B, ROOT), "4 0: (0) 1 2 3"),
    ("the signer alone", signed_data(BY_A, S), "1 0: (0)"),
    ("the signer last", signed_data(BY_A, ROOT, B, S), "3 2: (2)"),
    ("two certificates of one subject: the first", signed_data(BY_A, S, certificate("A", "R", 7), A, B, ROOT), "5 0: (0) 1 4"),
    ("two of the signer's subject: the walk begins at the first", signed_data([named("A", 2)], certificate("S", "B"), certificate("S", "A", 2), A, B), "4 1: (0) 3"),
    ("two of one issuer and serial number: the first", signed_data(BY_A, certificate("T", "A"), S, A), "3 0: (0) 2"),
    ("another serial number before the signer's", signed_data([named("A", 2)], S, certificate("T", "A", 2), A), "3 1: (1) 2"),
    ("a signer that issued itself", signed_data([named("S")], certificate("S", "S"), A), "2 0: (0)"),
    ("a signer that issued itself, and another of its subject", signed_data([named("S")], certificate("S", "S"), A, certificate("S", "A", 2), A), "4 0: (0) (2) 3"),
    ("issuers in a loop", signed_data(BY_A, S, certificate("A", "B"), certificate("B", "A")), "3 0: (0) 1 2"),
    ("issuers in a loop, twice", signed_data(BY_A, S, certificate("A", "B"), certificate("B", "A"), certificate("A", "B"), certificate("B", "A")), "5 0: (0) 1 2 3 4"),
    ("an issuer before its child", signed_data(BY_A, A, S, B), "3 1: (1)"),
    ("an issuer before its child, and again behind it", signed_data(BY_A, A, S, A, B), "4 1: (1) 2 3"),
    ("the signer's subject among the issuers", signed_data(BY_A, S, certificate("A", "S"), certificate("S", "B", 2), B), "4 0: (0) 1 (2) 3"),
    ("members that aren't certificates", signed_data(BY_A, context(0), sequence(), S, context(1, A), set_of(A), A, sequence(A)), "2 0: (0) 1"),
    ("no member is a certificate", signed_data(BY_A, context(0), sequence()), "0"),
    ("a name of another kind of string", signed_data(BY_A, S, A.replace(name(b"A"), PRINTABLE_A), A), "3 0: (0) 2"),
    ("another serial number", signed_data([named("A", 2)], S, A), "2"),
    ("another issuer", signed_data([named("B", 9)], S, A), "2"),
    ("the identifier of a key", signed_data([signer(context_primitive(0, b"\x01"))], S, A), "2"),
    ("no signer", signed_data([], S, A), "2"),
    ("two signers: the first", signed_data([named("B"), named("A")], S, A, B), "3 1: (1) 2"),
    ("two signers: the first names none", signed_data([named("T"), named("A")], S, A, B), "3"),
    ("the same number spelled with a zero in front", signed_data([named("A", spelled=b"\0\1")], S, A), "2"),
    ("one spelled so behind one that isn't", signed_data([named("A", spelled=b"\0\1")], S, certificate("T", "A", spelled=b"\0\1"), A), "3 1: (1) 2"),
    ("one that isn't spelled so behind one that is", signed_data(BY_A, certificate("T", "A", spelled=b"\0\1"), S, A), "3 1: (1) 2"),
    ("a member that fails in its key", signed_data(BY_A, S.replace(RSA, OTHER), S, A.replace(RSA, OTHER), A), "2 0: (0) 1"),
    ("a member that fails in its dates", signed_data(BY_A, S.replace(b"200101", b"201301"), S, A), "2 0: (0) 1"),
    ("certificates left out", signed_data(BY_A), "0"),
    ("no certificates in their field", with_members(BY_A, context(0)), "0"),
    ("other octets after the element", signed_data(BY_A, S) + b"\x00", "no signed data"),
    ("no signed data", S, "no signed data"),
]


def is_certificate(member):
    """Whether the member is a Certificate."""
    try:
        read_certificate(member)
    except Shape:
        return False
    return True


def fields(member):
    """The serial number, the issuer and the subject of a certificate."""
    rest = list(member.kids[0].kids)
    if rest[0].tag == 0xA0:
        rest.pop(0)
    return rest[0], rest[2], rest[4]


def walk(bag, subject, start):
    """The places of the walk that looks for a subject from a place on."""
    place = min((p for p, one in enumerate(bag) if p >= start and one[2] == subject), default=None)
    return [] if place is None else [place, *walk(bag, bag[place][1], place + 1)]


def read_fields(octets):
    """The fields of signed data; None where the octets are none."""
    try:
        whole = read_exact(octets)
        pkcs7(whole)
    except (Malformed, Shape):
        return None
    return whole.kids[1].kids[0].kids


def answer(octets):
    """What is answered to signed data."""
    parts = read_fields(octets)
    if parts is None:
        return "no signed data"
    bag = [fields(member) for part in parts if part.tag == 0xA0 for member in part.kids if is_certificate(member)]
    signers = parts[-1].kids
    sid = signers[0].kids[1] if signers else None
    if not isinstance(sid, Constructed):
        return str(len(bag))
    issuer, serial = sid.kids
    place = min((p for p, one in enumerate(bag) if one[:2] == (serial, issuer)), default=None)
    if place is None:
        return str(len(bag))
    subject = bag[place][2]
    words = (f"({p})" if bag[p][2] == subject else str(p) for p in walk(bag, subject, 0))
    return " ".join((f"{len(bag)} {place}:", *words))


def vectors():
    rows = [(octets, said) for _, octets, said in CASES]
    rows += ((octets, answer(octets)) for _, kind, octets in stored() if kind == "pkcs7")
    return Vectors.of((octets.hex(), said) for octets, said in rows)


def unlike():
    """The rows of which the readers say otherwise."""
    for label, octets, said in CASES:
        if answer(octets) != said:
            yield f"{label}: {said!r} isn't {answer(octets)!r}"
