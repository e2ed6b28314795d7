"""What a certificate over its parents is answered, from RFC 5280 and the rules of docs/FORMATS.md.

It shares no code with the program.  Signatures are judged by the rows of a
verdict table, as the program judges them.
"""

from dataclasses import dataclass
from hashlib import sha256
from typing import NamedTuple

from judges.asked_signatures import ED25519, RSA, SIGNATURES, Certificate
from judges.der_reader import Malformed, read_exact
from judges.value_reader import Shape, certificate, dotted, inner
from verdict_table import NAMES

ASKED = BASIC_CONSTRAINTS, SUBJECT_KEY, AUTHORITY_KEY = "2.5.29.19", "2.5.29.14", "2.5.29.35"


class Refused(Exception):
    """The name of the first rule that is broken."""


class MalformedSignature(Refused):
    """The signature of a certificate has no form that one of its algorithm could have."""


class Limits(NamedTuple):
    """What basic constraints say (RFC 5280 4.2.1.9)."""

    ca: bool
    length: object


def year_of(element):
    digits = element.contents[:-1].decode("ascii")
    if element.tag == 0x18:
        return digits
    return ("19" if int(digits[:2]) >= 50 else "20") + digits


@dataclass(frozen=True)
class Read:
    """A certificate as the rules see it."""

    parts: Certificate
    begins: str
    ends: str
    limits: Limits
    subject_key: object
    authority_key: object

    @classmethod
    def of(cls, octets):
        """The certificate that octets are."""
        try:
            element = read_exact(octets)
            certificate(element)
        except (Malformed, Shape) as refusal:
            raise Refused("Asn1Deserialization") from refusal
        fields = [field for field in element.kids[0].kids if field.tag not in (0xA0, 0x81, 0x82)]
        begins, ends = map(year_of, fields[3].kids)
        held = [field for field in fields if field.tag == 0xA3]
        values = {}
        for one in held[0].kids[0].kids if held else ():
            oid = dotted(one.kids[0].contents)
            if oid in ASKED:
                values.setdefault(oid, inner(one.kids[-1].contents))
        return cls(
            Certificate.of(element), begins, ends, limits_of(values.get(BASIC_CONSTRAINTS)),
            values[SUBJECT_KEY].contents if SUBJECT_KEY in values else None, named_key(values.get(AUTHORITY_KEY)),
        )

    def expect_valid(self, date):
        """The two ends of its validity (RFC 5280 4.1.2.5), both counted in."""
        if date < self.begins:
            raise Refused("InvalidCertificate:CertificateNotYetValid")
        if date > self.ends:
            raise Refused("InvalidCertificate:CertificateExpired")

    def is_root(self):
        return self.limits.ca and self.parts.subject == self.parts.issuer


def limits_of(constraints):
    ca, length = False, None
    for field in constraints.kids if constraints else ():
        if field.tag == 1:
            ca = field.contents != b"\0"
        else:
            length = int.from_bytes(field.contents, "big")
    return Limits(ca, length)


def named_key(value):
    """The key identifier that an authority key identifier names, None where it names none."""
    found = [field.contents for field in value.kids if field.tag == 0x80] if value else []
    return found[0] if found else None


def expect_parent(parent, child):
    """Key identifiers, where the child names one, and then names (RFC 5280 4.2.1.1, 6.1.3)."""
    if child.authority_key is not None:
        if parent.subject_key is None:
            raise Refused("InvalidCertificate:ExtensionNotFound")
        if parent.subject_key != child.authority_key:
            raise Refused("InvalidCertificate:InvalidChain:AuthorityKeyIdMismatch")
    if child.parts.issuer != parent.parts.subject:
        raise Refused("InvalidCertificate:InvalidChain:IssuerNameMismatch")


def expect_signed(parent, child, rows):
    """The signature of the child by the key of the parent, as the table has it."""
    if child.parts.algorithm not in SIGNATURES:
        raise Refused("Signature")
    algorithm, digest = SIGNATURES[child.parts.algorithm]
    kind, curve = parent.parts.key_names()
    name = {RSA: f"rsa-{digest}", ED25519: "ed25519"}.get(algorithm, f"{curve}-{digest}")
    octets = parent.parts.key_octets(), child.parts.tbs, child.parts.signature
    row = " ".join([name, *(sha256(part).hexdigest() for part in octets)])
    short = algorithm == ED25519 and len(parent.parts.key_octets()) != 32
    if kind != algorithm or short or name not in NAMES:
        raise Refused("InvalidCertificate:Signature")
    verdict = rows.get(row, "reject")
    if verdict == "malformed":
        raise MalformedSignature("InvalidCertificate:Signature")
    if verdict != "accept":
        raise Refused("InvalidCertificate:Signature")


def expect_link(parent, child, number, date, rows):
    """The rules of one parent, in their order: `number` certificates are between it and the first."""
    if not parent.limits.ca:
        raise Refused("InvalidChain:IssuerIsNotCA")
    if parent.limits.length is not None and parent.limits.length < number:
        raise Refused("InvalidChain:TooDeep")
    parent.expect_valid(date)
    expect_parent(parent, child)
    expect_signed(parent, child, rows)


def line(octets, date, rows):
    """The line for certificates, the one that is checked first, at a date in fourteen digits."""
    try:
        checked, *parents = map(Read.of, octets)
        checked.expect_valid(date)
        child = checked
        for number, parent in enumerate(parents):
            expect_link(parent, child, number, date, rows)
            child = parent
        if not child.is_root():
            raise Refused("InvalidChain:NoRoot")
    except Refused as refusal:
        return 1, f"refused {refusal}\n"
    return 0, f"accepted parents={len(parents)}\n"
