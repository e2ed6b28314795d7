"""Signature files with chains of certificates, tokens and excuses, for `check_rows` and `excuse_rows`.

Everything is signed under the demonstration scheme (docs/FORMATS.md), and the
table of a file has a row for each of these signatures.
"""

from dataclasses import dataclass, replace
from hashlib import sha256
from typing import NamedTuple

from cases.basic_making import DATA, Signed, digest_algorithm, extension, named, other_key, rsa_key, rsa_octets
from cases.demo_signatures import signature_of
from cases.first_path import (
    FILE_HASH, RSA_ENCRYPTION, SIGNED_DATA,
    algorithm, attribute, bit_string, context, context_primitive, element, identifier, integer, name, octet_string, sequence, set_of, utc_time,
)

COUNTER_SIGNATURE = "1.2.840.113549.1.9.6"
MICROSOFT_COUNTERSIGNATURE = "1.3.6.1.4.1.311.3.3.1"
BASIC_CONSTRAINTS, SUBJECT_KEY, AUTHORITY_KEY = "2.5.29.19", "2.5.29.14", "2.5.29.35"
# The content of a token of RFC 3161.
STAMP_INFO = "1.2.840.113549.1.9.16.1.4"
OWN = b"own"


# Keys.

class Key(NamedTuple):
    """A key as a certificate has it, the octets that a table names, and the algorithm that it signs by."""

    info: bytes
    octets: bytes
    name: str

    def algorithm(self):
        """The identifier of its signatures."""
        return SIGNATURES[self.name]

    def identifier(self):
        return sha256(self.info).digest()

    def sign(self, message, name=None):
        return signature_of(name or self.name, self.octets, message)


SIGNATURES = {
    "rsa-sha256": algorithm("1.2.840.113549.1.1.11"), "rsa-sha1": algorithm("1.2.840.113549.1.1.5"),
    "p256-sha256": sequence(identifier("1.2.840.10045.4.3.2")), "p384-sha384": sequence(identifier("1.2.840.10045.4.3.3")),
    "ed25519": sequence(identifier("1.3.101.112")),
}


def rsa(number):
    """A key of RSA by the one octet of its modulus."""
    return Key(rsa_key(number), rsa_octets(number), "rsa-sha256")


def wide_rsa(number, size):
    """A key of RSA whose modulus has so many octets."""
    octets = sequence(integer(bytes([number]) * size), integer(b"\x01\x00\x01"))
    return Key(sequence(algorithm(RSA_ENCRYPTION), bit_string(octets)), octets, "rsa-sha256")


def on_curve(curve, name, size, number=1):
    point = b"\x04" + bytes([number]) * (2 * size)
    return Key(sequence(sequence(identifier("1.2.840.10045.2.1"), identifier(curve)), bit_string(point)), point, name)


P256 = on_curve("1.2.840.10045.3.1.7", "p256-sha256", 32)
P384 = on_curve("1.3.132.0.34", "p384-sha384", 48)
OTHER_CURVE = on_curve("1.3.132.0.10", "p256-sha256", 32)
EDWARDS = Key(other_key("1.3.101.112"), bytes(32), "ed25519")
SHORT_EDWARDS = Key(other_key("1.3.101.112", bytes(31)), bytes(31), "ed25519")
AGREEMENT = Key(other_key("1.3.101.110"), bytes(32), "ed25519")
EDWARDS_448 = Key(other_key("1.3.101.113", bytes(57)), bytes(57), "ed25519")
LATTICE = Key(other_key("2.16.840.1.101.3.4.3.17"), bytes(32), "rsa-sha256")


def row(name, *parts):
    return " ".join((name, *(sha256(part).hexdigest() for part in parts)))


# Certificates.

def time(digits):
    """A moment as RFC 5280 4.1.2.5 has it: in two digits of the year from 1950 to 2049."""
    if "1950" <= digits[:4] <= "2049":
        return utc_time(f"{digits[2:]}Z")
    return element(0x18, f"{digits}Z".encode("ascii"))


def constraints(ca, length):
    """Basic constraints; the flag is left out where it is None."""
    flag = () if ca is None else (element(0x01, b"\xff" if ca else b"\0"),)
    limit = () if length is None else (integer(bytes([length])),)
    return extension(BASIC_CONSTRAINTS, sequence(*flag, *limit))


@dataclass(frozen=True, kw_only=True)
class Made:
    """A certificate, by default one of its own key, of no authority.

    `by` is the key that signs it.  `ca` and `length` are its basic constraints, which
    are left out where both are None.  `key_id` and `authority` are the identifiers of
    its key and of that one, None for none.  `outer` and `inner` are the algorithm
    beside it and within, where these are others than that key's.
    """

    subject: bytes = b"S"
    issuer: bytes | None = None
    serial: bytes = b"\x01"
    key: Key = rsa(0x11)
    by: Key | None = None
    begins: str = "20200101000000"
    ends: str = "20300101000000"
    ca: bool | None = False
    length: int | None = None
    key_id: bytes | None = OWN
    authority: bytes | None = OWN
    extensions: tuple = ()
    outer: bytes | None = None
    inner: bytes | None = None

    def signing_key(self):
        return self.by or self.key

    def issuer_text(self):
        return self.subject if self.issuer is None else self.issuer

    def listed(self):
        """The extensions in the order of a builder."""
        key_id = self.key.identifier() if self.key_id == OWN else self.key_id
        authority = self.signing_key().identifier() if self.authority == OWN else self.authority
        return (
            *((constraints(self.ca, self.length),) if (self.ca, self.length) != (None, None) else ()),
            *self.extensions,
            *((extension(SUBJECT_KEY, octet_string(key_id)),) if key_id is not None else ()),
            *((extension(AUTHORITY_KEY, sequence(context_primitive(0, authority))),) if authority is not None else ()),
        )

    def to_be_signed(self):
        listed = self.listed()
        return sequence(
            context(0, integer(b"\x02")), integer(self.serial), self.inner or self.signing_key().algorithm(), name(self.issuer_text()),
            sequence(time(self.begins), time(self.ends)), name(self.subject), self.key.info, *((context(3, sequence(*listed)),) if listed else ()),
        )

    def signature(self):
        return self.signing_key().sign(self.to_be_signed())

    def octets(self):
        return sequence(self.to_be_signed(), self.outer or self.signing_key().algorithm(), bit_string(self.signature()))

    def rows(self):
        key = self.signing_key()
        return [row(key.name, key.octets, self.to_be_signed(), self.signature())]

    def named(self):
        return named(self.issuer_text(), self.serial)


@dataclass(frozen=True)
class Other:
    """A member of signed data of which nothing is signed."""

    element: bytes

    def octets(self):
        return self.element

    def rows(self):
        return []


# Tokens.

@dataclass(frozen=True)
class Token:
    """Signed data that stamps a signature, of these certificates."""

    members: tuple

    def octets(self):
        stamper = sequence(integer(b"\x01"), named(), digest_algorithm("sha256"), algorithm(RSA_ENCRYPTION), octet_string(b"\xAA"))
        inner = sequence(
            integer(b"\x03"), set_of(digest_algorithm("sha256")), sequence(identifier(STAMP_INFO), context(0, octet_string(sequence()))),
            *((context(0, *(member.octets() for member in self.members)),) if self.members else ()), set_of(stamper),
        )
        return sequence(identifier(SIGNED_DATA), context(0, inner))

    def rows(self):
        return [line for member in self.members for line in member.rows()]


def token(*members):
    return Token(members)


def countersigned(*tokens):
    """The unsigned attribute of Microsoft's, with these tokens as its values."""
    return attribute(MICROSOFT_COUNTERSIGNATURE, *(one.octets() for one in tokens))


def counter_signature():
    """An unsigned attribute as PKCS #9 has it."""
    return attribute(COUNTER_SIGNATURE, sequence(integer(b"\x01"), named(), digest_algorithm("sha256"), algorithm(RSA_ENCRYPTION), octet_string(b"\xAA")))


# Files.

class File(NamedTuple):
    octets: bytes
    table: str
    file_hash: bytes = FILE_HASH


def file(*bag, signer=None, tokens=(), unsigned=None, **parts):
    """A signature file by a member of its bag, the first one unless another is given.

    Its first unsigned attribute has the tokens, where there are some; `unsigned` are
    other attributes in its place.  `parts` are those of `Signed`.
    """
    signer = signer or bag[0]
    if unsigned is None and tokens:
        unsigned = (countersigned(*tokens),)
    known = {"members": tuple(member.octets() for member in bag), "named": signer.named(), "accepted": signer.key.octets, "unsigned": unsigned}
    signed = Signed(**(known | parts))
    signed = replace(signed, signature=signer.key.sign(signed.message(), f"rsa-{signed.digest}"))
    rows = [signed.table().rstrip("\n"), *(line for one in (*bag, *tokens) for line in one.rows())]
    return File(signed.file(), "".join(f"{line}\n" for line in dict.fromkeys(rows) if line))


DATA_ALONE = sequence(identifier(DATA))
