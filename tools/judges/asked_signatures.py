"""Which signatures a check of a file may ask for, read in Python, and the tables that `cryptography` gives for them.

This is a reference for the tests, for `bench/` and for the golden output; users have
`picky_ask` and `verdict_table.py`.  A file with a WIN_CERTIFICATE asks for

  - the signature of the first signer over its attributes, by the key of its certificate;
  - of each certificate in the signed data, that by the certificate whose subject is
    its issuer, over its TBSCertificate;
  - of the certificates in the token of a timestamp, the same.

So it asks for those of every order of the certificates, which are more than a check may
ask for, and fewer of a token whose certificates don't issue one another.

A chain has the certificate that is checked first and its nearest parent next, and asks
for the signature of one by the key of the next.  A pool, in any order, asks for that of
one by the key of one whose subject is its issuer.

The digest algorithm of a signature is the one that the signature itself names.  A table
of version 1 has the lines of signatures that `cryptography` verifies, without a verdict.
"""

from hashlib import sha256
from itertools import pairwise
from struct import unpack_from
from typing import NamedTuple

import verdict_table
from common.signature_forms import NotJudged
from judges.der_reader import Constructed, Malformed, read_exact, read_first, write
from judges.value_reader import Shape, certificate, dotted
from judges.verdict_rows import FIRST_LINE
from verdict_table import NAMES

RSA = "1.2.840.113549.1.1.1"
EC = "1.2.840.10045.2.1"
ED25519 = "1.3.101.112"
CURVES = {"1.2.840.10045.3.1.7": "p256", "1.3.132.0.34": "p384", "1.3.132.0.35": "p521"}
DIGESTS = {
    "1.2.840.113549.2.5": "md5", "1.3.14.3.2.26": "sha1",
    "2.16.840.1.101.3.4.2.4": "sha224", "2.16.840.1.101.3.4.2.1": "sha256",
    "2.16.840.1.101.3.4.2.2": "sha384", "2.16.840.1.101.3.4.2.3": "sha512",
}
# The algorithm of a key and the digest that the identifier of a signature names (RFC 8017, RFC 5758, RFC 8410).
SIGNATURES = {
    "1.2.840.113549.1.1.4": (RSA, "md5"), "1.2.840.113549.1.1.5": (RSA, "sha1"),
    "1.2.840.113549.1.1.14": (RSA, "sha224"), "1.2.840.113549.1.1.11": (RSA, "sha256"),
    "1.2.840.113549.1.1.12": (RSA, "sha384"), "1.2.840.113549.1.1.13": (RSA, "sha512"),
    "1.2.840.10045.4.3.2": (EC, "sha256"), "1.2.840.10045.4.3.3": (EC, "sha384"), "1.2.840.10045.4.3.4": (EC, "sha512"),
    ED25519: (ED25519, None),
}
MICROSOFT_COUNTERSIGNATURE = "1.3.6.1.4.1.311.3.3.1"
MOST_ASKED = 10_000


class NotASignatureFile(Exception):
    """The file isn't a WIN_CERTIFICATE with signed data."""


# What a reader here meets where elements of DER are none of the structure that it walks through.
UNFORMED = (AttributeError, IndexError, ValueError, Shape)


class NotACertificate(Exception):
    """The file isn't one certificate."""


class TooManyAsked(Exception):
    """The check of the file may ask for more signatures than a table is made for."""


class Certificate(NamedTuple):
    """The parts of a certificate that a signature rests on."""

    tbs: bytes
    serial: bytes
    issuer: bytes
    subject: bytes
    key_info: Constructed
    algorithm: str
    signature: bytes

    @classmethod
    def of(cls, element):
        tbs, algorithm, signature = element.kids
        fields = [field for field in tbs.kids if field.tag != 0xA0]
        return cls(
            write(tbs), fields[0].contents, write(fields[2]), write(fields[4]),
            fields[5], dotted(algorithm.kids[0].contents), signature.contents[1:],
        )

    def key_octets(self):
        return self.key_info.kids[1].contents[1:]

    def key_names(self):
        """The identifier of the key's algorithm, and its curve, where it has one."""
        oid, *parameters = self.key_info.kids[0].kids
        named = [dotted(one.contents) for one in parameters if one.tag == 6]
        return dotted(oid.contents), CURVES.get(named[0]) if named else None


class Asked(NamedTuple):
    """A signature that the check of a file may ask for."""

    what: str
    key: Certificate
    algorithm: str
    digest: str
    message: bytes
    signature: bytes

    def name(self):
        """The name in a table, None where there is none or the key isn't for the algorithm."""
        algorithm, curve = self.key.key_names()
        if algorithm != self.algorithm:
            return None
        name = {RSA: f"rsa-{self.digest}", EC: f"{curve}-{self.digest}", ED25519: "ed25519"}[algorithm]
        return name if name in NAMES else None

    def parts(self):
        """What the verdict rests on."""
        return write(self.key.key_info), self.algorithm, self.digest, self.message, self.signature

    def line(self):
        parts = self.key.key_octets(), self.message, self.signature
        return " ".join([self.name(), *(sha256(part).hexdigest() for part in parts)])

    def verdict(self):
        """What a table says of the signature; NotJudged where it has no row."""
        return verdict_table.verdict(self.name(), self.key.key_octets(), self.message, self.signature)


# What is in a file.

def content_info_in(octets):
    """The element in a WIN_CERTIFICATE, and how many octets it has."""
    if octets.startswith(b"MZ"):
        raise NotASignatureFile("it is a program, whose signature tools/signed_program.py takes out")
    if len(octets) < 8:
        raise NotASignatureFile("it has fewer than eight octets")
    length, = unpack_from("<I", octets)
    if not 8 <= length <= len(octets):
        if b"-----BEGIN " in octets:
            raise NotASignatureFile("it is PEM; a WIN_CERTIFICATE is its header and DER, as tools/signed_program.py takes it out of a program")
        raise NotASignatureFile(f"it has {len(octets)} octets, and its header says {length}")
    try:
        return read_first(octets[8:length])
    except Malformed as refusal:
        raise NotASignatureFile(f"its certificate isn't one element of DER: {refusal}") from refusal


def signed_data_in(octets):
    """The certificates and the signers of the signed data in a WIN_CERTIFICATE."""
    return signed_fields(content_info_in(octets)[0])


def signed_fields(element):
    """The certificates and the signers of signed data (RFC 5652 5.1)."""
    try:
        fields = element.kids[1].kids[0].kids
        held = [field for field in fields[3:-1] if field.tag == 0xA0]
        return bag(held[0].kids if held else ()), fields[-1].kids
    except UNFORMED as error:
        raise NotASignatureFile("its certificate isn't signed data") from error


def bag(members):
    """The members that are certificates."""
    found = []
    for member in members:
        try:
            certificate(member)
        except Shape:
            continue
        found.append(Certificate.of(member))
    return found


# What a check may ask for.

def of_signer(signer, certificates):
    """The signature of a signer named by its issuer and serial number, by RSA with its digest (RFC 5652 5.3, 5.4)."""
    _, named, digest, *rest = signer.kids
    if named.tag != 0x30:
        return
    issuer, serial = write(named.kids[0]), named.kids[1].contents
    attributes = rest.pop(0).kids if rest[0].tag == 0xA0 else ()
    signature = rest[1].contents
    name = DIGESTS.get(dotted(digest.kids[0].contents))
    for one in certificates:
        if (one.issuer, one.serial) == (issuer, serial):
            yield Asked("the signer", one, RSA, name, write(Constructed(0x31, tuple(attributes))), signature)
            return


def of_certificates(certificates, where):
    """The signature of each certificate by each whose subject is its issuer (RFC 5280 4.1.1.3), once by each key."""
    parents, children = {}, {}
    for place, one in enumerate(certificates):
        parents.setdefault(one.subject, {}).setdefault(write(one.key_info), one)
        children.setdefault((one.tbs, one.algorithm, one.signature), (place, one))
    for place, child in children.values():
        algorithm, digest = SIGNATURES.get(child.algorithm, (None, None))
        for parent in parents.get(child.issuer, {}).values():
            yield Asked(f"certificate {place} of {where}", parent, algorithm, digest, child.tbs, child.signature)


def token_of(signer):
    """The token that the first unsigned attribute holds, None where it holds none."""
    unsigned = signer.kids[-1]
    if unsigned.tag != 0xA1 or not unsigned.kids:
        return None
    kind, values = unsigned.kids[0].kids
    return values.kids[0] if dotted(kind.contents) == MICROSOFT_COUNTERSIGNATURE and values.kids else None


def asked_of(octets):
    """Each signature that the check of the file may ask for."""
    certificates, signers = signed_data_in(octets)
    try:
        signed = [*of_signer(signers[0], certificates)] if signers else []
        token = token_of(signers[0]) if signers else None
    except UNFORMED as error:
        raise NotASignatureFile("its signer is none of signed data") from error
    yield from signed
    yield from of_certificates(certificates, "the signed data")
    if token is not None:
        yield from of_certificates(signed_fields(token)[0], "the token")


def certificate_in(octets):
    """The parts of the certificate that octets are."""
    try:
        element = read_exact(octets)
        certificate(element)
    except Malformed as refusal:
        raise NotACertificate(f"it isn't one element of DER: {refusal}") from refusal
    except Shape as refusal:
        raise NotACertificate(f"it isn't a certificate of a shape that is read here{': ' if str(refusal) else ''}{refusal}") from refusal
    return Certificate.of(element)


def asked_of_chain(certificates):
    """The signature of each certificate by the next one (RFC 5280 4.1.1.3)."""
    for place, (child, parent) in enumerate(pairwise(certificates)):
        algorithm, digest = SIGNATURES.get(child.algorithm, (None, None))
        yield Asked(f"certificate {place}", parent, algorithm, digest, child.tbs, child.signature)


def table(octets, version=1):
    """The lines of the table for a signature file, and what isn't accepted."""
    return table_of(asked_of(octets), version)


def chain_table(files, version=1):
    """The lines of the table for certificates, by their octets, and what isn't accepted."""
    return table_of(asked_of_chain(map(certificate_in, files)), version)


def pool_table(files, version=1):
    """The same for certificates in any order."""
    return table_of(of_certificates(map(certificate_in, files), "the pool"), version)


def table_of(all_asked, version=1):
    """The lines for signatures that are asked for, and what isn't accepted."""
    verdicts, lacking, seen = {}, [], set()
    for asked in all_asked:
        if asked.parts() in seen:
            continue
        if len(seen) == MOST_ASKED:
            raise TooManyAsked(f"more than {MOST_ASKED} signatures are asked for")
        seen.add(asked.parts())
        if asked.name() is None:
            lacking.append(f"{asked.what}: no name in a table")
            continue
        try:
            verdict, line = asked.verdict(), asked.line()
        except NotJudged as why:
            lacking.append(f"{asked.what}: it has no row: {why}")
            continue
        if verdict != "accept":
            lacking.append(f"{asked.what}: {'malformed' if verdict == 'malformed' else 'not accepted'} as {asked.name()}")
        verdicts[line] = verdict
    if version == 1:
        return [line for line, verdict in verdicts.items() if verdict == "accept"], lacking
    return [FIRST_LINE, *(f"{verdict} {line}" for line, verdict in verdicts.items())], lacking
