"""The signed data of a signature file, as the users' scripts read it to show it or to put it in order (RFC 5652 5.1, 5.3)."""

from struct import unpack_from
from typing import NamedTuple

from common import der
from common.der import NOT_READ, Element

DIGESTS = {
    "1.2.840.113549.2.5": "md5", "1.3.14.3.2.26": "sha1",
    "2.16.840.1.101.3.4.2.4": "sha224", "2.16.840.1.101.3.4.2.1": "sha256",
    "2.16.840.1.101.3.4.2.2": "sha384", "2.16.840.1.101.3.4.2.3": "sha512",
}
INDIRECT_DATA = "1.3.6.1.4.1.311.2.1.4"
# The attribute with a token of RFC 3161.
TOKEN = "1.3.6.1.4.1.311.3.3.1"
HEADER = 8
CERTIFICATES, LISTS, SIGNED, UNSIGNED = 0xA0, 0xA1, 0xA0, 0xA1


class NotASignatureFile(Exception):
    """The file isn't a WIN_CERTIFICATE with signed data."""


class Fields(NamedTuple):
    """The fields of signed data: its content's type and content, the element with its certificates, that with lists, its signers."""

    content_type: Element
    content: object
    certificates: object
    lists: object
    signers: Element

    @classmethod
    def of(cls, element: Element) -> "Fields":
        """Those of a ContentInfo; what NOT_READ has where it isn't one of signed data."""
        _, held = element.expect(der.SEQUENCE).kids(2)
        signed, = held.expect(0xA0).kids(1)
        _, _, content, *others = signed.expect(der.SEQUENCE).kids(6)
        kind, *inside = content.expect(der.SEQUENCE).kids(2)
        *optional, signers = others
        by_tag = {one.tag: one for one in reversed(optional)}
        found = inside[0].expect(0xA0).kids(1)[0] if inside else None
        return cls(kind, found, by_tag.get(CERTIFICATES), by_tag.get(LISTS), signers.expect(der.SET))

    def first_signer(self) -> object:
        return next(self.signers.walk(), None)


class SignerFields(NamedTuple):
    """The fields of a signer, by their elements; its attributes are None where there are none."""

    element: Element
    identifier: Element
    digest: Element
    signed: object
    algorithm: Element
    signature: Element
    unsigned: object

    @classmethod
    def of(cls, element: Element) -> "SignerFields":
        _, identifier, digest, *rest = element.expect(der.SEQUENCE).kids(7)
        signed = rest.pop(0) if rest[0].tag == SIGNED else None
        algorithm, signature, *unsigned = rest
        found = unsigned[0] if unsigned and unsigned[0].tag == UNSIGNED else None
        return cls(element, identifier, digest, signed, algorithm, signature.expect(der.OCTETS), found)

    def issuer_and_serial(self) -> tuple:
        """The issuer's encoding and the serial number's contents by which it names its certificate."""
        issuer, serial = self.identifier.expect(der.SEQUENCE).kids(2)
        return issuer.encoding, serial.expect(der.INTEGER).contents


def content_info_in(octets: bytes) -> Element:
    """The element in a WIN_CERTIFICATE."""
    if octets.startswith(b"MZ"):
        raise NotASignatureFile("it is a program, whose signature tools/signed_program.py takes out")
    if len(octets) < HEADER:
        raise NotASignatureFile("it has fewer than eight octets")
    length, = unpack_from("<I", octets)
    if not HEADER <= length <= len(octets):
        if b"-----BEGIN " in octets:
            raise NotASignatureFile("it is PEM; a WIN_CERTIFICATE is its header and DER, as tools/signed_program.py takes it out of a program")
        raise NotASignatureFile(f"it has {len(octets)} octets, and its header says {length}")
    try:
        return der.element_at(octets, HEADER, length)
    except NOT_READ as refusal:
        raise NotASignatureFile(f"its certificate isn't one element of DER: {refusal}") from refusal


def fields_in(octets: bytes) -> Fields:
    """The fields of the signed data in a WIN_CERTIFICATE."""
    element = content_info_in(octets)
    try:
        return Fields.of(element)
    except NOT_READ as refusal:
        raise NotASignatureFile("its certificate isn't signed data") from refusal
