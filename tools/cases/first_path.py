#!/usr/bin/env python3
"""Write the two input files of the program's stored run.

Usage:

    python3 tools/cases/first_path.py FOLDER

writes into FOLDER, which must exist,

  signature.bin       a WIN_CERTIFICATE of revision 2.0 and type 2 (PKCS #7
                      signed data) around an Authenticode signature for the
                      file whose octets are ``abc``;
  verdict_table.txt   one line, by which the key, message and signature of
                      that file are accepted for ``rsa-sha256``.

and prints the words with which the program accepts them.

The signature has the least form that is accepted: one certificate, one
signer, the three attributes of an Authenticode signer, SHA-256 and RSA
throughout.  The octets of certificate and signature are stand-ins, with
which nothing is computed: the verdict table alone decides.  Other files are
made from the same form through the keywords of `signature_file` and
`verdict_line`.

Nothing here is shared with a reader; the octets can be looked at by

    tail -c +9 FOLDER/signature.bin | openssl asn1parse -inform DER -i
"""

import sys
from dataclasses import dataclass
from hashlib import sha256
from pathlib import Path

sys.path.insert(0, str(Path(__file__).resolve().parents[1]))

from common import command

SIGNATURE_NAME = "signature.bin"
TABLE_NAME = "verdict_table.txt"
FILE_HASH = sha256(b"abc").digest()

# Identifiers, as X.509, PKCS #7 and Authenticode name them.
COMMON_NAME = "2.5.4.3"
RSA_ENCRYPTION = "1.2.840.113549.1.1.1"
SHA256_WITH_RSA = "1.2.840.113549.1.1.11"
SHA256 = "2.16.840.1.101.3.4.2.1"
SIGNED_DATA = "1.2.840.113549.1.7.2"
CONTENT_TYPE = "1.2.840.113549.1.9.3"
MESSAGE_DIGEST = "1.2.840.113549.1.9.4"
INDIRECT_DATA = "1.3.6.1.4.1.311.2.1.4"
OPUS_INFO = "1.3.6.1.4.1.311.2.1.12"
PE_IMAGE_DATA = "1.3.6.1.4.1.311.2.1.15"


# A writer of DER: each function gives the octets of one element.

def element(tag, *parts):
    """Identifier octet, shortest definite length, and the parts joined."""
    contents = b"".join(parts)
    size = len(contents)
    if size < 0x80:
        return bytes([tag, size]) + contents
    length = size.to_bytes((size.bit_length() + 7) // 8, "big")
    return bytes([tag, 0x80 | len(length)]) + length + contents


def sequence(*kids):
    return element(0x30, *kids)


def set_of(*kids):
    return element(0x31, *kids)


def context(number, *kids):
    """A constructed element of context class."""
    return element(0xA0 | number, *kids)


def context_primitive(number, contents=b""):
    return element(0x80 | number, contents)


def integer(contents):
    """An INTEGER from its contents octets, which are written as they are."""
    return element(0x02, contents)


def bit_string(payload):
    """A BIT STRING of whole octets."""
    return element(0x03, b"\x00", payload)


def octet_string(contents):
    return element(0x04, contents)


def null():
    return element(0x05)


def identifier(dotted):
    """An OBJECT IDENTIFIER from its dotted text."""
    first, second, *others = map(int, dotted.split("."))
    return element(0x06, *map(base128, [40 * first + second, *others]))


def base128(number):
    """Seven bits an octet, highest first, bit 8 set in all but the last."""
    octets = [number & 0x7F]
    while number := number >> 7:
        octets.append(0x80 | number & 0x7F)
    return bytes(reversed(octets))


def utf8_string(text):
    return element(0x0C, text)


def utc_time(text):
    return element(0x17, text.encode("ascii"))


# The structures of the form, from the smallest to the whole.

def algorithm(dotted):
    """AlgorithmIdentifier with NULL parameters."""
    return sequence(identifier(dotted), null())


def name(text):
    """Name of one CommonName."""
    return sequence(set_of(sequence(identifier(COMMON_NAME), utf8_string(text))))


def attribute(dotted, *values):
    return sequence(identifier(dotted), set_of(*values))


@dataclass(frozen=True, kw_only=True)
class SignatureFile:
    """The parts of a signature file that can differ.

    `serial`, `modulus` and `exponent` are contents octets of an INTEGER,
    `issuer` and `subject` the octets of a CommonName, the dates the text of
    a UTCTime.  Without a `message_digest` the right one is computed.
    `padding` zeros follow the value and count in the header's length.
    """

    file_hash: bytes = FILE_HASH
    serial: bytes = b"\x01"
    issuer: bytes = b"A"
    subject: bytes = b"A"
    modulus: bytes = b"\x11"
    exponent: bytes = b"\x03"
    signature: bytes = b"\xAA"
    certificate_signature: bytes = b"\xBB"
    not_before: str = "200101000000Z"
    not_after: str = "300101000000Z"
    message_digest: bytes | None = None
    revision: int = 0x0200
    kind: int = 2
    padding: int = 0

    def public_key(self):
        """RSAPublicKey: the key octets of a verdict."""
        return sequence(integer(self.modulus), integer(self.exponent))

    def certificate(self):
        to_be_signed = sequence(
            context(0, integer(b"\x02")),
            integer(self.serial),
            algorithm(SHA256_WITH_RSA),
            name(self.issuer),
            sequence(utc_time(self.not_before), utc_time(self.not_after)),
            name(self.subject),
            sequence(algorithm(RSA_ENCRYPTION), bit_string(self.public_key())),
        )
        return sequence(
            to_be_signed,
            algorithm(SHA256_WITH_RSA),
            bit_string(self.certificate_signature),
        )

    def indirect_data(self):
        """The kids of SpcIndirectDataContent: its contents octets."""
        image = sequence(bit_string(b""), context(0, context(2, context_primitive(0))))
        return (
            sequence(identifier(PE_IMAGE_DATA), image)
            + sequence(algorithm(SHA256), octet_string(self.file_hash))
        )

    def attributes(self):
        """The kids of the signed attributes."""
        digest = self.message_digest
        if digest is None:
            digest = sha256(self.indirect_data()).digest()
        return (
            attribute(CONTENT_TYPE, identifier(INDIRECT_DATA)),
            attribute(OPUS_INFO, sequence(context(1, context_primitive(0)))),
            attribute(MESSAGE_DIGEST, octet_string(digest)),
        )

    def message(self):
        """What is signed: the attributes as a SET (RFC 2315, 9.3)."""
        return set_of(*self.attributes())

    def signer(self):
        return sequence(
            integer(b"\x01"),
            sequence(name(self.issuer), integer(self.serial)),
            algorithm(SHA256),
            context(0, *self.attributes()),
            algorithm(RSA_ENCRYPTION),
            octet_string(self.signature),
        )

    def value(self):
        """ContentInfo of SignedData."""
        content = sequence(
            identifier(INDIRECT_DATA),
            context(0, sequence(self.indirect_data())),
        )
        signed_data = sequence(
            integer(b"\x01"),
            set_of(algorithm(SHA256)),
            content,
            context(0, self.certificate()),
            context(1),
            set_of(self.signer()),
        )
        return sequence(identifier(SIGNED_DATA), context(0, signed_data))

    def octets(self):
        """Header (length, revision, type, all little-endian) and value."""
        value = self.value() + bytes(self.padding)
        header = (
            (8 + len(value)).to_bytes(4, "little")
            + self.revision.to_bytes(2, "little")
            + self.kind.to_bytes(2, "little")
        )
        return header + value

    def verdict(self):
        """The line of a verdict table that accepts the signature."""
        judged = self.public_key(), self.message(), self.signature
        digests = (sha256(octets).hexdigest() for octets in judged)
        return "rsa-sha256 " + " ".join(digests) + "\n"


def signature_file(**parts):
    """The octets of a signature file; the keywords are SignatureFile's."""
    return SignatureFile(**parts).octets()


def verdict_line(**parts):
    """The line that accepts `signature_file` of the same keywords."""
    return SignatureFile(**parts).verdict()


def main(arguments):
    if len(arguments) != 1:
        return command.usage(__doc__)
    folder = Path(arguments[0])
    (folder / SIGNATURE_NAME).write_bytes(signature_file())
    (folder / TABLE_NAME).write_text(verdict_line(), encoding="ascii", newline="\n")
    print("basic", folder / SIGNATURE_NAME, folder / TABLE_NAME, FILE_HASH.hex())
    return 0


if __name__ == "__main__":
    command.run(main, __doc__)
