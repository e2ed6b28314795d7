"""Signature files put together part by part, for `basic_steps`: what can differ, and what is then in them.

The octets of keys and signatures are stand-ins, with which nothing is computed:
the table alone decides.
"""

from dataclasses import dataclass
from hashlib import new, sha256

from cases.first_path import (
    CONTENT_TYPE, FILE_HASH, INDIRECT_DATA, MESSAGE_DIGEST, OPUS_INFO, PE_IMAGE_DATA, RSA_ENCRYPTION, SHA256_WITH_RSA, SIGNED_DATA,
    algorithm, attribute, bit_string, context, context_primitive, element, identifier, integer, name, octet_string, sequence, set_of, utc_time,
)

CODE_SIGNING = "1.3.6.1.5.5.7.3.3"
TIME_STAMPING = "1.3.6.1.5.5.7.3.8"
EXTENDED_KEY_USAGE = "2.5.29.37"
DATA = "1.2.840.113549.1.7.1"

# Digests by the names that tables have, and one more.
DIGESTS = {
    "md5": "1.2.840.113549.2.5", "sha1": "1.3.14.3.2.26",
    "sha256": "2.16.840.1.101.3.4.2.1", "sha384": "2.16.840.1.101.3.4.2.2",
    "sha512": "2.16.840.1.101.3.4.2.3", "sha224": "2.16.840.1.101.3.4.2.4",
    "sha3_256": "2.16.840.1.101.3.4.2.8",
}


def digest_algorithm(digest):
    return algorithm(DIGESTS.get(digest, digest))


def digest_of(digest, octets):
    return new(digest if digest in DIGESTS else "sha256", octets).digest()


# Keys, and the octets of them that a table names.

def rsa_octets(modulus):
    return sequence(integer(bytes([modulus])), integer(b"\x03"))


def rsa_key(modulus=0x11):
    return sequence(algorithm(RSA_ENCRYPTION), bit_string(rsa_octets(modulus)))


POINT = b"\x04" + bytes(range(64))
EC_KEY = sequence(sequence(identifier("1.2.840.10045.2.1"), identifier("1.2.840.10045.3.1.7")), bit_string(POINT))


def other_key(dotted, octets=bytes(32)):
    """A key whose algorithm has no parameters."""
    return sequence(sequence(identifier(dotted)), bit_string(octets))


# Certificates.

def extension(dotted, value, *flags):
    return sequence(identifier(dotted), *flags, octet_string(value))


def usage(*purposes, critical=False):
    """An extended key usage (RFC 5280 4.2.1.12)."""
    flags = (element(0x01, b"\xff"),) if critical else ()
    return extension(EXTENDED_KEY_USAGE, sequence(*map(identifier, purposes)), *flags)


def certificate(subject=b"A", issuer=b"A", serial=b"\x01", key=None, extensions=(), issuer_name=None):
    """A certificate; an issuer by its text, or as a whole name."""
    listed = (context(3, sequence(*extensions)),) if extensions else ()
    to_be_signed = sequence(
        context(0, integer(b"\x02")), integer(serial), algorithm(SHA256_WITH_RSA), issuer_name or name(issuer),
        sequence(utc_time("200101000000Z"), utc_time("300101000000Z")), name(subject), key or rsa_key(), *listed,
    )
    return sequence(to_be_signed, algorithm(SHA256_WITH_RSA), bit_string(b"\xBB"))


def named(issuer=b"A", serial=b"\x01"):
    """The signer by issuer and serial number."""
    return sequence(name(issuer), integer(serial))


# Signed data.

@dataclass(frozen=True, kw_only=True)
class Signed:
    """Signed data that is accepted, but for the parts that are given.

    `digest` names the digest algorithm of all three places: a name of DIGESTS, or
    an identifier.  `message_digests` has a tuple of values for each such attribute.
    `accepted` are the octets of the key that the table accepts, None for a table
    without a row; `over` what it accepts the signature over, where that isn't the
    attributes as a SET.
    """

    version: bytes = b"\x01"
    digest: str = "sha256"
    listed: tuple | None = None
    content: bytes | None = None
    image: bytes = b""
    of_content: bytes | None = None
    file_digest: bytes = FILE_HASH
    key: bytes | None = None
    extensions: tuple = ()
    members: tuple | None = None
    field: bytes | None = None
    signers: tuple | None = None
    copies: int = 1
    signer_version: bytes = b"\x01"
    named: bytes = named()
    of_signer: bytes | None = None
    message_digests: tuple | None = None
    attributes: tuple | None = None
    attributed: bool = True
    signed_by: bytes = algorithm(RSA_ENCRYPTION)
    signature: bytes = b"\xAA"
    unsigned: tuple | None = None
    accepted: bytes | None = rsa_octets(0x11)
    row: str | None = None
    over: bytes | None = None
    file_hash: bytes = FILE_HASH
    kind: int = 2
    behind: bytes = b""

    def indirect_data(self):
        """The contents octets of SpcIndirectDataContent."""
        of_file = self.of_content or digest_algorithm(self.digest)
        return sequence(identifier(PE_IMAGE_DATA), self.image) + sequence(of_file, octet_string(self.file_digest))

    def content_info(self):
        if self.content is not None:
            return self.content
        return sequence(identifier(INDIRECT_DATA), context(0, sequence(self.indirect_data())))

    def right_digest(self):
        return digest_of(self.digest, self.indirect_data())

    def attribute_kids(self):
        if self.attributes is not None:
            return b"".join(self.attributes)
        digests = ((self.right_digest(),),) if self.message_digests is None else self.message_digests
        return b"".join((
            attribute(CONTENT_TYPE, identifier(INDIRECT_DATA)),
            attribute(OPUS_INFO, sequence(context(1, context_primitive(0)))),
            *(attribute(MESSAGE_DIGEST, *map(octet_string, values)) for values in digests),
        ))

    def message(self):
        """The attributes as a SET."""
        return set_of(self.attribute_kids() if self.attributed else b"")

    def signer(self):
        attributes = (context(0, self.attribute_kids()),) if self.attributed else ()
        unsigned = () if self.unsigned is None else (context(1, *self.unsigned),)
        return sequence(
            integer(self.signer_version), self.named, self.of_signer or digest_algorithm(self.digest), *attributes,
            self.signed_by, octet_string(self.signature), *unsigned,
        )

    def certificates(self):
        """The field of certificates, which may be left out."""
        if self.field is not None:
            return self.field
        own = certificate(key=self.key, extensions=self.extensions)
        return context(0, *((own,) if self.members is None else self.members))

    def value(self):
        algorithms = (digest_algorithm(self.digest),) if self.listed is None else self.listed
        signers = (self.signer(),) * self.copies if self.signers is None else self.signers
        signed_data = sequence(
            integer(self.version), set_of(*algorithms), self.content_info(), self.certificates(), context(1), set_of(*signers),
        )
        return sequence(identifier(SIGNED_DATA), context(0, signed_data))

    def file(self):
        """A WIN_CERTIFICATE of revision 2.0, its length counting what is behind the value."""
        value = self.value() + self.behind
        return (8 + len(value)).to_bytes(4, "little") + b"\x00\x02" + self.kind.to_bytes(2, "little") + value

    def table(self):
        if self.accepted is None:
            return ""
        message = self.message() if self.over is None else self.over
        parts = (sha256(part).hexdigest() for part in (self.accepted, message, self.signature))
        return " ".join((self.row or f"rsa-{self.digest if self.digest in DIGESTS else 'sha256'}", *parts)) + "\n"
