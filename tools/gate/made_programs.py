"""Signed programs and their certificates for tests, made with any keys, digests and extensions by `cryptography`."""

from datetime import datetime
from hashlib import new
from struct import pack

from cryptography import x509
from cryptography.hazmat.primitives import hashes, serialization
from cryptography.hazmat.primitives.asymmetric import ec, padding, rsa
from cryptography.x509.oid import NameOID, ObjectIdentifier

import signed_program
from interop.signature_making import portable_executable
from judges.der_reader import Constructed, Primitive, read_exact, write

FROM, TO = datetime(2022, 1, 1), datetime(2030, 1, 1)
CODE_SIGNING, TIME_STAMPING, SERVERS = "1.3.6.1.5.5.7.3.3", "1.3.6.1.5.5.7.3.8", "1.3.6.1.5.5.7.3.1"
DIGESTS = {"md5": "2a864886f70d0205", "sha1": "2b0e03021a", "sha256": "608648016503040201", "sha384": "608648016503040202"}
INDIRECT_DATA, RSA, SIGNED_DATA = "2b060104018237020104", "2a864886f70d010101", "2a864886f70d010702"
SHA256_WITH_RSA = "06092a864886f70d01010b"
CONTENT_TYPE, MESSAGE_DIGEST = "2a864886f70d010903", "2a864886f70d010904"


def rsa_key(bits=2048):
    return rsa.generate_private_key(65537, bits)


def curve_key(curve=None):
    return ec.generate_private_key(curve or ec.SECP256R1())


def named(name):
    return x509.Name([x509.NameAttribute(NameOID.COMMON_NAME, name)])


class Holder:
    """A key with its certificate, issued by another one or by itself."""

    def __init__(self, name, key, issuer=None, ca=True, purposes=None, hashed=None, serial=None, begins=FROM, ends=TO, extensions=(), identifiers=True):
        self.name, self.key = named(name), key
        by = issuer or self
        builder = x509.CertificateBuilder(by.name, self.name, key.public_key(), serial or x509.random_serial_number(), begins, ends)
        for value, critical in self.extensions(by, ca, purposes, identifiers):
            builder = builder.add_extension(value, critical)
        for value, critical in extensions:
            builder = builder.add_extension(value, critical)
        self.certificate = builder.sign(by.key, hashes.SHA256())
        self.der = self.certificate.public_bytes(serialization.Encoding.DER)
        if hashed is not None:
            self.der = signed_again(self.der, by.key, hashed)

    def extensions(self, by, ca, purposes, identifiers):
        if ca:
            yield x509.BasicConstraints(True, None), True
        if purposes is not None:
            yield x509.ExtendedKeyUsage([ObjectIdentifier(one) for one in purposes]), False
        if identifiers:
            yield x509.SubjectKeyIdentifier.from_public_key(self.key.public_key()), False
            yield x509.AuthorityKeyIdentifier.from_issuer_public_key(by.key.public_key()), False


def signed_again(octets, key, digest):
    """A certificate with an RSA signature by another digest, which `cryptography` doesn't make any more (RFC 8017 A.2.4)."""
    number = {"md5": 4, "sha1": 5}[digest]
    tbs, _, _ = read_exact(octets.replace(bytes.fromhex(SHA256_WITH_RSA), bytes.fromhex(SHA256_WITH_RSA)[:-1] + bytes([number]))).kids
    signature = key.sign(write(tbs), padding.PKCS1v15(), getattr(hashes, digest.upper())())
    return write(Constructed(0x30, (tbs, tbs.kids[2], Primitive(0x03, b"\0" + signature))))


def chain(root_key=None, signer_key=None, purposes=(CODE_SIGNING,), hashed=None, **signer):
    """A root and a signer under it."""
    root = Holder("Root", root_key or rsa_key())
    return root, Holder("Signer", signer_key or rsa_key(), root, ca=False, purposes=purposes, hashed=hashed, **signer)


def oid(octets):
    return Primitive(0x06, bytes.fromhex(octets))


def algorithm(octets):
    return Constructed(0x30, (oid(octets), Primitive(0x05, b"")))


def attribute(kind, value):
    return Constructed(0x30, (oid(kind), Constructed(0x31, (value,))))


def content(digest, octets):
    """SpcIndirectDataContent over a digest."""
    kind = Constructed(0x30, (oid("2b06010401823702010f"), Constructed(0x30, (Primitive(0x03, b"\0"), Constructed(0xA0, (Constructed(0xA2, (Primitive(0x80, b""),)),))))))
    return Constructed(0x30, (kind, Constructed(0x30, (algorithm(DIGESTS[digest]), Primitive(0x04, octets)))))


def signer_info(signer, inside, digest, unsigned=(), more=()):
    """The signer's part over the content's octets, whose tag and length aren't digested."""
    message = new(digest, b"".join(map(write, inside.kids))).digest()
    attributes = (attribute(CONTENT_TYPE, oid(INDIRECT_DATA)), attribute(MESSAGE_DIGEST, Primitive(0x04, message)), *more)
    signature = signer.key.sign(write(Constructed(0x31, attributes)), padding.PKCS1v15(), getattr(hashes, digest.upper())())
    issuer = read_exact(signer.certificate.issuer.public_bytes())
    serial = signer.certificate.serial_number
    named_by = Constructed(0x30, (issuer, Primitive(0x02, serial.to_bytes(serial.bit_length() // 8 + 1, "big"))))
    last = (Constructed(0xA1, tuple(unsigned)),) if unsigned else ()
    return Constructed(0x30, (
        Primitive(0x02, b"\1"), named_by, algorithm(DIGESTS[digest]), Constructed(0xA0, attributes), algorithm(RSA), Primitive(0x04, signature), *last))


def entry(signer, certificates, file_digest, digest="sha256", by="sha256", unsigned=(), padded=True):
    """A WIN_CERTIFICATE over a digest of a program."""
    inside = content(digest, file_digest)
    signed = Constructed(0x30, (
        Primitive(0x02, b"\1"), Constructed(0x31, (algorithm(DIGESTS[by]),)),
        Constructed(0x30, (oid(INDIRECT_DATA), Constructed(0xA0, (inside,)))), Constructed(0xA0, tuple(map(read_exact, certificates))),
        Constructed(0x31, (signer_info(signer, inside, by, unsigned),))))
    der = write(Constructed(0x30, (oid(SIGNED_DATA), Constructed(0xA0, (signed,)))))
    der += bytes(-len(der) % 8 if padded else 0)
    return pack("<IHH", 8 + len(der), 0x0200, 2) + der


def with_table(program, table):
    """A program without a table, with this one."""
    program = program + bytes(-len(program) % 8)
    optional, place, _, _ = signed_program.parts(program)
    return program[:optional + place] + pack("<II", len(program), len(table)) + program[optional + place + 8:] + table


def signed(signer, certificates, program=None, digest="sha256", **how):
    """A program with a signature that is good."""
    program = program or portable_executable()
    # The place of the table isn't digested, so its length may be another one at first.
    hashed = signed_program.image_digest(with_table(program, b""), digest)
    return with_table(program, entry(signer, certificates, bytes.fromhex(hashed), digest, **how))
