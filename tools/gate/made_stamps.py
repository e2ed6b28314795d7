"""Time stamps for tests, of any time and by any certificate: tokens (RFC 3161) and counter-signatures (PKCS #9)."""

from hashlib import sha256

from cryptography import x509
from cryptography.hazmat.primitives import hashes
from cryptography.hazmat.primitives.asymmetric import padding
from cryptography.x509.oid import ObjectIdentifier

from gate.made_programs import (
    CONTENT_TYPE, DIGESTS, FROM, MESSAGE_DIGEST, RSA, SIGNED_DATA, TIME_STAMPING, TO, Holder, algorithm, attribute, oid, rsa_key,
)
from judges.der_reader import Constructed, Primitive, read_exact, write

TST_INFO, DATA = "2a864886f70d0109100104", "2a864886f70d010701"
SIGNING_CERTIFICATE, SIGNING_TIME = "2a864886f70d010910022f", "2a864886f70d010905"
TOKEN, COUNTERSIGNATURE = "2b060104018237030301", "2a864886f70d010906"


def authority(root, begins=FROM, ends=TO, purposes=(TIME_STAMPING,)):
    """Who makes stamps: its usage is critical, and the only one (RFC 3161 2.3)."""
    usages = x509.ExtendedKeyUsage([ObjectIdentifier(one) for one in purposes])
    return Holder("Stamps", rsa_key(), root, ca=False, begins=begins, ends=ends, extensions=[(usages, True)])


def signer_info(by, *attributes):
    issuer, serial = read_exact(by.certificate.issuer.public_bytes()), by.certificate.serial_number
    named = Constructed(0x30, (issuer, Primitive(0x02, serial.to_bytes(serial.bit_length() // 8 + 1, "big"))))
    sorted_ones = tuple(sorted(attributes, key=write))
    signature = by.key.sign(write(Constructed(0x31, sorted_ones)), padding.PKCS1v15(), hashes.SHA256())
    return Constructed(0x30, (Primitive(0x02, b"\1"), named, algorithm(DIGESTS["sha256"]), Constructed(0xA0, sorted_ones), algorithm(RSA), Primitive(0x04, signature)))


def octets(value):
    return Primitive(0x04, value)


def token(by, time, signed):
    """An attribute with a token over the octets of a signature."""
    imprint = Constructed(0x30, (algorithm(DIGESTS["sha256"]), octets(sha256(signed).digest())))
    info = write(Constructed(0x30, (Primitive(0x02, b"\1"), oid("2a0304"), imprint, Primitive(0x02, b"\1"), Primitive(0x18, time))))
    own = Constructed(0x30, (Constructed(0x30, (Constructed(0x30, (octets(sha256(by.der).digest()),)),)),))
    signer = signer_info(by, attribute(CONTENT_TYPE, oid(TST_INFO)), attribute(MESSAGE_DIGEST, octets(sha256(info).digest())), attribute(SIGNING_CERTIFICATE, own))
    data = Constructed(0x30, (
        Primitive(0x02, b"\3"), Constructed(0x31, (algorithm(DIGESTS["sha256"]),)), Constructed(0x30, (oid(TST_INFO), Constructed(0xA0, (octets(info),)))),
        Constructed(0xA0, (read_exact(by.der),)), Constructed(0x31, (signer,))))
    return attribute(TOKEN, Constructed(0x30, (oid(SIGNED_DATA), Constructed(0xA0, (data,)))))


def countersignature(by, time, signed):
    """An attribute with a counter-signature over the octets of a signature."""
    return attribute(COUNTERSIGNATURE, signer_info(
        by, attribute(CONTENT_TYPE, oid(DATA)), attribute(SIGNING_TIME, Primitive(0x17, time)), attribute(MESSAGE_DIGEST, octets(sha256(signed).digest()))))
