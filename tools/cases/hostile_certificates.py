"""Certificates that a reader has to read or to refuse, at the edges of the formats, put together by hand.

A row has the answer, the octets and why it is there.  The answer is `same`, or `changed` where what
is written has its flags as DER has them, `Shape`, or the fault.  What all rows don't say is short:
empty names, a key and a signature of no octets.
"""

from cases.first_path import (
    bit_string, context, context_primitive, element, identifier, integer, null, octet_string, sequence, set_of, utc_time,
    utf8_string,
)

ED = sequence(identifier("1.3.101.112"))
KEY = sequence(ED, bit_string(b""))
EMPTY = bit_string(b"")
VALIDITY = sequence(utc_time("200101000000Z"), utc_time("300101000000Z"))
FIELDS = {
    "version": context(0, integer(b"\2")), "serial": integer(b"\1"), "signature": ED, "issuer": sequence(), "validity": VALIDITY,
    "subject": sequence(), "key": KEY, "extensions": b"",
}
TRUE = b"\1\1\xff"


def certificate(*, algorithm=ED, value=EMPTY, **fields):
    return sequence(sequence(*(FIELDS | fields).values()), algorithm, value)


def extended(*extensions):
    return certificate(extensions=context(3, sequence(*extensions)))


def extension(arc, *contents):
    return sequence(identifier(f"2.5.29.{arc}"), octet_string(b"".join(contents)))


def holding(arc, *contents):
    """A certificate with one extension of these contents."""
    return extended(extension(arc, *contents))


def constraints(*parts):
    return holding(19, sequence(*parts))


def key_of(oid, parameters, octets=b""):
    return certificate(key=sequence(sequence(identifier(oid), parameters), bit_string(octets)))


def levels(count):
    """An element of so many levels."""
    octets = null()
    for _ in range(count - 1):
        octets = sequence(octets)
    return octets


def named(value):
    return certificate(issuer=sequence(set_of(sequence(identifier("2.5.4.3"), value))))


RSA, DSA, DH, EC = "1.2.840.113549.1.1.1", "1.2.840.10040.4.1", "1.2.840.10046.2.1", "1.2.840.10045.2.1"
PSS, P256 = "1.2.840.113549.1.1.10", identifier("1.2.840.10045.3.1.7")
NUMBERS = sequence(integer(b"\3"), integer(b"\3"), integer(b"\3"))
MODULUS, EXPONENT = integer(b"\0\xc1"), integer(b"\3")
OID = identifier("1.2.3")
PLAIN = certificate()
LISTED = extended(sequence(OID, octet_string(b"")))

KEYS = [
    ("Shape", key_of(DSA, NUMBERS, integer(b"\3")), "a key of DSA"),
    ("Shape", key_of(DSA, b"", integer(b"\3")), "a key of DSA without parameters"),
    ("Shape", key_of(PSS, b"", sequence(MODULUS, EXPONENT)), "a key for RSASSA-PSS alone"),
    ("Shape", key_of(PSS, sequence(), sequence(MODULUS, EXPONENT)), "a key for RSASSA-PSS alone with parameters"),
    ("Shape", key_of(DH, NUMBERS, integer(b"\3")), "a key of Diffie and Hellman"),
    ("same", key_of(RSA, null(), sequence(MODULUS, EXPONENT)), "a key of RSA of eight bits"),
    ("same", key_of(RSA, b"", sequence(MODULUS, EXPONENT)), "a key of RSA without parameters"),
    ("Shape", key_of(RSA, sequence(), sequence(MODULUS, EXPONENT)), "a key of RSA with other parameters"),
    ("Shape", key_of(RSA, null(), sequence(MODULUS)), "a key of RSA without an exponent"),
    ("Shape", key_of(RSA, null(), sequence(MODULUS, EXPONENT) + b"\0"), "a key of RSA with an octet behind"),
    ("Shape", key_of(RSA, null(), b"\x30\x80\0\0"), "a key of RSA of indefinite length"),
    ("Shape", key_of(EC, b"", b"\4"), "a key of a curve without the curve"),
    ("Shape", key_of(EC, NUMBERS, b"\4"), "a curve by its parameters"),
    ("same", key_of(EC, P256, b"\0"), "the point at infinity"),
    ("same", key_of("1.3.101.112", null()), "a key of Ed25519 with NULL parameters"),
]

LENGTHS = [
    ("Truncated 0", b"", "nothing"),
    ("Indefinite 0", b"\x30\x80" + PLAIN[2:] + b"\0\0", "a certificate of indefinite length"),
    ("Indefinite 2", sequence(b"\x30\x80" + PLAIN[4:] + b"\0\0"), "what is signed of indefinite length"),
    ("NotShortest 0", b"\x30\x81" + PLAIN[1:], "the length in a longer form"),
    ("WideLength 0", b"\x30\x85\0\0\0\0" + PLAIN[1:], "a length of five octets"),
    ("Truncated 0", PLAIN[:-1], "an octet too few"),
    ("Overrun 2", sequence(bytes([0x30, PLAIN[3] + 20]) + PLAIN[4:]), "what is signed longer than the certificate"),
    ("Trailing 77", PLAIN + b"\0", "a zero behind"),
    ("Trailing 77", PLAIN + PLAIN, "two certificates"),
    ("HighTag 0", b"\x3f" + PLAIN[1:], "a tag of more octets"),
    ("ReservedTag 2", sequence(b"\0" + PLAIN[3:]), "tag 0"),
]

NUMBERS_OF_FIELDS = [
    ("Shape", constraints(TRUE, integer(b"\xff")), "path length -1"),
    ("Shape", constraints(TRUE, integer(b"\x80")), "path length -128"),
    ("same", constraints(TRUE, integer(b"\0\xff")), "path length 255"),
    ("Shape", constraints(TRUE, integer(b"\1\0")), "path length 256"),
    ("Shape", constraints(TRUE, integer(b"\0\0")), "path length 0 in two octets"),
    ("Shape", constraints(TRUE, integer(b"\1\0\0\0\0")), "path length 4,294,967,296"),
    ("Shape", constraints(TRUE, integer(b"")), "a path length of no octets"),
    ("Shape", certificate(version=context(0, integer(b"\3"))), "version 4, contents 03"),
    ("Shape", certificate(version=context(0, integer(b"\xff"))), "a version below zero"),
    ("same", certificate(serial=integer(b"\x7f" + bytes(40))), "a serial number of 41 octets"),
]

LISTS = [
    ("same", certificate(extensions=context(3, sequence())), "an empty list of extensions"),
    ("same", extended(*2 * (extension(19, sequence(TRUE)),)), "one extension twice"),
    ("same", extended(extension(15, b"\3\2\1\6"), extension(15, b"\3\2\7\x80")), "two key usages"),
    ("same", extended(*3 * (extension(17, sequence(context_primitive(2, b"a"))),)), "one list of names three times"),
]

WRONG = [
    ("Shape", extended(sequence()), "no fields"),
    ("Shape", extended(sequence(OID)), "an identifier alone"),
    ("Shape", extended(sequence(OID, TRUE)), "no value"),
    ("Shape", extended(sequence(octet_string(b""))), "no identifier"),
    ("Shape", extended(sequence(OID, octet_string(b""), null())), "a field behind"),
    ("Shape", extended(sequence(TRUE, OID, octet_string(b""))), "the flag first"),
    ("Shape", extended(sequence(OID, octet_string(b""), TRUE)), "the flag last"),
    ("Shape", extended(sequence(OID, TRUE, TRUE, octet_string(b""))), "two flags"),
    ("Shape", extended(sequence(OID, element(1, b"\xff\xff"), octet_string(b""))), "a flag of two octets"),
    ("Shape", extended(sequence(OID, element(1), octet_string(b""))), "a flag of no octets"),
    ("Shape", extended(sequence(OID, integer(b"\xff"), octet_string(b""))), "an INTEGER as the flag"),
    ("changed", extended(sequence(OID, b"\1\1\0", octet_string(b""))), "the default, given"),
    ("changed", extended(sequence(OID, b"\1\1\x7f", octet_string(b""))), "another octet of TRUE"),
    ("Shape", extended(sequence(OID, bit_string(b""))), "a BIT STRING as the value"),
    ("Shape", extended(sequence(OID, element(0x24, octet_string(b"")))), "a constructed value"),
    ("Shape", extended(set_of(OID, octet_string(b""))), "a SET"),
    ("Shape", extended(null()), "NULL"),
    ("Shape", extended(sequence(element(6), octet_string(b""))), "an identifier of no octets"),
    ("Shape", extended(sequence(element(6, b"\x2a\x80\1"), octet_string(b""))), "an arc with 80 in front"),
    ("Shape", extended(sequence(element(6, b"\x2a\x83"), octet_string(b""))), "an arc without its end"),
]

VALUES = [
    ("Shape", holding(19), "basic constraints of no octets"),
    ("Shape", holding(19, sequence(), b"\0"), "basic constraints with an octet behind"),
    ("Shape", holding(19, b"\x30\x80\0\0"), "basic constraints of indefinite length"),
    ("Shape", holding(19, b"\x30\x81\0"), "basic constraints with their length in a longer form"),
    ("Shape", holding(19, set_of()), "basic constraints in a SET"),
    ("Shape", constraints(integer(b"\1"), TRUE), "the path length first"),
    ("Shape", constraints(TRUE, integer(b"\1"), null()), "a third basic constraint"),
    ("Shape", holding(15, octet_string(b"\7\x80")), "a key usage in an OCTET STRING"),
    ("Shape", holding(15, element(3)), "a key usage of no octets"),
    ("Shape", holding(15, element(3, b"\x08\x80")), "a key usage with eight unused bits"),
    ("Shape", holding(15, element(3, b"\3")), "a key usage with unused bits of nothing"),
    ("same", holding(15, element(3, b"\0")), "a key usage of no bits"),
    ("same", holding(15, element(3, b"\7\xff")), "a key usage with unused bits that are set"),
    ("Shape", holding(37, identifier("1.2.3")), "a purpose without its list"),
    ("Shape", holding(37, sequence(integer(b"\1"))), "an INTEGER as a purpose"),
    ("Shape", holding(14, b"\xaa\xbb"), "a key identifier without its tag"),
    ("Shape", holding(14, bit_string(b"\xaa")), "a key identifier in a BIT STRING"),
    ("Shape", holding(35, sequence(context_primitive(2, b"\1"), context_primitive(0, b"\1"))), "the number of the authority first"),
    ("Shape", holding(35, sequence(context(0, octet_string(b"\1")))), "a constructed key identifier"),
    ("Shape", holding(35, sequence(context_primitive(3, b"\1"))), "a fourth field of the key of the authority"),
    ("same", holding(17, sequence()), "no name in a list of names"),
    ("same", holding(17, b"\xff"), "names that are no element"),
    ("same", holding(17, sequence(context_primitive(2, b"\xe9"))), "a host past the alphabet of seven bits"),
    ("same", holding(17, sequence(context_primitive(7, bytes(5)))), "an address of five octets"),
    ("Shape", certificate(validity=sequence(utc_time("2001010000Z"), utc_time("300101000000Z"))), "a time without seconds"),
    ("Shape", certificate(validity=sequence(utc_time("200101000000+0000"), utc_time("300101000000Z"))), "a time with an offset"),
    ("Shape", certificate(validity=sequence(utc_time("210229000000Z"), utc_time("300101000000Z"))), "29 February 2021"),
    ("Shape", certificate(validity=sequence(element(0x18, b"20200101000000.5Z"), utc_time("300101000000Z"))), "half a second"),
]

LEVELS = [
    ("same", holding(99, levels(64)), "64 levels in an unknown extension"),
    ("same", holding(99, levels(65)), "65 levels in an unknown extension"),
    ("same", holding(35, sequence(element(0xA1, levels(62)))), "64 levels in the key of the authority"),
    ("Shape", holding(35, sequence(element(0xA1, levels(63)))), "65 levels in the key of the authority"),
    ("same", certificate(algorithm=sequence(OID, levels(62))), "64 levels down to the last of the parameters"),
    ("TooDeep 199", certificate(algorithm=sequence(OID, levels(63))), "65 levels down to the last of the parameters"),
    ("same", named(levels(59)), "64 levels down to the last of a name"),
    ("TooDeep 151", named(levels(60)), "65 levels down to the last of a name"),
]

ROWS = KEYS + LENGTHS + NUMBERS_OF_FIELDS + LISTS + WRONG + VALUES + LEVELS


# Long ones: what is in front, what is repeated, how often, and what is behind.

def split(octets, part, times):
    """The octets around a part that is repeated."""
    begin, end = octets.split(part * times)
    return begin, part, times, end


def ml_dsa(arc, size):
    key = sequence(sequence(identifier(f"2.16.840.1.101.3.4.3.{arc}")), bit_string(b"\xa5" * size))
    return split(certificate(key=key), b"\xa5", size)


ATTRIBUTE_SET = set_of(sequence(identifier("2.5.4.3"), utf8_string(b"A")))

LONG = [
    ("same", ml_dsa(17, 1312), "a key of ML-DSA-44, of the length that it has"),
    ("same", ml_dsa(18, 1952), "a key of ML-DSA-65"),
    ("same", ml_dsa(19, 2592), "a key of ML-DSA-87"),
    ("same", split(certificate(subject=sequence(10000 * ATTRIBUTE_SET)), ATTRIBUTE_SET, 10000), "a name of 10,000 sets"),
    ("same", split(holding(99, b"\xa5" * 16777216), b"\xa5", 16777216), "an extension of 16 MiB"),
    ("same", split(extended(*10000 * (sequence(OID, octet_string(b"")),)), sequence(OID, octet_string(b"")), 10000), "10,000 extensions"),
    ("same", split(holding(37, sequence(10000 * OID)), OID, 10000), "10,000 purposes"),
    ("Shape", split(certificate(subject=sequence(10000 * ATTRIBUTE_SET, null())), ATTRIBUTE_SET, 10000), "a name of 10,000 sets and NULL"),
]
