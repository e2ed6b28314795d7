"""A row for every refusal of the steps that `basic_judge` lists, and rows with several faults, the first of which is answered.

Each row has its answer, found by hand from the steps.
"""

from hashlib import sha256
from itertools import combinations

from cases.basic_making import (
    CODE_SIGNING, DATA, EC_KEY, POINT, TIME_STAMPING, Signed, certificate, digest_algorithm, digest_of, extension, named, other_key,
    rsa_key, rsa_octets, usage,
)
from cases.basic_rows import ACCEPTED, NO_SIGNED_DATA, NOT_READ, OTHER_DIGEST, SIGNATURE_ERROR, mismatch, no_certificate, unread, wrong_type
from cases.first_path import (
    COMMON_NAME, CONTENT_TYPE, FILE_HASH, INDIRECT_DATA, MESSAGE_DIGEST, SHA256,
    algorithm, attribute, context, context_primitive, element, identifier, integer, name, octet_string, sequence, set_of, utf8_string,
)

OTHER_HASH = sha256(b"abd").digest()
NO_USAGE = "NoEKUCodeSigning"
SECOND = "accepted Some(1) [] None"


def key_error(kind):
    return f"SignatureError Key error: unsupported algorithm: {kind}"


def hash_mismatch(actual, made=Signed()):
    return f"HashMismatch {actual.hex() or '-'} {made.right_digest().hex()}"


# Parts that rows share.
WITHOUT_NULL = sequence(identifier(SHA256))
SHA1, SHA256_NULL = digest_algorithm("sha1"), digest_algorithm("sha256")
RIGHT = Signed().right_digest()
WRONG = bytes(32)
WHOLE = sha256(sequence(Signed().indirect_data())).digest()
BY_KEY = context_primitive(0, b"\xAA")
SMALL_SIGNER = sequence(integer(b"\x01"), BY_KEY, WITHOUT_NULL, WITHOUT_NULL, octet_string(b""))
DATA_CONTENT = sequence(identifier(DATA), context(0, octet_string(b"abc")))
EMPTY_LIST = sequence(
    sequence(identifier("1.3.6.1.4.1.311.12.1.1")), element(0x17), sequence(identifier("1.3.6.1.4.1.311.12.1.2")), sequence(),
)
LIST_CONTENT = sequence(identifier("1.3.6.1.4.1.311.10.1"), context(0, EMPTY_LIST))


def name_of(*sets):
    """A name by its sets of pairs: an identifier, and a value as an element."""
    return sequence(*(set_of(*(sequence(identifier(oid), value) for oid, value in members)) for members in sets))


MANY_WORDS = name_of(
    [("2.5.4.6", element(0x13, b"DE"))],
    [("2.5.4.10", utf8_string("Caf\u00e9".encode())), ("2.5.4.11", element(0x1E, b"\x26\x03"))],
    [(COMMON_NAME, element(0x14, b"A\xE9")), ("1.2.3", element(0x02, b"\x05"))],
    [("1.2.840.113549.1.9.1", element(0x16, b"a@b"))],
)


def signer_by(issuer, serial=b"\x01"):
    return sequence(issuer, integer(serial))


def counter_signed(levels):
    """Unsigned attributes that are counter-signatures, each in the one before."""
    unsigned = ()
    for _ in range(levels):
        signer = sequence(integer(b"\x01"), named(), SHA256_NULL, algorithm("1.2.840.113549.1.1.1"), octet_string(b"\xAA"), *unsigned)
        unsigned = (context(1, attribute("1.2.840.113549.1.9.6", signer)),)
    return unsigned


def deep(levels):
    return tuple(kid for field in counter_signed(levels) for kid in kids_of(field))


def kids_of(field):
    """The one element in an element of a long or a short length."""
    size = field[1]
    return (field[2 if size < 0x80 else 2 + size - 0x80:],)


EMPTY_SIGNED_DATA = "302706092a864886f70d010702a01a3018020101310030" "0b06092a864886f70d010701a000a1003100"

# The value, what is answered.
VALUE = [
    ("a counter-signature of a counter-signature, thirteen deep", Signed(unsigned=deep(13)), ACCEPTED),
    ("fourteen deep", Signed(unsigned=deep(14)), lambda made: f"{NOT_READ}malformed DER: an element nested deeper than 64 levels at octet {too_deep_at(made)}"),
    ("a member that is no certificate before the signer's", Signed(members=(sequence(), certificate())), ACCEPTED),
    ("attribute certificates and others before the signer's", Signed(members=(context(1, sequence()), context(0), certificate())), ACCEPTED),
    ("a countersignature that is none", Signed(unsigned=(attribute("1.2.840.113549.1.9.6", sequence()),)), NO_SIGNED_DATA),
    ("any other unsigned attribute", Signed(unsigned=(attribute("1.2.3", sequence(), octet_string(b"")),)), ACCEPTED),
    ("a message digest that is no string", Signed(attributes=(attribute(MESSAGE_DIGEST, integer(b"\1")),)), NO_SIGNED_DATA),
    ("a content type that is no identifier", Signed(attributes=(attribute(CONTENT_TYPE, octet_string(b"")),)), NO_SIGNED_DATA),
    ("indirect data that isn't", Signed(content=sequence(identifier(INDIRECT_DATA), context(0, octet_string(b"")))), NO_SIGNED_DATA),
]


def too_deep_at(made):
    """The place of the 65th element on the way down, which the innermost strings of the last signer follow."""
    return made.value().rindex(name(b"A")[4:])


STEP_1 = [(f"version {number}", Signed(version=bytes([number])), f"IncorrectVersion 1 {number}") for number in (0, 2, 3, 4, 5)]
STEP_1 += [
    ("version 6", Signed(version=b"\x06"), NO_SIGNED_DATA),
    ("version 1 in two octets", Signed(version=b"\x00\x01"), NO_SIGNED_DATA),
]

STEP_2 = [
    ("no signer", Signed(signers=()), "MultipleSignerInfo 0"),
    ("two signers", Signed(copies=2), "MultipleSignerInfo 2"),
    ("three hundred signers", Signed(signers=(SMALL_SIGNER,) * 300), "MultipleSignerInfo 300"),
]

STEP_3 = [
    ("no digest algorithm", Signed(listed=()), "IncorrectDigestAlgorithmsCount 0"),
    ("the digest algorithm twice", Signed(listed=(SHA256_NULL, SHA256_NULL)), "IncorrectDigestAlgorithmsCount 2"),
    ("another one before it", Signed(listed=(SHA1, SHA256_NULL)), "IncorrectDigestAlgorithmsCount 2"),
    ("three, one without NULL", Signed(listed=(SHA256_NULL, SHA1, WITHOUT_NULL)), "IncorrectDigestAlgorithmsCount 3"),
]

STEP_4 = [
    ("content of type data left out", Signed(content=sequence(identifier(DATA))), "NoEncapsulatedContentInfo"),
    ("indirect data left out", Signed(content=sequence(identifier(INDIRECT_DATA))), "NoEncapsulatedContentInfo"),
    ("data", Signed(content=DATA_CONTENT), "NoSpcIndirectDataContent"),
    ("a trust list", Signed(content=LIST_CONTENT), "NoSpcIndirectDataContent"),
    ("indirect data under another type", Signed(content=sequence(identifier("1.2.3.4"), context(0, sequence(Signed().indirect_data())))), "NoSpcIndirectDataContent"),
]

STEPS_5_AND_6 = [
    ("SHA-1 of the file", Signed(of_content=SHA1), OTHER_DIGEST),
    ("the digest of the file without NULL", Signed(of_content=WITHOUT_NULL), OTHER_DIGEST),
    ("the listed digest without NULL", Signed(listed=(WITHOUT_NULL,)), OTHER_DIGEST),
    ("the signer's digest without NULL", Signed(of_signer=WITHOUT_NULL), OTHER_DIGEST),
    ("SHA-1 of the signer", Signed(of_signer=SHA1), OTHER_DIGEST),
    ("SHA-1 of the file and of the signer", Signed(of_content=SHA1, of_signer=SHA1), OTHER_DIGEST),
    ("no NULL in any place", Signed(listed=(WITHOUT_NULL,), of_content=WITHOUT_NULL, of_signer=WITHOUT_NULL), ACCEPTED),
]

STEP_7 = [
    ("another digest of the file", Signed(file_digest=OTHER_HASH), mismatch(OTHER_HASH.hex(), FILE_HASH.hex())),
    ("no digest of the file", Signed(file_digest=b""), mismatch("", FILE_HASH.hex())),
    ("no digest on either side", Signed(file_digest=b"", file_hash=b""), ACCEPTED),
    ("a digest that goes on", Signed(file_digest=FILE_HASH + b"\0"), mismatch(FILE_HASH.hex() + "00", FILE_HASH.hex())),
    ("a digest of another length on both sides", Signed(file_digest=b"\x01\x02\x03", file_hash=b"\x01\x02\x03"), ACCEPTED),
]

STEP_8 = [
    ("the signer by its key's identifier", Signed(named=BY_KEY, extensions=(extension("2.5.29.14", octet_string(b"\xAA")),)), "IncorrectSignerIdentifier"),
    ("no certificates", Signed(members=()), no_certificate("01", "CN=A")),
    ("certificates left out", Signed(field=b""), no_certificate("01", "CN=A")),
    ("a serial number with a zero in front", Signed(named=named(serial=b"\0\x01")), no_certificate("0001", "CN=A")),
    ("a serial number of the other sign", Signed(named=named(serial=b"\x80")), no_certificate("80", "CN=A")),
    ("a serial number of twenty octets", Signed(named=named(serial=bytes(range(1, 21)))), no_certificate(bytes(range(1, 21)).hex(), "CN=A")),
    ("an issuer in another kind of string", Signed(named=signer_by(name_of([(COMMON_NAME, element(0x13, b"A"))]))), no_certificate("01", "CN=A")),
    ("an issuer of many words", Signed(named=signer_by(MANY_WORDS)), no_certificate("01", "C=DE,O=Caf\u00e9+OU=\u2603,CN=A?+1.2.3=#020105,EMAIL=a@b")),
    ("the same in the certificate", Signed(named=signer_by(MANY_WORDS), members=(certificate(issuer_name=MANY_WORDS),)), ACCEPTED),
    ("an issuer without words", Signed(named=signer_by(sequence())), no_certificate("01", "")),
    ("the signer's subject in the place of its issuer", Signed(members=(certificate(issuer=b"B"),)), no_certificate("01", "CN=A")),
    ("a certificate that isn't read", Signed(members=(certificate(key=other_key("1.2.840.10040.4.1")),)), no_certificate("01", "CN=A")),
    ("a certificate under another tag", Signed(members=(context(1, certificate()),)), no_certificate("01", "CN=A")),
    ("one that isn't read, and one that is", Signed(members=(certificate(key=other_key("1.2.840.10040.4.1")), certificate())), ACCEPTED),
    ("issuer and serial number of different certificates", Signed(members=(certificate(issuer=b"B"), certificate(serial=b"\x02"))), no_certificate("01", "CN=A")),
    ("the second of three", Signed(members=(certificate(issuer=b"B"), certificate(), certificate(serial=b"\x02"))), SECOND),
]

STEP_9 = [
    *((f"the digest {digest}", Signed(digest=digest), ACCEPTED) for digest in ("md5", "sha1", "sha384", "sha512")),
    ("the digest SHA3-256", Signed(digest="sha3_256", row="rsa-sha256"), "UnsupportedAlgorithmError"),
    ("an unknown digest", Signed(digest="1.2.3"), "UnsupportedAlgorithmError"),
    ("SHA-256 with RSA for a digest", Signed(digest="1.2.840.113549.1.1.11"), "UnsupportedAlgorithmError"),
    ("the next arc below SHA-256", Signed(digest=f"{SHA256}.1"), "UnsupportedAlgorithmError"),
    ("parameters of the digest that aren't NULL", Signed(**dict.fromkeys(("of_content", "of_signer"), sequence(identifier(SHA256), sequence())), listed=(sequence(identifier(SHA256), sequence()),)), ACCEPTED),
]

STEP_10 = [
    ("a table without a row", Signed(accepted=None), SIGNATURE_ERROR),
    ("a row of another key", Signed(accepted=rsa_octets(0x13)), SIGNATURE_ERROR),
    ("a row of the key in its BIT STRING", Signed(accepted=b"\0" + rsa_octets(0x11)), SIGNATURE_ERROR),
    ("a row of the key's info", Signed(accepted=rsa_key()), SIGNATURE_ERROR),
    *((f"a row of {digest} for the digest sha256", Signed(row=f"rsa-{digest}"), SIGNATURE_ERROR) for digest in ("md5", "sha1", "sha224", "sha384", "sha512")),
    ("a row of sha256 for the digest sha512", Signed(digest="sha512", row="rsa-sha256"), SIGNATURE_ERROR),
    ("a row over the attributes in their own tag", Signed(over=context(0, Signed().attribute_kids())), SIGNATURE_ERROR),
    ("a row over the contents of the attributes", Signed(over=Signed().attribute_kids()), SIGNATURE_ERROR),
    ("a row over the content", Signed(over=Signed().content_info()), SIGNATURE_ERROR),
    ("no attributes, and a row over the content", Signed(attributed=False, over=Signed().content_info()), SIGNATURE_ERROR),
    ("no attributes, and a row over nothing", Signed(attributed=False, over=b""), SIGNATURE_ERROR),
    ("a key on a curve", Signed(key=EC_KEY, accepted=POINT), key_error("EC")),
    ("a key on a curve, and a row of its algorithm", Signed(key=EC_KEY, accepted=POINT, row="p256-sha256"), key_error("EC")),
    ("a key of Ed25519", Signed(key=other_key("1.3.101.112"), accepted=bytes(32), row="ed25519"), key_error("ED")),
    ("a key of X448", Signed(key=other_key("1.3.101.111"), accepted=bytes(32)), key_error("ED")),
    ("a key of ML-DSA", Signed(key=other_key("2.16.840.1.101.3.4.3.18"), accepted=bytes(32)), key_error("ML-DSA")),
    ("ECDSA named by a signer with a key of RSA", Signed(signed_by=sequence(identifier("1.2.840.10045.4.3.2"))), ACCEPTED),
    ("another digest named by the signature", Signed(signed_by=algorithm("1.2.840.113549.1.1.5")), ACCEPTED),
    ("a signature algorithm of no kind", Signed(signed_by=sequence(identifier("1.2.3"))), ACCEPTED),
    ("two of one issuer and serial number, the second's key accepted", Signed(members=(certificate(key=rsa_key(0x13)), certificate())), SIGNATURE_ERROR),
    ("the first's key accepted", Signed(members=(certificate(), certificate(key=rsa_key(0x13)))), ACCEPTED),
    ("one that isn't read before the one with the accepted key", Signed(members=(certificate(key=other_key("1.2.3")), certificate())), ACCEPTED),
    ("another certificate with the accepted key", Signed(members=(certificate(key=rsa_key(0x13)), certificate(serial=b"\x02"))), SIGNATURE_ERROR),
]

STEP_11 = [
    ("no attributes", Signed(attributed=False), "NoMessageDigest"),
    ("attributes, but none stands there", Signed(attributes=()), "NoMessageDigest"),
    ("no message digest", Signed(message_digests=()), "NoMessageDigest"),
    ("a message digest without a value", Signed(message_digests=((),)), "NoMessageDigest"),
    ("a message digest without a value before the right one", Signed(message_digests=((), (RIGHT,))), "NoMessageDigest"),
    ("no message digest by SHA-224", Signed(digest="sha224", message_digests=()), "NoMessageDigest"),
    ("the digest under another type", Signed(attributes=(attribute("1.2.3", octet_string(RIGHT)),)), "NoMessageDigest"),
]

STEP_12 = [
    ("the digest SHA-224", Signed(digest="sha224"), "UnsupportedHashAlgorithmError SHA2_224"),
    ("another message digest by SHA-224", Signed(digest="sha224", message_digests=((WRONG,),)), "UnsupportedHashAlgorithmError SHA2_224"),
    ("another message digest", Signed(message_digests=((WRONG,),)), hash_mismatch(WRONG)),
    ("a message digest of no octets", Signed(message_digests=((b"",),)), hash_mismatch(b"")),
    ("a message digest of an octet less", Signed(message_digests=((RIGHT[:-1],),)), hash_mismatch(RIGHT[:-1])),
    ("a message digest of an octet more", Signed(message_digests=((RIGHT + b"\0",),)), hash_mismatch(RIGHT + b"\0")),
    ("the digest of the whole SEQUENCE", Signed(message_digests=((WHOLE,),)), hash_mismatch(WHOLE)),
    ("the digest of the file", Signed(message_digests=((FILE_HASH,),)), hash_mismatch(FILE_HASH)),
    ("SHA-1 of the contents, by SHA-256", Signed(message_digests=((digest_of("sha1", Signed().indirect_data()),),)), hash_mismatch(digest_of("sha1", Signed().indirect_data()))),
    ("SHA-256 of the contents, by SHA-1", Signed(digest="sha1", message_digests=((WRONG,),)), hash_mismatch(WRONG, Signed(digest="sha1"))),
    ("the right one first, another behind", Signed(message_digests=((RIGHT,), (WRONG,))), ACCEPTED),
    ("another first, the right one behind", Signed(message_digests=((WRONG,), (RIGHT,))), hash_mismatch(WRONG)),
    ("the right value first, another behind", Signed(message_digests=((RIGHT, WRONG),)), ACCEPTED),
    ("another value first, the right one behind", Signed(message_digests=((WRONG, RIGHT),)), hash_mismatch(WRONG)),
    ("the message digest alone", Signed(attributes=(attribute(MESSAGE_DIGEST, octet_string(RIGHT)),)), ACCEPTED),
    ("another content type among the attributes", Signed(attributes=(attribute(CONTENT_TYPE, identifier(DATA)), attribute(MESSAGE_DIGEST, octet_string(RIGHT)))), ACCEPTED),
]

# Certificates of a walk: the signer S, its issuer A, and that one's issuer B.

def walked(*members, serial=b"\x01"):
    return Signed(named=named(issuer=b"A", serial=serial), members=members)


def s(*extensions, serial=b"\x01", issuer=b"A"):
    return certificate(subject=b"S", issuer=issuer, serial=serial, extensions=extensions)


def a(*extensions, issuer=b"B", serial=b"\x01"):
    return certificate(subject=b"A", issuer=issuer, serial=serial, extensions=extensions)


def b(*extensions):
    return certificate(subject=b"B", issuer=b"R", extensions=extensions)


CODE, STAMP = usage(CODE_SIGNING), usage(TIME_STAMPING)
OTHER_EXTENSION = extension("2.5.29.19", sequence())

STEP_13 = [
    ("no usage", walked(s(), a(), b()), ACCEPTED),
    ("other extensions", walked(s(OTHER_EXTENSION), a(OTHER_EXTENSION)), ACCEPTED),
    ("the signer for code signing", walked(s(CODE), a()), ACCEPTED),
    ("the signer for time stamping", walked(s(STAMP), a()), NO_USAGE),
    ("the signer for both", walked(s(usage(TIME_STAMPING, CODE_SIGNING))), ACCEPTED),
    ("the signer for any purpose", walked(s(usage("2.5.29.37.0"))), NO_USAGE),
    ("the signer for no purpose", walked(s(usage())), NO_USAGE),
    ("a critical usage", walked(s(usage(TIME_STAMPING, critical=True))), NO_USAGE),
    ("two usages, the second for code signing", walked(s(STAMP, CODE)), ACCEPTED),
    ("two usages, the first for code signing", walked(s(CODE, STAMP)), ACCEPTED),
    ("two usages, none for code signing", walked(s(STAMP, usage("1.2.3"))), NO_USAGE),
    ("the issuer for code signing, the signer without", walked(s(), a(CODE)), NO_USAGE),
    ("the issuer for time stamping, the signer without", walked(s(), a(STAMP)), NO_USAGE),
    ("the issuer for time stamping, the signer for code signing", walked(s(CODE), a(STAMP)), ACCEPTED),
    ("the issuer for code signing, the signer for time stamping", walked(s(STAMP), a(CODE)), NO_USAGE),
    ("the last of the walk for code signing, the signer without", walked(s(), a(), b(CODE)), NO_USAGE),
    ("a usage outside the walk", walked(s(), b(STAMP), certificate(subject=b"T", extensions=(STAMP,))), ACCEPTED),
    ("an issuer before its child", walked(a(STAMP), s()), SECOND),
    ("the second of the issuer's subject", walked(s(), a(), a(STAMP, serial=b"\x02")), ACCEPTED),
    ("the first of the issuer's subject", walked(s(), a(STAMP), a(serial=b"\x02")), NO_USAGE),
    ("a member that isn't read, with a usage", walked(s(), certificate(subject=b"A", issuer=b"B", key=other_key("1.2.3"), extensions=(STAMP,)), a()), ACCEPTED),
    ("a loop that ends at a usage", walked(s(), a(issuer=b"S"), s(STAMP, serial=b"\x03")), NO_USAGE),
    ("another of the signer's subject first: it has a usage, the signer has none", walked(s(STAMP, serial=b"\x02"), s(), a()), NO_USAGE),
    ("another of the signer's subject first: it has none, the signer time stamping", walked(s(serial=b"\x02"), s(STAMP), a()), SECOND),
    ("another of the signer's subject first: the signer's issuer isn't walked", walked(s(serial=b"\x02", issuer=b"B"), s(), a(STAMP)), SECOND),
    ("another of the signer's subject first: its issuer is walked", walked(s(serial=b"\x02", issuer=b"B"), s(), b(STAMP)), NO_USAGE),
    ("another of the signer's subject first, for time stamping, the signer for code signing", walked(s(STAMP, serial=b"\x02"), s(CODE)), SECOND),
    ("another of the signer's subject first, for code signing, the signer for time stamping", walked(s(CODE, serial=b"\x02"), s(STAMP)), NO_USAGE),
]

# Faults in the order of the steps, each by the parts that differ: what is answered, and what it
# leaves nothing of.
CONTENT_PARTS = {"of_content", "file_digest", "digest"}
IN_ORDER = [
    ({"kind": 4}, wrong_type(4), set()),
    ({"behind": bytes(8)}, lambda made: unread(len(made.value()), "Trailing"), set()),
    ({"signer_version": b"\x06"}, NO_SIGNED_DATA, set()),
    ({"version": b"\x03"}, "IncorrectVersion 1 3", set()),
    ({"copies": 2}, "MultipleSignerInfo 2", set()),
    ({"listed": (SHA1, SHA256_NULL)}, "IncorrectDigestAlgorithmsCount 2", set()),
    ({"content": sequence(identifier(DATA))}, "NoEncapsulatedContentInfo", CONTENT_PARTS),
    ({"content": DATA_CONTENT}, "NoSpcIndirectDataContent", CONTENT_PARTS),
    ({"of_content": WITHOUT_NULL}, OTHER_DIGEST, set()),
    ({"of_signer": WITHOUT_NULL}, OTHER_DIGEST, set()),
    ({"file_digest": OTHER_HASH}, mismatch(OTHER_HASH.hex(), FILE_HASH.hex()), set()),
    ({"named": BY_KEY}, "IncorrectSignerIdentifier", set()),
    ({"named": named(serial=b"\x02")}, no_certificate("02", "CN=A"), set()),
    ({"digest": "1.2.3"}, "UnsupportedAlgorithmError", set()),
    ({"key": EC_KEY}, key_error("EC"), set()),
    ({"accepted": None}, SIGNATURE_ERROR, set()),
    ({"message_digests": ()}, "NoMessageDigest", set()),
    ({"message_digests": ((),)}, "NoMessageDigest", set()),
    ({"digest": "sha224"}, "UnsupportedHashAlgorithmError SHA2_224", set()),
    ({"message_digests": ((WRONG,),)}, hash_mismatch(WRONG), set()),
    ({"extensions": (STAMP,)}, NO_USAGE, set()),
]


def fit(one, other):
    """Whether one file can have both faults."""
    return not (one[0].keys() & other[0].keys() or one[2] & other[0].keys() or one[2] and other[2])


def pairs():
    """Two faults in one file: the first in order is answered."""
    for first, second in combinations(IN_ORDER, 2):
        if fit(first, second):
            yield f"{' '.join(first[0])} before {' '.join(second[0])}", Signed(**first[0], **second[0]), first[1]


def all_from(place):
    """The fault of this place, and all behind it that fit what is there."""
    found = [IN_ORDER[place]]
    for fault in IN_ORDER[place + 1:]:
        if all(fit(one, fault) for one in found):
            found.append(fault)
    parts = {part: value for fault, _, _ in found for part, value in fault.items()}
    return f"{' '.join(IN_ORDER[place][0])} before all behind", Signed(**parts), IN_ORDER[place][1]


# Files by their octets.
FILES = [
    ("a length of 4,294,967,295 octets", "ffffffff00020200", "Io the WIN_CERTIFICATE states a length of 4294967295 octets, and only 8 are there"),
    ("an element of 4,294,967,295 octets", "10000000000202003084ffffffff0000", unread(0, "Truncated")),
    ("an empty element and padding", "10000000000202003000000000000000", NO_SIGNED_DATA),
    ("signed data of nothing", f"3800000000020200{EMPTY_SIGNED_DATA}00000000000000", "MultipleSignerInfo 0"),
]


def rows():
    """What each file is, its octets, the digest that is asked for, a table, and what is answered."""
    made = [*VALUE, *STEP_1, *STEP_2, *STEP_3, *STEP_4, *STEPS_5_AND_6, *STEP_7, *STEP_8, *STEP_9, *STEP_10, *STEP_11, *STEP_12, *STEP_13]
    made += pairs()
    made += map(all_from, range(len(IN_ORDER) - 1))
    for why, signed, said in made:
        yield why, signed.file(), signed.file_hash.hex(), signed.table(), said(signed) if callable(said) else said
    for why, octets, said in FILES:
        yield why, bytes.fromhex(octets), FILE_HASH.hex(), "", said
