"""Signature files that strangers may send, under policies, for `check_rows`.

`WORKED` are changes of the file of `first_path`, each of which meets another refusal.
The others are faults that readers of certificates and of signed data have had: a
length that wraps in 32 or in 64 bits, a BER form that is taken for DER, a number that
is read modulo a power of two, a field that counts twice or not at all, a list that is
empty or long, a structure inside another of its kind.

Each row has its answer, found by hand from the standards and from the steps that
`check_judge` lists.
"""

from cases.basic_making import EC_KEY, POINT, Signed, certificate, digest_algorithm, extension, named, rsa_octets, usage
from cases.basic_steps import BY_KEY, DATA_CONTENT, RIGHT, WITHOUT_NULL, WRONG, deep, signer_by, too_deep_at
from cases.check_making import BASIC_CONSTRAINTS, DATA_ALONE, File, countersigned, file, token
from cases.check_parts import (
    BASIC, CODE, IN, NAMED_BY_KEY, NO_SIGNED_DATA, OVER, STAMP, TIME_STAMPING, I, Row, S, accepted, bad_stamp, expired, i,
    no_authority, no_certificate, refused, s,
)
from cases.excuse_rows import F, G, H, TOKEN, g
from cases.first_path import (
    COMMON_NAME, FILE_HASH, INDIRECT_DATA, RSA_ENCRYPTION, SIGNED_DATA,
    algorithm, attribute, bit_string, context, context_primitive, element, identifier, integer, name, octet_string, sequence, set_of, signature_file,
    null, utc_time, utf8_string, verdict_line,
)
from cases.list_rows import NO_CONTENT, OTHER_CONTENT, on, signed

MICROSOFT_COUNTERSIGNATURE = "1.3.6.1.4.1.311.3.3.1"
FIRST_PATH = File(signature_file(), verdict_line())
# The image in the indirect data of that file.
IMAGE = sequence(bit_string(b""), context(0, context(2, context_primitive(0))))


def changed(**parts):
    """The file of `first_path` with other parts, its digests and its table made anew."""
    made = Signed(image=IMAGE, **parts)
    return File(made.file(), made.table())


def with_member(*members, **parts):
    """The same with these members in place of its certificate."""
    return changed(members=members, **parts)


def unread(at, fault):
    return refused("Asn1Deserialization", f"(ASN1) couldn't deserialize pkcs7 certificate: malformed DER: {fault} at octet {at}")


def mismatch(actual, made):
    return refused("HashMismatch", f"the signed message digest is {actual.hex()}, but that of the content is {made.right_digest().hex()}")


TRUNCATED, OVERRUN = "the octets end within the element", "an element that runs past the end of the one around it"
WIDE, BEHIND = "a length of more than four octets", "octets after the element"
NO_CERTIFICATE = no_certificate("01", "A")
OTHER_DIGEST = refused("DigestAlgorithmMismatch", "the signed data names several digest algorithms")
NO_DIGEST = refused("NoMessageDigest", "no message digest is among the signed attributes")
FOURTEEN = Signed(image=IMAGE, unsigned=deep(14))
TWICE = Signed(image=IMAGE, message_digests=((WRONG,), (RIGHT,)))


def one_value(octets):
    """A file of these octets alone."""
    return File(bytes.fromhex(octets), "")


def basic(why, made, said):
    return Row(f"hostile: {why}", made, BASIC, said)


# The signer expired: its certificate ends with 2029.
def over(why, unsigned, said, *tokens):
    return Row(f"hostile: {why}", file(S, I, unsigned=unsigned, tokens=tokens), OVER, said)


NOT_CA = token(F, g(ca=False))

WORKED = [
    basic("a header that states 4,294,967,295 octets, of which 8 are there", one_value("ffffffff00020200"),
          refused("Io", "the WIN_CERTIFICATE states a length of 4294967295 octets, and only 8 are there")),
    basic("a value that states 4,294,967,295 octets", one_value("1000000000020200 3084ffffffff0000"), unread(0, TRUNCATED)),
    basic("an empty SEQUENCE and six zeros", one_value("1000000000020200 3000000000000000"), NO_SIGNED_DATA),
    basic("13 counter-signatures in one another, 62 levels", changed(unsigned=deep(13)), accepted()),
    basic("14 counter-signatures in one another, 66 levels", File(FOURTEEN.file(), FOURTEEN.table()),
          unread(too_deep_at(FOURTEEN), "an element nested deeper than 64 levels")),
    basic("a member `30 00` before the certificate", with_member(sequence(), certificate()), accepted()),
    basic("version 3", changed(version=b"\x03"), refused("IncorrectVersion", "the version of the signed data is 3, and not 1")),
    basic("two digest algorithms", changed(listed=(digest_algorithm("sha256"),) * 2),
          refused("IncorrectDigestAlgorithmsCount", "the signed data has 2 digest algorithms, and not one")),
    basic("no content", changed(content=sequence(identifier(INDIRECT_DATA))),
          refused("NoEncapsulatedContentInfo", "the signed data has no content")),
    basic("content of type data", changed(content=DATA_CONTENT),
          refused("NoSpcIndirectDataContent", "what is signed is no SpcIndirectDataContent")),
    basic("the digest algorithm of the content without its NULL", changed(of_content=WITHOUT_NULL), OTHER_DIGEST),
    basic("the signer named by `80 01 AA`", changed(named=BY_KEY), NAMED_BY_KEY),
    basic("SHA-224 in all places", changed(digest="sha224"),
          refused("UnsupportedHashAlgorithmError", "digests by SHA-224 are not supported")),
    basic("the digest 1.2.3 in all places", changed(digest="1.2.3"),
          refused("UnsupportedAlgorithmError", "the OID names no supported digest algorithm")),
    basic("a key on a curve", changed(key=EC_KEY, accepted=POINT),
          refused("SignatureError", "signature error: Key error: unsupported algorithm: EC")),
    basic("a message digest without a value", changed(message_digests=((),)), NO_DIGEST),
    basic("two message digests, the first another one", File(TWICE.file(), TWICE.table()), mismatch(WRONG, TWICE)),
    basic("the signer for time stamping alone", changed(extensions=(usage(TIME_STAMPING),)),
          refused("NoEKUCodeSigning", "the certificate of the signer is not one for code signing")),
    over("a countersignature of Microsoft's without a value", (countersigned(),), expired()),
    over("a token whose second certificate isn't a CA's", (countersigned(NOT_CA),), bad_stamp(no_authority("G")), NOT_CA),
    Row("hostile: no digest of the file", FIRST_PATH, BASIC._replace(file_hash=None),
        refused("MissingExpectedFileHash", "no digest of the file is given")),
    basic("another serial number of the signer", changed(named=named(serial=b"\x02")), no_certificate("02", "A")),
    Row("hostile: a trust list without content", file(S, I), on(signed("1.3.6.1.4.1.311.10.1")), NO_CONTENT),
    Row("hostile: a trust list of type data", file(S, I), on(signed("1.2.840.113549.1.7.1", context(0, octet_string(b"")))), OTHER_CONTENT),
]

# Lengths that wrap, and forms of BER.

VALUE = FIRST_PATH.octets[8:]


def wrapped(value):
    """A header, and a value that needn't be one."""
    return File((8 + len(value)).to_bytes(4, "little") + b"\x00\x02\x02\x00" + value, FIRST_PATH.table)


def stating(length):
    """The file with another length in its header."""
    return FIRST_PATH._replace(octets=length.to_bytes(4, "little") + FIRST_PATH.octets[4:])


def only(length):
    return refused("Io", f"the WIN_CERTIFICATE states a length of {length} octets, and only {len(FIRST_PATH.octets)} are there")


# Where the digest of the file is an OCTET STRING.
DIGEST_AT = VALUE.index(b"\x04\x20" + FILE_HASH)


def at_digest(head, size=2):
    """The file with a head in place of so many octets of that string; no length around it is changed."""
    return wrapped(VALUE[:DIGEST_AT] + head + VALUE[DIGEST_AT + size:])


LENGTHS = [
    basic("a header that states -1 in 32 bits", stating(0xFFFFFFFF), only(0xFFFFFFFF)),
    basic("a header that states -2^31", stating(0x80000000), only(0x80000000)),
    basic("a header that states an octet more", stating(len(FIRST_PATH.octets) + 1), only(len(FIRST_PATH.octets) + 1)),
    basic("a header that states an octet less than its own 8", stating(7),
          refused("WrongLength", "a WIN_CERTIFICATE has at least 8 octets, and this one has 7")),
    basic("a header that states its own 8 octets", stating(8), unread(0, TRUNCATED)),
    basic("a header that states none", stating(0),
          refused("CertificateDataIsEmpty", "the WIN_CERTIFICATE states the length 0, so it holds no certificate")),
    basic("a string whose end is 2^32 octets further", at_digest(b"\x04\x84\xFF\xFF\xFF\xFF"), unread(DIGEST_AT, OVERRUN)),
    basic("a string whose end is before its start in 32 bits", at_digest(b"\x04\x84\xFF\xFF\xFF\x00"), unread(DIGEST_AT, OVERRUN)),
    basic("a length of 2^64 - 1", at_digest(b"\x04\x88" + b"\xFF" * 8), unread(DIGEST_AT, WIDE)),
    basic("a length in 126 octets, of which the last counts", at_digest(b"\x04\xFE" + bytes(125) + b"\x20"), unread(DIGEST_AT, WIDE)),
    basic("a length in the long form", at_digest(b"\x04\x81\x20"), unread(DIGEST_AT, "a length that is not in its shortest form")),
    basic("a digest in segments", at_digest(b"\x24\x20\x04\x1E", 4), NO_SIGNED_DATA),
    basic("a digest in segments, the first longer than all", at_digest(b"\x24\x20\x04\x7F", 4), unread(DIGEST_AT + 2, OVERRUN)),
    basic("the whole of indefinite length", wrapped(b"\x30\x80" + VALUE[4:] + bytes(2)), unread(0, "an indefinite length")),
    basic("a tag of two octets", wrapped(b"\x3F\x10" + VALUE[1:]), unread(0, "a tag number above 30")),
    basic("end-of-contents octets in front", wrapped(bytes(2) + VALUE), unread(0, "the reserved tag 0")),
    basic("eight zeros behind", wrapped(VALUE + bytes(8)), unread(len(VALUE), BEHIND)),
    basic("a second value behind", wrapped(VALUE + VALUE), unread(len(VALUE), BEHIND)),
]

# Signed data: tags within tags, lists that are empty, long, twice or out of order, values of another kind.

OWN, CODE_SIGNER = certificate(), certificate(extensions=(CODE,))
ATTRIBUTE = attribute("1.2.3", octet_string(b""))


def signed_fields(*fields):
    """The whole with these fields of the signed data behind the content."""
    made = Signed(image=IMAGE)
    front = integer(b"\x01"), set_of(digest_algorithm("sha256")), made.content_info()
    return wrapped(sequence(identifier(SIGNED_DATA), context(0, sequence(*front, *fields))))


SIGNER = set_of(Signed(image=IMAGE).signer())
CERTIFICATES, LISTS = context(0, OWN), context(1)


def by_signer(*attributes, unsigned=()):
    """The whole, whose signer has these fields in place of its signed attributes."""
    fields = integer(b"\x01"), named(), digest_algorithm("sha256"), *attributes, algorithm(RSA_ENCRYPTION), octet_string(b"\xAA"), *unsigned
    return signed_fields(CERTIFICATES, LISTS, set_of(sequence(*fields)))


def of_content(*fields):
    """The file whose content has these fields behind its type."""
    return changed(content=sequence(identifier(INDIRECT_DATA), *fields))


KIDS = Signed(image=IMAGE).attribute_kids()
CONTENT = context(0, sequence(Signed(image=IMAGE).indirect_data()))

SIGNED_FIELDS = [
    basic("certificates under their tag twice", changed(field=context(0, context(0, OWN))), NO_CERTIFICATE),
    basic("certificates in a primitive field", changed(field=element(0x80, OWN)), NO_SIGNED_DATA),
    basic("two fields of certificates", changed(field=CERTIFICATES * 2), NO_SIGNED_DATA),
    basic("revocation lists before the certificates", signed_fields(LISTS, CERTIFICATES, SIGNER), NO_SIGNED_DATA),
    basic("a field behind the signers", signed_fields(CERTIFICATES, LISTS, SIGNER, null()), NO_SIGNED_DATA),
    basic("two sets of signers", signed_fields(CERTIFICATES, LISTS, SIGNER, SIGNER), NO_SIGNED_DATA),
    basic("an empty set of digest algorithms", changed(listed=()),
          refused("IncorrectDigestAlgorithmsCount", "the signed data has 0 digest algorithms, and not one")),
    basic("an empty set of signers", changed(signers=()), refused("MultipleSignerInfo", "the signed data has 0 signers, and not one")),
    basic("the content under its tag twice", of_content(context(0, CONTENT)), NO_SIGNED_DATA),
    basic("two contents", of_content(CONTENT, CONTENT), NO_SIGNED_DATA),
    basic("an empty field of content", of_content(context(0)), NO_SIGNED_DATA),
    basic("signed attributes under their tag twice", by_signer(context(0, context(0, KIDS))), NO_SIGNED_DATA),
    basic("signed attributes under the tag that is signed", by_signer(set_of(KIDS)), NO_SIGNED_DATA),
    basic("signed attributes twice", by_signer(context(0, KIDS), context(0, KIDS)), NO_SIGNED_DATA),
    basic("unsigned attributes before the signed ones", by_signer(context(1, ATTRIBUTE), context(0, KIDS)), NO_SIGNED_DATA),
    basic("an attribute without its set", changed(unsigned=(sequence(identifier("1.2.3")),)), NO_SIGNED_DATA),
    basic("an attribute whose values are a SEQUENCE", changed(unsigned=(sequence(identifier("1.2.3"), sequence()),)), NO_SIGNED_DATA),
    basic("an attribute with an empty set", changed(unsigned=(attribute("1.2.3"),)), accepted()),
    basic("4,000 unsigned attributes", changed(unsigned=4000 * (ATTRIBUTE,)), accepted()),
    basic("2,000 members `30 00` before the certificate", with_member(*2000 * (sequence(),), OWN), accepted()),
    basic("a message digest in segments", changed(attributes=(attribute("1.2.840.113549.1.9.4", element(0x24, octet_string(RIGHT))),)), NO_SIGNED_DATA),
    basic("a signature of no octets", changed(signature=b""), accepted()),
    basic("a version of no octets", changed(version=b""), NO_SIGNED_DATA),
    basic("the version 257", changed(version=b"\x01\x01"), NO_SIGNED_DATA),
    basic("the version -255", changed(version=b"\xFF\x01"), NO_SIGNED_DATA),
]

# Certificates. One that isn't read is no certificate of the bag.


def own_with(*extensions, **parts):
    """The file whose certificate has these extensions."""
    return with_member(certificate(extensions=extensions, **parts))


def dated(begins, ends):
    """The file whose certificate has these elements as its times."""
    own = certificate()
    times = sequence(utc_time("200101000000Z"), utc_time("300101000000Z"))
    return with_member(with_part(own, times, sequence(begins, ends)))


def with_part(own, part, other):
    """A certificate with one element of what is signed in place of another."""
    signed_part, rest = first_of(own[header_of(own):])
    inside = signed_part[header_of(signed_part):]
    if inside.count(part) != 1:
        raise ValueError("that element isn't there once")
    return sequence(sequence(inside.replace(part, other)), rest)


def header_of(octets):
    """The number of octets before the contents of an element."""
    return 2 if octets[1] < 0x80 else 2 + octets[1] - 0x80


def first_of(octets):
    """The first element of some, and what follows it."""
    start = header_of(octets)
    size = octets[1] if octets[1] < 0x80 else int.from_bytes(octets[2:start], "big")
    return octets[:start + size], octets[start + size:]


UTC, LATE_UTC = utc_time("200101000000Z"), utc_time("300101000000Z")


def general(text):
    return element(0x18, text.encode("ascii"))


UNREAD_TIMES = [
    ("a UTCTime of 15 octets", utc_time("20200101000000Z")),
    ("a GeneralizedTime of 13 octets", general("200101000000Z")),
    ("a time without its Z", utc_time("200101000000")),
    ("a time without seconds", utc_time("2001010000Z")),
    ("a time with an offset", utc_time("200101000000+0000")),
    ("a time with a fraction", general("20200101000000.5Z")),
    ("29 February of another year", utc_time("210229000000Z")),
    ("the second 60", utc_time("161231235960Z")),
    ("the hour 24", utc_time("200101240000Z")),
    ("the month 00", utc_time("200001000000Z")),
    ("the day +1", utc_time("2001+1000000Z")),
    ("a time of no octets", utc_time("")),
]

TIMES = [basic(why, dated(time, LATE_UTC), NO_CERTIFICATE) for why, time in UNREAD_TIMES]
TIMES += [
    basic("the year 0000", dated(general("00000101000000Z"), LATE_UTC), accepted()),
    basic("an end before the beginning", dated(LATE_UTC, UTC), accepted()),
    Row("hostile: the years 49 and 50", file(s(ends="20491231235959"), I), OVER, accepted(0, "1")),
    Row("hostile: an end in 1950, in two digits", file(s(ends="19500101000000"), I), IN, expired(ends="1950-01-01", now="2025-01-01")),
]

LONG_SERIAL = b"\x7F" + bytes(4095)
NUMBERS = [
    basic("the serial number 0", with_member(certificate(serial=b"\0"), named=named(serial=b"\0")), accepted()),
    basic("a serial number of 4,096 octets", with_member(certificate(serial=LONG_SERIAL), named=named(serial=LONG_SERIAL)), accepted()),
    basic("the same with another last octet in the signer", with_member(certificate(serial=LONG_SERIAL), named=named(serial=LONG_SERIAL[:-1] + b"\x01")),
          no_certificate((LONG_SERIAL[:-1] + b"\x01").hex(), "A")),
    basic("a serial number of no octets in the certificate", with_member(certificate(serial=b"")), NO_CERTIFICATE),
    basic("a serial number of no octets in the signer", changed(named=named(serial=b"")), NO_SIGNED_DATA),
    basic("a negative serial number", with_member(certificate(serial=b"\xFF"), named=named(serial=b"\xFF")), accepted()),
    basic("the serial numbers 1 and 257", with_member(certificate(serial=b"\x01\x01")), NO_CERTIFICATE),
    basic("a modulus of no octets", changed(key=sequence(algorithm(RSA_ENCRYPTION), bit_string(sequence(integer(b""), integer(b"\3"))))), NO_CERTIFICATE),
    basic("a key with unused bits", changed(key=sequence(algorithm(RSA_ENCRYPTION), element(3, b"\1", rsa_octets(0x11)))), NO_CERTIFICATE),
    basic("a key with an octet behind", changed(key=sequence(algorithm(RSA_ENCRYPTION), bit_string(rsa_octets(0x11) + b"\0"))), NO_CERTIFICATE),
    basic("a version 4", with_member(with_part(OWN, context(0, integer(b"\2")), context(0, integer(b"\3")))), NO_CERTIFICATE),
    basic("version 1 and extensions", with_member(with_part(CODE_SIGNER, context(0, integer(b"\2")), b"")), accepted()),
]

# A name of 10,000 sets, and identifiers that are another one modulo 2^32 or 2^64.
LONG_NAME = sequence(10000 * set_of(sequence(identifier(COMMON_NAME), utf8_string(b"A"))))
WIDE_ARC = sequence(set_of(sequence(identifier(f"2.5.4.{2 ** 64 + 3}"), utf8_string(b"A"))))
PADDED_ARC = sequence(set_of(sequence(element(6, b"\x55\x04\x80\x03"), utf8_string(b"A"))))
NUL_NAME = sequence(set_of(sequence(identifier(COMMON_NAME), utf8_string(b"A\0B"))))
NAMES = [
    basic("a name of 10,000 sets", with_member(certificate(issuer_name=LONG_NAME), named=signer_by(LONG_NAME)), accepted()),
    basic("an empty name", with_member(certificate(issuer_name=sequence()), named=signer_by(sequence())), accepted()),
    basic("a name of an empty set", with_member(certificate(issuer_name=sequence(set_of())), named=signer_by(sequence(set_of()))), accepted()),
    basic("an arc that is 3 modulo 2^64", with_member(certificate(issuer_name=WIDE_ARC)), NO_CERTIFICATE),
    basic("the same in the signer", changed(named=signer_by(WIDE_ARC)),
          refused("NoCertificatesAssociatedWithIssuerAndSerialNumber",
                  f"the signed data has no certificate of the issuer '2.5.4.{2 ** 64 + 3}=A' with the serial number 01")),
    basic("an arc with 80 in front in the certificate", with_member(certificate(issuer_name=PADDED_ARC)), NO_CERTIFICATE),
    basic("an arc with 80 in front in the signer", changed(named=signer_by(PADDED_ARC)), NO_SIGNED_DATA),
    basic("a name with a zero, and its beginning", with_member(certificate(issuer_name=NUL_NAME)), NO_CERTIFICATE),
]

# Extensions, chains and tokens.

FF = element(1, b"\xFF")


def limits(*fields):
    """Basic constraints of these fields."""
    return extension(BASIC_CONSTRAINTS, sequence(*fields))


def under(why, said, *extensions, policy=IN, **parts):
    """A signer under an authority with these extensions in place of its basic constraints."""
    return Row(f"hostile: {why}", file(S, i(ca=None, extensions=extensions, **parts)), policy, said)


EXTENSIONS = [
    basic("a critical flag of 01", own_with(extension("1.2.3", b"", element(1, b"\1"))), accepted()),
    basic("a critical flag of 00", own_with(extension("1.2.3", b"", element(1, b"\0"))), accepted()),
    basic("a critical flag of two octets", own_with(extension("1.2.3", b"", element(1, b"\xFF\xFF"))), NO_CERTIFICATE),
    basic("a critical flag of no octets", own_with(extension("1.2.3", b"", element(1))), NO_CERTIFICATE),
    basic("a critical extension that is unknown", own_with(extension("1.2.3", b"", FF)), accepted()),
    basic("an extension twice, time stamping and code signing", own_with(STAMP, CODE), accepted()),
    basic("an empty list of extensions", with_member(with_part(CODE_SIGNER, context(3, sequence(CODE)), context(3, sequence()))), accepted()),
    basic("basic constraints with an octet behind", own_with(extension(BASIC_CONSTRAINTS, sequence() + b"\0")), NO_CERTIFICATE),
    under("a CA by the octet 01", accepted(0, "1"), limits(element(1, b"\1"))),
    under("a CA by the octet 00, given", no_authority("I"), limits(element(1, b"\0"))),
    under("a CA by two octets", accepted(), limits(element(1, b"\xFF\xFF"))),
    under("a path length alone", no_authority("I"), limits(integer(b"\0"))),
    under("no CA, and then one", no_authority("I"), limits(), limits(FF)),
    under("a CA, and then none", accepted(0, "1"), limits(FF), limits()),
    under("the path length 255", accepted(0, "1"), limits(FF, integer(b"\0\xFF"))),
    under("the path length 256", accepted(), limits(FF, integer(b"\1\0"))),
    under("the path length -1", accepted(), limits(FF, integer(b"\xFF"))),
    under("the path length 2^32", accepted(), limits(FF, integer(b"\1\0\0\0\0"))),
    under("the path length 0 in two octets", accepted(), limits(FF, integer(b"\0\0"))),
]


def holding(inner, *members):
    """A token whose signer has another token in its first unsigned attribute."""
    stamper = Signed(named=members[0].named(), attributed=False, unsigned=(countersigned(inner),)).signer()
    return Nested(members, stamper)


class Nested:
    """Signed data of these certificates and this signer."""

    def __init__(self, members, signer):
        self.members, self.signer = members, signer

    def octets(self):
        inner = sequence(
            integer(b"\1"), set_of(), DATA_ALONE, context(0, *(member.octets() for member in self.members)), set_of(self.signer),
        )
        return sequence(identifier(SIGNED_DATA), context(0, inner))

    def rows(self):
        return [line for member in self.members for line in member.rows()]


def nested(count, *members):
    """Tokens in one another, so many."""
    made = token(*members)
    for _ in range(count - 1):
        made = holding(made, *members)
    return made


def seventh_at():
    """Where the 65th level begins in a file of seven tokens: in the issuer of the innermost token's first certificate."""
    value = file(S, I, unsigned=(countersigned(nested(7, F, G, H)),)).octets[8:]
    innermost = TOKEN.octets()
    return value.index(innermost) + innermost.index(name(b"G")) + 4


TOKENS = [
    over("a token in a token, the inner one with a broken chain", (countersigned(holding(NOT_CA, F, G, H)),), accepted(0, "1", "token"), TOKEN),
    over("a token in a token, the outer one with a broken chain", (countersigned(holding(TOKEN, F, g(ca=False))),), bad_stamp(no_authority("G")), NOT_CA),
    over("a token whose inner one alone stamps", (countersigned(holding(TOKEN, S)),), expired(), TOKEN),
    over("six tokens in one another, 58 levels", (countersigned(nested(6, F, G, H)),), accepted(0, "1", "token"), TOKEN),
    over("seven tokens in one another, 66 levels", (countersigned(nested(7, F, G, H)),), unread(seventh_at(), "an element nested deeper than 64 levels")),
]

LATER_GROUPS = SIGNED_FIELDS, TIMES, NUMBERS, NAMES, EXTENSIONS, TOKENS


def rows():
    """Every row."""
    yield from WORKED
    yield from LENGTHS
    for group in LATER_GROUPS:
        yield from group
