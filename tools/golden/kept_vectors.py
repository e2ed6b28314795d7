"""Vectors of owned signatures, for `xgolden_kept`: signed data in hexadecimal digits.

The rows are those of `path_vectors` and those of
`CASES` below, and so is the front of each answer; behind it are the digest
of the file, where the content is indirect data, and how many signed and how
many unsigned attributes the first signer has, `-` where there is no signer.  They
are found with the readers of `der_reader` and `cms_reader`; those of `CASES`
have to be the answers there.

A row of `STAMPS` has two words, signed data and a token.  What is answered is
the signed data stamped by the token, put together of its elements (RFC 5652
11.4), or why it isn't.  The rows on signatures that are made, and on signed data
of certificates alone, are those of `made_signatures`.
"""

from cases import made_signatures
from cases.first_path import (
    SHA256, SIGNED_DATA, algorithm, context, identifier, integer, name, octet_string, sequence, set_of,
)
from golden.path_vectors import A, B, BY_A, CASES as PATH_CASES, S, answer as places, around, read_fields, signed_data, signer, with_members
from golden.stored_run import Vectors
from interop.world_signatures import stored
from judges.der_reader import Constructed, Primitive, encoding, read_exact

SPC_INDIRECT_DATA = "1.3.6.1.4.1.311.2.1.4"
INDIRECT_DATA = [0x2B, 6, 1, 4, 1, 0x82, 0x37, 2, 1, 4]
COUNTER_SIGNATURE = bytes([0x2A, 0x86, 0x48, 0x86, 0xF7, 0x0D, 1, 9, 6])


def with_content(content_type, *content, signers=()):
    """Signed data with a content of this type, and the certificate S."""
    inside = (context(0, *content),) if content else ()
    return sequence(identifier(SIGNED_DATA), context(0, sequence(
        integer(b"\x01"), set_of(algorithm(SHA256)), sequence(identifier(content_type), *inside), context(0, S), set_of(*signers),
    )))


def indirect(digest):
    """Indirect data with this digest of a file."""
    image = sequence(identifier("1.3.6.1.4.1.311.2.1.15"), sequence())
    return sequence(image, sequence(algorithm(SHA256), octet_string(digest)))


def with_attributes(signed=None, unsigned=None):
    """A signer with attributes, each kind left out where it is None."""
    return sequence(
        integer(b"\x01"), sequence(name(b"A"), integer(b"\x01")), algorithm(SHA256),
        *(() if signed is None else (context(0, *signed),)), algorithm("1.2.840.113549.1.1.1"), octet_string(b"\xAA"),
        *(() if unsigned is None else (context(1, *unsigned),)),
    )


def attribute(oid, *values):
    return sequence(identifier(oid), set_of(*values))


ONE, TWO = attribute("1.2.3.4", integer(b"\x01")), attribute("1.2.3.5")

# What it is, signed data, and what is answered.
CASES = [
    ("indirect data", with_content(SPC_INDIRECT_DATA, indirect(b"\xAB" * 32)), f"1 hash={'ab' * 32} signed=- unsigned=-"),
    ("indirect data with an empty digest", with_content(SPC_INDIRECT_DATA, indirect(b"")), "1 hash= signed=- unsigned=-"),
    ("the type of indirect data, without a content", with_content(SPC_INDIRECT_DATA), "1 hash=- signed=- unsigned=-"),
    ("indirect data that isn't", with_content(SPC_INDIRECT_DATA, sequence()), "no signed data"),
    ("indirect data under another type", with_content("1.2.3", indirect(b"\xAB")), "1 hash=- signed=- unsigned=-"),
    ("octets", with_content("1.2.840.113549.1.7.1", octet_string(b"abc")), "1 hash=- signed=- unsigned=-"),
    ("signed attributes", signed_data([with_attributes([ONE, TWO])], S), "1 0: (0) hash=- signed=2 unsigned=0"),
    ("signed attributes, none of them", signed_data([with_attributes([])], S), "1 0: (0) hash=- signed=0 unsigned=0"),
    ("unsigned attributes", signed_data([with_attributes(None, [ONE])], S), "1 0: (0) hash=- signed=0 unsigned=1"),
    ("both", signed_data([with_attributes([ONE], [TWO, ONE, TWO])], S), "1 0: (0) hash=- signed=1 unsigned=3"),
    ("those of the first signer", signed_data([signer(sequence(name(b"A"), integer(b"\x01"))), with_attributes([ONE], [ONE])], S), "1 0: (0) hash=- signed=0 unsigned=0"),
    ("no certificates and no signer", made_signatures.alone(), "0 hash=- signed=- unsigned=-"),
    ("a signature that is made", made_signatures.S0.value(), f"1 0: (0) hash={made_signatures.FILE_HASH.hex()} signed=3 unsigned=0"),
    ("a time stamp that isn't", signed_data([with_attributes([], [attribute("1.3.6.1.4.1.311.3.3.1", sequence())])], S), "no signed data"),
]


EMPTY_FIELD = context(0)
WITH_ATTRIBUTES = with_attributes([ONE], [TWO, ONE, TWO])

# What it is, signed data, and the token that is put in.
STAMPS = [
    ("neither has certificates", signed_data(BY_A), signed_data(BY_A)),
    ("the token has certificates", signed_data(BY_A), signed_data(BY_A, S, A)),
    ("the signed data has certificates", signed_data(BY_A, S, A), signed_data(BY_A)),
    ("both have certificates", signed_data(BY_A, S, A), signed_data(BY_A, B, S)),
    ("no certificates in the field of the token", signed_data(BY_A), with_members(BY_A, EMPTY_FIELD)),
    ("the first of two signers is stamped", signed_data([*BY_A, WITH_ATTRIBUTES], S), signed_data(BY_A, S)),
    ("unsigned attributes stay in front", signed_data([WITH_ATTRIBUTES, *BY_A], S), signed_data(BY_A, A)),
    ("no unsigned attributes in their field", signed_data([with_attributes(None, [])], S), signed_data(BY_A, A)),
    ("the first of two signers of the token stamps", signed_data(BY_A, S), signed_data([WITH_ATTRIBUTES, *BY_A], A)),
    ("no signer", signed_data([], S), signed_data(BY_A, S)),
    ("a token without a signer", signed_data(BY_A, S), signed_data([], S)),
    ("no signer, and a token without one", signed_data([], S), signed_data([], S)),
    ("a signature that is made, by itself", made_signatures.S0.value(), made_signatures.S0.value()),
    ("one with more certificates, by it", made_signatures.CHAIN.value(), made_signatures.S0.value()),
    ("one that is made, by certificates alone", made_signatures.S0.value(), made_signatures.alone()),
    ("certificates alone, by one that is made", made_signatures.alone(), made_signatures.S0.value()),
]


def fields_of(octets):
    """The fields of signed data."""
    return read_exact(octets).kids[1].kids[0].kids


def certificates_of(fields):
    """The field of certificates, none or one."""
    return [field for field in fields[3:-1] if field.tag == 0xA0]


def with_unsigned(fields, attribute):
    """A signer with an unsigned attribute more."""
    before = [field for field in fields if field.tag != 0xA1]
    own = [kid for field in fields if field.tag == 0xA1 for kid in field.kids]
    return Constructed(0x30, (*before, Constructed(0xA1, (*own, attribute))))


def stamped(octets, token):
    """What is answered where a token is put into signed data."""
    fields, given = fields_of(octets), fields_of(token)
    if not fields[-1].kids:
        return "refused the signed data has 0 signers, and not one"
    if not given[-1].kids:
        return "refused the token or the signed data has no signer"
    first, *others = fields[-1].kids
    stamp = Constructed(0x30, (Primitive(0x06, COUNTER_SIGNATURE), Constructed(0x31, (given[-1].kids[0],))))
    signers = Constructed(0x31, (with_unsigned(first.kids, stamp), *others))
    found = certificates_of(fields) + certificates_of(given)
    certificates = (Constructed(0xA0, tuple(kid for field in found for kid in field.kids)),) if found else ()
    left = [field for field in fields[3:-1] if field.tag != 0xA0]
    content = Constructed(0x30, (*fields[:3], *certificates, *left, signers))
    return "stamped " + around(encoding(content)).hex()


def file_hash(content_info):
    """The digest of the file in a content, and `-` where it isn't indirect data."""
    kids = content_info.kids
    if list(kids[0].contents) != INDIRECT_DATA or len(kids) < 2:
        return "-"
    return bytes(kids[1].kids[0].kids[1].kids[1].contents).hex()


def count(signers, tag):
    """How many elements the field of this tag of the first signer has, none where it is left out."""
    if not signers:
        return "-"
    return str(sum(len(field.kids) for field in signers[0].kids if field.tag == tag))


def answer(octets):
    """What is answered to signed data."""
    parts = read_fields(octets)
    if parts is None:
        return "no signed data"
    signers = parts[-1].kids
    return f"{places(octets)} hash={file_hash(parts[2])} signed={count(signers, 0xA0)} unsigned={count(signers, 0xA1)}"


def vectors():
    rows = [octets for _, octets, _ in PATH_CASES + CASES]
    rows += [octets for _, kind, octets in stored() if kind == "pkcs7"]
    lines = [octets.hex() for octets in rows] + [f"{octets.hex()} {token.hex()}" for _, octets, token in STAMPS]
    answers = [answer(octets) for octets in rows] + [stamped(octets, token) for _, octets, token in STAMPS]
    made = [*made_signatures.alone_rows(), *made_signatures.made_rows(), *made_signatures.built_rows()]
    lines += [words for words, _ in made]
    answers += [said for _, said in made]
    return Vectors(tuple(lines), tuple(answers))


def unlike():
    """The rows of which the readers say otherwise."""
    for label, octets, said in CASES:
        if answer(octets) != said:
            yield f"{label}: {said!r} isn't {answer(octets)!r}"
    for label, octets, said in PATH_CASES:
        if not answer(octets).startswith(said):
            yield f"{label}: {said!r} isn't the front of {answer(octets)!r}"
