#!/usr/bin/env python3
"""Signatures as they are made, put together of their elements: of a program, and by a builder.

Usage:

    python3 tools/cases/made_signatures.py

prints in hexadecimal digits the file of `crates/xtest_kept/src/making.rt`, and
behind it that of `crates/xtest_usage/src/signing.rt`.

The form is that of RFC 2315 9.1 and 9.2 and of Windows Authenticode Portable
Executable Signature Format, as docs/FORMATS.md has it.  Certificates are made
by `issuing_maker`, signatures of the demonstration scheme by its rules.  The
rows of `MADE` and `BUILT` are those of `xgolden_kept` on signatures that are
made; which certificates are carried, and why a signature isn't made, is
beside each.
"""

import sys
from dataclasses import dataclass, replace
from hashlib import new as digest_of, sha256
from pathlib import Path

sys.path.insert(0, str(Path(__file__).resolve().parents[1]))

from cases.first_path import (
    CONTENT_TYPE, FILE_HASH, INDIRECT_DATA, MESSAGE_DIGEST, OPUS_INFO, PE_IMAGE_DATA, RSA_ENCRYPTION, SHA256_WITH_RSA, SIGNED_DATA,
    algorithm, attribute, bit_string, context, context_primitive, element, identifier, integer, name, octet_string, sequence, set_of, utc_time,
)
from cases.signature_rows import DIGESTS, ED25519, RSA, Key
from common import command
from judges.der_reader import read_exact, write
from judges.issuing_maker import Demo, built as issued, pkcs8

IDENTIFIERS = {
    "MD5": "1.2.840.113549.2.5", "SHA-1": "1.3.14.3.2.26", "SHA-224": "2.16.840.1.101.3.4.2.4",
    "SHA-256": "2.16.840.1.101.3.4.2.1", "SHA-384": "2.16.840.1.101.3.4.2.2", "SHA-512": "2.16.840.1.101.3.4.2.3",
}
DATA = "1.2.840.113549.1.7.1"
CODE_SIGNING, TIME_STAMPING = "1.3.6.1.5.5.7.3.3", "1.3.6.1.5.5.7.3.8"


# ---- keys and certificates

def rsa(modulus):
    """A key of RSA with a modulus of one octet, and numbers that belong to nothing."""
    public = sequence(integer(bytes([modulus])), integer(b"\x03"))
    secret = sequence(*(integer(bytes([number])) for number in (0, modulus, 3, 5, 7, 11, 1, 2, 4)))
    return Key("rsa", RSA, secret, public)


KEY, OTHER_KEY = rsa(0x11), rsa(0x12)
EDWARDS = Key("ed", ED25519, bytes(32), None)


def demo(digest, key, message):
    """A signature of the demonstration scheme."""
    return Demo().sign(f"rsa:{digest}", key, message)


def self_signed(text, key=KEY):
    """A certificate of no authority, as a builder writes it."""
    settings = [("validity", ("20200101000000", "20300101000000")), ("self_signed", read_exact(name(text)))]
    return issued(1, key, settings, Demo())


def extension(dotted, value, *flags):
    return sequence(identifier(dotted), *flags, octet_string(value))


def authority(*flags):
    return extension("2.5.29.19", sequence(element(0x01, b"\xff")), *flags)


NO_AUTHORITY = extension("2.5.29.19", sequence())


def purposes(*named):
    return extension("2.5.29.37", sequence(*map(identifier, named)))


def certificate(subject, issuer, *extensions, serial=b"\x01"):
    """A certificate with these extensions."""
    listed = (context(3, sequence(*extensions)),) if extensions else ()
    to_be_signed = sequence(
        context(0, integer(b"\x02")), integer(serial), algorithm(SHA256_WITH_RSA), name(issuer),
        sequence(utc_time("200101000000Z"), utc_time("300101000000Z")), name(subject),
        sequence(algorithm(RSA_ENCRYPTION), bit_string(KEY.public)), *listed,
    )
    return sequence(to_be_signed, algorithm(SHA256_WITH_RSA), bit_string(b"\xBB"))


def alone(*members):
    """Signed data that has these certificates and nothing else."""
    content = sequence(identifier(DATA))
    return sequence(identifier(SIGNED_DATA), context(0, sequence(integer(b"\x01"), set_of(), content, context(0, *members), context(1), set_of())))


def named_by(member):
    """The issuer and the serial number of a certificate."""
    fields = read_exact(member).kids[0].kids
    return sequence(write(fields[3]), write(fields[1]))


# ---- signatures

def digest_algorithm(digest):
    return algorithm(IDENTIFIERS[digest])


def frame(digest, content, members, named, attributes, signature, unsigned=()):
    """Signed data of one signer."""
    signer = sequence(
        integer(b"\x01"), named, digest_algorithm(digest), context(0, *attributes), algorithm(RSA_ENCRYPTION), octet_string(signature),
        *((context(1, *unsigned),) if unsigned else ()),
    )
    signed = sequence(integer(b"\x01"), set_of(digest_algorithm(digest)), content, context(0, *members), context(1), set_of(signer))
    return sequence(identifier(SIGNED_DATA), context(0, signed))


@dataclass(frozen=True, kw_only=True)
class Program:
    """A program that is signed by the first of certificates, of which some are carried."""
    members: tuple
    carried: tuple
    key: Key = KEY
    digest: str = "SHA-256"
    file_hash: bytes = FILE_HASH
    name: str | None = None

    def indirect_data(self):
        """The contents octets of SpcIndirectDataContent."""
        image = sequence(bit_string(b""), context(0, context(2, context_primitive(0))))
        return sequence(identifier(PE_IMAGE_DATA), image) + sequence(digest_algorithm(self.digest), octet_string(self.file_hash))

    def content(self):
        return sequence(identifier(INDIRECT_DATA), context(0, sequence(self.indirect_data())))

    def attributes(self):
        named = () if self.name is None else (context(0, context_primitive(0, self.name.encode("utf-16-be"))),)
        return (
            attribute(CONTENT_TYPE, identifier(INDIRECT_DATA)),
            attribute(OPUS_INFO, sequence(*named, context(1, context_primitive(0)))),
            attribute(MESSAGE_DIGEST, octet_string(digest_of(DIGESTS[self.digest], self.indirect_data()).digest())),
        )

    def message(self):
        return set_of(*self.attributes())

    def signed(self, signature):
        """Signed data with this signature."""
        return frame(self.digest, self.content(), self.carried, named_by(self.members[0]), self.attributes(), signature)

    def value(self):
        return self.signed(demo(self.digest, self.key, self.message()))

    def words(self):
        """What `AuthenticodeSignature::new` is given."""
        said = () if self.name is None else (self.name.encode().hex() or "-",)
        return " ".join((pkcs8(self.key).hex(), alone(*self.members).hex(), self.digest, self.file_hash.hex() or "-", *said))

    def table(self, key=None):
        """The line of a table that accepts the signature under a key."""
        judged = (key or self.key).public, self.message(), demo(self.digest, self.key, self.message())
        return f"rsa-{DIGESTS[self.digest]} {' '.join(sha256(octets).hexdigest() for octets in judged)}\n"


def file_of(value, behind=b""):
    """A WIN_CERTIFICATE of revision 2.0 and type 2, its length counting what is behind the value."""
    return (8 + len(value + behind)).to_bytes(4, "little") + b"\x00\x02\x02\x00" + value + behind


def padded(value):
    """The file of a signature: zeros up to a multiple of eight, which the length counts."""
    return file_of(value, bytes(-len(value) % 8))


# ---- rows

C0 = self_signed(b"Signer")
S0 = Program(members=(C0,), carried=(C0,))
# What the tests have as their sample.
PLAIN = certificate(b"A", b"A")
SAMPLE = Program(members=(PLAIN,), carried=(PLAIN,))
NAMED_SAMPLE = replace(SAMPLE, name="Ninebarkbit")

SIGNER = certificate(b"Signer", b"Middle", NO_AUTHORITY, purposes(CODE_SIGNING))
UNNAMED = certificate(b"Signer", b"Middle", serial=b"\x00\x15")
MIDDLE = certificate(b"Middle", b"Top", authority(element(0x01, b"\x01")))
ASKING = certificate(b"Middle", b"Top", purposes(TIME_STAMPING), serial=b"\x03")
ELSEWHERE = certificate(b"Elsewhere", b"Top", purposes(TIME_STAMPING))
TOP = certificate(b"Top", b"Top", authority())
OWN = certificate(b"Own", b"Own", NO_AUTHORITY)
CHARSET = "the name of the program has a character past U+FFFF"
UNSUPPORTED = "digests by SHA-224 are not supported"
NONE = "the signed data has no certificates"
NOT_FOR_CODE = "the certificate of the signer is not one for code signing"
NOT_RSA = "signature error: Key error: RSA error: the key is of another kind than RSA"
UNSIGNED = "signature error: RSA error: the signature scheme refused"
# A scheme that signs another message alone.
OTHER_MESSAGE = "00:01"

CHAIN = Program(members=(SIGNER, MIDDLE, TOP), carried=(SIGNER, MIDDLE))

# What it is, and a program with its certificates and those that are carried.
PROGRAMS = [
    ("a certificate that is no authority's", S0),
    ("the same without extensions", SAMPLE),
    ("a name", replace(S0, name="Ninebarkbit")),
    ("a name of no character", replace(S0, name="")),
    ("a name with the last character of one unit", replace(S0, name="\u00e9\u20ac\uffff")),
    ("MD5", replace(S0, digest="MD5", file_hash=bytes(16))),
    ("SHA-1", replace(S0, digest="SHA-1", file_hash=bytes(20))),
    ("SHA-384", replace(S0, digest="SHA-384", file_hash=bytes(48))),
    ("SHA-512", replace(S0, digest="SHA-512", file_hash=bytes(64))),
    ("a digest of no octet", replace(S0, file_hash=b"")),
    ("a digest of two octets, and a name", replace(S0, file_hash=b"\xab\xcd", name="A")),
    ("a signer, an authority and a root: the root is left out, the others as they are spelled", CHAIN),
    ("the same, with a name", replace(CHAIN, name="Ninebarkbit")),
    ("a root between two", Program(members=(SIGNER, TOP, MIDDLE), carried=(SIGNER, MIDDLE))),
    ("two roots and two others", Program(members=(SIGNER, TOP, MIDDLE, TOP), carried=(SIGNER, MIDDLE))),
    ("one certificate twice", Program(members=(SIGNER, SIGNER), carried=(SIGNER, SIGNER))),
    ("a root alone", Program(members=(TOP,), carried=(TOP,))),
    ("a root as the first of two", Program(members=(TOP, SIGNER), carried=(SIGNER,))),
    ("two roots", Program(members=(TOP, TOP), carried=())),
    ("one that issued itself and is no authority", Program(members=(OWN, C0), carried=(OWN, C0))),
    ("members that aren't certificates", Program(members=(SIGNER, context(0), sequence(), set_of(MIDDLE), MIDDLE), carried=(SIGNER, MIDDLE))),
    ("one certificate among other members", Program(members=(TOP, sequence()), carried=(TOP,))),
    ("purposes that aren't of the walk", Program(members=(UNNAMED, ELSEWHERE, MIDDLE), carried=(UNNAMED, ELSEWHERE, MIDDLE))),
    ("code signing among others' purposes", Program(members=(SIGNER, ASKING), carried=(SIGNER, ASKING))),
    ("another key than that of the certificate", Program(members=(C0, self_signed(b"Signer", OTHER_KEY)), carried=(C0, self_signed(b"Signer", OTHER_KEY)), key=OTHER_KEY)),
]
# One of the walk asks for purposes, and the signer names none: its issuer, whose subject is the next one's.
FORBIDDEN = Program(members=(UNNAMED, ASKING), carried=())
FAR = certificate(b"Top", b"Top", purposes(CODE_SIGNING), serial=b"\x04")
# What it is, the scheme, a program, and why it isn't signed: a refusal stands before those that would come behind it.
REFUSED = [
    ("a name past the basic plane, and all else", "demo", Program(members=(), carried=(), digest="SHA-224", key=EDWARDS, name="\U0001f600"), CHARSET),
    ("the same behind a good character", "demo", replace(S0, name="A\U00010000"), CHARSET),
    ("SHA-224, no certificates, another kind of key", "demo", Program(members=(), carried=(), digest="SHA-224", key=EDWARDS), UNSUPPORTED),
    ("SHA-224 alone", "demo", replace(S0, digest="SHA-224"), UNSUPPORTED),
    ("no certificates, another kind of key", "demo", Program(members=(), carried=(), key=EDWARDS), NONE),
    ("no member is a certificate", "demo", Program(members=(sequence(), context(1)), carried=()), NONE),
    ("not for code signing, another kind of key", "demo", replace(FORBIDDEN, key=EDWARDS), NOT_FOR_CODE),
    ("other purposes of the signer itself", "demo", Program(members=(ASKING,), carried=()), NOT_FOR_CODE),
    ("purposes of the issuer's issuer", "demo", Program(members=(UNNAMED, MIDDLE, FAR), carried=()), NOT_FOR_CODE),
    ("another kind of key", "demo", replace(S0, key=EDWARDS), NOT_RSA),
    ("a scheme that doesn't sign it", OTHER_MESSAGE, S0, UNSIGNED),
]


def made_rows():
    """The rows on signatures of programs, and their lines."""
    for _, program in PROGRAMS:
        yield f"new demo {program.words()}", f"made {program.value().hex()}"
    for _, scheme, program, why in REFUSED:
        yield f"new {scheme} {program.words()}", f"refused {why}"
    message, signature = CHAIN.message(), b"\xAB\xCD"
    yield f"new {message.hex()}:{signature.hex()} {CHAIN.words()}", f"made {CHAIN.signed(signature).hex()}"


# What it is, members of signed data, and those that are certificates.
ALONE = [
    ("none", (), ()),
    ("one", (C0,), (C0,)),
    ("several, a root among them", (SIGNER, MIDDLE, TOP), (SIGNER, MIDDLE, TOP)),
    ("one twice, and members that aren't certificates", (TOP, context(0), TOP, sequence(), C0), (TOP, TOP, C0)),
]


def alone_rows():
    """The rows on certificates alone, and their lines."""
    for _, members, certificates in ALONE:
        yield f"alone {alone(*members).hex()}", f"alone {alone(*certificates).hex()}"


# ---- by a builder

ONE, TWO = attribute("1.2.3.4", integer(b"\x01")), attribute("1.2.3.5")
OCTETS = sequence(identifier(DATA), context(0, octet_string(b"abc")))
TOO_DEEP = "the tree is nested deeper than 64 levels and cannot be written"


def deep(levels):
    """An attribute of so many levels."""
    inner = sequence()
    for _ in range(levels - 3):
        inner = sequence(inner)
    return attribute("1.2.3.6", inner)


@dataclass(frozen=True, kw_only=True)
class Built:
    """What is set of a builder: certificates by the members of signed data, attributes as lists; None where it isn't called."""
    certs: tuple | None = (C0,)
    digest: str | None = "SHA-256"
    content: bytes | None = S0.content()
    key: bool = True
    attributes: tuple | None = S0.attributes()
    unsigned: tuple | None = None
    named: bytes | None = named_by(C0)
    signer: Key = KEY

    def settings(self):
        """The words, each setter once."""
        set_ = (
            ("certs", self.certs is not None and alone(*self.certs).hex()),
            ("digest_algorithm", self.digest),
            ("content_info", self.content and self.content.hex()),
            ("signing_key", "" if self.key else None),
            ("authenticated_attributes", None if self.attributes is None else listed(self.attributes)),
            ("unsigned_attributes", None if self.unsigned is None else listed(self.unsigned)),
            ("issuer_and_serial_number", self.named and self.named.hex()),
        )
        return [f"{setter}={value}" for setter, value in set_ if value not in (None, False)]

    def words(self, *before):
        return " ".join((pkcs8(self.signer).hex(), *before, *self.settings()))

    def message(self):
        return self.content if self.attributes is None else set_of(*self.attributes)

    def signed(self, carried, signature):
        return frame(self.digest, self.content, carried, self.named, self.attributes or (), signature, self.unsigned or ())

    def value(self, carried):
        return self.signed(carried, demo(self.digest, self.signer, self.message()))


def listed(attributes):
    return ",".join(one.hex() for one in attributes) or "-"


WHOLE = Built()
NOTHING = Built(certs=None, digest=None, content=None, key=False, attributes=None, named=None)
SECOND = Built(certs=(MIDDLE, C0, ELSEWHERE, TOP))

# What it is, what is set, and the certificates that are carried.
BUILT = [
    ("the parts of a signature that is made", WHOLE, (C0,)),
    ("no signed attributes are given: the content is signed", replace(WHOLE, attributes=None), (C0,)),
    ("none of them are given: their empty SET is signed", replace(WHOLE, attributes=()), (C0,)),
    ("another order of attributes", replace(WHOLE, attributes=S0.attributes()[::-1]), (C0,)),
    ("other attributes, of one value and of none", replace(WHOLE, attributes=(TWO, ONE, TWO)), (C0,)),
    ("unsigned attributes, in their order", replace(WHOLE, unsigned=(TWO, ONE)), (C0,)),
    ("none of them", replace(WHOLE, unsigned=()), (C0,)),
    ("octets that are signed", replace(WHOLE, content=OCTETS, attributes=None), (C0,)),
    ("a type without a content", replace(WHOLE, content=sequence(identifier("1.2.3")), attributes=None), (C0,)),
    ("SHA-512, and an unsigned attribute", replace(WHOLE, digest="SHA-512", unsigned=(ONE,)), (C0,)),
    ("the second of the certificates is named, and the root is left out", SECOND, (MIDDLE, C0, ELSEWHERE)),
    ("a root alone is left out", Built(certs=(TOP,), named=named_by(TOP)), ()),
    ("a root signs, and is left out", Built(certs=(TOP, MIDDLE), named=named_by(TOP)), (MIDDLE,)),
    ("two of one issuer and serial number: the first may sign code", Built(certs=(SIGNER, certificate(b"Other", b"Middle", purposes(TIME_STAMPING))), named=named_by(SIGNER)), (SIGNER, certificate(b"Other", b"Middle", purposes(TIME_STAMPING)))),
    ("a serial number with a zero in front", Built(certs=(UNNAMED, MIDDLE), named=named_by(UNNAMED)), (UNNAMED, MIDDLE)),
]
MISSING = [
    ("digest", "no digest algorithm is given"), ("content", "no content is given"), ("key", "no private key is given"),
    ("named", "no issuer and no serial number are given"), ("certs", "no certificates are given"),
]
NAMELESS = "the signed data has no certificate of the issuer 'CN=Signer' with the serial number 01"
# What it is, the scheme, what is set, and why there is no signature: a refusal stands before those that would come behind it.
NOT_BUILT = [
    ("nothing is set", "demo", NOTHING, MISSING[0][1]),
    ("attributes alone", "demo", replace(NOTHING, attributes=(deep(64),), unsigned=(ONE,)), MISSING[0][1]),
    ("SHA-224, and nothing else", "demo", replace(NOTHING, digest="SHA-224"), UNSUPPORTED),
    ("SHA-224 beside all else", "demo", replace(WHOLE, digest="SHA-224"), UNSUPPORTED),
    ("a digest algorithm alone", "demo", replace(NOTHING, digest="SHA-256"), MISSING[1][1]),
    ("a content besides", "demo", replace(NOTHING, digest="SHA-256", content=OCTETS), MISSING[2][1]),
    ("a key besides", "demo", replace(NOTHING, digest="SHA-256", content=OCTETS, key=True), MISSING[3][1]),
    ("a name besides", "demo", replace(NOTHING, digest="SHA-256", content=OCTETS, key=True, named=named_by(C0)), MISSING[4][1]),
    ("none of the certificates is named, and attributes are too deep", "demo", replace(WHOLE, certs=(SIGNER, ASKING), attributes=(deep(64),)), NAMELESS),
    ("no certificates, though they are given", "demo", replace(WHOLE, certs=()), NAMELESS),
    ("the issuer alone is that of the name", "demo", replace(WHOLE, certs=(certificate(b"A", b"Signer", serial=b"\x02"),)), NAMELESS),
    ("not for code signing, and attributes are too deep", "demo", Built(certs=(UNNAMED, ASKING), named=named_by(UNNAMED), attributes=(deep(64),)), NOT_FOR_CODE),
    ("the first of two that are named is not for code signing", "demo", Built(certs=(certificate(b"Other", b"Middle", purposes(TIME_STAMPING)), SIGNER), named=named_by(SIGNER)), NOT_FOR_CODE),
    ("attributes that are too deep, and another kind of key", "demo", replace(WHOLE, attributes=(ONE, deep(64)), signer=EDWARDS), TOO_DEEP),
    ("another kind of key", "demo", replace(WHOLE, signer=EDWARDS), NOT_RSA),
    ("a scheme that doesn't sign it", OTHER_MESSAGE, WHOLE, UNSIGNED),
]


def built_rows():
    """The rows on signatures that are built, and their lines."""
    for _, asked, carried in BUILT:
        yield f"build demo {asked.words()}", f"built {asked.value(carried).hex()}"
    for _, scheme, asked, why in NOT_BUILT:
        yield f"build {scheme} {asked.words()}", f"refused {why}"
    for part, why in MISSING:
        yield f"build demo {replace(WHOLE, **{part: False if part == 'key' else None}).words()}", f"refused {why}"
    again = replace(NOTHING, digest="SHA-224", content=OCTETS, attributes=(ONE,), unsigned=(ONE,), named=named_by(TOP), certs=(TOP,))
    last = replace(WHOLE, unsigned=())
    yield f"build demo {last.words(*again.settings())}", f"built {WHOLE.value((C0,)).hex()}"
    yield f"build {WHOLE.message().hex()}:aabb {WHOLE.words()}", f"built {WHOLE.signed((C0,), bytes.fromhex('aabb')).hex()}"
    # In signed data six levels are above an attribute.
    deepest = replace(WHOLE, attributes=(deep(58),))
    yield f"build demo {deepest.words()}", f"built {deepest.value((C0,)).hex()}"


# ---- what `basic` answers to them

def judged_rows():
    """What each file is, its octets, the digest that is asked for, a table, and what is answered, as `basic_rows` has them."""
    accepted, refused = "accepted Some(0) [] None", "SignatureError invalid signature"
    value, hash_, table = S0.value(), FILE_HASH.hex(), S0.table()
    changed = FILE_HASH[:-1] + bytes([FILE_HASH[-1] ^ 1])
    behind = f"Asn1Deserialization (ASN1) couldn't deserialize pkcs7 certificate: malformed DER: octets after the element at octet {len(value)}"
    yield "a signature that is made", padded(value), hash_, table, accepted
    yield "its table is empty", padded(value), hash_, "", refused
    yield "another last octet of the digest", padded(value), changed.hex(), table, f"FileHashMismatch {hash_} {changed.hex()}"
    yield "it and seven zeros", file_of(value, bytes(7)), hash_, table, accepted
    yield "it and eight zeros", file_of(value, bytes(8)), hash_, table, behind
    other = self_signed(b"Signer", OTHER_KEY)
    both = Program(members=(C0, other), carried=(C0, other), key=OTHER_KEY)
    yield "two certificates of one issuer and serial number, the second one's key accepted", padded(both.value()), hash_, both.table(), refused
    yield "the same, the first one's key accepted", padded(both.value()), hash_, both.table(KEY), accepted
    for label, program in PROGRAMS:
        if program.carried and program.members[0] == program.carried[0] and program.key == KEY:
            yield f"a signature that is made: {label}", padded(program.value()), program.file_hash.hex(), program.table(), accepted


def main(arguments):
    if arguments:
        return command.usage(__doc__)
    for program in SAMPLE, NAMED_SAMPLE:
        print(padded(program.value()).hex())
    return 0


if __name__ == "__main__":
    command.run(main, __doc__)
