"""Signature files under policies, for `xgolden_check`: the worked rows, and a row for each refusal for the signer's certificate and its chain.

Each row has its answer, found by hand from the steps that `check_judge`
lists.  Rows with two faults are answered by the first.  Those of the steps before
are in `basic_steps`, those of excuses in `excuse_rows`, those of trust lists in
`list_rows`, those that strangers may send in `hostile_files`.
"""

from dataclasses import replace
from itertools import combinations

from cases import excuse_rows, hostile_files, list_rows
from cases.basic_making import Signed, extension, named
from cases.basic_steps import BY_KEY, DATA_CONTENT, OTHER_HASH, RIGHT, WITHOUT_NULL, WRONG
from cases.check_making import (
    AGREEMENT, DATA_ALONE, EDWARDS, EDWARDS_448, LATTICE, OTHER_CURVE, P256, P384, SHORT_EDWARDS, SIGNATURES, Made, constraints, file, token,
    wide_rsa,
)
from cases.check_parts import (
    ALIKE, ALL, ALONE, ATTRIBUTES, BARE, BASIC, CODE, DAY, EARLY, FIRST, IN, K_I, K_R, K_S, K_T, K_X, LAST, LATE, LATER, LIFETIME, NAMED_BY_KEY,
    NOTHING, NO_AFTER, NO_BEFORE, NO_CHAIN, NO_DATE, NO_DATES, NO_SIGNED_DATA, NO_SIGNER, OTHER_ID, OVER, PAST, SIGNING, STAMP, UNREAD, I, R, Row, S,
    T, accepted, at, bad_signature, expired, i, no_authority, no_certificate, no_key_id, not_yet, other_issuer, other_key_id, r, refused, s, too_deep,
    unknown_algorithm, without,
)
from cases.first_path import CONTENT_TYPE, FILE_HASH, INDIRECT_DATA, MESSAGE_DIGEST, attribute, element, identifier, octet_string, sequence, utc_time

# Worked rows.

C0 = Made(subject=b"Signer", key=K_S)
STAMPED = Made(subject=b"Stamp", key=K_T, extensions=(STAMP,))
SIGNER = s(extensions=(CODE,))
# An expired signer that names its parent's key, signed by another key and by that one; and a member for time stamping.
BY_ANOTHER_KEY, BY_ITS_PARENT = file(s(by=K_X, authority=K_I.identifier()), I, T), file(S, I, T)


def twelve_kilobytes():
    """Four signed attributes, three certificates, and a token of four, with keys of 4096 bits and words of some length."""
    keys = [wide_rsa(number, 512) for number in range(0x51, 0x58)]
    words = extension("1.2.3", bytes(800))
    signer = s(key=keys[0], by=keys[1], extensions=(CODE, words))
    parent = i(key=keys[1], length=0, extensions=(words,))
    other = Made(subject=b"Other", key=keys[2], extensions=(words,))
    names = (b"Stamp", b"Stamp 1", b"Stamp 2", b"Stamp 3", b"Stamp 3")
    above = (*keys[4:], keys[6])
    stamps = [Made(subject=name, issuer=issuer, key=key, by=by, ca=True, extensions=(STAMP, words))
              for name, issuer, key, by in zip(names, names[1:], keys[3:], above)]
    attributes = (
        attribute(CONTENT_TYPE, identifier(INDIRECT_DATA)),
        attribute("1.3.6.1.4.1.311.2.1.11", sequence(identifier("1.3.6.1.4.1.311.2.1.21"))),
        attribute("1.2.840.113549.1.9.5", utc_time("210101000000Z")),
        attribute(MESSAGE_DIGEST, octet_string(RIGHT)),
    )
    return file(signer, parent, other, tokens=(token(*stamps),), attributes=attributes)


LARGE = twelve_kilobytes()

WORKED = [
    Row("parent, then signer", file(I, S, signer=S), IN, accepted(1)),
    Row("signer, then parent", file(S, I), IN, accepted(0, "1")),
    Row("an expired signer, and a later member of another subject for time stamping", file(C0, STAMPED), OVER, accepted(excuse="bag")),
    Row("an expired signer for lifetime signing, and that member", file(replace(C0, extensions=(LIFETIME,)), STAMPED), OVER, expired("Signer")),
    Row("an expired signer by another key than its parent's, and a member for time stamping", BY_ANOTHER_KEY, OVER, bad_signature("S")),
    Row("by its parent's key", BY_ITS_PARENT, OVER, accepted(0, "1", "bag")),
    Row("by another key, no chain", BY_ANOTHER_KEY, at(LATER, **NO_CHAIN), accepted(excuse="bag")),
    Row("twelve kilobytes", LARGE, IN, accepted(0, "1")),
    Row("twelve kilobytes, expired", LARGE, OVER, accepted(0, "1", "token")),
    Row("every flag and no date", file(SIGNER, I), ALL, NO_DATE),
    Row("every flag but those of dates, and no date", file(SIGNER, I), ALL._replace(**NO_DATES), accepted(0, "1")),
]

# Flags, one by one.

CHAIN = file(S, I, R)
UNSIGNED = file(S, signers=())
KEY_NAMED = file(S, I, named=BY_KEY)
NO_SIGNER_INFO = file(S, I, signers=())
NAMELESS = accepted("")
EXPIRED_CHAIN = file(s(ends="20240101000000"), i(ends="20240101000000"), R)
EARLY_CHAIN = file(s(begins="20260101000000"), i(begins="20260101000000"), R)

FLAGS = [
    Row("nothing asked", CHAIN, NOTHING, NAMELESS),
    Row("nothing asked, no signer", UNSIGNED, NOTHING, NAMELESS),
    Row("nothing asked, a signer by its key", KEY_NAMED, NOTHING, NAMELESS),
    Row("nothing asked, no signed data", file(S, signer_version=b"\x06"), NOTHING, NO_SIGNED_DATA),
    Row("nothing asked but what follows signing", EXPIRED_CHAIN, at(DAY, policy=NOTHING, not_before=True, not_after=True, chain=True), NAMELESS),
    Row("a digest that nobody compares", CHAIN, NOTHING._replace(file_hash=OTHER_HASH), NAMELESS),
    Row("basic alone", CHAIN, BASIC, accepted()),
    Row("basic alone, expired", EXPIRED_CHAIN, BASIC, accepted()),
    Row("basic with what follows signing", EXPIRED_CHAIN, at(DAY, signing=False), accepted()),
    Row("basic with what follows signing, no date", EXPIRED_CHAIN, ALL._replace(signing=False), accepted()),
    Row("basic alone, the signer behind", file(I, S, signer=S), BASIC, accepted(1)),
    Row("basic without a digest", CHAIN, BASIC._replace(file_hash=None), refused("MissingExpectedFileHash", "no digest of the file is given")),
    Row("signing alone", CHAIN, NOTHING._replace(signing=True), accepted()),
    Row("signing alone, expired", EXPIRED_CHAIN, NOTHING._replace(signing=True), accepted()),
    Row("signing alone, a date given", EXPIRED_CHAIN, at(DAY, policy=NOTHING, signing=True), accepted()),
    Row("signing and chain", CHAIN, NOTHING._replace(signing=True, chain=True), accepted(0, "1,2")),
    Row("signing and chain, expired, a date given", EXPIRED_CHAIN, at(DAY, policy=NOTHING, signing=True, chain=True), accepted(0, "1,2")),
    Row("signing and the first end", CHAIN, at(DAY, policy=NOTHING, signing=True, not_before=True), accepted()),
    Row("signing and the last end", CHAIN, at(DAY, policy=NOTHING, signing=True, not_after=True), accepted()),
    Row("the first end without a date", CHAIN, NOTHING._replace(signing=True, not_before=True), NO_DATE),
    Row("the last end without a date", CHAIN, NOTHING._replace(signing=True, not_after=True), NO_DATE),
    Row("no date, and a chain that is broken", file(S, i(ca=False)), ALL, NO_DATE),
    Row("no date and no chain asked", CHAIN, ALL._replace(**NO_CHAIN), NO_DATE),
    Row("no date, and a signer without issuer", file(S), ALL._replace(**NO_DATES), accepted()),
    Row("no date asked, an expired signer in a bag for time stamping", file(s(ends="20240101000000"), I, T), ALL._replace(**NO_DATES), accepted(0, "1")),
]

# Step 14, without basic: it asks for no more of the signers.

TWO_SIGNERS = (Signed(named=S.named()).signer(), Signed(named=BY_KEY).signer())

STEP_14 = [
    Row("no signer", NO_SIGNER_INFO, at(DAY, policy=SIGNING), NO_SIGNER),
    Row("no signer, no date", NO_SIGNER_INFO, SIGNING, NO_SIGNER),
    Row("a signer by its key", KEY_NAMED, at(DAY, policy=SIGNING), NAMED_BY_KEY),
    Row("a signer by its key, no date", KEY_NAMED, SIGNING, NAMED_BY_KEY),
    Row("no certificate of this number", file(S, I, named=named(b"I", b"\x02")), at(DAY, policy=SIGNING), no_certificate("02", "I")),
    Row("no certificate of this issuer", file(S, I, named=named(b"S")), at(DAY, policy=SIGNING), no_certificate("01", "S")),
    Row("no certificate, no date", file(S, I, named=named(b"S")), SIGNING, no_certificate("01", "S")),
    Row("no certificate at all", file(S, field=b""), at(DAY, policy=SIGNING), no_certificate("01", "I")),
    Row("two signers, the second by its key", file(S, I, signers=TWO_SIGNERS), at(DAY, policy=SIGNING), accepted(0, "1")),
    Row("two signers, the first by its key", file(S, I, signers=TWO_SIGNERS[::-1]), at(DAY, policy=SIGNING), NAMED_BY_KEY),
    Row("two signers, the second of no certificate", file(S, I, signers=(TWO_SIGNERS[0], Signed(named=named(b"Q")).signer())), at(DAY, policy=SIGNING), accepted(0, "1")),
    Row("two signers, the first of no certificate", file(S, I, signers=(Signed(named=named(b"Q")).signer(), TWO_SIGNERS[0])), at(DAY, policy=SIGNING), no_certificate("01", "Q")),
    Row("two signers, and basic", file(S, I, signers=TWO_SIGNERS), IN, refused("MultipleSignerInfo", "the signed data has 2 signers, and not one")),
    Row("two certificates of the issuer and number, the first counts", file(s(ends="20240101000000"), S, I), at(DAY, policy=SIGNING), expired(ends="2024-01-01", now=DAY)),
    Row("the second of them is of no use", file(S, s(ends="20240101000000", key=K_X), I), at(DAY, policy=SIGNING), accepted(0, "2")),
]

# The steps before: asked with basic, before the window of the signer, and left out without.

OLD = s(ends="20240101000000")
BEFORE = [
    ("another type", {"kind": 4}, refused("WrongCertificateType", "unknown type 4 of a WIN_CERTIFICATE (known are 1, 2, 3 and 9)"), False),
    ("no signed data", {"signer_version": b"\x06"}, NO_SIGNED_DATA, False),
    ("version 3", {"version": b"\x03"}, refused("IncorrectVersion", "the version of the signed data is 3, and not 1"), True),
    ("two signers", {"copies": 2}, refused("MultipleSignerInfo", "the signed data has 2 signers, and not one"), True),
    ("no digest algorithm", {"listed": ()}, refused("IncorrectDigestAlgorithmsCount", "the signed data has 0 digest algorithms, and not one"), True),
    ("no content", {"content": DATA_ALONE}, refused("NoEncapsulatedContentInfo", "the signed data has no content"), True),
    ("another content", {"content": DATA_CONTENT}, refused("NoSpcIndirectDataContent", "what is signed is no SpcIndirectDataContent"), True),
    ("another digest algorithm of the content", {"of_content": WITHOUT_NULL}, refused("DigestAlgorithmMismatch", "the signed data names several digest algorithms"), True),
    ("another digest algorithm of the signer", {"of_signer": WITHOUT_NULL}, refused("DigestAlgorithmMismatch", "the signed data names several digest algorithms"), True),
    ("another digest of the file", {"file_digest": OTHER_HASH}, refused(
        "FileHashMismatch", f"the signature is for a file with the digest {OTHER_HASH.hex()}, but that of the file is {FILE_HASH.hex()}"), True),
    ("a signer by its key", {"named": BY_KEY}, NAMED_BY_KEY, False),
    ("no certificate", {"named": named(b"Q")}, no_certificate("01", "Q"), False),
    ("an unknown digest", {"digest": "1.2.3"}, refused("UnsupportedAlgorithmError", "the OID names no supported digest algorithm"), True),
    ("a signature that isn't accepted", {"accepted": None}, refused("SignatureError", "signature error: invalid signature"), True),
    ("no message digest", {"message_digests": ()}, refused("NoMessageDigest", "no message digest is among the signed attributes"), True),
    ("SHA-224", {"digest": "sha224"}, refused("UnsupportedHashAlgorithmError", "digests by SHA-224 are not supported"), True),
    ("another message digest", {"message_digests": ((WRONG,),)}, refused(
        "HashMismatch", f"the signed message digest is {WRONG.hex()}, but that of the content is {RIGHT.hex()}"), True),
]
NO_USAGE = refused("NoEKUCodeSigning", "the certificate of the signer is not one for code signing")


def steps_before():
    for why, parts, said, only_basic in BEFORE:
        yield Row(f"{why}, and an expired signer", file(OLD, I, **parts), IN, said)
        yield Row(f"{why}, and no date", file(OLD, I, **parts), ALL, said)
        without = accepted(0, "1") if only_basic else said
        yield Row(f"{why}, and basic left out", file(S, I, **parts), at(DAY, policy=SIGNING), without)
    yield Row("no usage for code, and an expired signer", file(replace(OLD, extensions=(STAMP,)), I), IN, NO_USAGE)
    yield Row("no usage for code, and no date", file(replace(OLD, extensions=(STAMP,)), I), ALL, NO_USAGE)
    yield Row("no usage for code, and basic left out", file(s(extensions=(STAMP,)), I), at(DAY, policy=SIGNING), accepted(0, "1"))


# The window of the signer.

TURNED = file(s(begins="20260101000000", ends="20240101000000"), I)
TURNED_STAMPED = file(s(begins="20260101000000", ends="20240101000000"), I, T)
SHORT = file(S, I)

WINDOWS = [
    Row("at the first second", SHORT, at(FIRST), accepted(0, "1")),
    Row("a second before", SHORT, at(EARLY), not_yet("S", FIRST, EARLY)),
    Row("at the last second", SHORT, at(LAST), accepted(0, "1")),
    Row("a second after", SHORT, at(LATE), expired(now=LATE)),
    Row("the first date that there is", SHORT, at("0000-01-01"), not_yet("S", FIRST, "0000-01-01")),
    Row("the last one", SHORT, at("9999-12-31T23:59:59"), expired(now="9999-12-31T23:59:59")),
    Row("before, the first end left out", SHORT, at(EARLY, **NO_BEFORE), accepted(0, "1")),
    Row("before, the last end left out", SHORT, at(EARLY, **NO_AFTER), not_yet("S", FIRST, EARLY)),
    Row("after, the last end left out", SHORT, at(LATE, **NO_AFTER), accepted(0, "1")),
    Row("after, the first end left out", SHORT, at(LATE, **NO_BEFORE), expired(now=LATE)),
    Row("before, both left out", SHORT, at(EARLY, **NO_DATES), accepted(0, "1")),
    Row("after, both left out", SHORT, at(LATE, **NO_DATES), accepted(0, "1")),
    Row("before, no chain", SHORT, at(EARLY, **NO_CHAIN), not_yet("S", FIRST, EARLY)),
    Row("after, no chain", SHORT, at(LATE, **NO_CHAIN), expired(now=LATE)),
    Row("within, no chain", SHORT, at(DAY, **NO_CHAIN), accepted()),
    Row("after, no chain, the last end left out", SHORT, at(LATE, **NO_CHAIN, **NO_AFTER), accepted()),
    Row("the ends exchanged", TURNED, IN, not_yet("S", "2026-01-01", DAY)),
    Row("the ends exchanged, the first left out", TURNED, at(DAY, **NO_BEFORE), expired(ends="2024-01-01", now=DAY)),
    Row("the ends exchanged, the last left out", TURNED, at(DAY, **NO_AFTER), not_yet("S", "2026-01-01", DAY)),
    Row("the ends exchanged, later than both", TURNED, at("2027-01-01"), expired(ends="2024-01-01", now="2027-01-01")),
    Row("the ends exchanged, earlier than both", TURNED, at("2023-01-01"), not_yet("S", "2026-01-01", "2023-01-01")),
    Row("not yet valid and expired is no case of an excuse", TURNED_STAMPED, IN, not_yet("S", "2026-01-01", DAY)),
    Row("with the first end left out it is", TURNED_STAMPED, at(DAY, **NO_BEFORE), accepted(0, "1", "bag")),
    Row("one moment alone", file(s(begins="20250101000000", ends="20250101000000"), I), IN, accepted(0, "1")),
    Row("before 1950", file(s(begins="19491231235959"), I), at("1949-12-31T23:59:59"), not_yet("I", FIRST, "1949-12-31T23:59:59")),
    Row("from 1949 on", file(s(begins="19491231235959"), i(begins="19491231235959")), at("1950-01-01"), accepted(0, "1")),
    Row("after 2049", file(s(ends="20500101000000"), i(ends="20500101000001")), at("2050-01-01"), accepted(0, "1")),
    Row("all years", file(s(begins="00000101000000", ends="99991231235959"), i(begins="00000101000000", ends="99991231235959")), at("0000-02-29"), accepted(0, "1")),
]

INTERVALS = [
    Row("an interval within", SHORT, at(DAY, "2026-01-01"), accepted(0, "1")),
    Row("around", SHORT, at(PAST, LATER), accepted(0, "1")),
    Row("over the first end", SHORT, at(PAST, DAY), accepted(0, "1")),
    Row("over the last end", SHORT, at(DAY, LATER), accepted(0, "1")),
    Row("up to the first second", SHORT, at(PAST, FIRST), accepted(0, "1")),
    Row("up to a second before", SHORT, at(PAST, EARLY), not_yet("S", FIRST, EARLY)),
    Row("from the last second on", SHORT, at(LAST, LATER), accepted(0, "1")),
    Row("from a second after on", SHORT, at(LATE, LATER), expired(now=LATE)),
    Row("one moment", SHORT, at(LAST, LAST), accepted(0, "1")),
    Row("turned, and touching both ends", SHORT, at(LAST, FIRST), accepted(0, "1")),
    Row("turned, past the first end", SHORT, at(LAST, EARLY), not_yet("S", FIRST, EARLY)),
    Row("turned, past the last end", SHORT, at(LATE, FIRST), expired(now=LATE)),
    Row("turned, past both", SHORT, at(LATE, EARLY), not_yet("S", FIRST, EARLY)),
    Row("turned, past both, the first left out", SHORT, at(LATE, EARLY, **NO_BEFORE), expired(now=LATE)),
    Row("turned, past both, the last left out", SHORT, at(LATE, EARLY, **NO_AFTER), not_yet("S", FIRST, EARLY)),
    Row("turned, past both, both left out", SHORT, at(LATE, EARLY, **NO_DATES), accepted(0, "1")),
    Row("ends exchanged, and an interval from one to the other", TURNED, at("2024-01-01", "2026-01-01"), accepted(0, "1")),
    Row("an interval in which signer and parent are never valid together", file(s(ends="20210101000000"), i(begins="20290101000000")), at(FIRST, LAST), accepted(0, "1")),
    Row("an interval before the parent", file(S, i(begins="20290101000000")), at(FIRST, DAY), not_yet("I", "2029-01-01", DAY)),
    Row("an interval after the parent", file(S, i(ends="20210101000000")), at(DAY, LAST), expired("I", "2021-01-01", DAY)),
    Row("an expired signer excused over an interval", file(S, I, T), at(LATE, LATER), accepted(0, "1", "bag")),
]

# The path: places, order, the same subject twice.

SELF = i(issuer=b"I", by=K_I)
CROSSED = i(serial=b"\x02", key=K_X)

PATHS = [
    Row("a chain of three", CHAIN, IN, accepted(0, "1,2")),
    Row("a signer alone, whose issuer isn't there", file(S), IN, accepted()),
    Row("a signer that issued itself", file(ALONE), IN, accepted()),
    Row("a signer that issued itself, twice", file(ALONE, ALONE), IN, accepted()),
    Row("a signer that issued itself, and others", file(ALONE, I, R), IN, accepted()),
    Row("a root that signs", file(R), IN, accepted()),
    Row("root, authority, signer", file(R, I, S, signer=S), IN, accepted(2)),
    Row("root, signer, authority", file(R, S, I, signer=S), IN, accepted(1, "2")),
    Row("signer, root, authority", file(S, R, I), IN, accepted(0, "2")),
    Row("authority, signer, root", file(I, S, R, signer=S), IN, accepted(1)),
    Row("authority, root, signer", file(I, R, S, signer=S), IN, accepted(2)),
    Row("others between, one of the signer's subject", file(T, S, T, I, ALONE, R, signer=S), IN, accepted(1, "3,5")),
    Row("members that aren't certificates have no place", file(UNREAD, S, ATTRIBUTES, UNREAD, I, R, signer=S), IN, accepted(0, "1,2")),
    Row("an authority twice", file(S, I, I), IN, accepted(0, "1")),
    Row("two of its subject, the first has another key", file(S, CROSSED, I), IN, other_key_id("S", K_I.identifier().hex(), K_X.identifier().hex())),
    Row("two of its subject, the first has another key, and no key is named", file(s(authority=None), CROSSED, I), IN, bad_signature("S")),
    Row("two of its subject, the second has another key", file(S, I, CROSSED), IN, accepted(0, "1")),
    Row("a root twice", file(S, I, R, R), IN, accepted(0, "1,2,3")),
    Row("an authority by itself, then by the root", file(S, SELF, I, R), IN, accepted(0, "1,2,3")),
    Row("an authority by the root, then by itself", file(S, I, SELF, R), IN, accepted(0, "1,3")),
    Row("another of the signer's subject first: its issuer is walked", file(ALIKE, S, I, R, signer=S), IN, other_key_id("S", K_I.identifier().hex(), K_R.identifier().hex())),
    Row("another of the signer's subject first: its issuer is walked, and no key is named", file(ALIKE, s(authority=None), I, R, signer=s(authority=None)), IN, other_issuer("S", "I", "R")),
    Row("another of the signer's subject behind", file(S, ALIKE, I, R), IN, accepted(0, "2,3")),
    Row("another of the signer's subject first, of one issuer", file(s(serial=b"\x02", key=K_X), S, I, R, signer=S), IN, accepted(1, "2,3")),
    Row("a loop back to the signer's subject", file(S, i(issuer=b"S", by=K_S, authority=None), ALIKE, R), IN, other_issuer("I", "S", "R")),
    Row("a loop, and nothing behind", file(S, i(issuer=b"S", by=K_S), S), IN, accepted(0, "1")),
    Row("a signer with an issuer of its own name, by another key", file(s(issuer=b"S", by=K_X), Made(subject=b"S", key=K_X, ca=True, serial=b"\x02")), IN, accepted()),
    Row("a signer with an issuer of its own name, by another key, and the issuer's own issuer", file(s(issuer=b"S", by=K_X), Made(subject=b"S", issuer=b"R", key=K_X, by=K_R, ca=True, serial=b"\x02"), R), IN, other_key_id("S", K_X.identifier().hex(), K_R.identifier().hex())),
    Row("names that differ in the kind of their string", file(S, Made(subject=b"I ", key=K_I, ca=True)), IN, accepted()),
    Row("no path without the chain", CHAIN, at(DAY, **NO_CHAIN), accepted()),
    Row("a broken chain that nobody asks for", file(S, i(ca=False), r(ca=False)), at(DAY, **NO_CHAIN), accepted()),
    Row("a chain expired that nobody asks for", file(S, i(ends="20240101000000")), at(DAY, **NO_CHAIN), accepted()),
]

# Each parent.

LINKS = [
    Row("no authority", file(S, i(ca=False)), IN, no_authority("I")),
    Row("constraints without the flag", file(S, i(ca=None, length=3)), IN, no_authority("I")),
    Row("no constraints", file(S, i(ca=None)), IN, no_authority("I")),
    Row("no authority above", file(S, I, r(ca=False)), IN, no_authority("R")),
    Row("two constraints, the first of an authority", file(S, i(ca=None, extensions=(constraints(True, None), constraints(False, None)))), IN, accepted(0, "1")),
    Row("two constraints, the second of an authority", file(S, i(ca=None, extensions=(constraints(False, None), constraints(True, None)))), IN, no_authority("I")),
    Row("a flag of 01", file(S, i(ca=None, extensions=(extension("2.5.29.19", sequence(element(0x01, b"\x01"))),))), IN, accepted(0, "1")),
    # path lengths: so many are between
    Row("length 0 of the first", file(S, i(length=0)), IN, accepted(0, "1")),
    Row("length 0 of the second", file(S, I, r(length=0)), IN, too_deep("R", 0)),
    Row("length 1 of the second", file(S, I, r(length=1)), IN, accepted(0, "1,2")),
    Row("length 0 of the first, 1 of the second", file(S, i(length=0), r(length=1)), IN, accepted(0, "1,2")),
    Row("length 255", file(S, i(length=None, extensions=()), r(ca=None, extensions=(extension("2.5.29.19", sequence(element(0x01, b"\xff"), element(0x02, b"\x00\xff"))),))), IN, accepted(0, "1,2")),
    Row("one that issued itself is counted", file(S, SELF, I, r(length=1)), IN, too_deep("R", 1)),
    Row("length 2 is enough for it", file(S, SELF, I, r(length=2)), IN, accepted(0, "1,2,3")),
    Row("a root twice is counted", file(S, I, r(length=1), r(length=1)), IN, too_deep("R", 1)),
    Row("a length where nobody is an authority", file(S, i(ca=False, length=0)), IN, no_authority("I")),
    Row("members of the bag off the path aren't counted", file(S, T, T, I, T, r(length=1)), IN, accepted(0, "3,5")),
    # windows of parents
    Row("a parent not yet valid", file(S, i(begins="20260101000000")), IN, not_yet("I", "2026-01-01", DAY)),
    Row("a parent expired", file(S, i(ends="20240101000000")), IN, expired("I", "2024-01-01", DAY)),
    Row("a parent expired, the last end left out", file(S, i(ends="20240101000000")), at(DAY, **NO_AFTER), accepted(0, "1")),
    Row("a parent not yet valid, the first end left out", file(S, i(begins="20260101000000")), at(DAY, **NO_BEFORE), accepted(0, "1")),
    Row("a root expired", file(S, I, r(ends="20240101000000")), IN, expired("R", "2024-01-01", DAY)),
    Row("a parent at its first second", file(S, i(begins="20250101000000")), IN, accepted(0, "1")),
    Row("a parent at its last second", file(S, i(ends="20250101000000")), IN, accepted(0, "1")),
    Row("a parent expired isn't excused", file(S, i(ends="20240101000000"), T, tokens=(token(T),)), IN, expired("I", "2024-01-01", DAY)),
    # key identifiers
    Row("the parent has no key identifier", file(S, i(key_id=None)), IN, no_key_id("I")),
    Row("the parent has another key identifier", file(S, i(key_id=OTHER_ID)), IN, other_key_id("S", K_I.identifier().hex(), "aabb")),
    Row("the signer names no key", file(s(authority=None), I), IN, accepted(0, "1")),
    Row("neither has one", file(s(**BARE), i(**BARE)), IN, accepted(0, "1")),
    Row("one that is the front of the other", file(s(authority=OTHER_ID[:1]), i(key_id=OTHER_ID)), IN, other_key_id("S", "aa", "aabb")),
    Row("any octets that are the same", file(s(authority=OTHER_ID), i(key_id=OTHER_ID)), IN, accepted(0, "1")),
    Row("no octets", file(s(authority=b""), i(key_id=b"")), IN, accepted(0, "1")),
    Row("an identifier of the authority without a key", file(s(authority=None, extensions=(extension("2.5.29.35", sequence(element(0x82, b"\x01"))),)), i(key_id=None)), IN, accepted(0, "1")),
    Row("the root has another key identifier", file(S, I, r(key_id=OTHER_ID)), IN, other_key_id("I", K_R.identifier().hex(), "aabb")),
    Row("the root has no key identifier", file(S, I, r(key_id=None)), IN, no_key_id("R")),
    # algorithms and signatures
    Row("an algorithm of no kind", file(s(outer=sequence(identifier("1.2.3"))), I), IN, unknown_algorithm("1.2.3")),
    Row("RSASSA-PSS", file(s(outer=sequence(identifier("1.2.840.113549.1.1.10"))), I), IN, unknown_algorithm("1.2.840.113549.1.1.10")),
    Row("an algorithm of no kind of the parent", file(S, i(outer=sequence(identifier("1.2.3"))), R), IN, unknown_algorithm("1.2.3")),
    Row("an algorithm of no kind of the last", file(S, i(outer=sequence(identifier("1.2.3")))), IN, accepted(0, "1")),
    Row("another algorithm within", file(s(inner=sequence(identifier("1.2.3"))), I), IN, accepted(0, "1")),
    Row("an algorithm without NULL", file(s(outer=sequence(identifier("1.2.840.113549.1.1.11"))), I), IN, accepted(0, "1")),
    Row("another digest than was signed", file(s(outer=SIGNATURES["rsa-sha1"]), I), IN, bad_signature("S")),
    Row("signed by another key", file(s(by=K_X, authority=None), I), IN, bad_signature("S")),
    Row("signed by its own key", file(s(by=K_S, authority=None), I), IN, bad_signature("S")),
    Row("the parent signed by another key", file(S, i(by=K_X, authority=None), R), IN, bad_signature("I")),
    Row("a root signed by another key isn't asked", file(S, I, r(by=K_X, authority=None)), IN, accepted(0, "1,2")),
    Row("a parent on P-256", file(s(by=P256), i(key=P256)), IN, accepted(0, "1")),
    Row("a parent on P-384", file(s(by=P384), i(key=P384)), IN, accepted(0, "1")),
    Row("a parent of Ed25519", file(s(by=EDWARDS), i(key=EDWARDS)), IN, accepted(0, "1")),
    Row("RSA by a parent on P-256", file(s(authority=P256.identifier()), i(key=P256)), IN, bad_signature("S", "Key error: unsupported algorithm: EC")),
    Row("RSA by a parent of Ed25519", file(s(authority=None), i(key=EDWARDS)), IN, bad_signature("S", "Key error: unsupported algorithm: ED")),
    Row("RSA by a parent of ML-DSA", file(s(authority=None), i(key=LATTICE)), IN, bad_signature("S", "Key error: unsupported algorithm: ML-DSA")),
    Row("ECDSA by a parent of RSA", file(s(outer=P256.algorithm()), I), IN, bad_signature("S", "Key error: EC error: the key is of another kind than one of an elliptic curve")),
    Row("ECDSA by a parent on another curve", file(s(by=OTHER_CURVE), i(key=OTHER_CURVE)), IN, bad_signature("S", "Key error: EC error: the curve isn't supported")),
    Row("SHA-256 by a parent on P-384", file(s(by=P384, outer=P256.algorithm()), i(key=P384)), IN, bad_signature("S", "unsupported algorithm: NIST-P384 with SHA-256")),
    Row("Ed25519 by a parent of RSA", file(s(outer=EDWARDS.algorithm()), I), IN, bad_signature("S", "Key error: ED error: the key is of another kind than one of a curve 25519 or 448")),
    Row("Ed25519 by a key for agreement", file(s(by=AGREEMENT), i(key=AGREEMENT)), IN, bad_signature("S", "ED error: the key isn't one for signatures")),
    Row("Ed25519 by a key of Ed448", file(s(by=EDWARDS_448), i(key=EDWARDS_448)), IN, bad_signature("S", "Key error: ED error: the algorithm on a curve 25519 or 448 isn't supported")),
    Row("Ed25519 by a key of 31 octets", file(s(by=SHORT_EDWARDS), i(key=SHORT_EDWARDS)), IN, bad_signature("S", "ED error: the key hasn't 32 octets")),
    Row("a table without the row of the signer's certificate", without(CHAIN, 1), IN, bad_signature("S")),
    Row("a table without the row of its parent's", without(CHAIN, 2), IN, bad_signature("I")),
    Row("a table without the row of the root's", without(CHAIN, 3), IN, accepted(0, "1,2")),
    Row("a table without the row of the signer's signature", without(CHAIN, 0), IN, refused("SignatureError", "signature error: invalid signature")),
    Row("a table without the row of the signer's signature, and basic left out", without(CHAIN, 0), at(DAY, policy=SIGNING), accepted(0, "1,2")),
    # what isn't asked
    Row("a parent for time stamping alone, and a signer for code", file(s(extensions=(CODE,)), i(extensions=(STAMP,))), IN, accepted(0, "1")),
    Row("a critical extension that nobody knows", file(s(extensions=(extension("1.2.3", b"", element(0x01, b"\xff")),)), I), IN, accepted(0, "1")),
]

# Two faults in one file, and more.

OTHER_IDENTIFIER = K_I.identifier()
FAULTS = [
    ({("s", "begins"): "20260101000000"}, not_yet("S", "2026-01-01", DAY)),
    ({("s", "ends"): "20240101000000"}, expired(ends="2024-01-01", now=DAY)),
    ({("i", "ca"): False}, no_authority("I")),
    ({("i", "begins"): "20260101000000"}, not_yet("I", "2026-01-01", DAY)),
    ({("i", "ends"): "20240101000000"}, expired("I", "2024-01-01", DAY)),
    ({("i", "key_id"): None}, no_key_id("I")),
    ({("i", "key_id"): OTHER_ID}, other_key_id("S", OTHER_IDENTIFIER.hex(), "aabb")),
    ({("s", "outer"): sequence(identifier("1.2.3"))}, unknown_algorithm("1.2.3")),
    ({("s", "by"): K_X, ("s", "authority"): OTHER_IDENTIFIER}, bad_signature("S")),
    ({("r", "ca"): False}, no_authority("R")),
    ({("r", "length"): 0}, too_deep("R", 0)),
    ({("r", "begins"): "20260101000000"}, not_yet("R", "2026-01-01", DAY)),
    ({("r", "ends"): "20240101000000"}, expired("R", "2024-01-01", DAY)),
    ({("r", "key_id"): None}, no_key_id("R")),
    ({("r", "key_id"): OTHER_ID}, other_key_id("I", K_R.identifier().hex(), "aabb")),
    ({("i", "outer"): sequence(identifier("1.2.4"))}, unknown_algorithm("1.2.4")),
    ({("i", "by"): K_X, ("i", "authority"): K_R.identifier()}, bad_signature("I")),
]


def faulty(*faults):
    """A file of three with these faults."""
    parts = {"s": {}, "i": {}, "r": {}}
    for changes, _ in faults:
        for (which, part), value in changes.items():
            parts[which][part] = value
    return file(s(**parts["s"]), i(**parts["i"]), r(**parts["r"]))


def named_parts(fault):
    return " and ".join(f"{'no ' if value is None else ''}{part} of {which.upper()}" for (which, part), value in fault[0].items())


def pairs():
    for first, second in combinations(FAULTS, 2):
        if not first[0].keys() & second[0].keys():
            yield Row(f"{named_parts(first)} before {named_parts(second)}", faulty(first, second), IN, first[1])


def all_from(place):
    """The fault of this place, and all behind it."""
    found = [FAULTS[place]]
    for fault in FAULTS[place + 1:]:
        if not any(fault[0].keys() & one[0].keys() for one in found):
            found.append(fault)
    return Row(f"{named_parts(FAULTS[place])} before all behind", faulty(*found), IN, FAULTS[place][1])


def rows():
    """Every row."""
    yield from WORKED
    yield from FLAGS
    yield from STEP_14
    yield from steps_before()
    yield from WINDOWS
    yield from INTERVALS
    yield from PATHS
    yield from LINKS
    yield from pairs()
    yield from map(all_from, range(len(FAULTS) - 1))
    yield from excuse_rows.rows()
    yield from list_rows.rows()
    yield from hostile_files.rows()
