"""Signature files under policies with trust lists, for `check_rows`: the CA of a signer and that of a token, and each outcome of a list.

Each row, or the tables that rows are made of, has the answer, found
by hand from the steps that `check_judge` lists.
"""

from itertools import product
from typing import NamedTuple

from cases import listing_rows
from cases.basic_making import DATA, Signed, named
from cases.basic_steps import BY_KEY
from cases.check_making import Made, countersigned, file, token
from cases.check_parts import (
    ALIKE, ALL, BASIC, CODE, DAY, EARLY, FIRST, IN, K_I, K_R, K_S, K_X, LATER, LIFETIME, NAMED_BY_KEY, NO_CHAIN, NO_DATE, NO_SIGNER, NOTHING, OVER,
    SIGNING, STAMP, UNREAD, I, R, Row, S, T, accepted, alone, at, bad_signature, bad_stamp, expired, i, no_authority, no_certificate, not_yet, r,
    refused, s, t, without,
)
from cases.cms_rows import BARE, entry, property_of, trust_list
from cases.excuse_rows import F, G, H, PLAIN_TOKEN, REASONS, TOKENS_ALONE, UNLINKED_TOKEN, Reason, at_all, f, g, joined, m, of_path
from cases.first_path import INDIRECT_DATA, SIGNED_DATA, context, identifier, integer, name, octet_string, sequence, set_of
from cases.listing_rows import NOW, SECOND, TIME_STAMPING, begins, digest_of, ends, octets, usages
from judges.check_judge import TRUST_LIST

# Lists.

def signed(content, *content_fields):
    """Signed data of a content, without certificates and signers."""
    return sequence(identifier(SIGNED_DATA), context(0, sequence(integer(b"\x01"), set_of(), sequence(identifier(content), *content_fields), set_of())))


def list_of(*entries, **parts):
    """A trust list of these entries."""
    return signed(TRUST_LIST, context(0, bytes.fromhex(trust_list(*entries, **parts))))


def entry_of(text, *attributes):
    """The entry of a CA by its common name."""
    return entry(property_of(29, digest_of(name(text).hex())), *attributes)


def list_with(*texts):
    """A list of CAs by their common names, and nothing more of them."""
    return list_of(*map(entry_of, texts))


EMPTY = list_of()


# What is asked.

def on(octets_of_list, policy=IN, now=NOW, **flags):
    """The policy, and for the CA of the signer this list."""
    return policy._replace(**({"against_list": True, "trust_list": octets_of_list, "now": now} | flags))


def beside(octets_of_list, policy=OVER, now=NOW, **flags):
    """The policy, and this list, on which the CA of the signer isn't asked for."""
    return on(octets_of_list, policy, now, against_list=False, **flags)


def excluding(policy, *texts):
    """The policy, and CAs of these common names excluded."""
    return policy._replace(exclude=True, excluded=tuple(map(name, texts)))


# What is answered.

UNLISTED = refused("CAIsNotTrusted", "the CA is not on the trust list")
REVOKED = refused("CaCertificateRevoked", "the trust list revokes the CA")
MALFORMED = refused("MalformedEntry", "an entry of the trust list is malformed")
NO_CONTENT = refused("NoContent", "the trust list has no content")
OTHER_CONTENT = refused("IncorrectContentValue", "the content of the trust list is another one")
LISTED = None


def ended(not_after=NOW - 1, now=NOW):
    return refused("CaCertificateExpired", f"the CA was on the trust list until {not_after}, and it is {now} (seconds since 1601)")


def coming(not_before=NOW + 1, now=NOW):
    return refused("CaCertificateNotYetValid", f"the CA is on the trust list from {not_before} on, and it is {now} (seconds since 1601)")


def unread(why="the element has another structure than the one that is read"):
    return refused("FailedToParseCtl", f"(ASN1) couldn't deserialize pkcs7 certificate: {why}")


# Worked rows: a signer that issued itself, so that its own name is that of the CA.

C0 = Made(subject=b"Signer", key=K_S)
FF, FAR = "ff" * 8, "000000000000007f"


def worked(why, said, *attributes, now=1):
    return Row(f"worked: {why}", file(C0), on(list_of(entry_of(b"Signer", *attributes)), now=now), said)


WORKED = [
    worked("an end of seven octets", REVOKED, ends("ff" * 7)),
    worked("a beginning with an empty set", MALFORMED, begins()),
    Row("worked: no entry", file(C0), on(list_with(b"Other"), now=1), UNLISTED),
    Row("worked: no entry, and the name is excluded", file(C0), excluding(on(list_with(b"Other"), now=1), b"Signer"), accepted()),
    worked("an end of -1 intervals is 0 seconds", ended(0, 1), ends(FF)),
    worked("an end of -1 intervals, at 0 seconds", accepted(), ends(FF), now=0),
    worked("a beginning in the future", coming(915131444281, 1), begins(FAR)),
    worked("a beginning in the future, for time stamping alone", accepted(), begins(FAR), usages([TIME_STAMPING])),
]

# What `listing_rows` has of the name A, and what is answered of it.

SAID = {
    "no entry": UNLISTED,
    "an entry with the digest alone": LISTED,
    "an entry of another name": UNLISTED,
    "the second entry is of the name": LISTED,
    "a digest without a value": UNLISTED,
    "the second digest is of the name": UNLISTED,
    "the first digest is of the name": LISTED,
    "a digest with an octet behind": UNLISTED,
    "the second attribute of digests is of the name": LISTED,
    "the digest is in another property": UNLISTED,
    "the digest is the second attribute": LISTED,
    "the second entry would be good": ended(),
    "the second entry has ended": LISTED,
    "the first entry is malformed": MALFORMED,
    "no end in its set": MALFORMED,
    "an end of no octets": REVOKED,
    "an end of seven octets": REVOKED,
    "it ends now": LISTED,
    "it ends within this second": LISTED,
    "it ended an interval before": ended(),
    "it ended a second before": ended(),
    "it ends a second later": LISTED,
    "nine octets, the last one passed over": LISTED,
    "nine octets, and eight have ended": ended(),
    "the second value has ended": LISTED,
    "the first value has ended": ended(),
    "the second attribute has ended": LISTED,
    "the first attribute has ended": ended(),
    "the first value is no time": REVOKED,
    "no beginning in its set": MALFORMED,
    "a beginning of no octets": MALFORMED,
    "a beginning of seven octets": MALFORMED,
    "the same, said of others": MALFORMED,
    "it begins now": LISTED,
    "it begins within this second": LISTED,
    "it begins a second later": coming(),
    "it began a second before": LISTED,
    "nine octets, and eight are later": coming(),
    "the second value is later": LISTED,
    "the first value is later": coming(),
    "the second attribute is later": LISTED,
    "the first attribute is later": coming(),
    "no usages in their set": coming(),
    "usages that are none": LISTED,
    "code signing": coming(),
    "time stamping": LISTED,
    "code signing is the second one": coming(),
    "two others": LISTED,
    "the second value names code signing": LISTED,
    "the first value names code signing": coming(),
    "the second attribute names code signing": LISTED,
    "the first attribute names code signing": coming(),
    "in another order": LISTED,
    "usages without a beginning": LISTED,
    "the end is asked first": ended(),
    "the end is asked before a beginning without a value": ended(),
    "neither is a time": REVOKED,
    "within both": LISTED,
    "within the end, and the beginning is of others": LISTED,
    "an interval before 1601 is the second 0": ended(0, 1),
    "an interval before 1601, at the second 0": LISTED,
    "the same a second before": LISTED,
    "a second before 1601": LISTED,
    "a second later": ended(-1, 0),
    "an interval more": LISTED,
    "a beginning an interval before 1601": coming(0, -1),
    "the same at the second 0": LISTED,
    "a beginning in the far future": coming(915131444281, 1),
    "the same of time stamping alone": LISTED,
    "the last time": LISTED,
    "a second before the last time": coming(922337203685, 922337203684),
    "the first time": LISTED,
    "a second after the first time": ended(-922337203685, -922337203684),
    "the first second of all": LISTED,
    "the last second of all": LISTED,
}

# Files whose signer, and whose token, have a CA of the name A.
BY_A = file(s(issuer=b"A", by=K_X))
STAMPED_BY_A = file(S, I, tokens=(token(f(issuer=b"A", by=K_X)),))


def of_entries():
    """Each outcome, of the signer, of the signer whose CA is excluded, and of a token."""
    many = [*((entries, NOW, why) for entries, why in listing_rows.ENTRIES), *listing_rows.SIGNED]
    assert [why for *_, why in many] == list(SAID)
    for entries, now, why in many:
        octets_of_list, said = list_of(*entries), SAID[why]
        yield Row(f"list: {why}", BY_A, on(octets_of_list, now=now), said or accepted())
        yield Row(f"list, the CA excluded: {why}", BY_A, excluding(on(octets_of_list, now=now), b"A"), accepted())
        yield Row(f"list of a token: {why}", STAMPED_BY_A, beside(octets_of_list, now=now), said or accepted(0, "1", "token"))


OF_OCTETS = context(0, octet_string(b""))
FIRST_OF_MANY = [entry_of(f"CA {number}".encode("ascii")) for number in range(200)]
SAME_TEXT = sequence(set_of(sequence(identifier("2.5.4.3"), b"\x13\x01A")))

OTHER_LISTS = [
    Row("list: the last of 201 entries", BY_A, on(list_of(*FIRST_OF_MANY, entry_of(b"A"))), accepted()),
    Row("list: none of 200 entries", BY_A, on(list_of(*FIRST_OF_MANY)), UNLISTED),
    Row("list: extensions behind the entries", BY_A, on(list_of(entry_of(b"A"), behind="a000")), accepted()),
    Row("list: a second time, a version, an identifier and a number", BY_A,
        on(list_of(entry_of(b"A"), version="020101", identifier="0401aa", number="020105", following="170d3236303130313030303030305a")), accepted()),
    Row("list: the same text in another string", BY_A, on(list_of(entry(property_of(29, digest_of(SAME_TEXT.hex()))))), UNLISTED),
    # the content
    Row("list: no content", BY_A, on(signed(TRUST_LIST)), NO_CONTENT),
    Row("list: no content of octets", BY_A, on(signed(DATA)), NO_CONTENT),
    Row("list: signed data of no certificates", BY_A, on(bytes.fromhex(BARE)), NO_CONTENT),
    Row("list: a content of octets", BY_A, on(signed(DATA, OF_OCTETS)), OTHER_CONTENT),
    Row("list: a trust list as a content of octets", BY_A, on(signed(DATA, context(0, octet_string(bytes.fromhex(trust_list(entry_of(b"A"))))))), OTHER_CONTENT),
    Row("list: a trust list of an unknown type", BY_A, on(signed("1.2.3", context(0, bytes.fromhex(trust_list(entry_of(b"A")))))), OTHER_CONTENT),
    Row("list: what stands for a file", BY_A, on(signed(INDIRECT_DATA, context(0, sequence(Signed().indirect_data())))), OTHER_CONTENT),
    Row("list: no content, the CA excluded", BY_A, excluding(on(signed(TRUST_LIST)), b"A"), accepted()),
    Row("list: another content, the CA excluded", BY_A, excluding(on(signed(DATA, OF_OCTETS)), b"A"), accepted()),
    Row("list: no content, and nobody asks", BY_A, beside(signed(TRUST_LIST), IN), accepted()),
    Row("list of a token: no content", STAMPED_BY_A, beside(signed(TRUST_LIST)), NO_CONTENT),
    Row("list of a token: another content", STAMPED_BY_A, beside(signed(DATA, OF_OCTETS)), OTHER_CONTENT),
    # what isn't read, whatever is asked
    Row("list: no octets", BY_A, on(b""), unread("malformed DER: the octets end within the element at octet 0")),
    Row("list: an octet is missing", BY_A, on(list_with(b"A")[:-1]), unread("malformed DER: the octets end within the element at octet 0")),
    Row("list: an octet behind", BY_A, on(b"\x30\x00\x00"), unread("malformed DER: octets after the element at octet 2")),
    Row("list: no signed data", BY_A, on(sequence()), unread()),
    Row("list: a trust list by itself", BY_A, on(bytes.fromhex(trust_list(entry_of(b"A")))), unread()),
    Row("list: usages that aren't identifiers", BY_A, on(list_of(entry_of(b"A"), entry_of(b"B", property_of(127, "04020500")))),
        unread()),
    Row("list: not read, and nobody asks", BY_A, beside(sequence(), NOTHING), unread()),
    Row("list: not read, and no signed data", file(S, signer_version=b"\x06"), on(sequence()), unread()),
    Row("list: not read, the CA excluded", BY_A, excluding(on(sequence()), b"A"), unread()),
]

# Names that are excluded.

EXCLUDED = [
    Row("excluded: the CA", BY_A, excluding(on(EMPTY), b"A"), accepted()),
    Row("excluded: the CA, without the flag", BY_A, excluding(on(EMPTY), b"A")._replace(exclude=False), UNLISTED),
    Row("excluded: no name", BY_A, excluding(on(EMPTY)), UNLISTED),
    Row("excluded: another name", BY_A, excluding(on(EMPTY), b"B"), UNLISTED),
    Row("excluded: the second name is that of the CA", BY_A, excluding(on(EMPTY), b"B", b"A"), accepted()),
    Row("excluded: the CA twice", BY_A, excluding(on(EMPTY), b"A", b"A"), accepted()),
    Row("excluded: a name that begins likewise", BY_A, excluding(on(EMPTY), b"A1"), UNLISTED),
    Row("excluded: the same text in another string", BY_A, on(EMPTY, exclude=True, excluded=(SAME_TEXT,)), UNLISTED),
    Row("excluded: the signer's own name", BY_A, excluding(on(EMPTY), b"S"), UNLISTED),
    Row("excluded: the name of no attribute", BY_A, on(EMPTY, exclude=True, excluded=(sequence(),)), UNLISTED),
    Row("excluded: a name with one attribute more", BY_A, on(EMPTY, exclude=True, excluded=(sequence(*[name(b"A")[2:]] * 2),)), UNLISTED),
    Row("excluded: the CA, and it is listed", BY_A, excluding(on(list_with(b"A")), b"A"), accepted()),
    Row("excluded: another name, and the CA is listed", BY_A, excluding(on(list_with(b"A")), b"B"), accepted()),
    Row("excluded: without a list", BY_A, excluding(on(None), b"A"), accepted()),
    Row("excluded: a parent that isn't the last", file(S, I, R), excluding(on(EMPTY), b"I"), UNLISTED),
    Row("excluded: the CA of a token", STAMPED_BY_A, excluding(beside(EMPTY), b"A"), UNLISTED),
    Row("excluded: the CA of a token, and of the signer", STAMPED_BY_A, excluding(on(EMPTY, OVER), b"A", b"R"), UNLISTED),
]

# Which certificate gives the name.

M = m()
I_BY_M = {"issuer": b"M", "by": M.key}
NAMES = (b"A", b"F", b"G", b"H", b"I", b"M", b"Q", b"R", b"S", b"T", b"X")

SIGNERS_CA = [
    ("no parent", file(S), 0, b"I"),
    ("a signer that issued itself", file(alone()), 0, b"S"),
    ("a signer that is a CA", file(s(ca=True)), 0, b"I"),
    ("a signer that is a root", file(alone(ca=True)), 0, b"S"),
    ("an intermediate", file(S, i(**I_BY_M)), 0, b"M"),
    ("a root", file(S, i(issuer=b"I", by=K_I)), 0, b"I"),
    ("two intermediates", file(S, i(**I_BY_M), M), 0, b"R"),
    ("two intermediates and a root", file(S, i(**I_BY_M), M, R), 0, b"R"),
    ("a parent that is no CA", file(S, i(ca=False, **I_BY_M)), 0, b"I"),
    ("a parent without constraints", file(S, i(ca=None, **I_BY_M)), 0, b"I"),
    ("the last parent is no CA", file(S, i(**I_BY_M), m(ca=False)), 0, b"M"),
    ("the last parent has no constraints", file(S, i(**I_BY_M), m(ca=None)), 0, b"M"),
    ("the first parent is no CA", file(S, i(ca=False, **I_BY_M), M), 0, b"R"),
    ("a parent between is no CA", file(S, i(**I_BY_M), m(ca=False), R), 0, b"R"),
    ("all but the first parent are no CAs", file(S, i(**I_BY_M), m(ca=False), r(ca=False)), 0, b"M"),
    ("no parent is a CA", file(S, i(ca=False, **I_BY_M), m(ca=None), r(ca=False)), 0, b"I"),
    # the issuer walk, and not the bag
    ("the parent in front of the signer", file(I, S, signer=S), 1, b"I"),
    ("the parents in another order", file(S, M, i(**I_BY_M)), 0, b"M"),
    ("a CA outside of the walk", file(S, t(ca=True)), 0, b"I"),
    ("a CA outside of the walk, between", file(S, t(ca=True), I), 0, b"R"),
    ("members that aren't certificates", file(UNREAD, S, UNREAD, i(**I_BY_M), UNREAD, signer=S), 0, b"M"),
    ("the first of two parents of one name", file(S, I, i(serial=b"\x02", issuer=b"X")), 0, b"R"),
    ("the second of two parents is no longer looked for", file(S, i(ca=False), i(serial=b"\x02", issuer=b"X")), 0, b"I"),
    ("another one of the signer's subject in front", file(s(serial=b"\x02", issuer=b"X"), S, I, signer=S), 1, b"X"),
    ("another one of the signer's subject in front, and its parent", file(ALIKE, S, I, R, signer=S), 1, b"R"),
    ("another one of the signer's subject behind", file(S, s(serial=b"\x02", issuer=b"X", ca=True), I), 0, b"R"),
    ("a signer that issued itself, and another CA of its subject", file(alone(), s(serial=b"\x02", ca=True)), 0, b"I"),
    ("the same, and that one is no CA", file(alone(), s(serial=b"\x02")), 0, b"S"),
]

TOKENS_CA = [
    ("one certificate", token(F), b"G"),
    ("one that issued itself", token(T), b"T"),
    ("its issuer", token(F, G), b"H"),
    ("its issuer and a root", token(F, G, H), b"H"),
    ("members that aren't certificates", token(UNREAD, F, UNREAD, G, UNREAD), b"H"),
    ("the first doesn't stamp", token(f(extensions=()), g(extensions=(STAMP,))), b"H"),
    ("a CA", token(f(ca=True)), b"G"),
    ("a second one of the first one's subject", token(F, f(serial=b"\x02", issuer=b"X")), b"G"),
    ("a second one of the first one's subject, and a CA", token(F, f(serial=b"\x02", issuer=b"X", ca=True)), b"X"),
    ("the same behind its issuer", token(F, G, f(serial=b"\x02", issuer=b"X", ca=True)), b"X"),
    ("the same before its issuer", token(F, f(serial=b"\x02", issuer=b"X", ca=True), G), b"H"),
    ("the same, and no CA, behind its issuer", token(F, G, f(serial=b"\x02", issuer=b"X")), b"H"),
    ("the first one twice", token(F, F), b"G"),
]


def of_names():
    """Of each CA a list that has it alone, and one of all others."""
    for why, made, place, ca in SIGNERS_CA:
        others = list_with(*(one for one in NAMES if one != ca))
        yield Row(f"CA of the signer: {why}", made, on(list_with(ca), NOTHING), accepted(place))
        yield Row(f"CA of the signer: {why}, all others listed", made, on(others, NOTHING), UNLISTED)
    for why, stamp, ca in TOKENS_CA:
        made, others = file(S, I, tokens=(stamp,)), list_with(*(one for one in NAMES if one != ca))
        yield Row(f"CA of a token: {why}", made, beside(list_with(ca)), accepted(0, "1", "token"))
        yield Row(f"CA of a token: {why}, all others listed", made, beside(others), UNLISTED)


# The CA of the signer and that of what may excuse it: of the signer R, by which I was issued, and of the token T.

class State(NamedTuple):
    """How a CA is on a list, by its attributes there, None where it isn't, and the refusal."""

    why: str
    attributes: tuple | None
    said: str | None


STAMPS_CA = [State("listed", (), LISTED), State("ended", (ends(octets((NOW - 1) * SECOND)),), ended()), State("not listed", None, UNLISTED)]
PARENTS_CA = [State("listed", (), LISTED), State("revoked", (ends("ff" * 7),), REVOKED), State("not listed", None, UNLISTED)]
EXCUSED_BY_TOKEN, EXCUSED_BY_BAG = file(S, I, tokens=(token(T),)), file(S, I, T)
EXCUSED_BY_BOTH = file(S, I, T, tokens=(token(T),))


def list_in_states(stamp, parent):
    states = (b"T", stamp), (b"R", parent)
    return list_of(*(entry_of(text, *state.attributes) for text, state in states if state.attributes is not None))


def of_both():
    """A file with and without the signer's CA asked for and excluded: the token's list comes first."""
    files = [
        ("a token", EXCUSED_BY_TOKEN, OVER, "token"), ("a token, no chain", EXCUSED_BY_TOKEN, at(LATER, **NO_CHAIN), "token"),
        ("a token, basic left out", EXCUSED_BY_TOKEN, at(LATER, policy=SIGNING), "token"), ("a token, and not expired", EXCUSED_BY_TOKEN, IN, "none"),
        ("a member of the bag", EXCUSED_BY_BAG, OVER, "bag"), ("a member of the bag, and a token", EXCUSED_BY_BOTH, OVER, "bag"),
    ]
    for (how, made, policy, excuse), stamp, parent in product(files, STAMPS_CA, PARENTS_CA):
        first = stamp.said if excuse == "token" else None
        path = "1" if policy.chain else ""
        for is_asked, is_excluded in product((True, False), (True, False)):
            asked = on(list_in_states(stamp, parent), policy, against_list=is_asked)
            second = parent.said if is_asked and not is_excluded else None
            words = f"the token's CA {stamp.why}, the signer's {parent.why}{'' if is_asked else ', nobody asks'}{', excluded' if is_excluded else ''}"
            yield Row(f"{how}: {words}", made, excluding(asked, b"R", b"T") if is_excluded else asked, first or second or accepted(0, path, excuse))


# The list of a token beside each other rule of the excuse: of the tokens in `excuse_rows` the one that
# excuses has the CA H.

BROKEN = i(ca=False)
UNLISTED_TOKEN = Reason("a token that isn't on the list", at_all(UNLISTED), tokens=(token(T),))


def of_reasons():
    """A token that isn't on the list: alone, with each other rule, and before each other token."""
    pairs = [(UNLISTED_TOKEN,), *((one, UNLISTED_TOKEN) for one in REASONS), *((UNLISTED_TOKEN, one) for one in TOKENS_ALONE)]
    for those, (parent, fault) in product(pairs, ((I, None), (BROKEN, no_authority("I")))):
        made = file(s(extensions=joined(those, "extensions")), parent, *joined(those, "members"), tokens=joined(those, "tokens"))
        why = f"{' and '.join(one.why for one in those)}, {'a broken' if fault else 'a linked'} path"
        for row in of_path(why, made, those[0].answers, at_all(fault), "1"):
            yield row._replace(policy=beside(list_with(b"H"), row.policy))


# The order of steps.  The CA is asked for behind all rules of the signer, and that of a token behind
# the token's links, before those of the path.

FOR_LIFETIME = s(extensions=(LIFETIME,))
ORDER = [
    Row("order: the signature before the list", without(file(S, I), 0), on(EMPTY), refused("SignatureError", "signature error: invalid signature")),
    Row("order: the digest of the file before the list", file(S, I), on(EMPTY, IN._replace(file_hash=None)),
        refused("MissingExpectedFileHash", "no digest of the file is given")),
    Row("order: code signing before the list", file(s(extensions=(STAMP,)), I), on(EMPTY),
        refused("NoEKUCodeSigning", "the certificate of the signer is not one for code signing")),
    Row("order: the date before the list", file(S, I), on(EMPTY, ALL), NO_DATE),
    Row("order: not yet valid before the list", file(S, I), on(EMPTY, at(EARLY)), not_yet("S", FIRST, EARLY)),
    Row("order: an expiry before the list", file(S, I), on(EMPTY, OVER), expired()),
    Row("order: a link before the list", file(S, BROKEN), on(EMPTY), no_authority("I")),
    Row("order: the last link before the list", file(S, i(by=K_X, authority=K_R.identifier()), R), on(EMPTY), bad_signature("I")),
    Row("order: a link of an excused signer before the list", file(S, BROKEN, T), on(EMPTY, OVER), no_authority("I")),
    Row("order: all links, and the list", file(S, I, R), on(EMPTY), UNLISTED),
    Row("order: no chain, and the list", file(S, BROKEN), on(EMPTY, at(DAY, **NO_CHAIN)), UNLISTED),
    # lists of tokens
    Row("order: lifetime signing before a token's list", file(FOR_LIFETIME, I, tokens=(token(T),)), beside(EMPTY), expired()),
    Row("order: a token for no stamps before its list", file(S, I, tokens=(PLAIN_TOKEN,)), beside(EMPTY), expired()),
    Row("order: a token without certificates before its list", file(S, I, tokens=(token(),)), beside(EMPTY), expired()),
    Row("order: no token before a list", file(S, I, unsigned=(countersigned(),)), beside(EMPTY), expired()),
    Row("order: a token's links before its list", file(S, I, tokens=(UNLINKED_TOKEN,)), beside(EMPTY), bad_stamp(no_authority("G"))),
    Row("order: a token's list before the links of the path", file(S, BROKEN, tokens=(token(T),)), beside(EMPTY), UNLISTED),
    Row("order: a token's list, then the links of the path", file(S, BROKEN, tokens=(token(T),)), beside(list_with(b"T")), no_authority("I")),
    Row("order: a token's list, then the links, then the list", file(S, BROKEN, tokens=(token(T),)), on(list_with(b"T"), OVER), no_authority("I")),
    Row("order: a token's links, its list, the path's links and the list", file(S, BROKEN, tokens=(UNLINKED_TOKEN,)), on(EMPTY, OVER), bad_stamp(no_authority("G"))),
    Row("order: a table without the row of the path, and a token's list", without(file(S, I, tokens=(token(T),)), 1), beside(EMPTY), UNLISTED),
    Row("order: the signature before a token's list", without(file(S, I, tokens=(token(T),)), 0), beside(EMPTY), refused("SignatureError", "signature error: invalid signature")),
    Row("order: not expired by the last end left out, and a token's list", file(S, I, tokens=(token(T),)), beside(EMPTY, at(LATER, not_after=False)), accepted(0, "1")),
    Row("order: not yet valid before a token's list", file(S, I, tokens=(token(T),)), beside(EMPTY, at(EARLY)), not_yet("S", FIRST, EARLY)),
    Row("order: the first of two tokens is on the list", file(S, I, tokens=(token(T), token(F))), beside(list_with(b"T")), accepted(0, "1", "token")),
    Row("order: the second of two tokens is on the list", file(S, I, tokens=(token(F), token(T))), beside(list_with(b"T")), UNLISTED),
]

# The signer, by the list alone.

NO_SIGNER_INFO = file(S, I, signers=())
TWO_SIGNERS = (Signed(named=S.named()).signer(), Signed(named=BY_KEY).signer())
R_LISTED = list_with(b"R")

LIST_ALONE = [
    Row("list alone: listed", file(S, I), on(R_LISTED, NOTHING), accepted()),
    Row("list alone: not listed", file(S, I), on(EMPTY, NOTHING), UNLISTED),
    Row("list alone: no list", file(S, I), on(None, NOTHING), accepted()),
    Row("list alone: no list, the signer behind", file(I, S, signer=S), on(None, NOTHING), accepted(1)),
    Row("list alone: a list that nobody asks", file(S, I), beside(EMPTY, NOTHING), accepted("")),
    Row("list alone: an expired signer", file(s(ends="20240101000000"), I), on(R_LISTED, NOTHING, lower="20250101000000", not_after=True), accepted()),
    Row("list alone: a broken path", file(S, i(by=K_X)), on(R_LISTED, NOTHING, chain=True), accepted()),
    Row("list alone: no signed data", file(S, signer_version=b"\x06"), on(R_LISTED, NOTHING),
        refused("Asn1Deserialization", "(ASN1) couldn't deserialize pkcs7 certificate: the element has another structure than the one that is read")),
    Row("list alone: no signer", NO_SIGNER_INFO, on(R_LISTED, NOTHING), NO_SIGNER),
    Row("list alone: no signer, no list", NO_SIGNER_INFO, on(None, NOTHING), NO_SIGNER),
    Row("list alone: no signer, and the list has no content", NO_SIGNER_INFO, on(signed(TRUST_LIST), NOTHING), NO_SIGNER),
    Row("list alone: a signer by its key", file(S, I, named=BY_KEY), on(R_LISTED, NOTHING), NAMED_BY_KEY),
    Row("list alone: no certificate of this number", file(S, I, named=named(b"I", b"\x02")), on(R_LISTED, NOTHING), no_certificate("02", "I")),
    Row("list alone: no certificate at all", file(S, field=b""), on(EMPTY, NOTHING), no_certificate("01", "I")),
    Row("list alone: no certificate, and the names are excluded", file(S, I, named=named(b"Q")), excluding(on(EMPTY, NOTHING), b"Q", b"I", b"R"), no_certificate("01", "Q")),
    Row("list alone: two signers, the first counts", file(S, I, signers=TWO_SIGNERS), on(R_LISTED, NOTHING), accepted()),
    Row("list alone: two signers, the first by its key", file(S, I, signers=TWO_SIGNERS[::-1]), on(R_LISTED, NOTHING), NAMED_BY_KEY),
    Row("list and basic: listed", file(S, I), on(R_LISTED, BASIC), accepted()),
    Row("list and basic: not listed", file(S, I), on(EMPTY, BASIC), UNLISTED),
    Row("list and basic: the signer behind", file(I, S, signer=S), on(list_with(b"I"), BASIC), accepted(1)),
    Row("list and signing: listed", file(S, I), on(R_LISTED, at(DAY, policy=SIGNING)), accepted(0, "1")),
    Row("list and signing: not listed", file(S, I), on(EMPTY, at(DAY, policy=SIGNING)), UNLISTED),
    Row("list and signing: no signer", NO_SIGNER_INFO, on(EMPTY, at(DAY, policy=SIGNING)), NO_SIGNER),
    Row("list and all: listed", file(S, I), on(R_LISTED), accepted(0, "1")),
    Row("list and all: an excused signer", file(s(extensions=(CODE,)), I, T), on(R_LISTED, OVER), accepted(0, "1", "bag")),
    Row("list and all, no list", file(S, I), on(None), accepted(0, "1")),
    Row("list and all, no list, an excused signer by its token", EXCUSED_BY_TOKEN, on(None, OVER), accepted(0, "1", "token")),
]


def rows():
    """Every row."""
    yield from WORKED
    yield from of_entries()
    yield from OTHER_LISTS
    yield from EXCLUDED
    yield from of_names()
    yield from of_both()
    yield from of_reasons()
    yield from ORDER
    yield from LIST_ALONE
