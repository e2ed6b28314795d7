"""Rows of `xgolden_issuing` on certificates over their parents, each with the reason why it is there.

The certificates are made by `issuing_maker`, or put together by hand where it makes none of the kind; their
signatures are those of the demonstration scheme.  The lines come from `issuing_judge`.
"""

from hashlib import sha256

from cases import signature_rows as signatures
from cases.issuing_rows import DEMO, EMPTY, OWN, name
from cases.signature_rows import ED25519
from judges.der_reader import Constructed, Primitive, read_exact, write
from judges.issuing_judge import Read, chain_line, parent_line_by_name
from judges.issuing_maker import CALLED, WRITTEN, Table, bits, built, extension, generated, moment, oid, public_half, sequence, unsigned

K11, K12, K13, K14 = (signatures.rsa(number) for number in ("11", "12", "13", "14"))


def days(first, last):
    """Two days, each with its first second."""
    return "validity", (first + "000000", last + "000000")


# ---- made by the rules

def root(text, dates, key=K11, length=1):
    settings = [days(*dates), ("self_signed", name(text)), ("ca", True)]
    return built(1, key, settings + ([] if length is None else [("pathlen", length)]), DEMO)


def issued(parent, text, dates, key, own, *settings):
    """Of this name, by the key of the parent, for a key of its own."""
    return built(2, key, [days(*dates), ("issuer_cert", parent), ("subject", (name(text), public_half(own))), *settings], DEMO)


FUTURE = "TheFuture.usodakedo"
CA0 = ("ca", True), ("pathlen", 0)
FUTURE_ROOT = root(f"{FUTURE} Root CA", ("20650615", "20700615"))
FUTURE_ROOT_0 = root(f"{FUTURE} Root CA", ("20650615", "20700615"), length=0)
FUTURE_INT = issued(FUTURE_ROOT, f"{FUTURE} Authority", ("20680101", "20710101"), K11, K12, *CA0)
FUTURE_INT_BY_ANOTHER = issued(FUTURE_ROOT, f"{FUTURE} Authority", ("20680101", "20710101"), K14, K12, *CA0)
FUTURE_LEAF = issued(FUTURE_INT, f"{FUTURE}.jp", ("20690101", "20720101"), K12, K13)
FUTURE_LEAF_0 = issued(FUTURE_INT, f"{FUTURE}.jp", ("20690101", "20720101"), K12, K13, ("pathlen", 0))

MY_ROOT = root("My Root CA", ("20200928", "20230928"), length=None)
MY_INT = issued(MY_ROOT, "My Authority", ("20201015", "20211015"), K11, K12, *CA0)
MY_LEAF = built(3, K12, [
    days("20201101", "20210101"), ("issuer_cert", MY_INT), ("subject_from_csr", generated("rsa:SHA-256", K13, name("My Leaf"), (), DEMO)),
], DEMO)
MY_CHAIN = MY_LEAF, MY_INT, MY_ROOT

SIGNER_11, SIGNER_12 = (
    built(1, key, [days("20200101", "20300101"), ("self_signed", name(text)), ("ca", True)], DEMO) for text, key in (("Signer", K11), ("Other", K12))
)
OTHER_NAME = built(1, K11, [days("20200101", "20300101"), ("self_signed", name("Other")), ("ca", True)], DEMO)


# ---- by hand, of Ed25519

ED = WRITTEN["ed25519"]
UNKNOWN = sequence(oid("1.2.3"))
LONG, OVER, LATER = ("20200101", "20300101"), ("20200101", "20200601"), ("20270101", "20300101")


def public(owner):
    return sha256(owner.encode()).digest()


def certificate(subject, issuer, dates=LONG, *, ca=None, length=None, own=None, authority=None, by=None, owner=None, inner=ED, outer=ED, changed=False, true=b"\xff"):
    """A certificate for the key of its subject, by the key of its issuer, or of others: its flag, path length and key identifiers are left out where none are given."""
    flag = () if ca is None else (Primitive(1, true if ca else b"\0"),)
    listed = [extension(19, sequence(*flag, *(() if length is None else (unsigned(bytes([length])),))))]
    listed += [] if own is None else [extension(14, Primitive(4, own))]
    listed += [] if authority is None else [extension(35, sequence(Primitive(0x80, authority)))]
    key = read_exact(signatures.spki("ed", ED25519, public(owner or subject)))
    tbs = sequence(
        Constructed(0xA0, (Primitive(2, b"\2"),)), Primitive(2, b"\1"), inner, name(issuer), sequence(*map(moment, days(*dates)[1])), name(subject), key,
        Constructed(0xA3, (sequence(*listed),)),
    )
    signature = signatures.demo_signature("ed25519", public(by or issuer), write(tbs))
    return write(sequence(tbs, outer, bits(bytes(32) if changed else signature)))


LEAF = certificate("Leaf", "Int", ca=False)
NAMING = {"ca": True, "authority": b"\xaa\xbb"}
INT = certificate("Int", "Root", **NAMING)
ROOT = certificate("Root", "Root", ca=True, own=b"\xaa\xbb")
INT_CHANGED = certificate("Int", "Root", changed=True, **NAMING)
INT_UNKNOWN = certificate("Int", "Root", changed=True, outer=UNKNOWN, **NAMING)

# Parents of which fewer and fewer things are wrong, over an intermediate of which all are, or over others.
LADDER = [
    (INT_UNKNOWN, certificate("Other", "Other", OVER, length=0, own=b"\1"), "no flag, and all else is wrong"),
    (INT_UNKNOWN, certificate("Other", "Other", OVER, ca=False, length=0, own=b"\1"), "the flag is false"),
    (INT_UNKNOWN, certificate("Other", "Other", OVER, ca=True, length=0, own=b"\1"), "then the path length"),
    (INT_UNKNOWN, certificate("Other", "Other", OVER, ca=True, length=1, own=b"\1"), "then the dates"),
    (INT_UNKNOWN, certificate("Other", "Other", LATER, ca=True, length=1, own=b"\1"), "then the dates, later ones"),
    (INT_UNKNOWN, certificate("Other", "Other", ca=True), "then the key identifier that isn't there"),
    (INT_UNKNOWN, certificate("Other", "Other", ca=True, own=b"\1"), "then the key identifier of another key"),
    (INT_UNKNOWN, certificate("Other", "Other", ca=True, own=b"\xaa\xbb"), "then the name"),
    (INT_UNKNOWN, ROOT, "then the algorithm"),
    (INT_CHANGED, ROOT, "then the signature"),
    (INT, certificate("Root", "Above", ca=True, own=b"\xaa\xbb"), "then the root"),
    (INT, ROOT, "nothing is wrong"),
    (certificate("Int", "Root", inner=UNKNOWN, **NAMING), ROOT, "the outer algorithm counts"),
    (certificate("Int", "Root", ca=True, authority=b"\xaa\xbb", by="Int"), ROOT, "the key of the child signed"),
    (certificate("Int", "Root", ca=True), certificate("Root", "Root", ca=True), "no key identifiers"),
    (certificate("Int", "Root", ca=True), ROOT, "the child names no key"),
    (certificate("Int", "Root", LATER, **NAMING), ROOT, "the first parent is valid later"),
]

# A path length of each of four parents: the first number is that of the nearest.
LENGTHS = [(None, None, None, None), (0, 1, 2, 3), (0, 0, 2, 3), (0, 1, 1, 3), (0, 1, 2, 2), (255, 255, 255, 255), (0, None, None, None), (None, 0, None, None)]


def tower(lengths):
    """A leaf and its parents, one of each path length."""
    parents = [
        certificate(f"P{number}", f"P{min(number + 1, len(lengths) - 1)}", ca=True, length=length) for number, length in enumerate(lengths)
    ]
    return certificate("Leaf", "P0", ca=False), *parents


# A root whose flag is true in another octet than FF: what is signed is what was read.
ODD = certificate("Odd", "Odd", ca=True, true=b"\1")
ODD_LEAF = certificate("Odd Leaf", "Odd", ca=True, true=b"\1")

NOW = "20250101000000"
AT, BOTH = ["chain", "exact_date"], ["chain", "interval_date"]


def moments():
    """Certificates, two dates, setters, and why."""
    future, mine = (FUTURE_LEAF, FUTURE_INT, FUTURE_ROOT), MY_CHAIN
    for certificates, when, why in (
        (future, "20690101000000", "the first second of the leaf"), (future, "20681231235959", "a second before"), (future, "20691001000000", "all dates hold"),
        (future[:2], "20691001000000", "no root"), (future[:1], "20691001000000", "the leaf alone"), (future[2:], "20691001000000", "a root over itself"),
        (future[1:], "20691001000000", "the authority over the root"), (future, "20700615000000", "the last second of the root"),
        (future, "20700615000001", "the root expired"), (future, "20710601000000", "the authority expired, before the root"),
        (future, "20720101000001", "the leaf expired, before all"), (future, "20650614235959", "nothing is valid yet"),
        ((FUTURE_LEAF, FUTURE_INT, FUTURE_ROOT_0), "20691001000000", "the path length of the root is 0"),
        ((FUTURE_LEAF_0, FUTURE_INT, FUTURE_ROOT_0), "20691001000000", "that of all is 0"),
        ((FUTURE_LEAF_0, FUTURE_INT, FUTURE_ROOT), "20691001000000", "that of the root is 1"),
        ((FUTURE_LEAF, FUTURE_INT_BY_ANOTHER, FUTURE_ROOT), "20691001000000", "another key signed the authority"),
        ((FUTURE_LEAF, FUTURE_ROOT), "20691001000000", "the authority is left out"), ((FUTURE_LEAF, FUTURE_ROOT, FUTURE_INT), "20691001000000", "in another order"),
        (mine, "20201220000000", "all dates hold"), (mine, "20210101000000", "the last second of the leaf"), (mine, "20210102000000", "the leaf expired"),
        ((SIGNER_11, SIGNER_11), NOW, "a root is its own parent"), ((SIGNER_11, OTHER_NAME), NOW, "its key under another name"),
        ((SIGNER_11, SIGNER_12), NOW, "another key under another name"), ((ODD_LEAF, ODD), NOW, "TRUE in another octet"),
        ((certificate("L", "P", ca=False, authority=b"\xaa\xbb"), certificate("P", "P", ca=True, own=b"\1")), NOW, "two key identifiers"),
    ):
        yield certificates, when, when, AT, why
    for second, parent, why in LADDER:
        yield (LEAF, second, parent), NOW, NOW, AT, why
    for lengths in LENGTHS:
        yield tower(lengths), NOW, NOW, AT, "path lengths"


def setters():
    """What is asked for: of setters of one kind the last counts."""
    for *dates, why in (
        ("20681231235959", "20690101000000", "the interval ends with the leaf's first second"), ("20650101000000", "20681231235959", "it ends before"),
        ("20700615000000", "20990101000000", "it begins with the root's last second"), ("20700615000001", "20990101000000", "it begins after"),
        ("20710101000001", "20990101000000", "it begins after the authority's"), ("20990101000000", "20500101000000", "it ends before it begins"),
        ("20700615000000", "20690101000000", "the same, within all"), ("00000101000000", "99991231235959", "all moments"),
    ):
        yield (FUTURE_LEAF, FUTURE_INT, FUTURE_ROOT), *dates, BOTH, why
    leaf, alone, past = (FUTURE_LEAF, FUTURE_INT), (FUTURE_LEAF,), "20000101000000"
    future = "20691001000000", "20800101000000"
    for certificates, dates, named, why in (
        (alone, future, [], "no date is given"), (alone, future, ["chain"], "no date is given, before the chain"), (alone, future, ["exact_date"], "no chain is given"),
        (alone, (past, past), ["exact_date"], "the date, before the chain"), (alone, future, ["ignore_chain_check"], "no date is given, and no chain asked for"),
        (alone, future, ["ignore_not_before_check"], "a date is asked for still"), (alone, future, ["ignore_not_after_check"], "a date is asked for still"),
        (alone, future, ["ignore_not_before_check", "ignore_not_after_check"], "no chain is given, and no date asked for"),
        (leaf, future, ["chain", "ignore_not_before_check", "ignore_not_after_check", "any_end"], "no date is asked for"),
        (leaf, (past, past), ["chain", "ignore_not_before_check", "exact_date", "any_end"], "not yet valid, which isn't asked for"),
        (leaf, future[::-1], ["chain", "ignore_not_after_check", "exact_date", "any_end"], "expired, which isn't asked for"),
        (leaf, (past, past), ["chain", "ignore_not_after_check", "exact_date", "any_end"], "not yet valid, which is asked for"),
        (leaf, future[::-1], ["chain", "ignore_not_before_check", "exact_date", "any_end"], "expired, which is asked for"),
        (leaf, (past, past), ["chain", "ignore_not_before_check", "require_not_before_check", "exact_date"], "ignored, then required"),
        (leaf, future[::-1], ["chain", "ignore_not_after_check", "require_not_after_check", "exact_date"], "ignored, then required"),
        (leaf, future, [*AT, "any_end"], "a root isn't asked for"), (leaf, future, [*AT, "any_end", "root"], "it is, after all"),
        (leaf, future, ["ignore_chain_check", "exact_date"], "the chain isn't asked for"), (leaf, future, ["chain", "ignore_chain_check", "exact_date"], "nor looked at"),
        (leaf, future, ["ignore_chain_check", "require_chain_check", "exact_date"], "it is, after all, and none is given"),
        (leaf, (past, past), ["ignore_chain_check", "exact_date"], "the dates are asked for still"),
        (leaf, future, ["chain", "interval_date", "exact_date", "any_end"], "the date counts"), (leaf, (past, future[0]), ["chain", "exact_date", "interval_date", "any_end"], "the interval counts"),
        (leaf, (past, future[0]), ["chain", "interval_date", "exact_date", "any_end"], "the date counts, and is past"),
        ((FUTURE_LEAF, ROOT), future, ["ignore_chain_check", "exact_date"], "a parent that is none isn't looked at"),
    ):
        yield certificates, *dates, named, why


def links(certificates):
    """The name of the algorithm by which each is signed, the key of the next, what is signed, and the signature."""
    parsed = [Read(octets) for octets in certificates]
    for child, parent in zip(parsed, parsed[1:]):
        yield CALLED[child.algorithm.kids[0]], parent.key, child.signed, child.signature


def row_of(algorithm, key, message, signature):
    return signatures.name_of(*signatures.parts(algorithm)), key[2], message, signature


def table_for(certificates):
    """A row for each signature by the key of the next."""
    return Table(*(row_of(*link) for link in links(certificates)))


def table_by_demo(certificates):
    """A row for each signature that the demonstration scheme accepts."""
    return Table(*(row_of(*link) for link in links(certificates) if DEMO.verdict(*link) == "accepted"))


def row(scheme, certificates, lower, upper, named):
    words = scheme.word, "chain", ",".join(octets.hex() for octets in certificates), f"{lower}Z,{upper}Z", *named
    return " ".join(words), chain_line(certificates, lower, upper, named, scheme)


SIGNER = built(1, K11, OWN, DEMO)
SIGNER_OTHERWISE = built(1, K11, [OWN[0], ("self_signed", name("Other"))], DEMO)
ANOTHER_SIGNER, ANOTHER = (built(1, K12, [OWN[0], ("self_signed", name(text))], DEMO) for text in ("Signer", "Other"))

PARENTS = [
    (SIGNER, SIGNER, "its own parent"),
    (SIGNER, SIGNER_OTHERWISE, "of its key, under another name"),
    (SIGNER_OTHERWISE, SIGNER, "the other way around"),
    (SIGNER, ANOTHER_SIGNER, "of another key, under its name"),
    (SIGNER, ANOTHER, "of another key, under another name"),
    (MY_INT, MY_LEAF, "by a request"),
    (MY_ROOT, MY_LEAF, "not by the root"),
    (SIGNER[:-1], SIGNER, "the last octet is missing"),
    (SIGNER + b"\0", SIGNER, "an octet behind it"),
    (b"", SIGNER, "no octets"),
]


def parent_rows():
    for parent, child, _ in PARENTS:
        yield f"demo parent {parent.hex() or '-'} {child.hex()}", parent_line_by_name(parent, child)


def chain_rows():
    for *case, _ in (*moments(), *setters()):
        yield row(DEMO, *case)
    for certificates in ((FUTURE_LEAF, FUTURE_INT, FUTURE_ROOT), (FUTURE_LEAF, FUTURE_INT)):
        for scheme in (table_for(certificates), table_for(certificates[:2]), EMPTY):
            yield row(scheme, certificates, "20691001000000", "20691001000000", AT)
