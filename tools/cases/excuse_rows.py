"""Signature files of expired signers, for `check_rows`: each excuse and each rule of it, alone and with each other one, and each link of the issuer path.

Each row, or the table that rows are made of, has the answer, found
by hand from the steps that `check_judge` lists.
"""

from itertools import combinations
from typing import NamedTuple

from cases.basic_making import CODE_SIGNING, TIME_STAMPING, Signed, extension, usage
from cases.check_making import Made, Other, P256, counter_signature, countersigned, file, rsa, token
from cases.check_parts import (
    ALIKE, ALONE, ATTRIBUTES, BOTH, CODE, DAY, EARLY, FIRST, IN, K_I, K_R, K_S, K_X, LATE, LATER, LIFETIME, NO_AFTER, NO_BEFORE, NO_CHAIN,
    NO_SIGNED_DATA, OTHER_ID, OVER, SIGNING, STAMP, UNREAD, I, R, Row, S, T, accepted, at, bad_signature, bad_stamp, expired, i, no_authority,
    no_key_id, not_yet, other_issuer, other_key_id, r, refused, s, t, too_deep, unknown_algorithm, without,
)
from cases.first_path import attribute, identifier, octet_string, sequence
from judges.check_judge import LIFETIME_SIGNING
from judges.verdict_rows import FIRST_LINE

# A member of the bag for time stamping.

BAGS = [
    Row("a member for time stamping behind", file(S, I, T), OVER, accepted(0, "1", "bag")),
    Row("in front", file(T, S, I, signer=S), OVER, accepted(1, "2", "bag")),
    Row("the signer itself, for both", file(s(extensions=(BOTH,)), I), OVER, accepted(0, "1", "bag")),
    Row("the signer itself, a usage for each", file(s(extensions=(CODE, STAMP)), I), OVER, accepted(0, "1", "bag")),
    Row("the issuer", file(s(extensions=(CODE,)), i(extensions=(STAMP,))), OVER, accepted(0, "1", "bag")),
    Row("the second usage of a member", file(S, I, t(extensions=(CODE, STAMP))), OVER, accepted(0, "1", "bag")),
    Row("one purpose among others", file(S, I, t(extensions=(usage("1.2.3", TIME_STAMPING, CODE_SIGNING),))), OVER, accepted(0, "1", "bag")),
    Row("a critical usage", file(S, I, t(extensions=(usage(TIME_STAMPING, critical=True),))), OVER, accepted(0, "1", "bag")),
    Row("the last of many", file(S, I, R, ALONE, ALONE, ALONE, T), OVER, accepted(0, "1,2", "bag")),
    Row("a member expired as well", file(S, I, t(ends="20210101000000")), OVER, accepted(0, "1", "bag")),
    Row("a member that isn't valid yet", file(S, I, t(begins="20400101000000", ends="20500101000000")), OVER, accepted(0, "1", "bag")),
    Row("a member that nobody signed", file(S, I, t(by=K_X)), OVER, accepted(0, "1", "bag")),
    Row("the path is asked", file(S, i(ca=False, ends="20210101000000", key_id=None), T), OVER, no_authority("I")),
    Row("a signature of the path that isn't accepted", file(s(by=K_X, authority=None), I, T), OVER, bad_signature("S")),
    Row("no chain asked", file(S, I, T), at(LATER, **NO_CHAIN), accepted(excuse="bag")),
    Row("no chain, no usage", file(S, I), at(LATER, **NO_CHAIN), expired()),
    Row("the last end left out: no excuse is asked", file(S, I, T), at(LATER, **NO_AFTER), accepted(0, "1")),
    Row("within: no excuse is asked", file(S, I, T), IN, accepted(0, "1")),
    Row("not yet valid: none is looked for", file(S, I, T), at(EARLY), not_yet("S", FIRST, EARLY)),
    Row("basic left out", file(S, I, T), at(LATER, policy=SIGNING), accepted(0, "1", "bag")),
    Row("a bad signature is told first", without(file(S, I, T), 0), OVER, refused("SignatureError", "signature error: invalid signature")),
    Row("no member for time stamping", file(S, I, R), OVER, expired()),
    Row("a member for any purpose", file(S, I, t(extensions=(usage("2.5.29.37.0"),))), OVER, expired()),
    Row("a member of no purpose", file(S, I, t(extensions=(usage(),))), OVER, expired()),
    Row("a purpose that begins likewise", file(S, I, t(extensions=(usage("1.3.6.1.5.5.7.3.8.1"),))), OVER, expired()),
    Row("a purpose a level up", file(S, I, t(extensions=(usage("1.3.6.1.5.5.7.3"),))), OVER, expired()),
    Row("the purpose in another extension", file(S, I, t(extensions=(extension("1.2.3", sequence(identifier(TIME_STAMPING))),))), OVER, expired()),
    Row("a member that isn't read", file(S, I, Other(T.octets()[:-1][:1] + b"\x03\x02\x01\x00")), OVER, expired()),
    # lifetime signing
    Row("lifetime signing", file(s(extensions=(LIFETIME,)), I, T), OVER, expired()),
    Row("lifetime signing in a second usage", file(s(extensions=(CODE, usage(LIFETIME_SIGNING))), I, T), OVER, expired()),
    Row("lifetime signing and time stamping of the signer", file(s(extensions=(usage(CODE_SIGNING, TIME_STAMPING, LIFETIME_SIGNING),)), I), OVER, expired()),
    Row("lifetime signing of another member", file(s(extensions=(CODE,)), i(extensions=(usage(LIFETIME_SIGNING),)), T), OVER, accepted(0, "1", "bag")),
    Row("lifetime signing within", file(s(extensions=(LIFETIME,)), I, T), IN, accepted(0, "1")),
    Row("lifetime signing, the last end left out", file(s(extensions=(LIFETIME,)), I, T), at(LATER, **NO_AFTER), accepted(0, "1")),
    Row("lifetime signing and a token", file(s(extensions=(LIFETIME,)), I, tokens=(token(T),)), OVER, expired()),
    Row("lifetime signing of the second of the signer's subject", file(S, s(serial=b"\x02", extensions=(LIFETIME,)), I, T), at(LATER, policy=SIGNING), accepted(0, "2", "bag")),
]

# Tokens: a stamp F, its issuer G, and the root above that.

K_F, K_G, K_H = (rsa(number) for number in (0x21, 0x22, 0x23))


def f(**parts):
    return Made(**({"subject": b"F", "issuer": b"G", "key": K_F, "by": K_G, "extensions": (STAMP,)} | parts))


def g(**parts):
    return Made(**({"subject": b"G", "issuer": b"H", "key": K_G, "by": K_H, "ca": True} | parts))


def h(**parts):
    return Made(**({"subject": b"H", "key": K_H, "ca": True} | parts))


F, G, H = f(), g(), h()


def stamped(*members, policy=OVER, said=accepted(0, "1", "token"), why, **parts):
    """A row with a token of these certificates."""
    return Row(f"token: {why}", file(S, I, tokens=(token(*members),), **parts), policy, said)


def with_unsigned(why, *unsigned, tokens=(), said=expired()):
    """A row with these unsigned attributes."""
    return Row(f"unsigned attributes: {why}", file(S, I, tokens=tokens, unsigned=unsigned), OVER, said)


TOKEN, PLAIN_TOKEN, UNLINKED_TOKEN = token(F, G, H), token(ALONE), token(F, g(ca=False))
PLAIN_SIGNER = Signed(named=S.named()).signer()
OLD_STAMPS = (f(ends="20210101000000"), g(ends="20210101000000"), h(ends="20210101000000"))
COMING_STAMPS = (f(begins="20400101000000", ends="20500101000000"), g(begins="20400101000000", ends="20500101000000"), H)

TOKENS = [
    stamped(F, G, H, why="a chain of three"),
    stamped(F, G, why="a chain of two"),
    stamped(F, why="one whose issuer isn't there"),
    stamped(T, why="one that issued itself"),
    stamped(T, H, policy=IN, said=accepted(0, "1"), why="within nobody asks"),
    stamped(F, H, policy=at(LATER, **NO_AFTER), said=accepted(0, "1"), why="with the last end left out nobody asks"),
    stamped(F, H, policy=at(EARLY), said=not_yet("S", FIRST, EARLY), why="not yet valid: none is looked for"),
    stamped(F, G, H, policy=at(LATER, policy=SIGNING), why="basic left out"),
    stamped(F, G, H, policy=at(LATER, **NO_CHAIN), said=accepted(excuse="token"), why="no chain asked"),
    stamped(F, G, H, policy=at(LATER, **NO_BEFORE), why="the first end left out"),
    stamped(F, G, H, policy=at(LATE, LATER), why="an interval"),
    # which certificate stamps
    stamped(said=expired(), why="no certificate"),
    stamped(UNREAD, said=expired(), why="none that is read"),
    stamped(f(extensions=()), g(), said=expired(), why="none for time stamping"),
    stamped(f(extensions=(CODE,)), g(), said=expired(), why="code signing alone"),
    stamped(f(extensions=(usage("2.5.29.37.0"),)), G, said=expired(), why="any purpose"),
    stamped(f(extensions=()), g(ca=False), said=expired(), why="none for time stamping, and a broken chain"),
    stamped(f(extensions=()), g(extensions=(STAMP,)), why="the issuer alone is for time stamping"),
    stamped(f(extensions=()), G, h(extensions=(STAMP,)), why="the root alone"),
    stamped(f(extensions=(CODE, STAMP)), G, why="a second usage"),
    stamped(f(extensions=(usage(TIME_STAMPING, LIFETIME_SIGNING),)), G, why="lifetime signing of the stamp isn't asked"),
    # the first one, and those of another subject in order
    stamped(UNREAD, F, ATTRIBUTES, G, UNREAD, H, why="members that aren't certificates between"),
    stamped(F, F, G, H, why="the first one twice"),
    stamped(F, G, f(serial=b"\x02", key=K_X), H, why="another of the first one's subject between"),
    stamped(F, G, f(serial=b"\x02", key=K_X), why="another of the first one's subject behind"),
    stamped(f(authority=None), H, G, said=bad_stamp(other_issuer("F", "G", "H")), why="the root before the authority"),
    stamped(F, H, G, said=bad_stamp(other_key_id("F", K_G.identifier().hex(), K_H.identifier().hex())), why="the same, and keys are named"),
    stamped(G, F, H, said=bad_stamp(no_authority("F")), why="the authority before the stamp"),
    stamped(F, G, ALONE, said=bad_stamp(no_authority("S")), why="one that has nothing to do with it behind"),
    stamped(F, G, H, r(length=None), said=bad_stamp(other_key_id("H", K_H.identifier().hex(), K_R.identifier().hex())), why="another root behind"),
    stamped(f(issuer=b"F", by=K_X), f(serial=b"\x02", key=K_X), why="its issuer has its own name"),
    # each rule of its chain
    stamped(F, g(ca=False), H, said=bad_stamp(no_authority("G")), why="no authority"),
    stamped(F, g(ca=None), H, said=bad_stamp(no_authority("G")), why="no constraints"),
    stamped(F, G, h(ca=False), said=bad_stamp(no_authority("H")), why="no authority above"),
    stamped(F, g(length=0), h(length=1), why="path lengths"),
    stamped(F, G, h(length=0), said=bad_stamp(too_deep("H", 0)), why="a path length of 0 above"),
    stamped(F, F, G, h(length=0), said=bad_stamp(too_deep("H", 0)), why="the first one twice isn't counted"),
    stamped(F, F, G, h(length=1), why="the first one twice isn't counted, and 1 is enough"),
    stamped(F, g(key_id=None), said=bad_stamp(no_key_id("G")), why="no key identifier"),
    stamped(F, g(key_id=OTHER_ID), said=bad_stamp(other_key_id("F", K_G.identifier().hex(), "aabb")), why="another key identifier"),
    stamped(f(outer=sequence(identifier("1.2.3"))), G, said=bad_stamp(unknown_algorithm("1.2.3")), why="an algorithm of no kind"),
    stamped(f(by=K_X, authority=None), G, said=bad_stamp(bad_signature("F")), why="signed by another key"),
    stamped(F, g(by=K_X, authority=None), H, said=bad_stamp(bad_signature("G")), why="its issuer signed by another key"),
    stamped(F, g(key=P256, key_id=K_G.identifier()), said=bad_stamp(bad_signature("F", "Key error: unsupported algorithm: EC")), why="a key of another kind"),
    stamped(F, g(ca=False), policy=at(LATER, **NO_CHAIN), said=bad_stamp(no_authority("G")), why="the chain of a token is asked without the chain"),
    stamped(F, g(ca=False), policy=at(LATER, policy=SIGNING), said=bad_stamp(no_authority("G")), why="and without basic"),
    Row("token: a table without the row of the stamp's certificate", without(file(S, I, tokens=(TOKEN,)), 3), OVER, bad_stamp(bad_signature("F"))),
    Row("token: a table without the row of the last one's", without(file(S, I, tokens=(TOKEN,)), 5), OVER, accepted(0, "1", "token")),
    # dates aren't asked
    stamped(*OLD_STAMPS, why="expired as well"),
    stamped(*COMING_STAMPS, why="not yet valid"),
    stamped(f(begins="20260101000000", ends="20240101000000"), G, why="never valid"),
    # what comes first
    Row("token: a member of the bag excuses, and the token is broken", file(S, I, T, tokens=(UNLINKED_TOKEN,)), OVER, accepted(0, "1", "bag")),
    Row("token: the path is asked", file(S, i(ca=False, ends="20210101000000"), tokens=(TOKEN,)), OVER, no_authority("I")),
    Row("token: lifetime signing of the signer, and the token is broken", file(s(extensions=(LIFETIME,)), I, tokens=(UNLINKED_TOKEN,)), OVER, expired()),
    Row("token: a parent expired isn't excused", file(S, i(ends="20240101000000"), tokens=(TOKEN,)), IN, expired("I", "2024-01-01", DAY)),
    Row("token: a bad signature is told first", without(file(S, I, tokens=(UNLINKED_TOKEN,)), 0), OVER, refused("SignatureError", "signature error: invalid signature")),
    Row("token: the signer behind", file(I, S, signer=S, tokens=(TOKEN,)), OVER, accepted(1, excuse="token")),
    # unsigned attributes
    with_unsigned("none"),
    with_unsigned("a token", countersigned(TOKEN), tokens=(TOKEN,), said=accepted(0, "1", "token")),
    with_unsigned("no value", countersigned()),
    with_unsigned("no value, then a token", countersigned(), countersigned(TOKEN), tokens=(TOKEN,)),
    with_unsigned("a counter-signature", counter_signature()),
    with_unsigned("a counter-signature, then a token", counter_signature(), countersigned(TOKEN), tokens=(TOKEN,)),
    with_unsigned("a token, then a counter-signature", countersigned(TOKEN), counter_signature(), tokens=(TOKEN,), said=accepted(0, "1", "token")),
    with_unsigned("another kind", attribute("1.2.3", octet_string(b""))),
    with_unsigned("another kind, then a token", attribute("1.2.3", octet_string(b"")), countersigned(TOKEN), tokens=(TOKEN,)),
    with_unsigned("a token of another kind of attribute", attribute("1.2.3", TOKEN.octets()), tokens=(TOKEN,)),
    with_unsigned("two values, the first stamps", countersigned(TOKEN, PLAIN_TOKEN), tokens=(TOKEN,), said=accepted(0, "1", "token")),
    with_unsigned("two values, the second stamps", countersigned(PLAIN_TOKEN, TOKEN), tokens=(TOKEN,)),
    with_unsigned("two values, the second's chain is broken", countersigned(TOKEN, UNLINKED_TOKEN), tokens=(TOKEN,), said=accepted(0, "1", "token")),
    with_unsigned("two values, the first's chain is broken", countersigned(UNLINKED_TOKEN, TOKEN), tokens=(TOKEN,), said=bad_stamp(no_authority("G"))),
    with_unsigned("two tokens, the first doesn't stamp", countersigned(PLAIN_TOKEN), countersigned(TOKEN), tokens=(TOKEN,)),
    with_unsigned("a token that is no signed data", attribute("1.3.6.1.4.1.311.3.3.1", sequence()), said=NO_SIGNED_DATA),
    Row("unsigned attributes: those of the second signer", file(S, I, tokens=(TOKEN,), signers=(PLAIN_SIGNER, Signed(named=S.named(), unsigned=(countersigned(TOKEN),)).signer())),
        at(LATER, policy=SIGNING), expired()),
    Row("unsigned attributes: those of the first of two signers", file(S, I, tokens=(TOKEN,), signers=(Signed(named=S.named(), unsigned=(countersigned(TOKEN),)).signer(), PLAIN_SIGNER)),
        at(LATER, policy=SIGNING), accepted(0, "1", "token")),
]

# Dates after the signer's end, and the interval from one to the other: what has expired is told by
# the first of an interval, and what isn't valid yet by the last.

SOON = "2030-07-01"
AFTER = [("at a date", at(SOON)), ("at a later date", OVER), ("over an interval", at(SOON, LATER))]


def at_all(said):
    """One answer for each of these."""
    return [said] * len(AFTER)


def of_path(why, made, answers, path_answers, path):
    """Rows of a file: the refusal of its path comes where there is an excuse and the chain is asked for."""
    for (when, policy), said, fault in zip(AFTER, answers, path_answers):
        for is_on in (True, False):
            line = said if said.startswith("refused") else fault if is_on and fault else accepted(0, path if is_on else "", said)
            yield Row(f"{why}, {when}{'' if is_on else ', no chain'}", made, policy._replace(chain=is_on), line)


# The rules of the excuse, in their order, each alone and with each other one, over a path that is
# linked and over one that isn't.  Of two tokens the first one is looked at.

class Reason(NamedTuple):
    """What makes a signer, a bag or a token count for an excuse or against it, and the answers where it counts first."""

    why: str
    answers: list
    extensions: tuple = ()
    members: tuple = ()
    tokens: tuple = ()


ENDED = [expired(now=SOON), expired(now=LATER), expired(now=SOON)]
TOKENS_ALONE = [
    Reason("a token for no stamps", ENDED, tokens=(PLAIN_TOKEN,)),
    Reason("a token that isn't linked", at_all(bad_stamp(no_authority("G"))), tokens=(UNLINKED_TOKEN,)),
    Reason("a token", at_all("token"), tokens=(TOKEN,)),
]
REASONS = [
    Reason("lifetime signing", ENDED, extensions=(LIFETIME,)),
    Reason("a member for time stamping", at_all("bag"), members=(T,)),
    *TOKENS_ALONE,
]


def reasons():
    """None, each, and each two; the tokens in either order."""
    yield ()
    yield from ((one,) for one in REASONS)
    yield from combinations(REASONS, 2)
    yield from combinations(TOKENS_ALONE[::-1], 2)


def joined(those, part):
    return tuple(value for one in those for value in getattr(one, part))


def of_reasons():
    for those in reasons():
        answers = those[0].answers if those else ENDED
        why = " and ".join(one.why for one in those) or "nothing"
        for parent, fault in (I, None), (i(ca=False), no_authority("I")):
            made = file(s(extensions=joined(those, "extensions")), parent, *joined(those, "members"), tokens=joined(those, "tokens"))
            yield from of_path(f"{why}, {'a broken' if fault else 'a linked'} path", made, answers, at_all(fault), "1")


# Each link of an excused signer's path, of three parents: I, which M issued, and M, which R issued.

K_M = rsa(0x16)
KEYS = {"s": K_S, "i": K_I, "m": K_M, "r": K_R}
LONE_TOKEN = token(T)


def m(**parts):
    """The CA M between I and R."""
    return Made(**({"subject": b"M", "issuer": b"R", "key": K_M, "by": K_R, "ca": True, "ends": "20450101000000"} | parts))


def members(changes):
    """The signer and its three parents with these changes."""
    parts = {which: {} for which in KEYS}
    for (which, part), value in changes.items():
        parts[which][part] = value
    return s(**parts["s"]), i(**({"issuer": b"M", "by": K_M} | parts["i"])), m(**parts["m"]), r(**parts["r"])


def malformed(made, place):
    """A file whose table, of version 2, says of a row that the signature is malformed."""
    rows = [f"{'malformed' if number == place else 'accept'} {line}\n" for number, line in enumerate(made.table.splitlines())]
    return made._replace(table="".join([f"{FIRST_LINE}\n", *rows]))


def as_it_is(made, place):
    return made


class Fault(NamedTuple):
    """What is changed of certificates and of the table, and at each date the refusal, None where there is none."""

    why: str
    changes: dict
    answers: list
    table: object = as_it_is


def faults(child, parent, number):
    """What may be wrong of one certificate over another, so many being between it and the signer."""
    one, other, key = child.upper(), parent.upper(), KEYS[parent]
    yield Fault("it has ended", {(parent, "ends"): "20300601000000"}, [expired(other, "2030-06-01", date) for date in (SOON, LATER, SOON)])
    yield Fault("it ends between the dates", {(parent, "ends"): "20300901000000"}, [None, expired(other, "2030-09-01", LATER), None])
    yield Fault("it begins between the dates", {(parent, "begins"): "20300901000000"}, [not_yet(other, "2030-09-01", SOON), None, None])
    yield Fault("it begins behind them", {(parent, "begins"): "20310601000000"}, [not_yet(other, "2031-06-01", date) for date in (SOON, LATER, LATER)])
    yield Fault("it is no CA", {(parent, "ca"): False}, at_all(no_authority(other)))
    yield Fault("it has no constraints", {(parent, "ca"): None}, at_all(no_authority(other)))
    yield Fault("its path length is enough", {(parent, "length"): number}, at_all(None))
    if number > 0:
        yield Fault("its path length is one less", {(parent, "length"): number - 1}, at_all(too_deep(other, number - 1)))
    yield Fault("it has no key identifier", {(parent, "key_id"): None}, at_all(no_key_id(other)))
    yield Fault("it has another key identifier", {(parent, "key_id"): OTHER_ID}, at_all(other_key_id(one, key.identifier().hex(), "aabb")))
    yield Fault("another key signed", {(child, "by"): K_X, (child, "authority"): key.identifier()}, at_all(bad_signature(one)))
    yield Fault("an algorithm of no kind", {(child, "outer"): sequence(identifier("1.2.3"))}, at_all(unknown_algorithm("1.2.3")))
    yield Fault("a table without its row", {}, at_all(bad_signature(one)), without)
    yield Fault("a table that says malformed", {}, at_all(bad_signature(one, "RSA error: the signature is malformed")), malformed)


def excused_files(changes):
    """Both excuses, and a file of each."""
    bag = members(changes)
    yield "bag", file(*bag, T)
    yield "token", file(*bag, tokens=(LONE_TOKEN,))


LINKS_ABOVE = [("s", "i"), ("i", "m"), ("m", "r")]


def of_links():
    for number, (child, parent) in enumerate(LINKS_ABOVE):
        for fault in faults(child, parent, number):
            for excuse, made in excused_files(fault.changes):
                # The first row of a table is that of the signer's signature.
                changed = fault.table(made, number + 1)
                yield from of_path(f"{excuse}, {parent.upper()} over {child.upper()}: {fault.why}", changed, at_all(excuse), fault.answers, "1,2,3")


def in_order():
    """The faults of a link in the order in which they are looked for, and then those of the next one."""
    for number, (child, parent) in enumerate(LINKS_ABOVE):
        by_why = {fault.why: fault for fault in faults(child, parent, number)}
        for why in ("it is no CA", "its path length is one less", "it begins behind them", "it has ended", "it has no key identifier",
                    "it has another key identifier", "an algorithm of no kind", "another key signed"):
            if why in by_why:
                yield f"{parent.upper()} over {child.upper()}: {why}", by_why[why]


def before_all_behind():
    """Each fault with all behind it that can occur beside it."""
    known = list(in_order())
    for place, (why, first) in enumerate(known):
        changes = dict(first.changes)
        for _, fault in known[place + 1:]:
            if not fault.changes.keys() & changes.keys():
                changes |= fault.changes
        for excuse, made in excused_files(changes):
            yield from of_path(f"{excuse}, {why}, and all behind", made, at_all(excuse), first.answers, "1,2,3")


# Other paths of excused signers.

BARE_SIGNER = s(authority=None)

OTHERS = [
    Row("excused, no parent", file(S, T), OVER, accepted(0, "", "bag")),
    Row("excused, one that issued itself", file(ALONE, T), OVER, accepted(0, "", "bag")),
    Row("excused, the signer behind its parent", file(I, S, T, signer=S), OVER, accepted(1, "", "bag")),
    Row("excused, basic left out, and a broken path", file(S, i(ca=False), T), at(LATER, policy=SIGNING), no_authority("I")),
    Row("excused, the first end left out, a parent that isn't valid yet", file(S, i(begins="20350101000000"), T), at(LATER, **NO_BEFORE), accepted(0, "1", "bag")),
    Row("excused, the first end left out, a parent that has ended", file(S, i(ends="20210101000000"), T), at(LATER, **NO_BEFORE), expired("I", "2021-01-01")),
    Row("the last end left out, a parent that has ended", file(S, i(ends="20210101000000"), T), at(LATER, **NO_AFTER), accepted(0, "1")),
    Row("excused, a parent at its last second", file(S, i(ends="20310101000000"), T), OVER, accepted(0, "1", "bag")),
    Row("excused, a parent that stamps and has ended", file(s(extensions=(CODE,)), i(ends="20301231235959", extensions=(STAMP,))), OVER, expired("I", "2030-12-31T23:59:59")),
    Row("excused, a parent for lifetime signing that has ended", file(s(extensions=(CODE,)), i(ends="20210101000000", extensions=(usage(LIFETIME_SIGNING),)), T), OVER, expired("I", "2021-01-01")),
    Row("excused, a root signed by another key isn't asked", file(S, I, r(by=K_X, authority=None), T), OVER, accepted(0, "1,2", "bag")),
    Row("excused, the issuer of another of the signer's subject is walked", file(ALIKE, BARE_SIGNER, I, R, T, signer=BARE_SIGNER), OVER, other_issuer("S", "I", "R")),
    Row("excused, the same, and no chain", file(ALIKE, BARE_SIGNER, I, R, T, signer=BARE_SIGNER), at(LATER, **NO_CHAIN), accepted(1, "", "bag")),
]


def rows():
    """Every row."""
    yield from BAGS
    yield from TOKENS
    yield from of_reasons()
    yield from of_links()
    yield from before_all_behind()
    yield from OTHERS
