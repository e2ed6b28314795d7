"""Calls of registers drawn at random, each register with a date, for `xgolden_run`.

Most certificates are issued by the one before, by its key, so that there are ancestors up to 20 deep.
Each reason to refuse a call is drawn too, alone and with others.  The validities overlap the date,
touch it, or miss it by a second.
"""

from random import Random
from typing import NamedTuple, Optional

from cases.drawn_histories import MOMENTS, window_of
from judges.register_judge import answers

REGISTERS = 1000
MOST_CALLS = 24
KINDS = ("child",) * 12 + ("request",) * 6 + ("unsigned", "unread")
FLAGS = (True,) * 14 + (False,)


class Call(NamedTuple):
    """What is issued: the index of the issuer, the number of the key that signs, and the grant."""

    kind: str
    issuer: int
    signer: int
    ca: bool
    path_length: Optional[int]
    first: str
    last: str


def issuer_of(chance, count):
    """Mostly the last index; seldom one that isn't there."""
    drawn = chance.random()
    if drawn < 0.03 or count == 0:
        return count + chance.randrange(3)
    return count - 1 if drawn < 0.85 else chance.randrange(count)


def length_of(chance, below):
    """None, or a number up to that of the calls that may come below."""
    if chance.random() < 0.85:
        return None
    return min(255, chance.choice((0, 1, 2, below, below, below + 1, below + 200)))


def signer_of(chance, records, issuer, number):
    """The number of the issuer's key, seldom that of another one."""
    if issuer >= len(records) or chance.random() < 0.04:
        return chance.randrange(number + 1)
    return records[issuer].key


def drawn_call(chance, records, number, moments, below):
    """A call, after those that made the records."""
    first, last = window_of(chance, *moments)
    grant = chance.choice(FLAGS), length_of(chance, below), first, last
    if not records and chance.random() < 0.9 or chance.random() < 0.03:
        return Call("root", 0, number, *grant)
    issuer = issuer_of(chance, len(records))
    return Call(chance.choice(KINDS), issuer, signer_of(chance, records, issuer, number), *grant)


def drawn_register(chance):
    """A date and the calls."""
    moments = chance.choice(MOMENTS)
    count = chance.randint(1, MOST_CALLS)
    calls, records = [], []
    for number in range(count):
        calls.append(drawn_call(chance, records, number, moments, max(0, count - number - 2)))
        records, _ = answers(calls)
    return moments[0], calls


def registers():
    chance = Random(49)
    return [drawn_register(chance) for _ in range(REGISTERS)]
