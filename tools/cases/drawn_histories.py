"""Issuing histories drawn at random, each with a date, for `xgolden_issuing`.

Most steps are issued by the step before, so that there are ancestors up to 20 deep.  The windows
overlap the date, touch it, or miss it by a second; most parts are drawn so that they allow what is
below, so that steps far down are accepted too.  Some are issued for a certification request, and some to
the name of their issuer.
"""

from random import Random
from typing import NamedTuple, Optional

HISTORIES = 1000
MOST_STEPS = 21
FLAGS = (True,) * 29 + (False,)

# Each is a date, and moments before and after it, which one second moves across it.
MOMENTS = [
    ("20250101000000", ("20000101000000", "20241231235959"), ("20491231235959", "20250101000001")),
    ("20240229235959", ("19500101000000", "20240229235958"), ("20240301000001", "20240301000000")),
    ("20500101000000", ("20491231235958", "20491231235959"), ("99991231235959", "20500101000001")),
]


class Step(NamedTuple):
    """An issuing: the step of the issuer, if it isn't a root, what the certificate says, and how it is asked for."""

    issuer: Optional[int]
    ca: bool
    path_length: Optional[int]
    first: str
    last: str
    request: bool
    same_name: bool


def issuer_of(chance, index):
    """None for a root; mostly the step before."""
    if index == 0 or chance.random() < 0.02:
        return None
    return index - 1 if chance.random() < 0.9 else chance.randrange(index)


def length_of(chance, below):
    """None, or a number around that of the steps that may come below."""
    if chance.random() < 0.75:
        return None
    return max(0, min(255, below + chance.choice((-2, -1, 0, 0, 1, 1, 2, 200))))


def window_of(chance, date, before, after):
    """The window ends or begins at the date, contains it, or misses it by a second."""
    drawn = chance.random()
    if drawn < 0.01:
        return after[1], after[0]
    if drawn < 0.02:
        return before[0], before[1]
    return chance.choice((*before, date)), chance.choice((*after, date))


def asked_by(chance, issuer):
    """Whether it is issued for a request, and to the issuer's name; a root is for neither."""
    return issuer is not None and chance.random() < 0.3, issuer is not None and chance.random() < 0.2


def drawn_history(chance, asking):
    """A date and the steps."""
    date, before, after = chance.choice(MOMENTS)
    count = chance.randint(1, MOST_STEPS)
    steps = []
    for index in range(count):
        first, last = window_of(chance, date, before, after)
        issuer, flag, length = issuer_of(chance, index), chance.choice(FLAGS), length_of(chance, count - index - 2)
        steps.append(Step(issuer, flag, length, first, last, *asked_by(asking, issuer)))
    return date, steps


def histories():
    chance, asking = Random(46), Random(69)
    return [drawn_history(chance, asking) for _ in range(HISTORIES)]
