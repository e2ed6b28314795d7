"""The first fault of octets, by its definition instead of by reading.

A start is a place, a bound and a level at which an element is tested.  The
starts are given by three rules.

  1. Place 0, with the end of the octets as bound and level 1, is a start.
  2. Where the head at a start passes its tests, the tag is constructed and
     the contents aren't empty, the place of these contents, with their end
     as bound and the next level, is a start.
  3. Where the octets at a start other than the one of rule 1 begin with the
     encoding of an element that fits its bound and level, the place after
     that encoding, with the same bound and level, is a start if it lies
     before the bound.

The fault is the failing test at the one start where a test fails, with its
place; there is none where every start passes.  Whole siblings are skipped by
their encoding, so nothing here follows the kids of an element from left to
right, as `der_reader` does.  `test_tools.py` compares the two.
"""

from typing import NamedTuple

from judges.der_reader import (
    DEEPEST, Constructed, NotWritable, Primitive, length_octets, nesting, write,
)


class Start(NamedTuple):
    place: int
    bound: int
    level: int


def first_fault(octets):
    """The fault and its place, or None."""
    faults = [
        (fault, start.place)
        for start in starts(octets)
        if (fault := failing_test(octets, start))
    ]
    assert len(faults) <= 1, "a test fails at one start at most"
    return faults[0] if faults else None


def starts(octets):
    """Every start, each once."""
    first = Start(0, len(octets), 1)
    pending = [first]
    while pending:
        start = pending.pop()
        yield start
        if not failing_test(octets, start):
            begin, end = contents_of(octets, start.place)
            if octets[start.place] & 0x20 and begin < end:
                pending.append(Start(begin, end, start.level + 1))
        if start != first:
            skipped = encoding_at(octets, start)
            if skipped and start.place + skipped < start.bound:
                pending.append(start._replace(place=start.place + skipped))


# The tests of a head.  Each is asked only where those before it pass.

def failing_test(octets, start):
    """The fault that the first failing test gives, or None."""
    return next(filter(None, (test(octets, start) for test in TESTS)), None)


def has_identifier(octets, start):
    if start.place >= start.bound:
        return past(start)


def is_tag_here(octets, start):
    if octets[start.place] == 0x00:
        return "ReservedTag"
    if octets[start.place] % 32 == 31:
        return "HighTag"


def is_within_levels(octets, start):
    if start.level == DEEPEST + 1:
        return "TooDeep"


def has_definite_length(octets, start):
    if start.place + 1 >= start.bound:
        return past(start)
    if octets[start.place + 1] == 0x80:
        return "Indefinite"
    if octets[start.place + 1] > 0x84:
        return "WideLength"


def has_shortest_length(octets, start):
    begin, end = contents_of(octets, start.place)
    if begin > start.bound:
        return past(start)
    if octets[start.place + 1:begin] != length_octets(end - begin):
        return "NotShortest"


def has_contents(octets, start):
    if contents_of(octets, start.place)[1] > start.bound:
        return past(start)


TESTS = (
    has_identifier, is_tag_here, is_within_levels,
    has_definite_length, has_shortest_length, has_contents,
)


def past(start):
    return "Truncated" if start.level == 1 else "Overrun"


def contents_of(octets, place):
    """Where the contents of an element at `place` begin and end by its length."""
    first = octets[place + 1]
    if first < 0x80:
        return place + 2, place + 2 + first
    begin = place + 2 + first % 0x80
    return begin, begin + int.from_bytes(octets[place + 2:begin], "big")


# Whole elements, found by writing them.

def encoding_at(octets, start):
    """How many octets the element takes whose encoding is at a start.

    None where there is no such element.  An encoding can be of one element
    only, so one guess is enough; the guess asks for no test, and counts only
    where writing it gives the octets there.
    """
    there = octets[start.place:start.bound]
    try:
        guess, _ = guessed(there, start.level)
        written = write(guess)
    except (IndexError, NotWritable, ValueError):
        return None
    fits = start.level - 1 + nesting(guess) <= DEEPEST
    return len(written) if fits and there.startswith(written) else None


def guessed(octets, level):
    """An element from the front of `octets`, and what is left of them."""
    begin, end = contents_of(octets, 0)
    contents, rest = octets[begin:end], octets[end:]
    if not octets[0] & 0x20:
        return Primitive(octets[0], contents), rest
    if level > DEEPEST:
        raise NotWritable("TooDeep")
    kids = []
    while contents:
        kid, contents = guessed(contents, level + 1)
        kids.append(kid)
    return Constructed(octets[0], tuple(kids)), rest
