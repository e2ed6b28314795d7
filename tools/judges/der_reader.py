"""Elements of DER as values: a writer, and a reader that answers the first fault.

This reader exists to be compared with the project's own, so it shares
nothing with it: it is written from X.690 and the rules below alone.

An element is `Primitive(tag, contents)` or `Constructed(tag, kids)`, its tag
one identifier octet.  Its encoding is the tag, the shortest definite length
(X.690 10.1) and the contents.  It may be nested to 64 levels, and its length
has at most four octets after the first.

Reading tests an element at place p in this order, and the first test that
fails gives the fault, with p as its place.  The bound of the outermost
element is the end of the input, that of another one the end of its parent's
contents.  What goes past its bound is `Truncated` for the outermost element
and `Overrun` for an inner one.

  1. There is an identifier octet (an inner element always has one).
  2. The identifier isn't 00, `ReservedTag`, and its low five bits aren't all
     set, `HighTag`.
  3. The element isn't the 65th on the way down, `TooDeep`.
  4. A length octet stands before the bound; it isn't 80, `Indefinite`, nor
     above 84, `WideLength`.
  5. Further length octets stand before the bound, and no fewer would do,
     `NotShortest`.
  6. The contents end at the bound or before it.
  7. The kids of a constructed element are read in order, up to the end of
     its contents.

    >>> read_first(bytes.fromhex("30 03 02 01 05 FF"))
    (Constructed(tag=48, kids=(Primitive(tag=2, contents=b'\\x05'),)), 5)
    >>> read_exact(bytes.fromhex("30 03 02 01 05 FF"))
    Traceback (most recent call last):
        ...
    der_reader.Malformed: Trailing at 5
"""

from functools import lru_cache
from typing import NamedTuple

# How many elements are kept that were read, of so many octets at most, and how many that were written.
KEPT, KEPT_LENGTH = 256, 1 << 16

DEEPEST = 64
LONGEST = 0xFFFF_FFFF

FAULTS = (
    "Truncated", "ReservedTag", "HighTag", "Indefinite", "NotShortest",
    "WideLength", "TooDeep", "Overrun", "Trailing",
)


class Primitive(NamedTuple):
    tag: int
    contents: bytes


class Constructed(NamedTuple):
    tag: int
    kids: tuple


class Malformed(Exception):
    """The octets aren't read: `fault` is one of FAULTS, `at` its place."""

    def __init__(self, fault, at):
        super().__init__(fault, at)
        self.fault = fault
        self.at = at

    def __str__(self):
        return f"{self.fault} at {self.at}"


class NotWritable(Exception):
    """A well-formed element that isn't written: `TooDeep` or `TooLong`."""


# Reading.

def read_first(octets):
    """The element that `octets` begin with, and the number of octets it takes."""
    if isinstance(octets, bytes) and len(octets) <= KEPT_LENGTH:
        return _kept_element(octets)
    return _element(octets, 0, len(octets), 1)


@lru_cache(maxsize=KEPT)
def _kept_element(octets):
    """The element that octets begin with, which is read once where it is asked for again and again."""
    return _element(octets, 0, len(octets), 1)


def read_exact(octets):
    """The element that `octets` are; what follows it is `Trailing`."""
    tree, taken = read_first(octets)
    if taken < len(octets):
        raise Malformed("Trailing", taken)
    return tree


def first_answer(octets):
    """What `read_first` answers, as a text: ``ok TAKEN`` or ``FAULT AT``."""
    try:
        _, taken = read_first(octets)
    except Malformed as refusal:
        return f"{refusal.fault} {refusal.at}"
    return f"ok {taken}"


def exact_answer(octets):
    """What `read_exact` answers, as a text: ``ok TAKEN`` or ``FAULT AT``."""
    try:
        read_exact(octets)
    except Malformed as refusal:
        return f"{refusal.fault} {refusal.at}"
    return f"ok {len(octets)}"


def cursor_answer(octets):
    """What a cursor answers, call by call, as a text: ``TAKEN TAKEN .. end`` or ``.. FAULT AT``.

    Each element is an outermost one of what is left, its places counted on.
    """
    words, place = [], 0
    while place < len(octets):
        try:
            _, after = _element(octets, place, len(octets), 1)
        except Malformed as refusal:
            return " ".join([*words, refusal.fault, str(refusal.at)])
        words.append(str(after - place))
        place = after
    return " ".join([*words, "end"])


def _element(octets, place, bound, level):
    """The element at `place`, and the place after it."""
    tag, start, end = _head(octets, place, bound, level)
    if not tag & 0x20:
        return Primitive(tag, octets[start:end]), end
    kids = []
    while start < end:
        kid, start = _element(octets, start, end, level + 1)
        kids.append(kid)
    return Constructed(tag, tuple(kids)), end


def _head(octets, place, bound, level):
    """Tests 1 to 6: the tag, and where the contents begin and end."""
    if place == bound:
        raise _past_the_bound(place, level)
    tag = octets[place]
    if tag == 0:
        raise Malformed("ReservedTag", place)
    if tag & 0x1F == 0x1F:
        raise Malformed("HighTag", place)
    if level > DEEPEST:
        raise Malformed("TooDeep", place)
    start = place + 2
    if start > bound:
        raise _past_the_bound(place, level)
    size = octets[place + 1]
    if size == 0x80:
        raise Malformed("Indefinite", place)
    if size > 0x84:
        raise Malformed("WideLength", place)
    if size > 0x80:
        first, start = start, start + size - 0x80
        if start > bound:
            raise _past_the_bound(place, level)
        size = 0
        for index in range(first, start):
            size = size << 8 | octets[index]
        if len(length_octets(size)) < 1 + start - first:
            raise Malformed("NotShortest", place)
    end = start + size
    if end > bound:
        raise _past_the_bound(place, level)
    return tag, start, end


def _past_the_bound(place, level):
    return Malformed("Truncated" if level == 1 else "Overrun", place)


# Writing.

def length_octets(size):
    """The shortest definite form of a length (X.690 8.1.3.4, 8.1.3.5, 10.1)."""
    if size < 0x80:
        return bytes([size])
    octets = size.to_bytes((size.bit_length() + 7) // 8, "big")
    return bytes([0x80 | len(octets)]) + octets


def encoding(tree):
    """Tag, length and contents; those of a constructed element are its kids'."""
    if isinstance(tree, Primitive):
        contents = tree.contents
    else:
        contents = b"".join(map(encoding, tree.kids))
    if len(contents) > LONGEST:
        raise NotWritable("TooLong")
    return bytes([tree.tag]) + length_octets(len(contents)) + contents


def write(tree):
    """The encoding of a well-formed element within the bounds.

    `NotWritable("TooDeep")` comes where it is nested past 64 levels, else
    `NotWritable("TooLong")` where some contents are longer than a length of
    four octets can say, and ValueError where it isn't well formed.
    """
    return _kept_encoding(tree)


@lru_cache(maxsize=KEPT)
def _kept_encoding(tree):
    """The encoding of an element, which is made once where it is asked for again and again."""
    if _is_deeper(tree, DEEPEST):
        raise NotWritable("TooDeep")
    if not is_well_formed(tree):
        raise ValueError("not a well-formed element")
    return encoding(tree)


def nesting(tree):
    """One more than the deepest kid's; 1 where there is none."""
    return 1 + max(map(nesting, _kids(tree)), default=0)


def is_well_formed(tree):
    """No tag is 00 or of a number past 30, and bit 6 tells the form."""
    return (
        0 < tree.tag < 0x100
        and tree.tag & 0x1F != 0x1F
        and bool(tree.tag & 0x20) == isinstance(tree, Constructed)
        and all(map(is_well_formed, _kids(tree)))
    )


def _is_deeper(tree, levels):
    """Whether the nesting passes `levels`; looks no deeper than that."""
    return levels == 0 or any(_is_deeper(kid, levels - 1) for kid in _kids(tree))


def _kids(tree):
    return tree.kids if isinstance(tree, Constructed) else ()
