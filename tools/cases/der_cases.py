"""Random elements and mutations of their encodings, for comparing readers.

Everything is drawn from one `random.Random`, so a seed gives the same cases
each time.
"""

from itertools import islice
from random import Random

from judges.der_reader import Constructed, Primitive, encoding

LONGEST_CASE = 0xFFFF

PRIMITIVE_TAGS = (0x01, 0x02, 0x03, 0x04, 0x05, 0x06, 0x0C, 0x17, 0x1E, 0x41, 0x80, 0x9E, 0xC2)
CONSTRUCTED_TAGS = (0x30, 0x30, 0x31, 0x20, 0x3E, 0x61, 0xA0, 0xA3, 0xBE, 0xE1)
SHORT_SIZES = (0, 0, 1, 1, 2, 3, 5, 9)
# Sizes around which the form of a length changes.
EDGE_SIZES = (0x7E, 0x7F, 0x80, 0x81, 0xFE, 0xFF, 0x100, 0x101)
# Octets that mean something as an identifier or as a length.
TELLING_OCTETS = (
    0x00, 0x01, 0x02, 0x05, 0x1E, 0x1F, 0x20, 0x30, 0x3F, 0x5F, 0x7E, 0x7F,
    0x80, 0x81, 0x82, 0x83, 0x84, 0x85, 0x9F, 0xA0, 0xBF, 0xFE, 0xFF,
)


def mutations(count, seed):
    """`count` octet strings: encodings of random elements, mostly changed.

    About one in ten stays as it is, and is read.
    """
    return islice(_mutations(Random(seed)), count)


def _mutations(rng):
    while True:
        octets = encoding(random_tree(rng))
        for _ in range(rng.choice((0, 1, 1, 1, 1, 1, 1, 2, 2, 3))):
            octets = rng.choice(CHANGES)(rng, octets)
        yield octets[:LONGEST_CASE]


def random_tree(rng):
    """A small element; now and then a long one, or one of some 64 levels."""
    tree = _random_constructed(rng, rng.randint(2, 7))
    if rng.random() < 0.05:
        for _ in range(rng.randint(57, 65)):
            tree = _wrapped(rng, tree)
    return tree


def _random_element(rng, levels):
    if levels == 1 or rng.random() < 0.3:
        return _random_primitive(rng)
    return _random_constructed(rng, levels)


def _random_constructed(rng, levels):
    count = rng.choice((0, 1, 1, 2, 2, 2, 3, 4))
    kids = (_random_element(rng, levels - 1) for _ in range(count))
    return Constructed(rng.choice(CONSTRUCTED_TAGS), tuple(kids))


def _random_primitive(rng):
    size = rng.choice(EDGE_SIZES if rng.random() < 0.05 else SHORT_SIZES)
    return Primitive(rng.choice(PRIMITIVE_TAGS), rng.randbytes(size))


def _wrapped(rng, tree):
    """The element as a kid, mostly the only one."""
    kids = [tree]
    if rng.random() < 0.1:
        kids.insert(rng.randint(0, 1), Primitive(0x05, b""))
    return Constructed(rng.choice(CONSTRUCTED_TAGS), tuple(kids))


# The changes.  Each takes octets, none or many, and gives others.

def _set_octet(rng, octets):
    place = rng.randrange(len(octets) + 1)
    return octets[:place] + bytes([rng.choice(TELLING_OCTETS)]) + octets[place + 1:]


def _nudge_octet(rng, octets):
    if not octets:
        return octets
    place = rng.randrange(len(octets))
    nudged = (octets[place] + rng.choice((-1, 1))) % 256
    return octets[:place] + bytes([nudged]) + octets[place + 1:]


def _flip_bit(rng, octets):
    if not octets:
        return octets
    place = rng.randrange(len(octets))
    return octets[:place] + bytes([octets[place] ^ 1 << rng.randrange(8)]) + octets[place + 1:]


def _insert_octet(rng, octets):
    place = rng.randrange(len(octets) + 1)
    return octets[:place] + bytes([rng.choice(TELLING_OCTETS)]) + octets[place:]


def _remove_octet(rng, octets):
    place = rng.randrange(len(octets) + 1)
    return octets[:place] + octets[place + 1:]


def _cut(rng, octets):
    return octets[:rng.randrange(len(octets) + 1)]


def _append_zeros(rng, octets):
    return octets + bytes(rng.randint(1, 9))


def _append_element(rng, octets):
    return octets + encoding(_random_primitive(rng))


def _repeat_piece(rng, octets):
    begin = rng.randrange(len(octets) + 1)
    end = rng.randint(begin, min(begin + 8, len(octets)))
    return octets[:end] + octets[begin:]


def _lengthen_length(rng, octets):
    """Some octet that may be a length, in a longer form than is needed."""
    if not octets:
        return octets
    place = rng.randrange(len(octets))
    count = rng.randint(1, 5)
    longer = bytes([0x80 | count]) + octets[place].to_bytes(count, "big")
    return octets[:place] + longer + octets[place + 1:]


CHANGES = (
    _set_octet, _set_octet, _nudge_octet, _nudge_octet, _flip_bit, _insert_octet,
    _remove_octet, _cut, _append_zeros, _append_element, _repeat_piece, _lengthen_length,
)
