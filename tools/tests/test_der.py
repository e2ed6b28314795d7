"""Tests of the reader of DER for users' scripts, beside the reference implementation, which reads the whole at once.

    python3 -m unittest discover -s tools/tests
"""

import sys
import unittest
from pathlib import Path
from random import Random

sys.path.insert(0, str(Path(__file__).resolve().parents[1]))

from common import der
from common.der import NOT_READ, NotRead
from gate.check_program_calls import STORED
from interop import chains
from judges import der_reader
from judges.value_reader import Shape, dotted


def tree(element, level=1):
    """The whole of an element, as the reference implementation has it; it reads 64 levels."""
    if level > der_reader.DEEPEST:
        raise NotRead("too deep")
    if not element.tag & 0x20:
        return der_reader.Primitive(element.tag, element.contents)
    return der_reader.Constructed(element.tag, tuple(tree(kid, level + 1) for kid in element.kids()))


def answers(octets):
    """What both read of octets, None where one reads nothing."""
    try:
        ours = tree(der.whole(octets))
    except NOT_READ:
        ours = None
    try:
        theirs = der_reader.read_exact(octets)
    except der_reader.Malformed:
        theirs = None
    return ours, theirs


class DerTest(unittest.TestCase):
    def test_real_ones(self):
        for octets in (*chains.stored().values(), *(one.file().octets[8:].rstrip(b"\0") for one in STORED.values())):
            ours, theirs = answers(octets)
            self.assertEqual(ours, theirs)
            self.assertIsNotNone(ours)

    def test_damaged_ones(self):
        """Octets of a certificate that are changed, cut and lengthened at random: both read the same, or neither reads."""
        chance, octets = Random(7), chains.stored()["first"]
        read = 0
        for _ in range(3000):
            place, other = chance.randrange(len(octets)), bytes([chance.choice(b"\x00\x01\x1f\x30\x31\x7f\x80\x81\x82\x83\x84\x85\xa0\xff")])
            made = chance.choice((octets[:place] + other + octets[place + 1:], octets[:place] + octets[place + 1:], octets[:place] + other + octets[place:], octets[:place]))
            ours, theirs = answers(made)
            self.assertEqual(ours, theirs, made.hex())
            read += ours is not None
        self.assertGreater(read, 300)

    def test_heads(self):
        """Each first pair of octets, and lengths in each form (X.690 8.1.2, 8.1.3, 10.1)."""
        for tag in range(256):
            for rest in (b"", b"\0", b"\1", b"\1\0", b"\x80", b"\x80\0\0", b"\x81\x7f" + bytes(127), b"\x81\x80" + bytes(128), b"\x82\0\x80" + bytes(128),
                         b"\x82\1\0" + bytes(256), b"\x84\0\0\1\0" + bytes(256), b"\x85\0\0\0\1\0" + bytes(256), b"\x84\xff\xff\xff\xff", b"\xff"):
                ours, theirs = answers(bytes([tag]) + rest)
                if tag & 0x20 and ours is None and theirs is None:
                    continue
                self.assertEqual(ours, theirs, (tag, rest[:8]))

    def test_object_identifiers(self):
        """The text is that of the reference implementation, and of too long a one there is none."""
        for contents in b"\x2a\x03\x04", b"\x00", b"\x27", b"\x28", b"\x4f", b"\x50", b"\x88\x37", b"\x55\x1d\x25", b"\x2b\x06\x01\x04\x01\x82\x37\x02\x01\x04":
            self.assertEqual(der.oid(der.whole(der.wrapped(6, contents))), dotted(contents))
        for contents in b"", b"\x80", b"\x2a\x80", b"\x2a" * 65:
            with self.assertRaises(NotRead):
                der.oid(der.whole(der.wrapped(6, contents)))
        with self.assertRaises(Shape):
            dotted(b"\x2a\x80")

    def test_limits(self):
        """More parts than are read, and any depth: nothing goes deeper than it is asked to."""
        many = der.whole(der.wrapped(0x30, b"\5\0" * 10_001))
        with self.assertRaises(NotRead):
            many.kids()
        self.assertEqual(len(many.kids(10_001)), 10_001)
        deep = b""
        for _ in range(3000):
            deep = der.wrapped(0x30, deep)
        element = der.whole(deep)
        for _ in range(2999):
            element, = element.kids()
        self.assertEqual(element.kids(), [])

    def test_written(self):
        for octets in b"", b"x" * 127, b"x" * 128, b"x" * 255, b"x" * 256, b"x" * 65_536:
            self.assertEqual(der.wrapped(4, octets), der_reader.write(der_reader.Primitive(4, octets)))


if __name__ == "__main__":
    unittest.main()
