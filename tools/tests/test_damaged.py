"""Tests of `damaged_files`: whole files, a few damaged ones, and a script that ends otherwise than it has to.

    python3 -m unittest discover -s tools/tests
"""

import random
import sys
import unittest
from pathlib import Path
from types import SimpleNamespace
from unittest.mock import patch

sys.path.insert(0, str(Path(__file__).resolve().parents[1]))

import order_bag
import signed_program
import verdict_table
from gate import damaged_files

TOOLS = verdict_table, order_bag, signed_program
WHOLE = {verdict_table: damaged_files.certificates, order_bag: damaged_files.signatures, signed_program: damaged_files.programs}


class DamagedFilesTest(unittest.TestCase):

    def test_whole_files(self):
        for tool, bases in WHOLE.items():
            made = [damaged_files.wrapped(kind, octets) for kind, octets in bases()]
            with patch.object(damaged_files, "files", lambda chance, *_: [(octets, octets if tool is verdict_table else None) for octets in made]):
                with patch.object(verdict_table, "is_accepted", damaged_files.in_place_of_arithmetic):
                    statuses, wrong, _ = damaged_files.check(tool, 1, len(made))
            self.assertEqual((wrong, {status for status, _ in statuses}), ([], {0}), tool.__name__)

    def test_some(self):
        for tool in TOOLS:
            with patch.object(verdict_table, "is_accepted", damaged_files.in_place_of_arithmetic):
                statuses, wrong, _ = damaged_files.check(tool, 7, 40)
            self.assertEqual((wrong, {status for status, _ in statuses}), ([], {0, 1}), tool.__name__)

    def test_some_with_openssl(self):
        statuses, wrong, _ = damaged_files.check(verdict_table, 8, 10)
        self.assertEqual((wrong, sum(statuses.values())), ([], 10))

    def test_a_seed_gives_the_same_files(self):
        for tool in TOOLS:
            one, again = ([octets for octets, _ in damaged_files.files(random.Random(3), tool, 20)] for _ in range(2))
            self.assertEqual(one, again)

    def test_other_ends(self):
        def of(end):
            tool = SimpleNamespace(__name__="order_bag", main=end)
            with patch.object(damaged_files, "files", lambda *_: [(b"0", None)]):
                return len(damaged_files.check(tool, 1, 1)[1])

        def says(text, status):
            def main(words):
                print(text.format(words[0]), file=sys.stderr)
                return status
            return main

        def left(words):
            sys.exit(2)

        self.assertEqual(of(lambda words: 0), 0)
        self.assertEqual(of(says("order_bag.py: {}: it has fewer than eight octets", 1)), 0)
        for end in (
            lambda words: [][0], left, says("order_bag.py: it has fewer than eight octets", 1), says("order_bag.py: {}: a\nb", 1),
            says("order_bag.py: {}: a", 2), lambda words: 1,
        ):
            self.assertEqual(of(end), 1)

    def test_heads(self):
        # X.690 8.1: a SEQUENCE of an INTEGER and a SEQUENCE of 128 octets with an OCTET STRING of 125.
        octets = bytes.fromhex("308186 020101 308180 04817d") + bytes(125)
        self.assertEqual(list(damaged_files.heads(octets, 0, len(octets))), [0, 3, 6, 9])


if __name__ == "__main__":
    unittest.main()
