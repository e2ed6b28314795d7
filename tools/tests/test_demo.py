"""Tests of the maker of the demonstration's line: against draws by hand, the maker of `xgolden_issuing`, and openssl.

    python3 -m unittest discover -s tools/tests
"""

import sys
import unittest
from contextlib import redirect_stdout
from io import StringIO
from itertools import islice
from pathlib import Path
from shutil import which

sys.path.insert(0, str(Path(__file__).resolve().parents[1]))

from cases import issuing_rows as rows
from cases import signature_rows as signatures
from common.command import Refusal
from golden import demo_lines
from judges import demo_maker as maker
from judges.der_reader import Constructed, Primitive, read_exact, write
from judges.issuing_maker import built


def private_key(k):
    """The key of step k: nothing is computed with it but its public half."""
    version, _, *others = read_exact(rows.K11.secret).kids
    modulus, exponent = Primitive(2, b"\1" + k.to_bytes(3, "big")), others[0]
    secret = Constructed(0x30, (version, modulus, *others))
    return signatures.Key("rsa", signatures.RSA, write(secret), write(Constructed(0x30, (modulus, exponent))))


def settings(steps, k, made):
    """What the builder is given for step k, by the certificates that are made before it."""
    one = steps[k]
    yield "validity", [f"{year}0101000000" for year in (one.first, one.last)]
    if one.issuer is None:
        yield "self_signed", rows.name(f"N{k}")
    else:
        yield "issuer_cert", made[one.issuer]
        yield "subject", (rows.name(f"N{k}"), rows.public_half(private_key(k)))
    yield "ca", one.ca
    if one.path_length is not None:
        yield "pathlen", one.path_length


def printed(*words):
    with redirect_stdout(StringIO()) as out:
        status = demo_lines.main(list(words))
    return status, out.getvalue()


class HistoryTest(unittest.TestCase):

    def test_draws(self):
        self.assertEqual(list(islice(maker.draws(1), 4)), [16838, 5758, 10113, 17515])
        self.assertEqual(list(islice(maker.draws(2), 8)), [908, 22817, 10239, 12914, 25837, 27095, 29976, 27865])

    def test_steps(self):
        self.assertEqual(maker.history(1), [maker.Step(None, True, 3, 2003, 2035)])
        self.assertEqual(maker.history(2), [maker.Step(None, True, 2, 2009, 2034), maker.Step(0, True, 1, 2006, 2025)])

    def test_validity(self):
        root, child = maker.Step(None, True, 0, 2000, 2030), maker.Step(0, True, None, 2000, 2025)
        grandchild = maker.Step(1, False, None, 2025, 2039)
        self.assertEqual([maker.is_valid([root, child, grandchild], k) for k in range(3)], [True, True, False])
        self.assertTrue(maker.is_valid([root._replace(path_length=1), child, grandchild], 2))
        self.assertFalse(maker.is_valid([root._replace(ca=False)], 0))
        self.assertFalse(maker.is_valid([root, child._replace(last=2024)], 1))
        self.assertFalse(maker.is_valid([root._replace(last=2024), child], 1))

    def test_every_kind_of_step_is_drawn(self):
        steps = maker.history(maker.MOST_STEPS)
        self.assertEqual({one.path_length for one in steps}, {None, 0, 1, 2, 3})
        self.assertGreater(max(len(maker.ancestors(steps, k)) for k in range(len(steps))), 3)
        self.assertEqual({one.ca for one in steps}, {True, False})


class CertificatesTest(unittest.TestCase):

    def test_another_maker_makes_the_same(self):
        steps, made = maker.history(maker.MOST_STEPS), []
        for k, one in enumerate(steps):
            key = private_key(k if one.issuer is None else one.issuer)
            made.append(built(k + 1, key, list(settings(steps, k, made)), rows.DEMO))
        self.assertEqual(made, maker.certificates(steps))

    @unittest.skipUnless(which("openssl"), "openssl isn't there")
    def test_openssl_reads_the_same(self):
        self.assertEqual(printed("--check", "9"), (0, "9 certificates read, 0 different\n"))


class CommandTest(unittest.TestCase):

    def test_lines(self):
        for count, start in (("1", "demo steps=1 roots=1 accepted=1 sum="), ("2", "demo steps=2 roots=1 accepted=2 sum=")):
            status, line = printed(count)
            self.assertEqual((status, line[:len(start)], len(line)), (0, start, len(start) + 65))
        self.assertEqual(printed("--steps", "2"), (0, "0 - ca 2 2009 2034 valid\n1 0 ca 1 2006 2025 valid\n"))
        self.assertEqual(len(printed("--certificates", "3")[1].splitlines()), 3)

    def test_refusals(self):
        for word in ("0", "01", "201", "x", "-1", "", "1 ", "²"):
            with self.assertRaises(Refusal):
                demo_lines.main([word])


if __name__ == "__main__":
    unittest.main()
