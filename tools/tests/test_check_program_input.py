"""Tests of `check_program` on untrusted input: whatever a file holds, the report has lines that print, in a time that grows as the file does.

    python3 -m unittest discover -s tools/tests

The programs are the reference implementations in Python (`programs_stand_in`).
"""

import json
import os
import subprocess
import sys
import unittest
from collections import Counter
from itertools import permutations
from pathlib import Path
from shutil import which
from tempfile import TemporaryDirectory
from time import process_time
from unittest.mock import patch

sys.path.insert(0, str(Path(__file__).resolve().parents[1]))

import check_program
import signed_program
import verdict_table
from common.openssl import OpensslError
from gate import damaged_files
from gate.changed_programs import ASCII, SIGNED, UNSIGNED, attribute, described, opus, opus_link, opus_name, with_attribute, with_certificates
from gate.check_program_calls import LATER, STORED, checked, namesakes, stamp
from gate.programs_stand_in import StandIn
from interop import signed_programs
from judges.der_reader import Constructed, Primitive, read_exact, write
from program_check import anchors, asking, notes, stamps
from program_check.certificate import Certificate
from program_check.report import Report
from program_check.signature import COUNTERSIGNATURE, MOST_STAMPS, SIGNING_TIME, Signature


class ShownTest(unittest.TestCase):
    """What the signer and the stamp say is shown as what it is, whatever it is."""

    def shown(self, octets):
        """The report on a program whose signatures and stamps are bad: no line has a character that doesn't print."""
        with patch.object(verdict_table, "is_accepted", lambda *asked: False), patch.object(stamps, "openssl", self.refuses):
            report = checked(octets)
        lines = list(report.lines())
        json.dumps(report.json())
        for line in lines:
            self.assertTrue(line.isprintable(), line)
        return report, "\n".join(lines)

    @staticmethod
    def refuses(*words, given=b""):
        raise OpensslError("not verified", out="Verification: FAILED\n")

    def test_description(self):
        program = STORED["stamped"].octets
        for one, name, link in (
            (opus(), None, None), (opus(opus_name(b"A tool")), "A tool", None), (opus(opus_link(b"https://tool.example")), None, "https://tool.example"),
            (opus(Constructed(0xA0, (Primitive(0x80, "Ünicode".encode("utf-16-be")),))), "Ünicode", None),
            (opus(Constructed(0xA1, (Constructed(0xA2, (Primitive(ASCII, b"file"),)),))), None, "file"),
            (opus(opus_name(b"A\x1b[8m\ntool")), r"A\1B[8m\0Atool", None),
            # Fields that it hasn't got, and fields that aren't read.
            (opus(Constructed(0xA2, (Primitive(ASCII, b"x"),)), opus_name(b"A tool")), "A tool", None), (opus(Primitive(0x80, b"x")), None, None),
            (opus(Primitive(0x81, b"x"), Primitive(2, b"\1"), opus_link(b"a")), None, "a"), (opus(Constructed(0xA0, ())), None, None),
            (opus(Constructed(0xA0, (Constructed(0x30, ()),))), None, None), (opus(opus_name(b"A tool"), Constructed(0xA1, ())), "A tool", None),
            (opus()._replace(kids=(opus().kids[0], Constructed(0x31, (Primitive(4, b"x"),)))), None, None),
        ):
            report, _ = self.shown(with_attribute(program, SIGNED, one))
            self.assertEqual((report.verdict, report.description), ("refused", {"name": name, "link": link}), one)
        self.assertIn("A tool, https://tool.example (said by the signer)", self.shown(described(program))[1])

    def test_a_token_without_a_time(self):
        program, time = STORED["stamped"].octets, b"\x18\x0f20230601000000Z"
        self.assertEqual(program.count(time), 1)
        report, _ = self.shown(program.replace(time, b"\x17" + time[1:]))
        self.assertEqual([(one["kind"], one["time"], one["verified"], one["why"]) for one in report.stamps], [("RFC 3161", None, False, "it names no time")])

    def test_times_of_tokens(self):
        program, time = STORED["stamped"].octets, b"20230601000000Z"
        for other in b"\x1b[8m0601000000Z", b"2023060100\n000Z", b"2023060100000ZZ", b"202306010000.5Z", b"\x1b[2J\x1b[H\r\nokayZZ":
            report, _ = self.shown(program.replace(time, other))
            self.assertEqual([(one["time"], one["verified"], one["why"]) for one in report.stamps], [(None, False, "it can't be read")], other)
        report, _ = self.shown(program.replace(time, b"20239901000000Z"))
        self.assertEqual(report.stamps[0]["why"], "its time doesn't exist")

    def test_times_of_signers(self):
        program = STORED["stamped"].octets
        for time in Primitive(0x17, b"\x1b[8m28065147Z"), Primitive(0x18, b"2023\n0601000000Z"), Primitive(4, b"2023"), Constructed(0x30, ()):
            report, lines = self.shown(with_attribute(program, SIGNED, attribute(SIGNING_TIME, time)))
            self.assertIsNone(report.stated_time)
            self.assertNotIn("signed at", lines)
        report, lines = self.shown(with_attribute(program, SIGNED, attribute(SIGNING_TIME, Primitive(0x17, b"230601000000Z"))))
        self.assertIn("signed at    2023-06-01 00:00:00 UTC (said by the signer", lines)

    def test_lines_of_any_text(self):
        report = Report("a\x1b[8m\nfile").refuse("a \x1b sentence\n", "then\r")
        report.notes, report.stated_time = ["x" * 1000 + "\x1b"], "2023-\x1b[8m"
        report.stamps = [stamps.Verified(stamp("\n\x1b"), False, "\x07").shown(False)]
        for line in report.lines():
            self.assertTrue(line.isprintable(), line)
        self.assertTrue(any("x" * 1000 in line for line in report.lines()))

    @unittest.skipUnless(which("openssl"), "openssl isn't there")
    def test_damaged_stamps_beside_a_good_one(self):
        program = STORED["stamped"].octets
        bad = attribute(COUNTERSIGNATURE, *[Primitive(4, b"")] * 20)
        report = checked(with_attribute(program, UNSIGNED, bad), now=LATER)
        self.assertEqual((report.stamps[0]["verified"], report.date["source"], len(report.stamps)), (True, "the time of the stamp", MOST_STAMPS))
        self.assertIn("the signature has more time stamps", "".join(report.notes))


class NamesakesTest(unittest.TestCase):
    """Many certificates of one name cost little, and the answer says what isn't looked at."""

    def test_pool(self):
        """Some thousand certificates in a time that grows as they do."""
        signature = Signature(signed_program.signature(STORED["three"].octets))
        root, authority, publisher = signature.certificates
        others, roots = ([Certificate(write(each)) for each in namesakes(read_exact(one.der), 1000)] for one in (authority, root))
        # Issuers of the signer's certificate, and roots, each of which has the name of the issuer of all.
        for held, expected in (
            ([root, *others * 3, authority, publisher], others[:anchors.MOST_POOL]),
            ([*roots * 3, authority, publisher], [*roots[:anchors.MOST_POOL - 1], authority]),
        ):
            begun = process_time()
            self.assertEqual(anchors.pool_of(held, publisher), (expected, True))
            self.assertLess(process_time() - begun, 1)
        for line in permutations(signature.certificates):
            self.assertEqual(anchors.pool_of(line * 2, publisher), ([each for each in line if each != publisher], False))
        # What names don't lead to isn't there, and 32 aren't too many.
        self.assertEqual(anchors.pool_of([publisher, root], publisher), ([], False))
        self.assertEqual(anchors.pool_of(others[:anchors.MOST_POOL], publisher), (others[:anchors.MOST_POOL], False))

    def check_with(self, change, openssl_finds):
        """The report on a program with other certificates, and how many calls there were of each program and of openssl."""
        programs, asked = StandIn(), []

        def verified(*words):
            asked.append(words)
            return openssl_finds(words[3])

        with patch.object(verdict_table, "is_accepted", verified):
            report = checked(with_certificates(STORED["three"].octets, change), programs=programs)
        return report, Counter(program for program, _ in programs.asked), len(asked)

    def test_calls(self):
        """300 roots of one name: 32 of them are looked at, in 100 pairs at most."""
        known = {one.tbs for one in Signature(signed_program.signature(STORED["three"].octets)).certificates}
        report, called, verified = self.check_with(
            lambda held: [*held[1:], *namesakes(held[0], 300)], lambda message: message in known or message[:1] == b"\x31")
        self.assertEqual((report.verdict, report.root["file"]), ("accepted", "root.der"))
        self.assertLessEqual(called["picky_ask"], 1 + asking.MOST_PAIRS + anchors.MOST_POOL + 2)
        self.assertLessEqual(verified, 2 * asking.MOST_PAIRS)
        said = "\n".join(report.notes)
        for note in notes.PAIRS.partition(":")[0], notes.POOL.format(anchors.MOST_POOL):
            self.assertIn(note, said)

    def test_few(self):
        """A chain has neither note."""
        report, called, _ = self.check_with(list, lambda message: True)
        self.assertEqual((report.verdict, called["picky_ask"]), ("accepted", 7))
        self.assertFalse([note for note in report.notes if "first" in note])


@unittest.skipUnless(which("openssl"), "openssl isn't there")
class EncodingTest(unittest.TestCase):
    """Output in an encoding without the letters of a name."""

    def test_encodings(self):
        octets = STORED["three"].octets.replace(b"Publisher", "Публx".encode())
        self.assertEqual(len(octets), len(STORED["three"].octets))
        script = Path(__file__).resolve().parents[1] / "check_program.py"
        with TemporaryDirectory() as folder:
            program, root = Path(folder, "a.exe"), Path(folder, "root.der")
            program.write_bytes(octets)
            root.write_bytes(signed_programs.root())
            for name, line in ("picky_ask", ""), ("picky_pe", "refused SignatureError"), ("picky_anchor", "refused NoAnchoredPath"), ("picky", "refused Signature"):
                file = Path(folder, name)
                file.write_text(f"#!/bin/sh\n{f'echo {line}; exit 1' if line else ''}\n")
                file.chmod(0o755)
            for encoding, shown in ("ascii", r"CN=\u041f\u0443\u0431\u043bx"), ("latin-1", r"CN=\u041f\u0443\u0431\u043bx"), ("utf-8", "CN=Публx"):
                done = subprocess.run([sys.executable, script, program, "--root", root, "--programs", folder, "--at", "2023-06-15"],
                                      env=os.environ | {"PYTHONIOENCODING": encoding}, capture_output=True)
                self.assertEqual((done.returncode, done.stderr), (1, b""), encoding)
                self.assertIn(f"signer       {shown} ", done.stdout.decode(encoding))


class DamagedProgramsTest(unittest.TestCase):
    """Files that are damaged at random end with a sentence."""

    def test_some(self):
        with damaged_files.in_place(False):
            statuses, wrong, _ = damaged_files.check(check_program, 11, 200)
        self.assertEqual((wrong, {status for status, _ in statuses} <= {0, 1, 2}), ([], True))

    def test_cut_off(self):
        octets = STORED["stamped"].octets
        with damaged_files.in_place(False):
            for length in {*range(0, len(octets), 97), len(octets) - 1}:
                report = checked(octets[:length])
                self.assertEqual((report.verdict, len(report.sentence.splitlines())), ("refused", 1), length)
                json.dumps(report.json())
                self.assertTrue(list(report.lines()))


if __name__ == "__main__":
    unittest.main()
