"""Tests of what `check_program` prints of names: whatever a file, its certificates and its name say, no line of output is theirs.

    python3 -m unittest discover -s tools/tests
"""

import sys
import unicodedata
import unittest
from contextlib import redirect_stderr, redirect_stdout
from io import StringIO
from pathlib import Path
from shutil import which
from tempfile import TemporaryDirectory

sys.path.insert(0, str(Path(__file__).resolve().parents[1]))

import check_program
import order_bag
import ordered_program
import pool_questions
import signed_program
from common import command, der
from common.openssl import openssl
from common.shown import MOST_IN_A_SENTENCE, clean, escaped
from gate.check_program_calls import STORED, checked
from judges.der_reader import Constructed, Primitive, write
from program_check import text
from program_check.certificate import Certificate
from program_check.report import Report

# Characters that show nothing, or turn the text around, though the first ones count as letters (Unicode, DerivedCoreProperties, UAX 9).
IGNORABLE = "\u3164\u115f\u1160\uffa0\ufe0f\u034f\u180b\u200b\u2060\ufeff\u00ad\U000e0100\U000e0041"
BLANK = "\u2800\u00a0\u2003\u3000\u1680\u202f"
FROM_THE_RIGHT = "\u05d0\u0627\u07ca\u0840\ufb1d\ufdf2\u202e\u2067\u200f"
# Letters and others that look like quotation marks, colons, stops or strokes (Unicode, confusables.txt).
MARKS = "\u02bc\u2019\u02b9\ua78c\uff07\u0374\u02d0\u02f8\ua789\ua4f8\ua4f9\ua4fa\ua4fd\u144a\u1425\u1426\u1427\u16cc\uff9e\u3033\u2e2f\ua71d\u0559"


class TextTest(unittest.TestCase):
    """Names can't forge a line of output."""

    @staticmethod
    def named(*values):
        return write(Constructed(0x30, tuple(
            Constructed(0x31, (Constructed(0x30, (Primitive(6, bytes.fromhex(oid)), Primitive(0x0C, value.encode()))),)) for oid, value in values)))

    @unittest.skipUnless(which("openssl"), "openssl isn't there")
    def test_names_are_openssl_s(self):
        subject = r"""/C=DE/O=A, B \+ C/OU=# one/CN= x <y>; "z"\\/emailAddress=a@b.example"""
        octets = openssl("req", "-x509", "-newkey", "ed25519", "-nodes", "-keyout", "/dev/null", "-subj", subject, "-outform", "DER")
        said = openssl("x509", "-inform", "DER", "-noout", "-subject", "-nameopt", "RFC2253,-esc_msb,utf8", given=octets).decode().strip()
        self.assertEqual("subject=" + Certificate(octets).subject, said)

    def test_lines(self):
        for hidden in "\n", "\r", "\x1b[2J", "\u202e", "\u2028", "\0", "\x7f", "\x9b", "\ufeff", "\u200b":
            shown = text.name(self.named(("550403", f"Good{hidden}accepted: all is well")))
            self.assertEqual(len(shown.splitlines()), 1)
            self.assertNotIn(hidden[0], shown)
            self.assertNotIn(hidden[0], text.clean(f"a{hidden}b"))

    def test_long_names(self):
        self.assertLess(len(text.name(self.named(("550403", "x" * 10_000)))), 500)
        self.assertEqual(text.common_name(self.named(("550406", "DE"), ("550403", "One"))), "One")
        self.assertEqual(text.name(b"\x30"), "?")

    def test_no_moments(self):
        """Only digits and a Z are a time; what else is in one isn't shown."""
        for tag, octets in (
            (0x17, b""), (0x17, b"Z"), (0x17, b"2306010000Z"), (0x17, b"230601000000"), (0x17, b"230601000000z"), (0x17, b"230601000000+0100"),
            (0x17, b"20230601000000Z"), (0x17, b"\x1b[8m01000000Z"), (0x17, b"2306010\n0000Z"), (0x17, b"2306010000 0Z"), (0x17, b"230601000000Z\n"),
            (0x18, b"230601000000Z"), (0x18, b"20230601000000"), (0x18, b"20230601000000.Z"), (0x18, b"20230601000000,5Z"),
            (0x18, b"20230601000000.\x1b[8mZ"), (0x18, b"2023060100000\xb2Z"), (0x18, b"+0230601000000Z"), (0x18, b"2_230601000000Z"),
            (0x04, b"20230601000000Z"),
        ):
            with self.assertRaises(der.NotRead, msg=octets):
                text.moment_of(der.whole(der.wrapped(tag, octets)))

    def test_moments(self):
        self.assertEqual(text.moment_of(der.whole(der.wrapped(0x17, b"500101000000Z"))), "1950-01-01T00:00:00")
        self.assertEqual(text.moment_of(der.whole(der.wrapped(0x18, b"20230601123456.789Z"))), "2023-06-01T12:34:56")

class CharactersTest(unittest.TestCase):
    def test_escaped(self):
        """Each of them stands as its octets in UTF-8, by Python's encoder."""
        for one in (*IGNORABLE, *BLANK, *FROM_THE_RIGHT, *MARKS, "'", "\\", "\t", "\x1b", "\U0001d400", "\U00020000"):
            self.assertEqual(escaped(one), "".join(f"\\{octet:02X}" for octet in one.encode()), f"{ord(one):04X}")
            if one != "\\":
                self.assertNotIn(one, text.name(TextTest.named(("550403", f"a{one}b"))))

    def test_as_they_are(self):
        letters = "Äé Ωж 日本ー 佐々木 한국어 ไทย บ่อยๆ ქართ ᐃᓄᒃᑎᑐᑦ"
        self.assertEqual(escaped(letters), "".join(one if not unicodedata.category(one).startswith("M") else escaped(one) for one in letters))
        self.assertEqual(escaped("A-Z a-z 0-9 (c) #!?/,;<>=+"), "A-Z a-z 0-9 (c) #!?/,;<>=+")

    def test_blanks(self):
        """A second blank is escaped, and one behind a colon, so that no wrapped line passes for a verdict."""
        self.assertEqual(escaped("a  b   c"), "a \\20b \\20\\20c")
        self.assertEqual(escaped("accepted: all"), "accepted:\\20all")

    def test_octets_that_are_no_text(self):
        """The name of a file may have any octets."""
        self.assertEqual(clean(b"a\xff\x1b".decode("utf-8", "surrogateescape")), "a\\FF\\1B")

    def test_short_in_sentences(self):
        for value in "x" * 1000, "'" * 1000, "x" * 61 + "'" * 3, "\u3164" * 50:
            called = text.common_name(TextTest.named(("550403", value)))
            self.assertLessEqual(len(called), MOST_IN_A_SENTENCE)
            self.assertRegex(called, r"^(x|\\[0-9A-F]{2})*\.\.$")
        self.assertEqual(text.common_name(TextTest.named(("550403", "x" * 64))), "x" * 64)


class SentencesTest(unittest.TestCase):
    """Names of files and of certificates in sentences and errors."""

    NAME = "a  accepted: 'Microsoft' signed\x1b[8m\u202e\u3164"

    def assert_harmless(self, said):
        for part in ("\x1b", "\u202e", "\u3164", "accepted: ", "'Microsoft'", "  accepted"):
            self.assertNotIn(part, said)

    def said_of(self, tool, *words):
        with redirect_stdout(StringIO()) as out, redirect_stderr(StringIO()) as errors:
            status = tool.main(list(words))
        return status, out.getvalue() + errors.getvalue()

    def test_errors(self):
        """Of files that aren't there, and of words that are too many."""
        for tool, words in (
            (check_program, [self.NAME, "--root", self.NAME]), (check_program, ["x", self.NAME]), (check_program, [f"--{self.NAME}", "x"]),
            (order_bag, [self.NAME, "x"]), (order_bag, ["x", "y", self.NAME]), (ordered_program, [self.NAME, "x", "y"]),
            (signed_program, [self.NAME, "x"]), (pool_questions, [self.NAME]),
        ):
            status, said = self.said_of(tool, *words)
            self.assertIn(status, (1, 2, 4), words)
            self.assert_harmless(said)

    def test_files_that_are_there(self):
        with TemporaryDirectory() as folder:
            file = Path(folder, self.NAME)
            file.write_bytes(b"none")
            for tool, words in (
                (check_program, [str(file), "--root", str(file)]), (order_bag, [str(file), "/dev/null"]), (signed_program, [str(file), "/dev/null"]),
                (signed_program, [str(file), "/dev/null", self.NAME]), (ordered_program, [str(file), "/dev/null", "/dev/null"]),
            ):
                status, said = self.said_of(tool, *words)
                self.assertIn(status, (1, 4), words)
                self.assert_harmless(said)

    def test_reports(self):
        """A report on a file of such a name, and on a program whose signer has it."""
        self.assert_harmless("\n".join(Report(clean(self.NAME)).refuse("none").lines()))
        octets = STORED["three"].octets.replace(b"Publisher", b"a  b: 'x'")
        report = checked(octets)
        said = "\n".join(report.lines())
        self.assertIn("CN=a \\20b:\\20\\27x\\27", said)
        self.assertNotIn("'x'", said)

    def test_command_sentences(self):
        for error in FileNotFoundError(2, "none", self.NAME), PermissionError(13, "none", self.NAME.encode()):
            self.assert_harmless(command.sentence(error))


if __name__ == "__main__":
    unittest.main()
