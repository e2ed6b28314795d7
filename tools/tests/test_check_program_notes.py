"""Tests of what `check_program` says beside the verdict: roots, weak links, octets that nobody signed, and what is cut.

    python3 -m unittest discover -s tools/tests
"""

import hashlib
import json
import os
import sys
import unittest
from pathlib import Path
from struct import pack
from tempfile import TemporaryDirectory
from unittest.mock import patch

sys.path.insert(0, str(Path(__file__).resolve().parents[1]))

from cryptography import x509
from cryptography.x509.oid import ObjectIdentifier

import signed_program
from common.calls import TimedOut
from common.der import NotRead
from common.openssl import OpensslError
from gate.check_program_calls import STORED, changed, checked, numbered
from gate.made_programs import CODE_SIGNING, SERVERS, Holder, chain, entry, rsa_key, signed, with_table
from gate.programs_stand_in import StandIn
from interop.signature_making import portable_executable
from judges.der_reader import Constructed, Primitive, read_exact, write
from program_check import notes, opinion, roots
from program_check.certificate import Certificate
from program_check.describe import MOST_OTHERS
from program_check.programs import Answer
from program_check.roots import Root, Roots
from program_check.signature import Signature
from program_check.stamps import pem


def trusting(*holders):
    return Roots([Root(one.der, "root") for one in holders], "root")


class RootsTest(unittest.TestCase):
    """What counts as a root of a file."""

    @classmethod
    def setUpClass(cls):
        cls.key = rsa_key()
        cls.inner = Holder("Inner", rsa_key())
        text = x509.UnrecognizedExtension(ObjectIdentifier("1.2.3.4"), pem([cls.inner.der]))
        cls.outer = Holder("Outer", cls.key, extensions=[(text, False)])

    def of(self, octets):
        with TemporaryDirectory() as folder:
            file = Path(folder, "root")
            file.write_bytes(octets)
            return [root.der for root in roots.from_files([file]).all]

    def test_der_with_a_text_in_it(self):
        """A file that begins as DER is the certificate that it is, whatever stands in it."""
        self.assertIn(b"-----BEGIN CERTIFICATE-----", self.outer.der)
        self.assertEqual(self.of(self.outer.der), [self.outer.der])

    def test_pem(self):
        one, other = self.inner.der, self.outer.der
        self.assertEqual(self.of(pem([one, other])), [one, other])
        self.assertEqual(self.of(b"subject: x\n" + pem([one]).replace(b"\n", b"\r\n") + b"rest"), [one])
        # The text within the certificate's own is no line of the file.
        self.assertEqual(self.of(pem([other])), [other])

    def test_begin_at_the_start_of_a_line(self):
        text = pem([self.inner.der])
        for octets in (b" " + text, b"x" + text, b"comment: " + text, text.replace(b"-----BEGIN", b"> -----BEGIN")):
            with self.assertRaises(roots.Unreadable):
                self.of(octets)
        self.assertEqual(self.of(b"x " + text + pem([self.outer.der])), [self.outer.der])

    def test_the_one_that_isnt_read(self):
        """Of a bundle it is said which certificate isn't one."""
        with self.assertRaisesRegex(roots.Unreadable, "certificate 2 of 3 certificates in it isn't a certificate"):
            self.of(pem([self.inner.der, self.inner.der[:-1], self.outer.der]))
        with self.assertRaisesRegex(roots.Unreadable, "certificate 2 of it has no END line"):
            self.of(pem([self.inner.der]) + pem([self.outer.der])[:200])


SECOND = "`openssl verify` refuses this path: openssl: unhandled critical extension"


def critical(name):
    """A root, and a signer of this name with a critical extension that is unknown."""
    root, extension = Holder("Root", rsa_key()), x509.UnrecognizedExtension(ObjectIdentifier("1.2.3.4"), b"\5\0")
    return root, Holder(name, rsa_key(), root, ca=False, purposes=[CODE_SIGNING], extensions=[(extension, True)])


class WeakTest(unittest.TestCase):
    """Notes on what is weak, of programs that are accepted all the same."""

    def notes_of(self, root, signer, **how):
        report = checked(signed(signer, [signer.der], **how), trusting(root))
        self.assertEqual(report.verdict, "accepted", report.sentence)
        return "\n".join(report.notes)

    def test_nothing_weak(self):
        self.assertEqual(self.notes_of(*chain()), "")

    def test_sha1_on_a_link(self):
        for digest in "sha1", "md5":
            said = self.notes_of(*chain(hashed=digest))
            self.assertIn(f"the signature on the certificate 'Signer' is by {digest}, which is weak", said)

    def test_digests(self):
        root, signer = chain()
        self.assertIn("sha1 is weak: whoever signs can make two programs of one digest", self.notes_of(root, signer, digest="sha1", by="sha1"))

    def test_short_keys(self):
        said = self.notes_of(*chain(root_key=rsa_key(1024), signer_key=rsa_key(1024)))
        self.assertIn("the signer's key of 1024 bits is short", said)
        self.assertIn("the key of 'Root' of 1024 bits is short", said)

    def test_no_extended_key_usage(self):
        """Whether the proved program takes such a signer or not, the report says that it names none."""
        root, signer = chain(purposes=None)
        report = checked(signed(signer, [signer.der]), trusting(root))
        self.assertIn("the signer's certificate names no extended key usage at all", "\n".join(report.notes))

    def test_usages_of_issuers(self):
        root = Holder("Root", rsa_key())
        between = Holder("Between", rsa_key(), root, purposes=[SERVERS])
        signer = Holder("Signer", rsa_key(), between, ca=False, purposes=[CODE_SIGNING])
        report = checked(signed(signer, [signer.der, between.der]), trusting(root))
        self.assertIn("the certificate 'Between' issues for other uses than code signing, which isn't checked: servers", "\n".join(report.notes))

    def test_exponents(self):
        """Under 1 anyone signs anything, and an even one is no exponent (RFC 8017 3.1); the numbers are put into a certificate's key."""
        octets = Holder("One", rsa_key()).der
        for exponent, weak in (b"\1\0\1", False), (b"\0\0\1", True), (b"\1\0\0", True), (b"\0\0\2", True), (b"\0\0\3", False):
            made = octets.replace(b"\2\3\1\0\1", b"\2\3" + exponent)
            said = "\n".join(notes.of_key(Certificate(made), "its key"))
            self.assertEqual("has an exponent that no key of RSA has" in said, weak, exponent)

    def test_a_second_opinion(self):
        """`openssl verify` refuses an unknown critical extension, which the proved programs leave out."""
        self.assertIn(SECOND, self.notes_of(*critical("Signer")))
        report = checked(STORED["three"].octets)
        self.assertIn("unknown critical extensions", "\n".join(report.lines()))

    def test_a_name_as_an_error(self):
        """openssl prints the subject, which looks here like lines of its own: none of it is a reason."""
        for name in "x:error:a:b:c:all is well", "error 1 at 1 depth lookup: all is well", "x\nerror 1 at 1 depth lookup: all is well":
            said = self.notes_of(*critical(name)).splitlines()
            self.assertIn(SECOND, said, name)
            self.assertNotIn("all is well", "\n".join(one for one in said if "openssl" in one))

    def test_no_second_opinion(self):
        """A year that no moment of openssl's has, and no openssl: a report all the same."""
        root = Holder("Root", rsa_key())
        line = [Certificate(root.der)]
        none = "`openssl verify` gives no second opinion on this path"
        self.assertEqual(opinion.note(line, "0000-01-01T00:00:00"), none)
        self.assertIsNone(opinion.note(line, "2025-01-01T00:00:00"))
        with patch.dict(os.environ, {"PATH": "/none"}):
            self.assertEqual(opinion.note(line, "2025-01-01T00:00:00"), none)
        for error in OpensslError("openssl verify /tmp/x"), TimedOut("openssl didn't end within 120 seconds"):
            with patch.object(opinion, "openssl", side_effect=error):
                self.assertEqual(opinion.note(line, "2025-01-01T00:00:00"), none)


class UnsignedTest(unittest.TestCase):
    """Octets of the certificate table that nobody signed are named."""

    @classmethod
    def setUpClass(cls):
        cls.root, cls.signer = chain()

    def report(self, octets):
        return checked(octets, trusting(self.root))

    def said(self, octets):
        report = self.report(octets)
        self.assertEqual(report.verdict, "accepted", report.sentence)
        return [note for note in report.notes if "nobody signed them" in note]

    def lengthened(self, added):
        """The program with octets behind the first entry of its table."""
        octets = signed(self.signer, [self.signer.der])
        optional, place, _, length = signed_program.parts(octets)
        at = optional + place + 4
        return octets[:at] + pack("<I", length + len(added)) + octets[at + 4:] + added

    def test_none(self):
        self.assertEqual(self.said(signed(self.signer, [self.signer.der])), [])
        self.assertEqual(self.said(self.lengthened(bytes(7))), [])

    def test_behind_the_first_entry(self):
        for added in bytes(4096), b"\xff" * 4096, pack("<I", 4) + b"x" * 4092:
            self.assertEqual(self.said(self.lengthened(added)), ["the certificate table holds 4,096 octets behind its entries: nobody signed them"])
        self.assertEqual(self.said(self.lengthened(b"\0\0\1")), ["the certificate table holds 3 octets behind its entries: nobody signed them"])

    def test_in_an_unsigned_attribute(self):
        inside = Constructed(0x30, (Primitive(6, bytes.fromhex("2a0304")), Constructed(0x31, (Primitive(4, b"x" * 1000),))))
        one, = self.said(signed(self.signer, [self.signer.der], unsigned=[inside]))
        self.assertEqual(one, f"the certificate table holds {len(write(inside)):,} octets in 1 unsigned attribute of a kind that isn't known here: nobody signed them")

    def test_among_the_certificates(self):
        other = write(Constructed(0x30, (Primitive(4, b"x" * 500),)))
        one, = self.said(signed(self.signer, [self.signer.der, other]))
        self.assertIn("octets among the certificates, in none that is read here", one)

    def test_two_files_of_one_digest(self):
        """They differ in an unsigned attribute alone: `file_sha256` tells them apart, and is Python's."""
        reports = []
        for octets in b"one", b"two":
            inside = Constructed(0x30, (Primitive(6, bytes.fromhex("2a0304")), Constructed(0x31, (Primitive(4, octets),))))
            made = signed(self.signer, [self.signer.der], unsigned=[inside])
            reports.append(self.report(made))
            self.assertEqual(reports[-1].file_sha256, hashlib.sha256(made).hexdigest())
            self.assertIn(f"file sha256  {reports[-1].file_sha256}", list(reports[-1].lines()))
        self.assertEqual([one.verdict for one in reports], ["accepted"] * 2)
        self.assertEqual(reports[0].digest, reports[1].digest)
        self.assertNotEqual(reports[0].file_sha256, reports[1].file_sha256)

    def test_many_entries(self):
        """A hundred lines, and how many more there are; a million entries cost no more."""
        entry = pack("<IHH", 9, 0x0200, 2) + b"\x30" + bytes(7)
        for many in 99, 100, 101, 50_000:
            report = self.report(self.lengthened(entry * many))
            self.assertEqual(report.verdict, "accepted")
            self.assertEqual(len(report.other_signatures), min(many, MOST_OTHERS) + (many > MOST_OTHERS))
            if many > MOST_OTHERS:
                self.assertEqual(report.other_signatures[-1], f"and {many - MOST_OTHERS:,} more, which aren't listed")
            self.assertLess(len(json.dumps(report.json())), 40_000)
            self.assertNotIn("osslsigncode verify", report.other_signatures[0])

    def test_attributes_that_arent_read(self):
        """More than are looked at, and octets that are no attributes: a report all the same."""
        empty = Constructed(0x30, (Primitive(6, bytes.fromhex("2a0304")), Constructed(0x31, ())))
        one, = self.said(signed(self.signer, [self.signer.der], unsigned=[empty] * 10_001))
        self.assertIn("in unsigned attributes that aren't read here", one)
        for inside in Constructed(0x30, ()), Primitive(5, b""), Constructed(0x30, (Primitive(5, b""), Constructed(0x31, ()))):
            self.assertEqual(self.report(signed(self.signer, [self.signer.der], unsigned=[inside])).verdict, "refused")

    def test_a_part_that_isnt_read(self):
        """Wherever reading fails, the file is refused with a sentence."""
        with patch("program_check.check.describe", side_effect=NotRead("an element is cut off")):
            report = self.report(signed(self.signer, [self.signer.der]))
        self.assertEqual((report.verdict, report.status, report.root), ("refused", 1, None))
        self.assertIn("a part that isn't read here: an element is cut off", report.sentence)
        for error in IndexError("x"), KeyError("x"), ValueError("x"):
            with patch("program_check.check.describe", side_effect=error):
                report = self.report(signed(self.signer, [self.signer.der]))
            self.assertEqual((report.verdict, report.status, report.root), ("refused", 1, None))
            self.assertIn("a part that isn't read here: it has another form", report.sentence)

    def test_a_long_digest(self):
        """A signed digest of a million octets is no digest, and isn't shown whole."""
        report = self.report(with_table(portable_executable(), entry(self.signer, [self.signer.der], bytes(1_000_000))))
        self.assertEqual((report.verdict, report.digest["signed"]), ("refused", "00" * 64))
        self.assertLess(len(json.dumps(report.json())), 40_000)

    def test_more_certificates_than_are_read(self):
        """Nothing is said of whether such a signature is good, since none is looked at."""
        report = self.report(signed(self.signer, [self.signer.der, *[b"\x30\0"] * 10_001]))
        self.assertEqual((report.verdict, report.signer), ("refused", None))
        self.assertNotIn("forged", report.sentence + report.next)

    def test_many_certificates(self):
        """A hundred are listed, and it is said that there are more."""
        for many in 100, 101:
            more = [write(numbered(read_exact(self.signer.der), b"\1" + number.to_bytes(2, "big"))) for number in range(1, many)]
            report = self.report(signed(self.signer, [self.signer.der, *more]))
            self.assertEqual((report.verdict, len(report.certificates)), ("accepted", 100))
            self.assertEqual([one for one in report.notes if "listed" in one], [f"the signature has {many} certificates, of which the first 100 are listed"] * (many > 100))

    def test_usages(self):
        """Those behind an extension, or a usage, whose OID is too long to be read are there."""
        long = Primitive(6, b"\x2a" + b"\1" * 70)
        usages = write(Constructed(0x30, (long, Primitive(6, bytes.fromhex("2b06010505070303")))))
        first, second = (Constructed(0x30, (kind, Primitive(4, value))) for kind, value in ((long, b"\5\0"), (Primitive(6, b"\x55\x1d\x25"), usages)))
        tbs, *rest = read_exact(self.root.der).kids
        tbs = tbs._replace(kids=(*tbs.kids[:-1], Constructed(0xA3, (Constructed(0x30, (first, second)),))))
        certificate = Certificate(write(Constructed(0x30, (tbs, *rest))))
        self.assertEqual(certificate.usages(), ["an identifier that isn't read here", "code signing"])
        self.assertTrue(certificate.is_for(CODE_SIGNING))

    def test_serial_numbers(self):
        """Twenty octets at most (RFC 5280 4.1.2.2), of a longer one how many more."""
        long = Certificate(Holder("One", rsa_key(), serial=int.from_bytes(b"\x7f" * 20, "big")).der)
        self.assertEqual(long.shown()["serial"], "7f" * 20)
        tbs, *rest = long_serial(long.der, b"\1" * 2_000_000)
        self.assertEqual(Certificate(write(Constructed(0x30, (tbs, *rest)))).shown()["serial"], "01" * 20 + ".. and 1,999,980 octets more")


def long_serial(octets, serial):
    tbs, *rest = read_exact(octets).kids
    version, _, *fields = tbs.kids
    return tbs._replace(kids=(version, Primitive(2, serial), *fields)), *rest


class RowsTest(unittest.TestCase):
    """A program is accepted where the table has the signature of its signer and of each link as a good one, whatever the programs say."""

    def report(self, stubs, octets):
        class Accepting(StandIn):
            def run(self, program, words, shown):
                return Answer(program, shown, *stubs[program]) if program in stubs else super().run(program, words, shown)

        return checked(octets, programs=Accepting())

    STUBS = {"picky_pe": (0, "accepted signer=0 path= excuse=none\n"), "picky_anchor": (0, "anchored pool=1 anchor=0\n")}

    def test_good_ones(self):
        self.assertEqual(self.report(self.STUBS, STORED["three"].octets).verdict, "accepted")

    def test_a_forged_signature(self):
        octets = STORED["three"].octets
        signature = Signature(signed_program.signature(octets)).signer.octets
        report = self.report(self.STUBS, octets.replace(signature, changed(signature, 7)))
        self.assertEqual((report.verdict, report.reason, report.root, report.path, report.signer_verified), ("refused", None, None, [], False))
        self.assertIn("the programs disagree: the program accepts the signature, which isn't a good one in the table", report.sentence)

    def test_a_forged_link(self):
        octets = STORED["three"].octets
        for place in 1, 2:
            signature = Signature(signed_program.signature(octets)).certificates[place].signature
            report = self.report(self.STUBS, octets.replace(signature, changed(signature, 7)))
            self.assertEqual((report.verdict, report.root), ("refused", None))
            self.assertIn("the programs disagree: picky_anchor takes", report.sentence)

    def test_a_path_of_other_names(self):
        report = self.report(self.STUBS | {"picky_anchor": (0, "anchored pool=0 anchor=0\n")}, STORED["three"].octets)
        self.assertEqual((report.verdict, report.root, report.path), ("refused", None, []))
        self.assertIn("the names of these certificates don't lead from one to the next", report.sentence)

    def test_nothing_is_asked(self):
        """A program that lists no question leaves the table empty."""
        for status, output in (0, ""), (1, "refused NotMz\n"):
            report = self.report(self.STUBS | {"picky_ask": (status, output)}, STORED["three"].octets)
            self.assertNotEqual(report.verdict, "accepted")

    def test_an_executable_of_that_name(self):
        """Anything that prints such lines counts for nothing without the table."""
        report = self.report(self.STUBS, changed(STORED["three"].octets, 600))
        self.assertIn("the programs disagree", report.sentence)


if __name__ == "__main__":
    unittest.main()
