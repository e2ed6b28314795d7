"""Tests of `check_program` on time stamps that are made here: each check of openssl that makes one good is asked for.

    python3 -m unittest discover -s tools/tests
"""

import sys
import unittest
from datetime import datetime
from pathlib import Path
from shutil import which
from unittest.mock import patch

sys.path.insert(0, str(Path(__file__).resolve().parents[1]))

from cryptography import x509
from cryptography.x509.oid import ObjectIdentifier

import signed_program
from common import der
from common.calls import TimedOut
from gate.changed_programs import UNSIGNED, with_attribute
from gate.check_program_calls import checked
from gate.made_programs import CODE_SIGNING, SERVERS, TIME_STAMPING, Holder, chain, rsa_key, signed
from gate.made_stamps import authority, countersignature, token
from program_check import stamps
from program_check.certificate import LIFETIME_SIGNING as LIFETIME, Certificate, has_oid
from program_check.roots import Root, Roots
from program_check.signature import Signature

# After every certificate that is made here has ended, and what is after the end of some, but ahead of a stamp.
LATER, YEAR = "2031-01-01T00:00:00", 2024
TIMES = {token: b"20240601000000Z", countersignature: b"240601000000Z"}


@unittest.skipUnless(which("openssl"), "openssl isn't there")
class StampsTest(unittest.TestCase):
    @classmethod
    def setUpClass(cls):
        cls.root, cls.signer = chain()
        cls.top = Holder("Top", rsa_key(), ends=datetime(2040, 1, 1))

    def report(self, kind, by, trusted=None, beside=(), signed_octets=None):
        """The report on a program with a stamp of a kind."""
        program = signed(self.signer, [self.signer.der, *(one.der for one in beside)])
        own = Signature(signed_program.signature(program)).signer.octets
        made = with_attribute(program, UNSIGNED, kind(by, TIMES[kind], own if signed_octets is None else signed_octets))
        trusted = Roots([Root((trusted or self.top).der, "top")], "top")
        return checked(made, Roots([Root(self.root.der, "root")], "root"), now=LATER, stamp_roots=trusted)

    def both(self, by, **how):
        """The same of both kinds, with the certificate beside a counter-signature."""
        return [self.report(token, by, **how), self.report(countersignature, by, beside=[by], **how)]

    def assert_good(self, reports):
        for report in reports:
            self.assertEqual((report.verdict, report.stamps[0]["verified"], report.date["value"]), ("accepted", True, "2024-06-01T00:00:00"), report.stamps)

    def assert_bad(self, reports, why):
        for report in reports:
            self.assertEqual((report.verdict, report.stamps[0]["verified"], report.date["source"]), ("refused", False, "now"), report.stamps)
            self.assertIn(why, report.stamps[0]["why"])

    def test_good_ones(self):
        self.assert_good(self.both(authority(self.top)))

    def test_the_time_of_the_stamp(self):
        """Certificates have to be valid at the time of the stamp: then, and not now."""
        self.assert_good(self.both(authority(self.top, ends=datetime(YEAR, 7, 1))))
        self.assert_bad(self.both(authority(self.top, begins=datetime(YEAR, 7, 1), ends=datetime(2040, 1, 1))), "not yet valid")
        self.assert_bad(self.both(authority(self.top, ends=datetime(YEAR, 5, 1))), "expired")

    def test_the_purpose(self):
        """Who makes stamps has a certificate for that, and for nothing else."""
        for purposes in [CODE_SIGNING], [SERVERS], [TIME_STAMPING, CODE_SIGNING]:
            self.assert_bad(self.both(authority(self.top, purposes=purposes)), "purpose")

    def test_lifetime_signing(self):
        """No stamp is used in place of now, wherever the signer's certificate says so (1.3.6.1.4.1.311.10.3.13)."""
        many = [f"1.2.3.{number}" for number in range(10_001)]
        others = [(x509.UnrecognizedExtension(ObjectIdentifier(one), b"\5\0"), False) for one in many[:101]]
        for purposes, extensions in (
            (many[:20] + [LIFETIME], ()), (many + [LIFETIME], ()), ([LIFETIME], others),
        ):
            # Extensions that are added come last, so the usages are one of them.
            usages = x509.ExtendedKeyUsage([ObjectIdentifier(one) for one in [CODE_SIGNING, *purposes]])
            self.signer = Holder("Signer", self.signer.key, self.root, ca=False, extensions=[*extensions, (usages, False)])
            report = self.report(token, authority(self.top))
            self.assertEqual((report.verdict, report.stamps[0]["verified"], report.stamps[0]["used"]), ("refused", True, False), len(purposes))
        usages = x509.ExtendedKeyUsage([ObjectIdentifier(one) for one in [*many[:30], CODE_SIGNING]])
        self.assertTrue(Certificate(Holder("One", self.signer.key, extensions=[(usages, False)]).der).is_for(CODE_SIGNING))
        # An OID that is too long to be read ends no reading.
        self.assertFalse(has_oid(der.whole(der.wrapped(der.OID, b"\x2a" + b"\1" * 70)), [LIFETIME]))

    def test_another_root(self):
        self.assert_bad(self.both(authority(self.top), trusted=self.root), "unable to get local issuer certificate")

    def test_another_signature(self):
        for report in self.both(authority(self.top), signed_octets=b"other octets"):
            self.assertEqual((report.verdict, report.stamps[0]["verified"]), ("refused", False))

    def test_openssl_doesnt_end(self):
        """A call that takes too long makes no stamp good, and no check fail."""
        with patch.object(stamps, "openssl", side_effect=TimedOut("openssl didn't end within 120 seconds")):
            report = self.report(token, authority(self.top))
        self.assertEqual((report.verdict, report.stamps[0]["verified"], report.stamps[0]["why"]), ("refused", False, "openssl didn't end within 120 seconds"))


if __name__ == "__main__":
    unittest.main()
