"""Tests of the reasons that `check_program` gives, and of what it says to do next.

    python3 -m unittest discover -s tools/tests
"""

import sys
import unittest
from contextlib import redirect_stderr, redirect_stdout
from io import StringIO
from pathlib import Path
from shutil import which
from struct import pack
from tempfile import TemporaryDirectory
from unittest.mock import patch

sys.path.insert(0, str(Path(__file__).resolve().parents[1]))

from cryptography.hazmat.primitives import hashes
from cryptography.hazmat.primitives.asymmetric import dsa, ec

import pool_questions
import signed_program
from gate.check_program_calls import LATER, STORED, Stub, changed, checked, namesakes
from gate.made_programs import CODE_SIGNING, Holder, chain, curve_key, entry, rsa_key, signed, with_table
from gate.programs_stand_in import StandIn
from interop import signed_programs
from interop.signature_making import portable_executable
from judges.der_reader import read_exact, write
from program_check import asking, reasons
from program_check.certificate import Certificate
from program_check.programs import Answer
from program_check.roots import Root, Roots
from program_check.signature import Signature


def trusting(*holders):
    return Roots([Root(one.der, "root") for one in holders], "root")


class LinkTest(unittest.TestCase):
    """Why a signature on a certificate isn't accepted: a forged one is told from one that isn't checked."""

    def report(self, root, signer, *between):
        return checked(signed(signer, [signer.der, *(one.der for one in between)]), trusting(root))

    def assert_link(self, report, part):
        self.assertEqual((report.verdict, report.reason), ("refused", "InvalidCertificate:Signature"))
        self.assertIn(part, report.sentence)

    def test_unsupported_curves(self):
        for curve, name in (ec.SECP256K1(), "secp256k1"), (ec.BrainpoolP256R1(), "brainpoolP256r1"):
            report = self.report(*chain(root_key=curve_key(curve)))
            self.assert_link(report, f"'Signer' is signed by elliptic curve {name} and sha256, which the proved programs don't check")
            self.assertNotIn("forged", report.sentence + report.next)

    def test_another_digest(self):
        """P-256 with SHA-384, for which a table has no name."""
        root = Holder("Root", curve_key())
        with patch("gate.made_programs.hashes.SHA256", hashes.SHA384):
            signer = Holder("Signer", rsa_key(), root, ca=False, purposes=[CODE_SIGNING])
        self.assert_link(self.report(root, signer), "'Signer' is signed by elliptic curve P-256 and sha384, which the proved programs don't check")

    def test_forged(self):
        root, signer = chain()
        made = signed(signer, [signer.der])
        signature = Certificate(signer.der).signature
        report = checked(made.replace(signature, changed(signature, 9)), trusting(root))
        self.assert_link(report, "the signature on the certificate 'Signer' isn't one by the key of 'Root'")
        self.assertIn("forged or damaged", report.next)

    def test_another_kind_of_key(self):
        other = Holder("Root", curve_key(), identifiers=False)
        _, signer = chain(identifiers=False)
        report = checked(signed(signer, [signer.der]), trusting(other))
        self.assert_link(report, "'Signer' is signed by an algorithm for another kind of key than 'Root' has (elliptic curve P-256)")

    def test_not_asked(self):
        """Past the limit of pairs nothing is known of a link, and it isn't called forged."""
        root, signer = chain()
        with patch.object(asking, "MOST_PAIRS", 0):
            report = self.report(root, signer)
        self.assert_link(report, "wasn't asked about, so nothing is known of it")
        self.assertIn("1 pairs are left out", "".join(report.notes))
        self.assertNotIn("forged", report.sentence + report.next)

    def test_ten_namesakes_of_the_root(self):
        """They come first in the file, and the pairs that count are asked about all the same."""
        root, between = Holder("Root", rsa_key(), identifiers=False), None
        between = Holder("Between", rsa_key(), root, identifiers=False)
        signer = Holder("Signer", rsa_key(), between, ca=False, purposes=[CODE_SIGNING], identifiers=False)
        others = list(map(write, namesakes(read_exact(root.der), 12)))
        report = checked(signed(signer, [*others, between.der, signer.der]), trusting(root))
        self.assertEqual((report.verdict, len(report.path)), ("accepted", 3), report.sentence)
        self.assertIn("pairs are left out", "".join(report.notes))

    def test_pairs_that_cant_be_links(self):
        """A certificate that names another key isn't asked about (RFC 5280 4.2.1.1); those of the key are, and roots first."""
        root = Holder("Root", rsa_key())
        between, other = (Holder("Between", rsa_key(), root) for _ in range(2))
        signer = Holder("Signer", rsa_key(), between, ca=False, purposes=[CODE_SIGNING])
        root, between, other, signer = (Certificate(one.der) for one in (root, between, other, signer))
        found = asking.pairs_of([signer, other, between], [other, between, root], [root])
        self.assertEqual([(pair.child, pair.parent) for pair in found.asked], [(other, root), (between, root), (signer, between)])

    def test_long_certificates(self):
        """So many octets of certificates are asked about, and no more."""
        root, signer = chain()
        with patch.object(asking, "MOST_OCTETS", len(root.der) + len(signer.der) - 1):
            report = self.report(root, signer)
        self.assertEqual(report.verdict, "refused")
        self.assertIn("so long", "".join(report.notes))

    def test_a_certificate_that_the_programs_dont_read(self):
        """One of the issuer's name, of a kind of key that they don't know, spoils no path."""
        root = Holder("Root", rsa_key())
        between = Holder("Between", rsa_key(), root, identifiers=False)
        odd = Holder("Between", dsa.generate_private_key(1024), root, identifiers=False)
        signer = Holder("Signer", rsa_key(), between, ca=False, purposes=[CODE_SIGNING], identifiers=False)
        report = checked(signed(signer, [odd.der, between.der, signer.der]), trusting(root))
        self.assertEqual(report.verdict, "accepted", report.sentence)
        self.assertIn("picky_ask doesn't read the certificate 'Between': refused", "".join(report.notes))


class SignatureTest(unittest.TestCase):
    """Why a signature isn't accepted."""

    def test_octets_behind_it(self):
        """Within the length that the header states: the signature isn't called BER."""
        root, signer = chain()
        program = portable_executable()
        digest = bytes.fromhex(signed_program.image_digest(with_table(program, b""), "sha256"))
        made = entry(signer, [signer.der], digest, padded=False)
        longer = made + bytes(-len(made) % 8) + b"\1" + bytes(7)
        report = checked(with_table(program, pack("<I", len(longer)) + longer[4:]), trusting(root))
        self.assertEqual((report.verdict, report.reason), ("refused", "Asn1Deserialization"))
        self.assertIn("stand behind it within its length", report.sentence)
        self.assertNotIn("BER", report.sentence + report.next)

    def test_not_asked(self):
        class Silent(StandIn):
            """`picky_ask` lists no question about the signature file."""

            def run(self, program, words, shown):
                silent = program == "picky_ask" and "--chain" not in words
                return Answer(program, shown, 0, "") if silent else super().run(program, words, shown)

        report = checked(STORED["three"].octets, programs=Silent())
        self.assertEqual(report.reason, "SignatureError")
        self.assertIn("wasn't asked about", report.sentence)
        self.assertNotIn("forged", report.sentence + report.next)

    def test_a_signer_that_isnt_read(self):
        """Whatever a program refuses, there is a sentence, also where no certificate is read that it could be about."""
        octets = signed(chain()[1], [])
        for name in reasons.PROGRAM | reasons.SIGNATURE | reasons.CHAIN:
            report = checked(octets, programs=Stub("picky_pe", 1, f"refused {name}\n"), at="2031-01-01")
            self.assertEqual((report.verdict, report.reason, report.signer), ("refused", name, None))
            self.assertNotRegex(report.sentence + report.next, "[{}]")
        report = checked(octets, programs=Stub("picky_pe", 1, f"refused {reasons.EXPIRED}\n"), at="2031-01-01")
        self.assertEqual(report.sentence, "the certificate that isn't read here was valid until a moment that isn't read here, and the date is 2031-01-01 00:00:00 UTC")
        # Nor is one where the signature isn't read at all.
        for name in reasons.CHAIN:
            report = checked(with_table(portable_executable(), pack("<IHH", 16, 0x0200, 2) + bytes(8)), programs=Stub("picky_pe", 1, f"refused {name}\n"))
            self.assertEqual((report.verdict, report.reason), ("refused", name))

    def test_longer_than_is_read(self):
        report = checked(b"MZ" + bytes(16_777_215))
        self.assertEqual((report.verdict, report.status), ("not checked", 6))
        self.assertIn("`check_program.py SIG --digest DIGEST` checks the signature for that", report.sentence)


@unittest.skipUnless(which("openssl"), "openssl isn't there")
class ExpiryTest(unittest.TestCase):
    """What to do about a certificate that has expired: it depends on the date and the stamps."""

    def hint(self, label, **how):
        report = checked(STORED[label].octets, **how)
        self.assertEqual((report.verdict, report.reason), ("refused", "InvalidCertificate:CertificateExpired"), label)
        return report.next

    def test_no_stamp(self):
        self.assertIn("the program has no time stamp", self.hint("three", now=LATER))

    def test_another_root_of_stamps(self):
        other = trusting(Holder("Other", rsa_key()))
        self.assertIn("name the file of its root by --stamp-root", self.hint("stamped", now=LATER, stamp_roots=other))

    def test_a_date_that_is_given(self):
        said = self.hint("stamped", now=LATER, at="2031-01-01")
        self.assertIn("the date is the one of --at", said)
        self.assertNotIn("--stamp-root", said)

    def test_a_stamp_from_after_the_end(self):
        self.assertIn("the stamp is from after its end", self.hint("stamped late", now=LATER))

    def test_lifetime_signing(self):
        self.assertIn("no stamp outlives it", self.hint("lifetime, stamped", now=LATER))

    def test_a_damaged_stamp(self):
        token = next(Signature(signed_program.signature(STORED["stamped"].octets)).stamps()).octets
        octets = STORED["stamped"].octets.replace(token, token[:-1] + bytes([token[-1] ^ 1]))
        report = checked(octets, now=LATER)
        self.assertIn("its stamp isn't good, for the reason that is above", report.next)

    def test_a_stamp_to_come(self):
        """The signer's certificate has expired now, and the stamp is from after now."""
        report = checked(STORED["stamped late"].octets, now="2025-06-01T00:00:00")
        self.assertEqual((report.reason, report.stamps[0]["verified"]), ("InvalidCertificate:CertificateExpired", True))
        self.assertIn("its stamp is good, but from after now", report.next)


class RootAdviceTest(unittest.TestCase):
    """No advice ends in another refusal."""

    def test_a_signer_that_issued_itself(self):
        """Not a CA's: it is no root here, and isn't said to be named by --root."""
        alone = Holder("Alone", rsa_key(), ca=False, purposes=[CODE_SIGNING])
        made, root = signed(alone, [alone.der]), Holder("Root", rsa_key())
        report = checked(made, trusting(root))
        self.assertIn("issued itself", report.sentence)
        self.assertNotIn("--root", report.next)
        self.assertIn("it can't be a root here", report.next)
        # So it is: the advice that isn't given would end there.
        report = checked(made, trusting(alone))
        self.assertEqual(report.verdict, "refused")
        self.assertIn("can't be a root here", report.next)

    def test_one_that_is_a_ca(self):
        """The advice to name it by --root leads to an acceptance."""
        alone = Holder("Alone", rsa_key(), ca=True, purposes=[CODE_SIGNING])
        made = signed(alone, [alone.der])
        self.assertIn("name its file by --root", checked(made, trusting(Holder("Root", rsa_key()))).next)
        self.assertEqual(checked(made, trusting(alone)).verdict, "accepted")

    def test_a_leaf_as_a_root(self):
        _, signer = chain()
        report = checked(signed(signer, [signer.der]), trusting(signer))
        self.assertEqual(report.verdict, "refused")
        self.assertIn("the certificate that is trusted is the signer's own, and it isn't that of a CA", report.sentence)
        self.assertIn("can't be a root here", report.next)

    def test_another_end_as_a_root(self):
        """The issuer's certificate isn't a CA's, and is trusted."""
        root = Holder("Root", rsa_key(), ca=False)
        signer = Holder("Signer", rsa_key(), root, ca=False, purposes=[CODE_SIGNING])
        report = checked(signed(signer, [signer.der]), trusting(root))
        self.assertEqual((report.verdict, report.reason), ("refused", "InvalidChain:IssuerIsNotCA"))
        self.assertIn("a certificate that isn't a CA's can't be a root here", report.next)


class PoolTest(unittest.TestCase):
    """`pool_questions.py` recommends what it has."""

    def test_not_built(self):
        with TemporaryDirectory() as folder, patch.dict("os.environ", {"PICKY_PROGRAMS": folder}):
            file = Path(folder, "root.der")
            file.write_bytes(signed_programs.root())
            with redirect_stdout(StringIO()) as out, redirect_stderr(StringIO()) as errors:
                status = pool_questions.main([str(file)])
        self.assertEqual((status, out.getvalue()), (2, ""))
        self.assertIn("isn't built", errors.getvalue())
        for option in "--try", "--programs":
            self.assertNotIn(option, errors.getvalue())
        self.assertIn("PICKY_PROGRAMS", errors.getvalue())

    def test_a_file_that_is_no_certificate(self):
        """It is named once where it is asked about with itself, and each where two are."""
        with TemporaryDirectory() as folder:
            one, other = Path(folder, "one"), Path(folder, "other")
            one.write_bytes(b"none")
            other.write_bytes(b"none")
            for files, said in ([one], f"{one} is no certificate"), ([one, other], f"{one} or {other} is no certificate"):
                programs = Stub("picky_ask", 1, "refused Asn1Deserialization\n")
                if len(files) == 2:
                    run, asked = programs.run, iter([Answer("picky_ask", "picky_ask", 0, "")])
                    programs.run = lambda *words: next(asked, None) or run(*words)
                with self.assertRaises(pool_questions.NoCertificate) as refusal:
                    list(pool_questions.questions(programs, files))
                self.assertEqual(str(refusal.exception).partition(":")[0], said)


if __name__ == "__main__":
    unittest.main()
