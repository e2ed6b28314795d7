"""Tests of what the maker and the judge of `xgolden_issuing` find: against lines by hand, and openssl.

    python3 -m unittest discover -s tools/tests
"""

import sys
import unittest
from pathlib import Path
from shutil import which

sys.path.insert(0, str(Path(__file__).resolve().parents[1]))

from cases import issuing_chains as chains
from cases import issuing_rows as rows
from golden import issuing_vectors
from interop import issuing_check, world_requests
from judges.der_reader import read_exact, write
from judges.issuing_judge import chain_line, request_line
from judges.issuing_maker import Refused, built, generated

LEFTMOST = "couldn't generate certificate: key id generation error: invalid key: unsupported algorithm: RSA"
MISMATCH = "invalid certificate 'CN=L': CA chain error: authority key id doesn't match (expected: aabb, got: 01)"


def told(make, *arguments):
    """The text of what is refused."""
    try:
        make(*arguments)
    except Refused as refusal:
        return refusal.text
    return "made"


def key_identifiers(octets):
    """The extensions that identify the certificate's own key."""
    return [one for one in read_exact(octets).kids[0].kids[-1].kids[0].kids if one.kids[0] == rows.oid("2.5.29.14")]


def settled(settings, scheme=rows.DEMO, key=rows.K11):
    return told(built, 1, key, settings, scheme)


class StoredRunTest(unittest.TestCase):

    @unittest.skipUnless(which("openssl"), "openssl isn't there")
    def test_openssl_reads_some(self):
        read = [row for row in issuing_vectors.stored_rows() if " build " in row[0] or " generate " in row[0]]
        self.assertEqual(issuing_check.check(read[::12]), 0)

    @unittest.skipUnless(which("openssl"), "openssl isn't there")
    def test_openssl_says_another_field(self):
        row, line = next(iter(issuing_vectors.stored_rows()))
        octets = bytes.fromhex(line.split(" ")[0])
        for asked, other in (("=20200101", "=20200102"), ("build 0", "build 2"), ("5369676e6572", "5369676e6573")):
            self.assertIn(asked, row)
            with self.assertRaises(issuing_check.Differs):
                issuing_check.certificate_check(row.replace(asked, other).split(" ")[2:], octets)

    @unittest.skipUnless(which("openssl"), "openssl isn't there")
    def test_openssl_says_another_extension(self):
        row, line = rows.build_row(rows.DEMO, 1, rows.K11, [*rows.EVERYTHING, *rows.OWN])
        octets = bytes.fromhex(line.split(" ")[0])
        issuing_check.certificate_check(row.split(" ")[2:], octets)
        for asked, other in (
            ("ca=true", "ca=false"), ("pathlen=3", "pathlen=4"), ("key_usage=33", "key_usage=32"), ("05050703", "05050704"), ("6c6f63616c", "6c6f63616d"),
            ("leftmost:SHA-1", "leftmost:SHA-256"), ("issuer_alt_name=", "subject_alt_name="),
        ):
            self.assertIn(asked, row)
            with self.assertRaises(issuing_check.Differs):
                issuing_check.extensions_check(issuing_check.Asked(row.replace(asked, other).split(" ")[2:]), octets)


class BuiltTest(unittest.TestCase):
    """Certificates, by hand."""

    # The own certificate of the key 11, its fields in a row.
    FIELDS = [
        "a003020102", "020101", "300d06092a864886f70d01010b0500", "3011310f300d06035504030c065369676e6572",
        "301e170d3230303130313030303030305a170d3330303130313030303030305a", "3011310f300d06035504030c065369676e6572",
        "301a300d06092a864886f70d01010105000309003006020111020103",
    ]

    def test_own_certificate(self):
        for number in (0, 1):
            tbs, algorithm, _ = read_exact(built(number, rows.K11, rows.OWN, rows.DEMO)).kids
            self.assertEqual([write(field).hex() for field in tbs.kids[:-1]], self.FIELDS)
            self.assertEqual(write(algorithm).hex(), self.FIELDS[2])
            first = write(tbs.kids[-1].kids[0].kids[0]).hex()
            self.assertEqual(first, "300c0603551d13040530030101" + "00")

    def test_serial_number(self):
        made = built(1, rows.K11, [*rows.OWN, ("serial_number", bytes.fromhex("15543a7a"))], rows.DEMO)
        self.assertEqual(write(read_exact(made).kids[0].kids[1]).hex(), "020415543a7a")

    def test_refusals(self):
        for settings, text in (
            ([], "missing required builder argument `valid_from`"), ([rows.DAYS], "missing required builder argument `issuer_infos`"),
            (rows.ISSUED[:2], "missing required builder argument `authority_key_identifier`"),
            (rows.ISSUED, "missing required builder argument `subject_infos`"), ([*rows.OWN, rows.LEFTMOST_MD5], LEFTMOST),
        ):
            self.assertEqual(settled(settings), text)
        self.assertEqual(settled(rows.OWN, rows.EMPTY), "couldn't generate certificate: signature error: RSA error: the signature scheme refused")

    def test_the_earlier_of_two_faults(self):
        for order, pairs in ((rows.OWN_FAULTS, 26), (rows.ISSUED_FAULTS, 43)):
            found = {faults: settled(settings, scheme, key) for faults, (scheme, key, settings) in rows.fault_cases(order)}
            both = [faults for faults in found if len(faults) == 2]
            self.assertEqual(len(both), pairs)
            for faults in both:
                self.assertEqual(found[faults], found[faults[:1]], faults)

    def test_constraints_of_a_request(self):
        """CA true and a host are asked for: the flag is false, and the host stands there once."""
        csr = rows.asked(rows.asking([rows.AUTHORITY_ASKED, rows.extension(17, rows.HOST)]))
        made = built(1, rows.K11, [*rows.ISSUED, ("subject_from_csr", csr), ("inherit", True)], rows.DEMO).hex()
        self.assertEqual((made.count("0603551d13"), made.count("0603551d130405300301" + "0100")), (1, 1))
        self.assertEqual(made.count("0603551d11040d300b82096c6f63616c686f7374"), 1)


class RequestsTest(unittest.TestCase):

    def test_a_request(self):
        octets = generated("rsa:SHA-256", rows.K13, rows.SIGNER, (), rows.DEMO)
        _, name, key, attributes = read_exact(octets).kids[0].kids
        self.assertEqual(write(attributes).hex(), "a000")
        self.assertEqual(request_line(octets, rows.DEMO), f"same {write(key).hex()} CN=Signer accepted")
        self.assertTrue(request_line(rows.changed(octets), rows.DEMO).endswith(" CN=Signer signature error: invalid signature"))

    def test_the_earlier_of_two_faults(self):
        found = {faults: told(generated, *case, (), scheme) for faults, (scheme, *case, _) in rows.faulty_requests()}
        both = [faults for faults in found if len(faults) == 2]
        self.assertEqual(len(both), 5)
        self.assertEqual(len({found[fault] for fault in found if len(fault) == 1}), 4)
        for faults in both:
            self.assertEqual(found[faults], found[faults[:1]], faults)

    @unittest.skipUnless(which("openssl"), "openssl isn't there")
    def test_requests_of_openssl(self):
        self.assertEqual(world_requests.check(), 0)


class ChainsTest(unittest.TestCase):
    """Lines by hand."""

    FUTURE = chains.FUTURE_LEAF, chains.FUTURE_INT, chains.FUTURE_ROOT

    def line(self, certificates, lower, setters=("chain", "exact_date"), upper=None, scheme=rows.DEMO):
        return chain_line(certificates, lower + "000000", (upper or lower) + "000000", setters, scheme)

    def test_dates(self):
        authority = f"CN={chains.FUTURE} Authority"
        expired = f"invalid certificate '{authority}': certificate expired (not after: 2071-01-01 00:00:00, now: 2071-06-01 00:00:00)"
        self.assertEqual(self.line(self.FUTURE, "20710601"), f"InvalidCertificate:CertificateExpired: {expired}")
        self.assertEqual(chain_line(self.FUTURE, "20681231235959", "20690101000000", ("chain", "interval_date"), rows.DEMO), "accepted")
        self.assertEqual(self.line(self.FUTURE, "20690101", ("chain",)), "MissingBuilderArgument: missing required builder argument `now`")
        self.assertEqual(self.line(chains.MY_CHAIN, "20201220"), "accepted")
        expired = "invalid certificate 'CN=My Leaf': certificate expired (not after: 2021-01-01 00:00:00, now: 2021-01-02 00:00:00)"
        self.assertEqual(self.line(chains.MY_CHAIN, "20210102"), f"InvalidCertificate:CertificateExpired: {expired}")

    def test_depth_and_root(self):
        text = f"chain depth doesn't satisfy basic constraints extension: certificate 'CN={chains.FUTURE} Root CA' has pathlen of 0"
        deep = (chains.FUTURE_LEAF_0, chains.FUTURE_INT, chains.FUTURE_ROOT_0)
        self.assertEqual(self.line(deep, "20691001"), f"InvalidChain:TooDeep: CA chain error: {text}")
        self.assertEqual(self.line((*deep[:2], chains.FUTURE_ROOT), "20691001"), "accepted")
        for scheme in (rows.DEMO, chains.table_for(self.FUTURE)):
            self.assertEqual(self.line(self.FUTURE, "20691001", scheme=scheme), "accepted")
            self.assertEqual(self.line(self.FUTURE[:2], "20691001", scheme=scheme), "InvalidChain:NoRoot: CA chain error: chain is missing a root certificate")

    def test_parents(self):
        lines = [line for _, line in chains.parent_rows()]
        keys = [one.kids[-1].contents.hex()[4:] for own in (chains.SIGNER, chains.ANOTHER) for one in key_identifiers(own)]
        mismatch = f"authority key id doesn't match (expected: {keys[1]}, got: {keys[0]})"
        for line, wanted in zip(lines, (
            "parent", "InvalidCertificate:InvalidChain:IssuerNameMismatch: invalid certificate 'CN=Other': CA chain error: issuer name doesn't match (expected: CN=Other, got: CN=Signer)",
            "InvalidCertificate:InvalidChain:IssuerNameMismatch: invalid certificate 'CN=Signer': CA chain error: issuer name doesn't match (expected: CN=Signer, got: CN=Other)",
            f"InvalidCertificate:InvalidChain:AuthorityKeyIdMismatch: invalid certificate 'CN=Signer': CA chain error: {mismatch}",
            f"InvalidCertificate:InvalidChain:AuthorityKeyIdMismatch: invalid certificate 'CN=Other': CA chain error: {mismatch}", "parent",
        )):
            self.assertEqual(line, wanted)

    def test_keys_and_spelling(self):
        another = chains.FUTURE_LEAF, chains.FUTURE_INT_BY_ANOTHER, chains.FUTURE_ROOT
        self.assertTrue(self.line(another, "20691001").startswith("InvalidCertificate:Signature: invalid certificate"))
        named = chains.certificate("L", "P", ca=False, authority=b"\xaa\xbb"), chains.certificate("P", "P", ca=True, own=b"\1")
        self.assertEqual(self.line(named, "20250101"), f"InvalidCertificate:InvalidChain:AuthorityKeyIdMismatch: {MISMATCH}")
        self.assertIn(bytes.fromhex("0603551d13040530030101" + "01"), chains.ODD)
        self.assertEqual(self.line((chains.ODD_LEAF, chains.ODD), "20250101"), "accepted")


if __name__ == "__main__":
    unittest.main()
