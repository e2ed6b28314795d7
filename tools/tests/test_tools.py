"""Tests of the scripts; those for users have `test_users.py`.

    python3 tools/tests/run.py test_tools
"""

import re
import sys
import unittest
from hashlib import sha256
from itertools import permutations, product
from pathlib import Path
from shutil import which
from tempfile import TemporaryDirectory
from textwrap import dedent
from unittest.mock import patch

sys.path.insert(0, str(Path(__file__).resolve().parents[1]))

import order_bag
import ordered_program
import signed_program
from judges import asked_signatures
from cases import basic_rows, basic_world, check_rows, demo_signatures, kept_certificates, made_signatures
from cases.certificate_cases import (
    AGREED, AGREEMENT_KEYS, GENERATED, KEY_LABELS, LABELS, REQUESTED, SIGNING_KEYS, WRITTEN,
    Key, Requested,
)
from cases.der_cases import mutations
from cases.first_path import (
    FILE_HASH, SignatureFile, identifier, name, sequence, set_of, signature_file, utf8_string,
    verdict_line,
)
from cases.hostile_inputs import ROWS
from common import folders
from common.openssl import OpensslError, openssl
from gate import run_program, unused_calls
from golden import (
    basic_vectors, check_vectors, compare_basic, compare_check, compare_readers, kept_vectors, path_vectors, reader_stand_in,
)
from golden.compare_readers import Comparison, block_line, case_file, cases_of, inputs, spelled
from interop import certificate_parts, chains, oid_table, signed_files, signed_images, signed_programs, world_certificates, world_signatures
from interop.certificate_fields import Differs, Fields, openssl_check
from interop.certificate_making import (
    certificate_around, make_key, requested_certificate, written_name,
)
from interop.certificate_parts import (
    TEXT_OPTIONS, complaints, made_rows, parts, printed, rows_of, said_subject, source,
    unescaped, unsigned, written_rows,
)
from judges import check_judge, der_reader, pe_judge
from judges.basic_judge import answer
from judges.cms_reader import both_line, cms_line
from judges.der_reader import (
    FAULTS, Constructed, Malformed, NotWritable, Primitive,
    cursor_answer, encoding, exact_answer, first_answer, read_exact, read_first, write,
)
from judges.der_starts import first_fault
from judges.value_reader import WORDS, dotted, name_text, structure_line



def chain(levels):
    """An element of so many levels."""
    tree = Constructed(0x30, ())
    for _ in range(levels - 1):
        tree = Constructed(0x30, (tree,))
    return tree


class FirstPathTest(unittest.TestCase):

    def test_digests_by_openssl(self):
        # `openssl dgst -sha256` of the octets that `openssl asn1parse` places.
        self.assertEqual(verdict_line(), " ".join((
            "rsa-sha256",
            "aa84156bf64f92fa38950f9cb52fb93803299ee23adfb6598a50976c88af298a",
            "a7e5bb78b1420d7ec6cb2567339cff29e327dd68cb1427391e782def2db15fee",
            "bceef655b5a034911f1c3718ce056531b45ef03b4c7b1f15629e867294011a7d\n",
        )))
        message_digest = "6b00646e9ba32b38bcdfe80a0e22b4671c4d01316d815cc7bb60626b24aa2832"
        self.assertIn(bytes.fromhex(message_digest), signature_file())

    def test_parts_stand_where_the_form_has_them(self):
        octets = signature_file()
        self.assertEqual(octets[:8].hex(" "), "be 01 00 00 00 02 02 00")
        content_info = read_exact(octets[8:])
        signed_data = content_info.kids[1].kids[0]
        _, _, content, certificates, lists, signers = signed_data.kids
        to_be_signed = certificates.kids[0].kids[0]
        signer = signers.kids[0]
        self.assertEqual(to_be_signed.kids[3], signer.kids[1].kids[0])
        self.assertEqual(to_be_signed.kids[1], signer.kids[1].kids[1])
        self.assertEqual(lists, Constructed(0xA1, ()))
        indirect = content.kids[1].kids[0]
        self.assertEqual(indirect.kids[1].kids[1].contents, FILE_HASH)
        digest = signer.kids[3].kids[2].kids[1].kids[0].contents
        self.assertEqual(digest, sha256(b"".join(map(write, indirect.kids))).digest())
        message = write(Constructed(0x31, signer.kids[3].kids))
        self.assertEqual(SignatureFile().message(), message)

    def test_variations(self):
        self.assertEqual(signature_file(revision=0x0100, kind=9)[4:8].hex(), "00010900")
        padded = signature_file(padding=7)
        self.assertEqual(len(padded), int.from_bytes(padded[:4], "little"))
        self.assertEqual(first_answer(padded[8:]), f"ok {len(padded) - 15}")
        self.assertIn(b"\x04\x20" + b"m" * 32, signature_file(message_digest=b"m" * 32))
        for size in (0x7F, 0x80, 0xFF, 0x100, 0xFFFF, 0x10000):
            long = signature_file(subject=b"x" * size)
            self.assertEqual(first_answer(long[8:]), f"ok {len(long) - 8}")


class ReaderTest(unittest.TestCase):

    SECONDS = 12

    def assert_first_fault(self, octets):
        """Reading and the definition agree, and what is read is written again."""
        fault = first_fault(octets)
        if fault is not None:
            self.assertEqual(first_answer(octets), "%s %d" % fault, octets.hex())
            self.assertEqual(exact_answer(octets), "%s %d" % fault, octets.hex())
        else:
            tree, taken = read_first(octets)
            self.assertEqual(write(tree), octets[:taken])
            exact = f"ok {taken}" if taken == len(octets) else f"Trailing {taken}"
            self.assertEqual(exact_answer(octets), exact)
        self.assertEqual(cursor_answer(octets), reader_stand_in.cursor_answer(octets))

    def test_every_input_of_two_octets(self):
        for count in range(3):
            for octets in product(range(256), repeat=count):
                self.assert_first_fault(bytes(octets))

    def test_mutations(self):
        faults = set()
        for octets in mutations(5_000, seed=2):
            self.assert_first_fault(octets)
            faults.add(exact_answer(octets).split()[0])
        self.assertEqual(faults, {"ok", *FAULTS})

    def test_hostile_inputs(self):
        for row in ROWS:
            with self.subTest(row.why):
                octets = bytes.fromhex(row.octets)
                self.assert_first_fault(octets)
                self.assertEqual(first_answer(octets), row.first)
                self.assertEqual(exact_answer(octets), row.exact)
                self.assertEqual(cursor_answer(octets), row.cursor)
        self.assertEqual(len({row.octets for row in ROWS}), len(ROWS))
        self.assertEqual({row.exact.split()[0] for row in ROWS}, {"ok", *FAULTS})

    def test_levels(self):
        self.assertEqual(read_exact(write(chain(64))), chain(64))
        for levels in (65, 200):
            with self.assertRaisesRegex(NotWritable, "TooDeep"):
                write(chain(levels))
            with self.assertRaisesRegex(Malformed, "TooDeep"):
                read_first(encoding(chain(levels)))

    def test_lengths(self):
        for size, head in ((0xFFFF, "04 82 ff ff"), (0x10000, "04 83 01 00 00"),
                           (0xFFFFFF, "04 83 ff ff ff"), (0x1000000, "04 84 01 00 00 00")):
            leaf = Primitive(0x04, bytes(size))
            octets = write(leaf)
            self.assertEqual(octets[:len(octets) - size].hex(" "), head)
            self.assertEqual(read_exact(octets), leaf)
        with patch.object(der_reader, "LONGEST", 3):
            with self.assertRaisesRegex(NotWritable, "TooLong"):
                write(Constructed(0x30, (Primitive(0x04, bytes(2)),)))

    def test_only_well_formed_elements_are_written(self):
        for tree in (Primitive(0x00, b""), Primitive(0x1F, b""), Primitive(0x30, b""),
                     Constructed(0x04, ()), Constructed(0x30, (Primitive(0xFF, b""),))):
            with self.assertRaises(ValueError):
                write(tree)


def asked(*words):
    """The stand-in's answer, without a process."""
    match words:
        case ["cases", path]:
            return list(reader_stand_in.answer_cases(path))
        case ["digests", prefix, count]:
            return list(reader_stand_in.answer_digests(prefix, count))


class BasicAnswersTest(unittest.TestCase):

    def test_lines_are_those_of_the_file(self):
        made = basic_rows.wrapped(basic_rows.encoded(basic_rows.LINES))
        self.assertEqual(made, basic_rows.FILE)

    def test_answers_are_those_by_hand(self):
        self.assertEqual(list(basic_vectors.unlike()), [])

    def test_every_refusal_has_a_row(self):
        names = {said.split()[0] for *_, said in basic_vectors.rows()}
        self.assertEqual(names, {
            "WrongLength", "CertificateDataIsEmpty", "WrongRevisionValue", "WrongCertificateType", "Io", "Asn1Deserialization",
            "IncorrectVersion", "MultipleSignerInfo", "IncorrectDigestAlgorithmsCount", "NoEncapsulatedContentInfo", "NoSpcIndirectDataContent",
            "DigestAlgorithmMismatch", "FileHashMismatch", "IncorrectSignerIdentifier", "NoCertificatesAssociatedWithIssuerAndSerialNumber",
            "UnsupportedAlgorithmError", "SignatureError", "NoMessageDigest", "UnsupportedHashAlgorithmError", "HashMismatch", "NoEKUCodeSigning",
            "accepted",
        })

    def test_changes(self):
        # Each change is of one octet, which becomes another one.
        for label, file, _, _, changes, said in basic_world.rows():
            self.assertEqual(len(said), 1 + len(changes), label)
            for at, octet in changes:
                self.assertNotEqual(file[at], octet, label)


class CheckAnswersTest(unittest.TestCase):

    SECONDS = 6

    def test_answers_are_those_by_hand(self):
        self.assertEqual(list(check_vectors.unlike()), [])

    def test_every_refusal_and_excuse_has_a_row(self):
        said = [row.said.split() for row in check_rows.rows()]
        self.assertEqual({words[1] for words in said if words[0] == "refused"} - {said.split()[0] for *_, said in basic_vectors.rows()}, {
            "MissingExpectedFileHash", "MissingBuilderArgument", "InvalidCertificate:CertificateNotYetValid", "InvalidCertificate:CertificateExpired",
            "InvalidChain:IssuerIsNotCA", "InvalidChain:TooDeep", "InvalidCertificate:ExtensionNotFound", "InvalidCertificate:InvalidChain:AuthorityKeyIdMismatch",
            "InvalidCertificate:InvalidChain:IssuerNameMismatch", "Signature", "InvalidCertificate:Signature", "InvalidTimestampCert",
            "FailedToParseCtl", "NoContent", "IncorrectContentValue", "CAIsNotTrusted", "CaCertificateRevoked", "MalformedEntry", "CaCertificateExpired",
            "CaCertificateNotYetValid",
        })
        self.assertEqual({words[-1] for words in said if words[0] == "accepted"}, {"excuse=none", "excuse=bag", "excuse=token"})


class SignedProgramsTest(unittest.TestCase):

    def test_beside_osslsigncode(self):
        with patch("builtins.print"):
            self.assertEqual(signed_programs.check(), 0)

    def test_tables(self):
        for label, program in signed_programs.stored().items():
            lines, _ = asked_signatures.table(program.file().octets)
            self.assertEqual(program.table.splitlines(), lines, label)

    def test_sample(self):
        case = signed_programs.Case("stamped", "2023-06-15")
        line = signed_programs.judged(case, signed_programs.sample())
        self.assertEqual(line, "accepted signer=0 path=1,2 excuse=none")

    def test_certificates_in_order(self):
        for label, program in signed_programs.stored().items():
            ordered = program.in_order().file()
            self.assertEqual(sorted(ordered.octets), sorted(program.file().octets))
            self.assertEqual(order_bag.with_ordered_bag(ordered.octets), ordered.octets)
            self.assertEqual(set(asked_signatures.table(ordered.octets)[0]), set(program.table.splitlines()), label)
            entry = order_bag.with_ordered_bag(signed_program.signature(program.octets))
            self.assertEqual(ordered_program.with_entry(program.octets, entry), program.in_order().octets, label)

    def test_each_signature_of_an_issuer_is_asked_for_once(self):
        # Those of the token too, in which osslsigncode puts the certificate that stamps twice.
        program = signed_programs.stored()["stamped, three"].in_order().file()
        asked = [one.what for one in asked_signatures.asked_of(program.octets)]
        places = [f"certificate {place} of the {where}" for where, many in (("signed data", 3), ("token", 3)) for place in range(many)]
        self.assertEqual(asked, ["the signer", *places])


class PathAnswersTest(unittest.TestCase):

    def test_answers_are_those_by_hand(self):
        for label, octets, said in path_vectors.CASES:
            self.assertEqual(path_vectors.answer(octets), said, label)


class SignedFilesTest(unittest.TestCase):

    def test_names_of_refusals(self):
        octets = min((image.octets for image in signed_images.stored()), key=len)
        for program, name in (
            (b"", "NotMz"), (octets[:64], "NotPe"), (octets[:-1], "TableOutside"), (signed_files.changed(octets, 88), "WrongMagic"),
        ):
            self.assertEqual(signed_files.expected(program, "", "20300101000000"), f"refused {name}")

    def test_a_signed_program(self):
        image = next(iter(signed_images.stored()))
        table = signed_files.table_of(image.octets)
        self.assertEqual(signed_files.expected(image.octets, table, "20300101000000"), "accepted")
        *_, address = pe_judge.places(image.octets)
        changed = signed_files.changed(image.octets, address - 1)
        self.assertEqual(signed_files.expected(changed, table, "20300101000000"), "refused FileHashMismatch")


class KeptAnswersTest(unittest.TestCase):

    def test_answers_are_those_by_hand(self):
        for label, octets, said in kept_vectors.CASES:
            self.assertEqual(kept_vectors.answer(octets), said, label)


class MadeSignaturesTest(unittest.TestCase):

    def test_files_of_tests(self):
        for path, program in (("xtest_kept/src/making.rt", made_signatures.SAMPLE),):
            source = (folders.CRATES / path).read_text(encoding="utf-8")
            self.assertIn(f'"{made_signatures.padded(program.value()).hex()}"', source)

    def test_every_refusal_has_a_row(self):
        for rows, count in (made_signatures.made_rows(), 6), (made_signatures.built_rows(), 11):
            self.assertEqual(len({said for _, said in rows if said.startswith("refused")}), count)


class ComparisonTest(unittest.TestCase):

    SECONDS = 18

    FAMILIES = (("", 0), ("", 1), ("04", 1), ("3002", 2))

    def compared(self, families=FAMILIES):
        with patch.object(Comparison, "asked", lambda _, *words: asked(*words)):
            return compare_readers.compare(["program"], 500, 1, families)

    def test_case_file(self):
        cases = [b"", b"\x30", bytes(0x101)]
        self.assertEqual(case_file(cases)[:7].hex(" "), "00 00 01 00 30 01 01")
        self.assertEqual(list(cases_of(case_file(cases))), cases)

    def test_digests_are_of_the_lines(self):
        for prefix in ("", "05", "30", "3001", "3002", "0482", "a081"):
            octets = bytes.fromhex(prefix)
            digest = sha256("".join(map(compare_readers.answer_line, inputs(octets, 2))).encode())
            self.assertEqual(block_line(octets, 2), f"{spelled(octets)} {digest.hexdigest()}\n")

    def test_a_right_program(self):
        comparison = self.compared()
        self.assertEqual(comparison.shown, [])
        self.assertEqual(comparison.compared, len(ROWS) + 500 + 1 + 256 + 256 + 0x10000)

    def test_one_wrong_answer_in_a_block(self):
        right = reader_stand_in.answer_line

        def wrong(octets):
            return "ok 2 ok 2 2 end\n" if octets == b"\x04\x81" else right(octets)

        with patch.object(reader_stand_in, "answer_line", wrong):
            comparison = self.compared([("04", 1)])
        self.assertIn("04 81: expected Truncated 0 Truncated 0 Truncated 0, got ok 2 ok 2 2 end", comparison.shown)

    def test_missing_lines(self):
        with patch.object(Comparison, "asked", lambda _, *words: asked(*words)[:-1]):
            comparison = compare_readers.compare(["program"], 0, 1, ())
        self.assertEqual(comparison.different, 1)
        self.assertTrue(comparison.shown[0].endswith("got no line"))


STORED_PARTS = certificate_parts.STORED.read_text(encoding="ascii")


class CertificatePartsTest(unittest.TestCase):

    def setUp(self):
        self.names, self.keys = rows_of(STORED_PARTS)

    def test_parts_of_a_certificate(self):
        made = SignatureFile(subject=b"B" * 200)
        taken = parts(made.certificate())
        self.assertEqual(taken.name, name(b"B" * 200))
        self.assertEqual(read_exact(taken.key).kids[1].contents, b"\0" + made.public_key())
        self.assertEqual(parts(certificate_around(*taken)), taken)
        # A certificate of version 1 doesn't say so.
        to_be_signed, *others = read_exact(made.certificate()).kids
        first = Constructed(0x30, (Constructed(0x30, to_be_signed.kids[1:]), *others))
        self.assertEqual(parts(write(first)), taken)

    def test_printed(self):
        for said, elements, text in (
            ("", "", ""),
            ("2.5.4.3=UTF8STRING:A", "2.5.4.3=#0C0141", "CN=A"),
            ("1.2.3=UTF8STRING:=,2.5.4.5=PRINTABLESTRING:7", "1.2.3=#,2.5.4.5=#",
             "1.2.3==,SERIALNUMBER=7"),
            ("2.5.4.3=UTF8STRING:\\,\\\\+2.5.4.9=UTF8STRING:\\+,1.2=UTF8STRING:", "a=#+b=#,c=#",
             "CN=,\\+STREET=+,1.2="),
            ("2.5.4.3=T61STRING:a\\E9\\,", "2.5.4.3=#", "CN=a?,"),
            ("2.5.4.3=IA5STRING:a\\E9", "2.5.4.3=#160261E9", "CN=#160261e9"),
            ("2.5.4.3=BIT STRING:ab", "2.5.4.3=#0303006162", "CN=#0303006162"),
        ):
            self.assertEqual(printed(said, elements), text)

    def test_unescaped(self):
        for said, text in (
            (r"\ a\,b\+\"\<\>\;\ ", ' a,b+"<>; '),
            (r"\#\\0A\\\0A\7F", "#\\0A\\\n\x7f"),
            (r"\E9\C3\A9", "\u00e9\u00c3\u00a9"),
            (r"\U00E90\W0001F51100", "\u00e90\U0001f51100"),
        ):
            self.assertEqual(unescaped(said), text)

    def test_numbers(self):
        self.assertEqual(list(map(unsigned, (3, 255, 256, 65537))), ["03", "ff", "0100", "010001"])

    def test_labels(self):
        self.assertEqual([row.label for row in self.names], LABELS)
        self.assertEqual([row.label for row in self.keys], KEY_LABELS)
        self.assertEqual(len(set(LABELS)), len(LABELS))
        self.assertEqual(len(set(KEY_LABELS)), len(KEY_LABELS))
        self.assertFalse(any(set('|"\n\\') & set(label) for label in LABELS + KEY_LABELS))

    def test_layout_of_the_stored_file(self):
        self.assertEqual(source(self.names, self.keys), STORED_PARTS)

    def test_stored_names_by_their_octets(self):
        tags = set()
        for row in self.names:
            with self.subTest(row.label):
                tree = read_exact(bytes.fromhex(row.octets))
                self.assertEqual(name_text(tree), bytes.fromhex(row.text).decode())
                tags |= {member.kids[1].tag for members in tree.kids for member in members.kids}
        self.assertLessEqual({0x0C, 0x13, 0x14, 0x16, 0x1E}, tags)

    def test_stored_keys_by_their_octets(self):
        for row in self.keys:
            with self.subTest(row.label):
                algorithm, key = read_exact(bytes.fromhex(row.octets)).kids
                kind = dotted(algorithm.kids[0].contents)
                if row.kind == "rsa":
                    self.assertEqual(kind, "1.2.840.113549.1.1.1")
                    numbers = (int.from_bytes(number.contents, "big")
                               for number in read_exact(key.contents[1:]).kids)
                    self.assertEqual(row.numbers, tuple(map(unsigned, numbers)))
                elif row.kind == "ec":
                    self.assertEqual(kind, "1.2.840.10045.2.1")
                else:
                    self.assertIn(kind, {f"1.3.101.{arc}" for arc in (110, 111, 112, 113)})
        self.assertEqual({row.kind for row in self.keys}, {"rsa", "ec", "ed"})

    def test_written_names(self):
        self.assertEqual(written_rows(), self.names[-len(WRITTEN):])
        self.assertEqual(written_name(()), sequence())
        member = sequence(identifier("2.5.4.3"), utf8_string(b"A"))
        self.assertEqual(written_name(((), (("2.5.4.3", "0C0141"),))),
                         sequence(set_of(), set_of(member)))


class ValueAnswersTest(unittest.TestCase):

    def test_shapes(self):
        for kind, octets, line in (
            ("identifier", "06022a03", "same 1.2.3"),
            ("identifier", "06028003", "Shape"),
            ("integer", "02020080", "same 0080"),
            ("bits", "030205a0", "same 5 a0"),
            ("bits", "030101", "Shape"),
            ("name", "300c310a300806035504030c0141", "same 434e3d41 Utf8String 41 41"),
            ("name", "30023100", "same - none"),
            ("algorithm", "30050601008000", "same 0.0 8000"),
            ("key", "300b300506032b6570030200aa", "same Ed 1.3.101.112 none 0 aa"),
        ):
            self.assertEqual(structure_line(kind, bytes.fromhex(octets)), line)

    def test_identifiers_of_the_crate(self):
        for lines, file in oid_table.SOURCES:
            self.assertTrue(oid_table.stands_in(lines(), file))

    def test_demonstration_signatures_of_the_crate(self):
        self.assertTrue(demo_signatures.stands())


@unittest.skipUnless(which("openssl"), "openssl isn't there")
class WorldCertificatesTest(unittest.TestCase):

    SECONDS = 8

    def test_openssl_says_the_same(self):
        for label, octets in world_certificates.stored():
            with self.subTest(label):
                openssl_check(Fields(octets), octets)

    def test_another_field(self):
        octets = dict(world_certificates.stored())["path length 0"]
        for field, value in ("serial", 78), ("path_length", "1"), ("version", 2), ("subject_id", "-"):
            fields = Fields(octets)
            setattr(fields, field, value)
            with self.assertRaises(Differs, msg=field):
                openssl_check(fields, octets)


class CmsAnswersTest(unittest.TestCase):

    def test_shapes(self):
        for kind, octets, line in (
            ("digest_info", "300b300406022a030403aabbcc", "same 1.2.3 none aabbcc"),
            ("digest_info", "3006300406022a03", "Shape"),
            ("attribute", "300606022a030500", "same 1.2.3 0500"),
            ("attribute", "300406022a03", "same 1.2.3 none"),
            ("indirect_data", "3010300406022a033008300406022a040400", "same 1.2.3 none 1.2.4 none -"),
            ("string", "80020041", "same 0041"),
            ("string", "800141", "Shape"),
            ("opus_info", "3000", "same none none"),
            ("opus_info", "3004a1028000", "same none -"),
            ("opus_info", "3008a1028000a0028000", "Shape"),
        ):
            self.assertEqual(cms_line(kind, bytes.fromhex(octets)), line)


    def test_world_signatures(self):
        rows = list(world_signatures.stored())
        self.assertEqual(len({label for label, _, _ in rows}), len(rows))
        lines = [both_line(octets) for _, kind, octets in rows if kind == "pkcs7"]
        self.assertEqual(len(lines), 65)
        self.assertEqual([line for line in lines if not line.startswith("same ")], 3 * ["an indefinite length at octet 0 | an indefinite length at octet 0"])

    def test_trust_lists(self):
        for octets, line in (
            ("301030001700300406022a033000a0020500", "same list [ ]"),
            ("301030001700300406022a03300081020500", "Shape"),
        ):
            self.assertEqual(cms_line("trust_list", bytes.fromhex(octets)), line)


@unittest.skipUnless(which("openssl"), "openssl isn't there")
class CertificatesByOpensslTest(unittest.TestCase):

    SECONDS = 11

    def test_stored_file(self):
        self.assertEqual(list(complaints(STORED_PARTS)), [])

    def test_wrong_rows(self):
        names, keys = rows_of(STORED_PARTS)
        wrong = names[0]._replace(text="434e3d42"), names[-1]._replace(text="434e3d42")
        modulus, exponent = keys[0].numbers
        others = keys[0]._replace(numbers=(modulus, "03")), keys[-1]._replace(kind="ec")
        found = list(complaints(source(wrong, others)))
        self.assertEqual([complaint.split(":")[0] for complaint in found], [
            "the labels aren't those of the cases",
            names[0].label, names[-1].label, keys[0].label, keys[-1].label])

    def test_words(self):
        subject = "".join(f"/{attribute}=US" for attribute in WORDS)
        with TemporaryDirectory() as folder:
            key = Path(folder, "key.pem")
            make_key(Key("", "ED25519"), key)
            certificate = requested_certificate(Requested("", subject), key, Path(folder))
        said = said_subject(certificate, "sep_comma_plus,sname")
        self.assertEqual(said.upper().replace("EMAILADDRESS", "EMAIL"),
                         ",".join(f"{word}=US" for word in WORDS.values()))

    def test_made_rows(self):
        tables = {"SIGNING_KEYS": SIGNING_KEYS[-2:], "AGREEMENT_KEYS": AGREEMENT_KEYS[:1],
                  "REQUESTED": REQUESTED[-3:], "AGREED": AGREED[:1], "GENERATED": GENERATED[:1],
                  "WRITTEN": WRITTEN[:1]}
        with patch.multiple(certificate_parts, **tables), TemporaryDirectory() as folder:
            names, keys = made_rows(Path(folder))
        stored, _ = rows_of(STORED_PARTS)
        labels = [row.label for row in names]
        cases = REQUESTED[-3:] + AGREED[:1] + GENERATED[:1] + WRITTEN[:1]
        self.assertEqual(labels, [case.label for case in cases])
        self.assertEqual(names, [row for row in stored if row.label in labels])
        self.assertEqual([row.label for row in keys], ["Ed448", "Ed448 again", "X25519"])

    def test_refusals(self):
        with self.assertRaises(OpensslError):
            said_subject(certificate_around(sequence(sequence())), TEXT_OPTIONS)
        with TemporaryDirectory() as folder:
            key = Path(folder, "key.pem")
            make_key(Key("", "ED25519"), key)
            with self.assertRaisesRegex(OpensslError, "Skipping"):
                requested_certificate(Requested("", "/nothing=a"), key, Path(folder))


class ChainsTest(unittest.TestCase):
    """Lines by hand, from the kinds of the certificates."""

    LINES = [
        ("root", "2025-01-31", "accepted parents=0"),
        ("by third, third, second, first, root", "2025-01-31", "accepted parents=4"),
        ("by first, first", "2025-01-31", "refused InvalidChain:NoRoot"),
        ("below below short, below short, short", "2025-01-31", "refused InvalidChain:TooDeep"),
        ("by no authority, no authority, root", "2025-01-31", "refused InvalidChain:IssuerIsNotCA"),
        ("late, root", "2030-06-01T11:59:59", "refused InvalidCertificate:CertificateNotYetValid"),
        ("early, root", "2024-03-01", "refused InvalidCertificate:CertificateExpired"),
        ("by early root, early root", "2024-03-01", "refused InvalidCertificate:CertificateExpired"),
        ("names a missing key, nameless key", "2025-01-31", "refused InvalidCertificate:ExtensionNotFound"),
        ("names another key, root", "2025-01-31", "refused InvalidCertificate:InvalidChain:AuthorityKeyIdMismatch"),
        ("no identifier, other", "2025-01-31", "refused InvalidCertificate:InvalidChain:IssuerNameMismatch"),
        ("no identifier, namesake", "2025-01-31", "refused InvalidCertificate:Signature"),
        ("pss, root", "2025-01-31", "refused Signature"),
    ]

    def test_lines(self):
        certificates, table = chains.stored(), chains.stored_table()
        for labels, date, line in self.LINES:
            case = chains.Case(date, tuple(labels.split(", ")))
            self.assertEqual(chains.answer(case, certificates, table)[1], line + "\n", labels)

    def test_what_is_stored(self):
        self.assertEqual(list(chains.stored()), list(chains.KINDS))

    @unittest.skipUnless(which("openssl"), "openssl isn't there")
    def test_a_table(self):
        certificates = chains.stored()
        labels = "by second", "second", "first", "root"
        lines, lacking = asked_signatures.chain_table([certificates[label] for label in labels])
        self.assertEqual([line.split()[0] for line in lines], ["p384-sha384", "p256-sha256", "rsa-sha512"])
        self.assertLessEqual(set(lines), set(chains.stored_table().splitlines()))
        self.assertEqual(lacking, [])
        # By another key than the namesake's; the second signature's number is past the namesake's modulus too (RFC 8017 5.2.2).
        for label, why in ("names another key", "not accepted"), ("no identifier", "malformed"):
            _, lacking = asked_signatures.chain_table([certificates[label], certificates["namesake"]])
            self.assertEqual(lacking, [f"certificate 0: {why} as rsa-sha256"], label)


@unittest.skipUnless(which("openssl"), "openssl isn't there")
class KeptCertificatesByOpensslTest(unittest.TestCase):

    def test_parents(self):
        # Of the stored certificates every one is asked as the issuer of every other one.
        stored = dict(kept_certificates.stored())
        self.assertEqual(set(stored), set(kept_certificates.SUBJECTS))
        with TemporaryDirectory() as place:
            files = {label: Path(place, f"{label}.der") for label in stored}
            for label, octets in stored.items():
                files[label].write_bytes(octets)
            for parent, child in permutations(stored, 2):
                try:
                    openssl("verify", "-partial_chain", "-no_check_time", "-trusted", files[parent], files[child])
                    said = True
                except OpensslError:
                    said = False
                with self.subTest(parent=parent, child=child):
                    self.assertEqual(kept_certificates.parent_line(stored[parent], stored[child]) == "parent", said)

    def test_fields(self):
        for label, octets in kept_certificates.stored():
            said = openssl("x509", "-inform", "DER", "-noout", "-subject", "-issuer", "-serial", "-nameopt", "RFC2253,-dn_rev", given=octets).decode()
            subject, issuer, serial = (line.split("=", 1)[1] for line in said.splitlines())
            words = kept_certificates.kept_line(octets)
            with self.subTest(label=label):
                self.assertIn(f" {subject} {issuer} {serial.lower()} ", words)


class CompareBasicTest(unittest.TestCase):

    SECONDS = 5

    JUDGE = """#!{python}
import sys
sys.path.insert(0, {tools!r})
from judges.basic_judge import answer
octets = lambda word: b"" if word == "-" else bytes.fromhex(word)
for line in open(sys.argv[2]):
    file, file_hash, table = map(octets, line.split())
    print(answer(file, file_hash, table.decode()){changed})
"""

    def compared(self, changed=""):
        """The status and the last line of a comparison with the judge as the program."""
        with TemporaryDirectory() as folder:
            program = Path(folder, "program")
            program.write_text(self.JUDGE.format(python=sys.executable, tools=str(folders.ROOT / "tools"), changed=changed))
            program.chmod(0o755)
            with patch("builtins.print") as printed:
                return compare_basic.main(["--count", "200", str(program)]), printed.call_args.args[0]

    def test_the_judge(self):
        self.assertEqual(self.compared(), (0, "signature files: 200 as the judge says, 0 not"))

    def test_another_answer(self):
        status, line = self.compared('.replace("DigestAlgorithmMismatch", "accepted")')
        self.assertEqual(status, 1)
        self.assertNotIn(" 0 not", line)


class CompareCheckTest(unittest.TestCase):

    SECONDS = 5

    def compared(self, judge):
        """The status and the last line of a comparison with a judge in the place of the program."""
        made = []

        def cases(*words):
            made.extend(compare_basic.cases(*words))
            return made

        lines = lambda _, kind, rows: [judge(*one) for one in made]
        with patch("golden.compare_check.cases", cases), patch("golden.compare_basic.printed", lines), patch("builtins.print") as printed:
            return compare_check.main(["--count", "50", sys.executable]), printed.call_args.args[0]

    def test_the_judge(self):
        self.assertEqual(self.compared(check_judge.answer), (0, "signature files: 50 as the judge says, 0 not"))

    def test_another_answer(self):
        status, line = self.compared(lambda *asked: check_judge.answer(*asked).replace("accepted", "refused SignatureError"))
        self.assertEqual(status, 1)
        self.assertNotIn(" 0 not", line)


class UnusedCallsTest(unittest.TestCase):

    NAME = """
        use std::alloc::Global;

        pub struct Name { text: String }

        impl Name {
            // .to_text( in a comment is no call
            pub fn new(alloc: Global) -> Name { "Name::new(".len(); made(alloc) }
            pub fn to_text(&self, alloc: Global) -> String { self.text.copied(alloc) }
            pub fn try_clone(&self, alloc: Global) -> Name { self.text.try_clone(alloc) }
            pub fn into_text(mut self) -> String { self.text }
            pub fn len(&self) -> usize { self.text.len() }
        }

        impl Structure for Name {
            fn to_der(&self, alloc: Global) -> Vec<u8> { self.text.to_der(alloc) }
        }

        pub fn made(alloc: Global) -> Name { made(alloc) }
        pub(crate) fn inner(alloc: Global) -> Name { Name { text: String::new(alloc) } }
    """
    NAMES = """
        pub struct Names { all: Vec<Other> }

        impl Names {
            pub fn try_clone(&self, alloc: Global) -> Names { self.all.try_clone(alloc) }
        }
    """
    OWN = ["Name::new", "Name::to_text", "Name::try_clone", "Name::into_text"]

    def listed(self, *tests):
        """What is listed of the library, where each test is a file of another crate."""
        texts = {"names/src/lib.rt": "", "names/src/name.rt": self.NAME, "names/src/names.rt": self.NAMES}
        texts |= {f"xtest_{at}/src/lib.rt": text for at, text in enumerate(tests)}
        with TemporaryDirectory() as folder:
            for path, text in texts.items():
                Path(folder, path).parent.mkdir(parents=True, exist_ok=True)
                Path(folder, path).write_text(dedent(text), encoding="utf-8")
            return [str(call) for call in unused_calls.unused_calls(folder)[1]]

    def expect(self, listed, names):
        self.assertEqual(listed, [f"names: {name}" for name in names])

    def test_the_crates_here(self):
        asked, unused = unused_calls.unused_calls(folders.CRATES)
        self.assertEqual(unused, [])
        self.assertGreater(len(asked), 100)

    def test_nothing_is_called(self):
        self.expect(self.listed(), [*self.OWN, "Names::try_clone"])

    def test_calls(self):
        calls = "fn one(name: Name) { Name::new(alloc).to_text(alloc); name.into_text(); }"
        copies = "fn one(all: Names) { all.try_clone(alloc); }"
        self.expect(self.listed(calls), ["Name::try_clone", "Names::try_clone"])
        self.expect(self.listed(calls, copies), ["Name::try_clone"])

    def test_no_calls(self):
        words = "use names::Name;\n// Name::new(\nfn new(it: Text) { it.try_clone(alloc) }"
        self.expect(self.listed(words), [*self.OWN, "Names::try_clone"])


class RunsTest(unittest.TestCase):

    SECONDS = 9

    def differences(self, script, is_asked=lambda row: True):
        """How a stand-in for the program differs from rows, by their reasons."""
        with TemporaryDirectory() as folder:
            program = Path(folder, "program")
            program.write_text(f"#!/bin/sh\n{script}\n")
            program.chmod(0o755)
            return {row.why: run_program.difference(program, row) for row in run_program.ROWS if is_asked(row)}

    def test_rows(self):
        self.assertEqual({row.status for row in run_program.ROWS}, set(range(7)))
        names = {row.line.split()[1] for row in run_program.ROWS if row.status == 1 and row.words[0] == "basic"}
        self.assertEqual(names, {said.split()[0] for *_, said in basic_vectors.rows()} - {"accepted"})
        checked = {row.line for row in run_program.CHECK_ROWS + run_program.LIST_ROWS}
        lines = (run_program.line_of(row.said) for row in check_rows.rows() if run_program.words_of(row.policy))
        self.assertEqual({line for line in lines if line.startswith("refused")} - checked, set())
        reasons = [row.why for row in run_program.ROWS]
        self.assertEqual(len(reasons), len(set(reasons)))

    def test_answers_of_the_judge(self):
        for row in run_program.REFUSED_ROWS + run_program.WRITTEN_ROWS + run_program.STEP_ROWS:
            said = answer(row.files["s"], bytes.fromhex(row.words[3]), row.files["t"].decode()).split()
            place = re.search(r"[0-9]+", said[1]).group() if row.status == 0 else None
            line = f"accepted signer={place} path= excuse=none\n" if row.status == 0 else f"refused {said[0]}\n"
            self.assertEqual(row.line, line, row.why)

    def test_a_constant_status(self):
        for row, what in zip(run_program.ROWS, self.differences("exit 2").values()):
            self.assertEqual(what is None, row.status == 2, row.why)

    def test_words_on_standard_error(self):
        # Of the rows that are as expected but for these words.
        found = self.differences("echo no >&2; exit 2", lambda row: row.status == 2)
        self.assertTrue(found and all(found.values()))


if __name__ == "__main__":
    unittest.main()
