"""Tests of the scripts for users: tables, and what they say of files that they can't read.

    python3 -m unittest discover -s tools/tests
"""

import re
import sys
import unittest
from hashlib import sha256
from io import BytesIO, StringIO, TextIOWrapper
from pathlib import Path
from shutil import which
from struct import pack
from tempfile import TemporaryDirectory
from unittest.mock import Mock, patch

from cryptography.exceptions import UnsupportedAlgorithm

sys.path.insert(0, str(Path(__file__).resolve().parents[1]))

import order_bag
import pool_questions
import signed_program
import verdict_table
from cases import basic_world
from common import folders
from common.command import Refusal
from common.openssl import openssl
from gate.programs_stand_in import StandIn
from interop import chains, signed_programs, table_makers, world_signatures
from interop.signature_making import portable_executable
from judges import asked_signatures, question_judge
from judges.basic_judge import answer
from judges.der_reader import Constructed, Primitive, read_exact, write
from judges.verdict_rows import verdicts


@unittest.skipUnless(which("openssl"), "openssl isn't there")
class VerdictTableTest(unittest.TestCase):
    @staticmethod
    def signed(label):
        """A stored signature file of this label."""
        octets = next(octets for known, _, octets in world_signatures.stored() if known == label)
        return pack("<IHH", 8 + len(octets), 0x0200, 2) + octets

    def names(self, label):
        lines, _ = asked_signatures.table(self.signed(label))
        return [line.split()[0] for line in lines]

    def test_names(self):
        for label, names in {
            "program, RSA, sha384": ["rsa-sha384", "rsa-sha256"],
            "program, P-256, sha256": ["p256-sha256"],
            "cms, the signer by its key's identifier": ["rsa-sha256"],
            "program, a counter-signature": ["rsa-sha256"] * 3,
            "a revocation list alone": [],
        }.items():
            self.assertEqual(self.names(label), names, label)

    def test_the_signers_row(self):
        # Where a signature of the world is accepted, it is by its first row; a signer on a curve has none.
        for label, file, file_hash, table, _, said in basic_world.rows():
            if said[0].startswith("accepted"):
                without = table.split("\n", 1)[1]
                self.assertEqual(answer(file, bytes.fromhex(file_hash), without), "SignatureError invalid signature", label)
            if said[0].endswith(" EC"):
                self.assertIn("the signer: no name in a table", asked_signatures.table(file)[1], label)

    def test_stored_tables(self):
        stored = basic_world.tables()
        self.assertEqual({label: lines for label, _, lines in basic_world.made()}, stored)

    def test_a_line(self):
        octets = self.signed("program, RSA, sha256")
        certificates, signers = asked_signatures.signed_data_in(octets)
        attributes = write(signers[0].kids[3])
        parts = certificates[0].key_octets(), b"\x31" + attributes[1:], signers[0].kids[5].contents
        lines, lacking = asked_signatures.table(octets)
        self.assertEqual(lines[0], " ".join(["rsa-sha256", *(sha256(part).hexdigest() for part in parts)]))
        self.assertEqual(lacking, [])

    def test_a_changed_signature(self):
        octets = self.signed("program, RSA, sha256")
        _, signers = asked_signatures.signed_data_in(octets)
        signature = signers[0].kids[5].contents
        changed = octets.replace(signature, signature[:-1] + bytes([signature[-1] ^ 1]))
        lines, lacking = asked_signatures.table(changed)
        self.assertEqual([line.split()[0] for line in lines], ["rsa-sha256"])
        self.assertEqual(lacking, ["the signer: not accepted as rsa-sha256"])
        rows, told = asked_signatures.table(changed, 2)
        self.assertEqual(rows[0], "picky-verdicts 2")
        self.assertEqual([row.split()[:2] for row in rows[1:]], [["reject", "rsa-sha256"], ["accept", "rsa-sha256"]])
        self.assertEqual(rows[2], f"accept {lines[0]}")
        self.assertEqual(told, lacking)

    def asked(self, label):
        """A signature that openssl accepts, of a stored file, by the key and the form of its algorithm."""
        return list(asked_signatures.asked_of(self.signed(label)))[-1]

    @staticmethod
    def by_new_key(digest, *words):
        """A signature by openssl with a key that it makes for these words, asked for by the key."""
        with TemporaryDirectory() as folder:
            key, message, signature = (Path(folder, name) for name in ("key", "message", "signature"))
            openssl("genpkey", *words, "-out", key)
            message.write_bytes(b"message")
            if digest is None:
                openssl("pkeyutl", "-sign", "-inkey", key, "-rawin", "-in", message, "-out", signature)
            else:
                openssl("dgst", f"-{digest}", "-sign", key, "-out", signature, message)
            info = read_exact(openssl("pkey", "-in", key, "-pubout", "-outform", "DER"))
            algorithm = asked_signatures.dotted(info.kids[0].kids[0].contents)
            holder = asked_signatures.Certificate(b"", b"", b"", b"", info, algorithm, b"")
            return asked_signatures.Asked("one", holder, algorithm, digest, b"message", signature.read_bytes())

    @staticmethod
    def order_of(curve):
        """The order of a curve, as openssl prints it."""
        printed = openssl("ecparam", "-name", curve, "-param_enc", "explicit", "-text", "-noout").decode()
        return int("".join(re.search(r"Order:([0-9a-f:\s]+)", printed)[1].replace(":", " ").split()), 16)

    def assert_verdicts(self, one, rows):
        self.assertEqual(one.verdict(), "accept")
        for verdict, signature in rows:
            with self.subTest(verdict=verdict, signature=signature.hex()):
                self.assertEqual(one._replace(signature=signature).verdict(), verdict)

    def test_form_of_rsa(self):
        # RFC 8017 8.2.2 step 1, 5.2.2 step 1: as long as the modulus, and below it.
        one = self.asked("program, RSA, sha256")
        modulus = read_exact(one.key.key_octets()).kids[0].contents[1:]
        below = modulus[:-1] + bytes([modulus[-1] - 1])
        self.assert_verdicts(one, [
            ("reject", one.signature[:-1] + bytes([one.signature[-1] ^ 1])), ("reject", bytes(len(modulus))), ("reject", below),
            ("malformed", modulus), ("malformed", b"\xff" * len(modulus)),
            ("malformed", one.signature[1:]), ("malformed", b"\0" + one.signature), ("malformed", b""),
            # `openssl dgst` verifies it, without the last octet.
            ("malformed", one.signature + b"\0"),
        ])

    def test_form_of_ecdsa(self):
        # RFC 3279 2.2.3, SEC 1 4.1.4 step 1: a SEQUENCE of two INTEGERs from 1 to n - 1.
        def pair(r, s, tag=0x30):
            contents = b"".join(bytes([2, len(one)]) + one for one in (r, s))
            length = bytes([len(contents)]) if len(contents) < 0x80 else bytes([0x81, len(contents)])
            return bytes([tag]) + length + contents

        def shortest(number):
            return number.to_bytes(number.bit_length() // 8 + 1, "big")

        for curve, digest in ("prime256v1", "sha256"), ("secp384r1", "sha384"), ("secp521r1", "sha512"):
            one = self.by_new_key(digest, "-algorithm", "EC", "-pkeyopt", f"ec_paramgen_curve:{curve}")
            order = self.order_of(curve)
            r, s = (kid.contents for kid in read_exact(one.signature).kids)
            wide = b"\2" + bytes(65)
            self.assert_verdicts(one, [
                ("reject", pair(b"\1", b"\1")), ("reject", pair(r, shortest(order - 1))), ("reject", pair(shortest(order - 1), s)),
                ("malformed", pair(shortest(order), s)), ("malformed", pair(r, shortest(order))), ("malformed", pair(wide, s)),
                ("malformed", pair(b"\0", s)), ("malformed", pair(r, b"\0")), ("malformed", pair(b"\xff", s)), ("malformed", pair(b"", s)),
                ("malformed", pair(r, s, tag=0x31)), ("malformed", pair(b"\0\1", s)), ("malformed", pair(r, b"\0\x7f")),
                ("malformed", one.signature + b"\0"), ("malformed", one.signature[1:]), ("malformed", b""), ("malformed", b"\x30\0"),
                ("malformed", bytes([0x30, 3 + len(s) + 2, 4, 1, 1, 2, len(s)]) + s),
            ])

    def test_form_of_ed25519(self):
        # RFC 8032 5.1.7 step 1: 32 octets for R, and S below L of RFC 8032 5.1, the lowest octet first.
        one = self.by_new_key(None, "-algorithm", "ed25519")
        first, order = one.signature[:32], 0x1000000000000000000000000000000014def9dea2f79cd65812631a5cf5d3ed
        self.assert_verdicts(one, [
            ("reject", first + bytes(32)), ("reject", first + (order - 1).to_bytes(32, "little")),
            ("malformed", first + order.to_bytes(32, "little")), ("malformed", b"\xff" * 64),
            ("malformed", one.signature[1:]), ("malformed", one.signature + b"\0"), ("malformed", b""),
        ])

    def test_no_row(self):
        def by_key(one, octets, signature):
            """The same by a key of other octets."""
            info = one.key.key_info
            info = info._replace(kids=(info.kids[0], Primitive(3, b"\0" + octets)))
            return one._replace(what="one", key=one.key._replace(key_info=info), signature=signature)

        def rsa_key(length, exponent):
            return write(Constructed(0x30, (Primitive(2, b"\x7f" + b"\xff" * (length - 1)), Primitive(2, exponent))))

        curve = self.by_new_key("sha256", "-algorithm", "EC", "-pkeyopt", "ec_paramgen_curve:P-256")
        rsa = self.asked("program, RSA, sha256")
        # A point that isn't on the curve; keys of RSA whose modulus or exponent is longer than OpenSSL computes with.
        for one, why in (
            (by_key(curve, b"\4" + b"\1" * 64, curve.signature), "its key isn't a point of p256"),
            (by_key(rsa, rsa_key(2500, b"\1\0\1"), bytes(2500)), "the modulus of its key has more than 16384 bits"),
            (by_key(rsa, rsa_key(512, b"\1" * 9), bytes(512)), "the exponent of its key has more than 64 bits"),
        ):
            # Nor has it one of octets that are no signature of the algorithm.
            for signature in one.signature, b"\1":
                for version in 1, 2:
                    lines, lacking = asked_signatures.table_of([one._replace(signature=signature)], version)
                    self.assertEqual((lines, lacking), (["picky-verdicts 2"][:version - 1], [f"one: it has no row: {why}"]))
        with patch.object(verdict_table, "verify", side_effect=UnsupportedAlgorithm("no such digest")):
            why = "the library doesn't compute with its algorithm or key"
            self.assertEqual(asked_signatures.table_of([rsa]), ([], [f"{rsa.what}: it has no row: {why}"]))

    def test_verdicts(self):
        self.assertEqual(verdicts(""), {"": "accept"})
        self.assertEqual(verdicts("a b\nc\n"), {"a b": "accept", "c": "accept"})
        self.assertEqual(verdicts("picky-verdicts 2\n"), {})
        self.assertEqual(verdicts("picky-verdicts 2\nmalformed a\naccept a\nreject b c\n"), {"a": "malformed", "b c": "reject"})

    def test_too_many(self):
        one = asked_signatures.signed_data_in(self.signed("program, RSA, sha256"))[0][0]
        many = [one._replace(issuer=one.subject, tbs=one.tbs + bytes([place])) for place in range(4)]
        asked = list(asked_signatures.of_certificates(many * 3, "the signed data"))
        self.assertEqual([(known.what[:13], known.message) for known in asked], [(f"certificate {place}", many[place].tbs) for place in range(4)])
        with patch.object(asked_signatures, "MOST_ASKED", 3), patch.object(verdict_table, "is_accepted", lambda *asked: True):
            with self.assertRaises(asked_signatures.TooManyAsked):
                asked_signatures.table_of(asked)
            self.assertEqual(len(asked_signatures.table_of(asked[:3] * 2)[0]), 3)

    def test_no_signature_file(self):
        for octets in b"", b"\x09\0\0\0\0\2\2\0", b"\x0a\0\0\0\0\2\2\0\5\0", self.signed("cms, written in pieces"):
            with self.assertRaises(asked_signatures.NotASignatureFile):
                asked_signatures.table(octets)


@unittest.skipUnless(which("openssl"), "openssl isn't there")
class UsersToolsTest(unittest.TestCase):
    """What the users' tools say of files that they can't read."""

    @staticmethod
    def said(tool, *words):
        """The status and what is written to standard error; standard output isn't looked at."""
        with patch("sys.stderr", StringIO()) as written, patch("sys.stdout", StringIO()):
            status = tool.main([str(word) for word in words])
        return status, written.getvalue().strip()

    @classmethod
    def of(cls, tool, octets, *words):
        """The same of a file, whose name stands in its words as `{}`."""
        with TemporaryDirectory() as folder:
            file = Path(folder, "file")
            file.write_bytes(octets)
            status, said = cls.said(tool, *(file if word == "{}" else word for word in words))
            return status, said.replace(str(file), "file")

    def test_damaged_signers(self):
        octets = signed_programs.stored()["stamped"].file().octets
        at = octets.rindex(bytes.fromhex("06 0a 2b 06 01 04 01 82 37 03 03 01"))
        signer, = asked_signatures.signed_data_in(octets)[1]
        named = octets.rindex(write(signer.kids[1]))
        changes = [(at, 0x05), (at + 2, 0x80), (named, 0x04), (octets.rindex(write(signer)) + 4, 0x04)]
        for place, octet in changes:
            changed = octets[:place] + bytes([octet]) + octets[place + 1:]
            status, said = self.of(order_bag, changed, "{}", "/dev/null")
            self.assertIn((status, said.startswith("order_bag.py: file: ")), [(1, True), (0, False)])

    def test_other_files(self):
        program = signed_programs.stored()["three"].octets
        self.assertEqual(
            self.of(signed_program, program, "{}", "/dev/null", "shake_128"),
            (1, "signed_program.py: file: shake_128 has digests of any length"),
        )

    def test_a_pool(self):
        """The lines of a chain, whatever the order of the certificates, and that of the root over itself."""
        labels = "by second", "second", "first", "root"
        certificates = [chains.stored()[label] for label in labels]
        chain, pool = asked_signatures.chain_table(certificates, 2)[0], asked_signatures.pool_table(certificates, 2)
        self.assertEqual(pool, asked_signatures.pool_table(certificates * 2, 2))
        self.assertEqual(set(asked_signatures.pool_table(certificates[::-1], 2)[0]), set(pool[0]))
        own, = set(pool[0]) - set(chain)
        self.assertEqual((set(chain) - set(pool[0]), pool[1], own.split()[:2]), (set(), [], ["accept", "rsa-sha256"]))

    def test_a_signature_in_pem(self):
        signature = signed_programs.stored()["three"].file().octets
        pem = openssl("pkcs7", "-inform", "DER", given=write(asked_signatures.content_info_in(signature)[0]))
        why = "it is PEM; a WIN_CERTIFICATE is its header and DER, as tools/signed_program.py takes it out of a program"
        for octets in pem, b"\n" + pem, b"text\n" + pem:
            self.assertEqual(self.of(order_bag, octets, "{}", "/dev/null"), (1, f"order_bag.py: file: {why}"))

    def test_certificates_that_arent_read(self):
        def made(folder, *words):
            key = Path(folder, "key")
            openssl("genpkey", *words, "-out", key)
            return key

        with TemporaryDirectory() as folder:
            parameters = Path(folder, "parameters")
            openssl("genpkey", "-genparam", "-algorithm", "DSA", "-pkeyopt", "dsa_paramgen_bits:1024", "-out", parameters)
            rsa, curve = ["-algorithm", "RSA"], ["-algorithm", "EC", "-pkeyopt", "ec_paramgen_curve:P-256"]
            for words, options, why in (
                (["-paramfile", parameters], [], "its key is of the algorithm 1.2.840.10040.4.1"),
                (["-algorithm", "RSA-PSS"], [], "its key is of the algorithm 1.2.840.113549.1.1.10"),
                ([*curve, "-pkeyopt", "ec_param_enc:explicit"], [], "the curve of its key isn't named by an identifier"),
                (rsa, ["-addext", "basicConstraints=critical,CA:TRUE,pathlen:256"], "its path length isn't from 0 to 255"),
            ):
                key = made(folder, *words)
                der = openssl("req", "-x509", "-new", "-key", key, "-subj", "/CN=one", "-outform", "DER", *options)
                with self.assertRaisesRegex(asked_signatures.NotACertificate, re.escape(why)):
                    asked_signatures.certificate_in(der)

    def test_missing_files(self):
        for tool in order_bag, signed_program:
            self.assertEqual(self.said(tool, "none", "/dev/null"), (1, f"{tool.__name__}.py: none: No such file or directory"))

    def test_what_cant_be_written(self):
        one = signed_programs.stored()["three"]
        for tool, octets in (order_bag, one.file().octets), (signed_program, one.octets):
            self.assertEqual(self.of(tool, octets, "{}", "/none/out"), (1, f"{tool.__name__}.py: /none/out: No such file or directory"))

    def test_nothing_is_written_by_another_digest(self):
        with TemporaryDirectory() as folder:
            program, entry = Path(folder, "program"), Path(folder, "entry")
            program.write_bytes(signed_programs.stored()["three"].octets)
            for digest in "shake_128", "sha3":
                self.assertEqual(self.said(signed_program, program, entry, digest)[0], 1)
                self.assertFalse(entry.exists())

    def test_help(self):
        for tool in order_bag, signed_program, signed_programs:
            self.assertEqual(self.said(tool, "--help"), (0, ""))


@unittest.skipUnless(which("openssl"), "openssl isn't there")
class QuestionLinesTest(unittest.TestCase):
    """The table for lines of `picky_ask`."""

    FILE = (folders.CRATES / "picky/data/signed.bin").read_bytes()

    @staticmethod
    def said(lines):
        """Status, output and standard error for these lines."""
        with patch("sys.stdin", TextIOWrapper(BytesIO("".join(f"{line}\n" for line in lines).encode()))):
            with patch("sys.stderr", StringIO()) as errors, patch("sys.stdout", StringIO()) as out:
                return verdict_table.main([]), out.getvalue(), errors.getvalue()

    def lines(self):
        return question_judge.of_file(self.FILE)[1].splitlines()

    def test_rows(self):
        lines = self.lines()
        rows = [f"accept {' '.join(line.split(' ')[:4])}" for line in lines]
        self.assertEqual((len(rows), self.said(lines)), (4, (0, "".join(f"{row}\n" for row in ["picky-verdicts 2", *rows]), "")))
        self.assertEqual(self.said(lines * 2), self.said(lines))
        self.assertEqual(self.said([]), (0, "picky-verdicts 2\n", ""))

    def test_other_lines(self):
        first = self.lines()[0]
        for line, why in (
            ("refused WrongLength", "picky_ask says: refused WrongLength"), ("", "question 1 isn't in the form of one"),
            (first.rpartition(" ")[0], "question 1 isn't in the form of one"), (first + " 00", "question 1 isn't in the form of one"),
            (first + "x", "question 1 isn't in the form of one"), ("dsa" + first[3:], "question 1 isn't in the form of one"),
            (first[:-1], "question 1 isn't in the form of one"), (first.upper(), "question 1 isn't in the form of one"),
            (first[:-2], "question 1 has another SHA-256 than that of its signature"),
        ):
            self.assertEqual(self.said([line]), (1, "", f"verdict_table.py: {why}\n"))

    def test_one_row_and_two_verdicts(self):
        # Only where two octets have one SHA-256, for which all have one here.
        row, octets = self.lines()[0].split(" ")[:4], self.lines()[1].split(" ")[4:]
        other = [*octets[:2], octets[2][:-2] + "00"]
        digests = Mock(hexdigest=lambda: "0" * 64)
        lines = [" ".join([row[0], *["0" * 64] * 3, *parts]) for parts in (octets, other)]
        with patch.object(verdict_table, "sha256", lambda octets: digests):
            self.assertEqual(self.said(lines), (1, "", "verdict_table.py: question 2 has the row of an earlier one and another verdict\n"))

    def test_too_many(self):
        with patch.object(verdict_table, "MOST_ASKED", 2), patch.object(verdict_table, "is_accepted", lambda *asked: True):
            self.assertEqual(self.said(self.lines()), (1, "", "verdict_table.py: more than 2 signatures are asked for\n"))
            self.assertEqual(self.said(self.lines()[:2])[0], 0)

    def altered(self):
        """Texts with a line that is cut, or whose octets aren't those of its digests, and of which part that is said."""
        lines = self.lines()
        for place, part in enumerate(("key", "message", "signature"), 4):
            words, other = lines[1].split(" "), lines[2].split(" ")
            for at, octets in (place, ""), (place, "00"), (place, words[place][2:]), (place, words[place][:-2] + "ff"), (place, lines[0].split(" ")[place]), (place - 3, other[place - 3]):
                if octets != words[at]:
                    yield "\n".join([lines[0], " ".join([*words[:at], octets, *words[at + 1:]]), lines[2], ""]), part
        whole = "".join(f"{line}\n" for line in lines)
        yield from ((whole[:-length], None) for length in (1, 2, 3, 100, len(lines[-1]), len(lines[-1]) - 64))

    def test_altered(self):
        """No maker has a table for them, and each says why."""
        with TemporaryDirectory() as folder:
            makers = table_makers.makers(folder)
            for text, part in self.altered():
                for name, words in makers.items():
                    status, printed, (said,) = table_makers.Made.by(words, text.encode())
                    self.assertEqual((status, printed), (1, ""), name)
                    self.assertIn(f"has another SHA-256 than that of its {part}" if part else "", said, name)

    def ended_otherwise(self):
        """Octets whose lines end by something else than one newline, and the sentence of the makers."""
        first, second = (line.encode() for line in self.lines()[:2])
        form = "question {} isn't in the form of one"
        for end in b"\r\n", b"\r", b"\x0b", b"\x0c", b"\x1c", b"\x1d", b"\x1e", b"\0", b" \n", b"\n\n":
            place = 2 if end == b"\n\n" else 1
            yield first + end + second + b"\n", form.format(place)
            yield first + end + second + end + b"\n", form.format(place)
        for end in "\x85".encode("latin-1"), "\x85".encode(), "\u2028".encode(), "\u2029".encode(), b"\xff":
            yield first + end + second + b"\n", "an octet of the questions is past ASCII"
        for end in b"\r", b"\x0b", b"\x1c", b"\0":
            yield first + b"\n" + second + end, "the last question has no newline at its end"
        yield b"\n", form.format(1)
        yield b"\xef\xbb\xbf" + first + b"\n", "an octet of the questions is past ASCII"

    def test_ended_otherwise(self):
        """A line ends by one newline and nothing else, for each maker."""
        with TemporaryDirectory() as folder:
            makers = table_makers.makers(folder)
            for octets, why in self.ended_otherwise():
                for name, words in makers.items():
                    self.assertEqual(table_makers.Made.by(words, octets), (1, "", [why]), (name, octets[-8:]))
            lines = "".join(f"{line}\n" for line in self.lines()[:2]).encode()
            whole = [table_makers.Made.by(words, lines) for words in makers.values()]
            self.assertEqual([(made.status, made.said, made.table.count("\n")) for made in whole], [(0, [], 3)] * len(makers))

    def test_a_pool(self):
        """The questions of a chain, whatever the order of the certificates, and that of the root over itself."""
        certificates = [chains.stored()[label] for label in ("by second", "second", "first", "root")]
        chain = set(question_judge.of_chain(certificates)[1].splitlines())
        with TemporaryDirectory() as folder:
            files = [Path(folder, str(place)) for place in range(4)]
            for file, octets in zip(files, certificates):
                file.write_bytes(octets)
            found = pool_questions.questions(StandIn(), files)
            self.assertEqual((set(pool_questions.questions(StandIn(), files[::-1])), chain - set(found)), (set(found), set()))
            self.assertEqual(set(found) - chain, set(question_judge.of_chain([certificates[3]] * 2)[1].splitlines()))
            files[0].write_bytes(b"none")
            with self.assertRaisesRegex(Refusal, "is no certificate: refused Asn1Deserialization"):
                pool_questions.questions(StandIn(), files)


class SignedProgramTest(unittest.TestCase):
    SIGNED = {label: octets for label, _, octets in world_signatures.stored()}

    def program(self, label):
        """The program that is signed there, with the signature of this label."""
        program, entry = bytearray(portable_executable()), basic_world.signature_file(self.SIGNED[label])
        optional, place, _, _ = signed_program.parts(program)
        program[optional + place:optional + place + 8] = pack("<II", len(program), len(entry))
        return bytes(program) + entry

    def test_digests(self):
        for digest in "md5", "sha1", "sha256", "sha384", "sha512":
            label = f"program, RSA, {digest}"
            program = self.program(label)
            entry = signed_program.signature(program)
            self.assertEqual(entry, basic_world.signature_file(self.SIGNED[label]))
            self.assertEqual(signed_program.image_digest(program, digest), basic_world.asked_hash(entry).hex())
            self.assertEqual(signed_program.named_digest(entry), digest)

    def printed(self, program, *words):
        """The status, and what is printed, of a program's octets."""
        with TemporaryDirectory() as folder, patch("sys.stdout", StringIO()) as out, patch("sys.stderr", StringIO()) as errors:
            file = Path(folder, "program")
            file.write_bytes(program)
            status = signed_program.main([str(file), str(Path(folder, "entry")), *words])
        return status, (out.getvalue() + errors.getvalue()).strip().replace(str(file), "program")

    def test_the_digest_is_the_signature_s(self):
        for digest in "md5", "sha1", "sha256", "sha384", "sha512":
            program = self.program(f"program, RSA, {digest}")
            wanted = 0, basic_world.asked_hash(signed_program.signature(program)).hex()
            self.assertEqual(self.printed(program), wanted)
            self.assertEqual(self.printed(program, digest), wanted)

    def test_the_digest_is_given(self):
        # Python's hashlib over the octets of the format, without the checksum and the place of the table.
        program = self.program("program, RSA, sha384")
        optional, place, at, _ = signed_program.parts(program)
        hashed = program[:optional + 64] + program[optional + 68:optional + place] + program[optional + place + 8:at]
        self.assertEqual(self.printed(program, "sha256"), (0, sha256(hashed).hexdigest()))

    def test_no_digest_is_named(self):
        entry = signed_program.signature(self.program("program, RSA, sha256"))
        digests = [at for at in range(len(entry)) if entry.startswith(bytes.fromhex("0609608648016503040201"), at)]
        contents = entry.index(bytes.fromhex("060a2b060104018237020104"))
        data = entry.index(bytes.fromhex("06092a864886f70d010702"))
        for places, octet, why in (
            ([at + 10 for at in digests], 9, "its signature names 2.16.840.1.101.3.4.2.9, a digest algorithm that isn't known here; give DIGEST"),
            ([contents + 11], 9, "its signature is of no program; give DIGEST"),
            ([data - 4], 0x04, "its signature isn't read, its certificate isn't signed data; give DIGEST"),
            ([8], 0x3f, "its signature isn't read, its certificate isn't one element of DER: 3F is no tag that is read here; give DIGEST"),
        ):
            changed = bytearray(self.program("program, RSA, sha256"))
            begin = len(changed) - len(entry)
            for at in places:
                changed[begin + at] = octet
            self.assertEqual(self.printed(bytes(changed)), (1, f"signed_program.py: program: {why}"))
            self.assertEqual(self.printed(bytes(changed), "sha1")[0], 0)

    def test_another_length(self):
        program = bytearray(self.program("program, RSA, sha256"))
        _, _, at, length = signed_program.parts(program)
        for stated in 0, 7, length + 1:
            program[at:at + 4] = pack("<I", stated)
            self.assertEqual(self.printed(bytes(program)), (1, f"signed_program.py: program: its certificate table has {length} octets, and the first entry says {stated}"))

    def test_no_signature(self):
        for octets in b"", b"MZ", bytes(100), portable_executable(), self.program("program, RSA, sha1")[:-1]:
            with self.assertRaises(signed_program.NotSigned):
                signed_program.signature(octets)


if __name__ == "__main__":
    unittest.main()
