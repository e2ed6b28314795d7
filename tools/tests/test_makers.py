"""Tests of the makers of verdict tables: hostile questions, with verdicts by hand; what is said; forms; calls.

    python3 -m unittest discover -s tools/tests
"""

import os
import pty
import subprocess
import sys
import unittest
from os import environ
from pathlib import Path
from tempfile import TemporaryDirectory
from time import monotonic, sleep
from unittest.mock import patch

from cryptography.hazmat.primitives.asymmetric import ed25519
from cryptography.hazmat.primitives.serialization import Encoding, PublicFormat

sys.path.insert(0, str(Path(__file__).resolve().parents[1]))

import verdict_table
from cases import curve_points, hostile_questions
from common import calls, folders, openssl, signature_forms
from interop import question_changes, table_makers
from interop.question_changes import Question
from judges import question_judge
from verdict_table import Reason

IN_TOOLS = f"import sys; sys.path.insert(0, {str(folders.ROOT / 'tools')!r})\n"
FILE = (folders.CRATES / "picky/data/signed.bin").read_bytes()


def lines():
    return question_judge.of_file(FILE)[1].splitlines()


class MakersTest(unittest.TestCase):
    """Both makers, on the same questions."""

    SECONDS = 12

    @classmethod
    def setUpClass(cls):
        cls.folder = TemporaryDirectory()
        cls.commands = table_makers.makers(cls.folder.name)

    @classmethod
    def tearDownClass(cls):
        cls.folder.cleanup()

    def comparison(self):
        return table_makers.Comparison(self.commands)

    def test_hostile_questions(self):
        found, questions = self.comparison(), hostile_questions.questions()
        found.hostile(questions)
        self.assertEqual(found.differences, [])
        self.assertGreater(found.questions, 500)
        self.assertEqual(set(found.verdicts), {"accept", "reject", "malformed", "no row"})

    def test_changes(self):
        """Some changes of real questions and of some of each curve; of those of its own key none is accepted."""
        bases = [Question.of(lines()[0]),
            *(Question.of(one.line()) for one in hostile_questions.ed25519_signatures() if one.verdict == "accept")]
        for base in bases:
            changed = [one.line() for place,
                one in enumerate(question_changes.of(base)) if place < 9 or place % 11 == 0]
            found = self.comparison()
            found.many(base.name, changed)
            self.assertEqual((found.differences, found.verdicts["accept"]), ([], 0))
            self.assertGreater(found.questions, 50)

    def test_a_difference_is_found(self):
        found, question = self.comparison(), next(iter(hostile_questions.ed25519_signatures()))
        found.hostile([question, question._replace(key=question.key[:31], label="31 octets")])
        self.assertEqual(len(found.differences), 1)
        found.commands = {"one": self.commands["cryptography"], "other": ["false"]}
        found.many("a line", lines()[:1])
        self.assertEqual(len(found.differences), 2)
        self.assertIn("a line, from 0: other answers otherwise: status 0 and 1", found.differences[1])

    def test_too_many(self):
        many = [Question("rsa-md5", b"", place.to_bytes(2, "big"),
            b"").line() for place in range(verdict_table.MOST_ASKED + 1)]
        made = self.comparison().of_lines("too many", many)
        self.assertEqual(made, (1, "", ["more than 10000 signatures are asked for"]))
        made = self.comparison().of_lines("many, some of them twice", many[1:] + many[1:20])
        self.assertEqual((made.status, made.table, len(made.said)), (0, "picky-verdicts 2\n", 10_000))

    def test_refusals(self):
        """What `picky_ask` answers is repeated where it is a refusal, and nothing else of a line is."""
        found = self.comparison()
        for line, why in (
            ("refused WrongLength", "picky_ask says: refused WrongLength"),
            ("refused InvalidChain:NoRoot", "picky_ask says: refused InvalidChain:NoRoot"),
            ("refused \x1b[2J", None), ("refused ", None), ("refused a b", None), ("refused " + "a" * 81, None),
            ("refused a\0", None), ("refused", None),
        ):
            self.assertEqual(found.of_lines(repr(line), [line]),
                (1, "", [why or "question 1 isn't in the form of one"]))
        self.assertEqual(found.differences, [])


class ModuleTest(unittest.TestCase):
    """What a script that imports the maker gets."""

    def test_reasons(self):
        one = hostile_questions.Rsa(1024)
        parts = hostile_questions.MESSAGE, one.signature()
        accepted = Question("rsa-sha256", one.octets, *parts)
        asked = [
            (accepted, "accept", Reason.ACCEPTED, ""),
            (accepted._replace(message=b""), "reject", Reason.FALSE, "not accepted as rsa-sha256"),
            (accepted._replace(signature=b""), "malformed", Reason.SIGNATURE_FORM, "malformed as rsa-sha256"),
            (accepted._replace(key=b""), None, Reason.KEY_FORM, "it has no row: its key isn't an RSAPublicKey in DER"),
            (accepted._replace(key=hostile_questions.pair(1 << 16_384 | 1, 3)), None, Reason.UNSUPPORTED,
            "it has no row: the modulus of its key has more than 16384 bits"),
        ]
        judged = verdict_table.rows_of(question.line() for question, *_ in asked)
        for place, (found, (question, verdict, reason, why)) in enumerate(zip(judged.findings, asked, strict=True), 1):
            row = " ".join(question.line().split(" ")[:4])
            self.assertEqual(found, (place, row, "rsa-sha256", verdict, reason, why))
            self.assertEqual(f"{verdict} {row}" in judged.rows, verdict is not None)
        self.assertEqual((judged.rows[0], len(judged.rows), len(judged.lacking())), ("picky-verdicts 2", 4, 4))
        self.assertEqual(judged.lacking()[0], "question 2: not accepted as rsa-sha256")

    def test_what_is_said_is_printable(self):
        judged = verdict_table.rows_of(one.line() for one in hostile_questions.questions())
        for line in judged.lacking():
            self.assertRegex(line, r"\Aquestion [0-9]+: [A-Za-z0-9 '.,:-]{1,100}\Z")

    def test_no_question(self):
        first = lines()[0]
        for line in "", "\udcff", "a\nb", first + "\n", first.replace("rsa",
                "r\u0455a"), first[:-1], first + " ", first.upper(), first.replace(" ", "  ", 1):
            with self.assertRaisesRegex(verdict_table.NoTable, "question 1 isn't in the form of one"):
                verdict_table.rows_of([line])
        words = first.split(" ")
        for place, part in (4, "key"), (5, "message"), (6, "signature"):
            changed = " ".join([*words[:place], words[place] + "00", *words[place + 1:]])
            with self.assertRaisesRegex(verdict_table.NoTable,
                    f"question 1 has another SHA-256 than that of its {part}"):
                verdict_table.rows_of([changed])

    def test_a_long_line_is_quick(self):
        """A key, a message and a signature of 4 MB each."""
        octets = bytes(4_000_000)
        begun = monotonic()
        for name in "rsa-sha256", "p521-sha512", "ed25519":
            found = verdict_table.rows_of([Question(name, octets, octets, octets).line()])
            self.assertEqual(found.findings[0].reason, Reason.KEY_FORM)
        self.assertLess(monotonic() - begun, 60)

    def test_without_cryptography(self):
        """One sentence, and the status of a script that can't."""
        with TemporaryDirectory() as folder:
            Path(folder, "cryptography.py").write_text("raise ImportError('not here')\n", encoding="ascii")
            for script in "verdict_table.py", "check_program.py":
                done = subprocess.run([sys.executable, folders.ROOT / "tools" / script], stdin=subprocess.DEVNULL,
                    capture_output=True, text=True,
                                      env={**environ, "PYTHONPATH": folder})
                self.assertEqual((done.returncode, done.stdout), (2, ""))
                self.assertEqual(done.stderr,
                    f"{script}: Python's package cryptography isn't there: install python3-cryptography\n")


class FormsTest(unittest.TestCase):
    """Forms that the questions don't reach, beside other arithmetic."""

    def test_points_of_small_order(self):
        points = curve_points.points_of_small_order()
        self.assertEqual(len(set(points)), 8)
        self.assertEqual({y for _, y in points}, signature_forms.OF_SMALL_ORDER)

    def test_keys_of_ed25519(self):
        for place in range(20):
            key = ed25519.Ed25519PrivateKey.from_private_bytes(bytes([place]) * 32).public_key()
            octets = key.public_bytes(Encoding.Raw, PublicFormat.Raw)
            self.assertEqual(signature_forms.key_of("ed25519", octets), octets)

    def test_two_numbers(self):
        # X.690 8.1.3, 8.3, 10.1.
        for octets, numbers in (
            ("3006 020101 020102", (1, 2)), ("3007 02020080 020102", (128, 2)), ("3007 02017f 02020100", (127, 256)),
            ("3006 020100 020102", None), ("3006 020181 020102", None), ("3007 02020001 020102", None),
            ("3006 0200 02020102", None),
            ("308106 020101 020102", None), ("3006 02810101 0201", None), ("3006 020101 020102 00", None),
            ("3009 020101 020102 020103", None),
            ("3003 020101", None), ("3080 020101 020102 0000", None), ("3006 020101 0201", None), ("", None),
            ("30", None), ("3082", None), ("308400", None),
        ):
            self.assertEqual(signature_forms.pair(bytes.fromhex(octets)), numbers, octets)
        long = b"\2\x81\x80\1" + bytes(127)
        self.assertEqual(signature_forms.pair(b"\x30\x81\x86" + long + b"\2\1\1"), (1 << 1016, 1))
        self.assertIsNone(signature_forms.pair(b"\x30\x82\0\x86" + long + b"\2\1\1"))


class CallsTest(unittest.TestCase):
    """No call reads the terminal or runs for ever."""

    def test_no_terminal(self):
        """Even where this process has one: a child of it can't open it, and reads nothing."""
        code = """
import os, sys
print(repr(sys.stdin.read()), os.getsid(0) == os.getpid())
try: os.open('/dev/tty', os.O_RDWR)
except OSError: print('no terminal')
"""
        driver = f"""{IN_TOOLS}
from common.calls import called
print(called([sys.executable, '-c', {code!r}]).stdout.decode())
"""
        told, status = in_terminal([sys.executable, "-c", driver])
        self.assertEqual((told.split(), status), (["''", "True", "no", "terminal"], 0))

    def test_a_pass_phrase(self):
        """openssl asks nobody, and ends."""
        encrypted = hostile_questions.pem("RSA PRIVATE KEY", bytes(64), hostile_questions.ENCRYPTED)
        driver = f"""{IN_TOOLS}
from common.openssl import OpensslError, openssl
try: openssl('pkey', '-noout', given={encrypted!r})
except OpensslError: print('refused')
"""
        begun = monotonic()
        told, status = in_terminal([sys.executable, "-c", driver])
        self.assertEqual((told.split(), status), (["refused"], 0))
        self.assertLess(monotonic() - begun, 30)

    def test_time(self):
        """A program that doesn't end is ended, with what it started."""
        with TemporaryDirectory() as folder:
            file = Path(folder, "child")
            begun = monotonic()
            with self.assertRaisesRegex(calls.TimedOut, r"\Ash didn't end within 2 seconds\Z"):
                calls.called(["sh", "-c", f"sleep 300 & echo $! > {file}; wait"], seconds=2)
            self.assertLess(monotonic() - begun, 60)
            self.assertTrue(is_gone(int(file.read_text(encoding="ascii"))))

    def test_openssl_that_isnt_there(self):
        with patch.dict(environ, {"PATH": "/none"}), self.assertRaisesRegex(openssl.OpensslError,
                r"\Aopenssl isn't there\Z"):
            openssl.openssl("version")

    def test_openssl_that_doesnt_end(self):
        with patch.object(openssl, "called", side_effect=calls.TimedOut("openssl didn't end within 120 seconds")):
            with self.assertRaisesRegex(openssl.OpensslError, "didn't end"):
                openssl.openssl("version")

    def test_octets_are_given(self):
        self.assertEqual(calls.called(["cat"], b"octets").stdout, b"octets")
        self.assertEqual(calls.called(["cat"]).stdout, b"")
        self.assertEqual(calls.called(["false"]).returncode, 1)


def in_terminal(words):
    """What a program prints in a terminal of its own, and its status; nobody answers what it asks."""
    child, terminal = pty.fork()
    if child == 0:
        os.execv(words[0], words)
    printed = b""
    try:
        while more := os.read(terminal, 1024):
            printed += more
    except OSError:
        # Of a terminal that nobody holds any more.
        pass
    os.close(terminal)
    return printed.decode(), os.waitstatus_to_exitcode(os.waitpid(child, 0)[1])


def is_gone(process):
    """Whether a process has ended, or does within some seconds."""
    for _ in range(100):
        try:
            if Path(f"/proc/{process}/stat").read_text(encoding="ascii").rpartition(")")[2].split()[0] == "Z":
                return True
        except (FileNotFoundError, ProcessLookupError):
            return True
        sleep(0.1)
    return False


if __name__ == "__main__":
    unittest.main()
