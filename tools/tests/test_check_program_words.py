"""Tests of the words of `check_program`, of its output and of its status.

    python3 -m unittest discover -s tools/tests
"""

import json
import os
import re
import signal
import subprocess
import sys
import unittest
from contextlib import redirect_stderr, redirect_stdout
from io import StringIO
from pathlib import Path
from shutil import which
from tempfile import TemporaryDirectory
from time import sleep
from unittest.mock import patch

sys.path.insert(0, str(Path(__file__).resolve().parents[1]))

import check_program
import order_bag
import ordered_program
import pool_questions
import signed_program
import verdict_table
from common.command import ENDING
from common.openssl import openssl
from gate.check_program_calls import STORED, checked
from gate.programs_stand_in import StandIn
from interop import signed_programs, world_signatures
from interop.signature_making import portable_executable
from program_check import kinds
from program_check.programs import NotChecked, Programs, Tried

TOOLS = Path(__file__).resolve().parents[1]


@unittest.skipUnless(which("openssl"), "openssl isn't there")
class PrintingTest(unittest.TestCase):
    """Words, output and status."""

    @staticmethod
    def printed(*words, programs=None):
        """The status, standard output and standard error of a call."""
        with redirect_stdout(StringIO()) as out, redirect_stderr(StringIO()) as errors:
            with patch.object(check_program, "Programs", lambda folder: programs or StandIn()):
                status = check_program.main([str(word) for word in words])
        return status, out.getvalue(), errors.getvalue()

    def files(self, folder):
        program, root = Path(folder, "one.exe"), Path(folder, "root.pem")
        program.write_bytes(STORED["three"].octets)
        root.write_bytes(openssl("x509", "-inform", "DER", given=signed_programs.root()))
        return program, root

    def test_text_and_json(self):
        with TemporaryDirectory() as folder:
            program, root = self.files(folder)
            status, out, _ = self.printed(program, "--root", root, "--at", "2023-06-15")
            self.assertEqual(status, 0)
            lines = out.splitlines()
            self.assertTrue(lines[-1].startswith("accepted: 'Publisher' signed this program"))
            status, out, _ = self.printed("--json", "--root", root, "--at", "2023-06-15", program)
            found = json.loads(out)
            self.assertEqual((status, found["verdict"], out.count("\n")), (0, "accepted", 1))
            text_of = "\n".join(lines)
            for part in (found["signer"]["sha256"], found["digest"]["value"], found["root"]["sha256"], found["sentence"], *(one["line"] for one in found["answers"])):
                self.assertIn(part, text_of)

    def test_files_that_cant_be_read(self):
        with TemporaryDirectory() as folder:
            program, root = self.files(folder)
            bad = Path(folder, "bad.pem")
            for octets, why in (
                (b"no root", "isn't a certificate"), (b"-----BEGIN CERTIFICATE-----\nxx", "has no END line"),
                (b"-----BEGIN CERTIFICATE-----\nx$x\n-----END CERTIFICATE-----\n", "isn't base64"), (b"0" + root.read_bytes(), "isn't a certificate"),
            ):
                bad.write_bytes(octets)
                status, out, errors = self.printed(program, "--root", bad)
                self.assertEqual((status, out, errors.count("\n")), (4, "", 1))
                self.assertIn(why, errors)
            for words in (["none", "--root", root], [program, "--root", "none"], [folder, "--root", root]):
                status, out, errors = self.printed(*words)
                self.assertEqual((status, out, errors.count("\n")), (4, "", 1), words)
            status, out, errors = self.printed("none", "--root", root, "--json")
            self.assertEqual((status, json.loads(out)["verdict"], errors), (4, "not checked", ""))

    def test_a_program_isnt_built(self):
        with TemporaryDirectory() as folder:
            program, root = self.files(folder)
            status, out, errors = self.printed(program, "--root", root, programs=Programs(folder))
            self.assertEqual((status, out), (2, ""))
            self.assertIn("isn't built", errors)

    def test_progress(self):
        with TemporaryDirectory() as folder, patch.object(check_program, "PATIENCE", -1.0):
            program, root = self.files(folder)
            _, _, errors = self.printed(program, "--root", root)
            self.assertIn("check_program.py: openssl verifies", errors)
        with TemporaryDirectory() as folder, patch.object(check_program, "PATIENCE", 1e9):
            program, root = self.files(folder)
            self.assertEqual(self.printed(program, "--root", root)[2], "")

    def test_run(self):
        """A stub of a program as a file, which is started."""
        with TemporaryDirectory() as folder:
            file = Path(folder, "picky_pe")
            file.write_text("#!/bin/sh\necho \"accepted signer=$1 path= excuse=none\"\n")
            file.chmod(0o755)
            answer = Programs(folder).run("picky_pe", ["3"], "picky_pe")
            self.assertEqual(answer.accepted(), {"signer": "3", "path": "", "excuse": "none"})

    def test_tried(self):
        """By a stub of `rt`: the line and the status of the program, and none where it didn't end."""
        with TemporaryDirectory() as folder:
            file, rt = Path(folder, "file"), Path(folder, "rt")
            file.write_bytes(b"")
            with patch.dict(os.environ, {"PATH": folder + os.pathsep + os.environ["PATH"]}):
                rt.write_text("#!/bin/sh\necho \"refused $*\" >&2\necho 'refused NotMz'\necho 'run=ended status=1 runners=1 proved=no' >&2\nexit 1\n")
                rt.chmod(0o755)
                answer = Tried().run("picky_pe", [file, file, "2023-06-15"], "picky_pe")
                self.assertEqual((answer.refusal(), answer.shown, answer.status), ("NotMz", "picky_pe (by rt try)", 1))
                rt.write_text("#!/bin/sh\necho 'accepted signer=0 path= excuse=none'\nexit 0\n")
                with self.assertRaises(NotChecked):
                    Tried().run("picky_pe", [file], "picky_pe")

    def test_tried_together(self):
        """By a stub of `rt`: expected calls are made in one, with their files in hexadecimal, and another call by itself."""
        with TemporaryDirectory() as folder:
            file, rt, rows = Path(folder, "file"), Path(folder, "rt"), Path(folder, "rows")
            file.write_bytes(b"\1\2")
            ended = "echo 'run=ended status=0 runners=1 proved=no' >&2\n"
            calls = [("picky_pe", [file, "x"]), ("picky_anchor", ["3", file])]
            with patch.dict(os.environ, {"PATH": folder + os.pathsep + os.environ["PATH"]}):
                rt.write_text(f"#!/bin/sh\ncp \"${{7#*=}}\" {rows}\nprintf '0 accepted\\n2 \\n'\n{ended}")
                rt.chmod(0o755)
                programs = Tried()
                programs.expect(calls)
                self.assertEqual(rows.read_text(), "picky_pe 65536 - f0=0102 f0 x\npicky_anchor 65536 - f1=0102 3 f1\n")
                rt.write_text("#!/bin/sh\nexit 1\n")
                self.assertEqual([programs.run(*call, "")[2:] for call in calls], [(0, "accepted\n"), (2, "")])
                asked = [("picky_ask", [file]), ("picky_ask", ["--chain", file, file]), ("picky_ask", [])]
                rt.write_text(f"#!/bin/sh\ncp \"${{7#*=}}\" {rows}\nprintf '0 rsa-md5 1\\nrsa-md5 2\\n0 \\n1 refused NotMz\\n'\n{ended}")
                programs.expect(asked)
                self.assertEqual(rows.read_text().splitlines()[0], "picky_ask 65536 - f0=0102 f0")
                self.assertEqual([programs.run(*call, "")[2:] for call in asked], [(0, "rsa-md5 1\nrsa-md5 2\n"), (0, ""), (1, "refused NotMz\n")])
                file.write_bytes(bytes(10_000))
                rt.write_text(f"#!/bin/sh\ncp \"${{7#*=}}\" {rows}\nprintf '0 \\n'\n{ended}")
                programs.expect(asked[:1])
                self.assertEqual(rows.read_text().split()[1], "100000")
                rt.write_text(f"#!/bin/sh\necho alone\n{ended}")
                file.write_bytes(b"\3")
                self.assertEqual(programs.run(*calls[0], "")[2:], (0, "alone\n"))
                with self.assertRaises(NotChecked):
                    programs.expect(calls)

    def test_other_files(self):
        for octets, what in (
            (b"\x7fELF" + bytes(60), "program of Linux"), (b"PK\x03\x04" + bytes(60), "zip archive"), (b"MSCF" + bytes(60), "cabinet"),
            (bytes.fromhex("d0cf11e0a1b11ae1") + bytes(60), ".msi"), (b"-----BEGIN PKCS7-----\n", "PEM"), (b"", "an empty file"),
            (b"Write-Host\n# SIG # Begin signature block\n", "signed script"), (signed_programs.root(), "a certificate"),
            (STORED["three"].file().octets, "WIN_CERTIFICATE"), (catalogue(), "a catalogue"),
        ):
            report = checked(octets)
            self.assertEqual((report.verdict, report.reason, report.status), ("refused", "NotMz", 1), what)
            self.assertIn(what, report.sentence + report.next)
        self.assertEqual(kinds.of(b"hello"), (None, None))
        self.assertEqual(checked(portable_executable()).reason, "NoTable")




def catalogue():
    return next(octets for known, _, octets in world_signatures.stored() if "catalogue" in known)

class WordsTest(unittest.TestCase):
    """What counts as words of a call."""

    @staticmethod
    def said(*words, main=check_program.main):
        with redirect_stdout(StringIO()) as out, redirect_stderr(StringIO()) as errors:
            status = main([str(word) for word in words])
        return status, out.getvalue(), errors.getvalue()

    def test_wrong_words(self):
        for words in (
            [], ["--json"], ["a", "b"], ["a", "--at"], ["a", "--at", "tomorrow"], ["a", "--at", "2023-02-29"], ["a", "--at", "2023-06-15T24:00:00"],
            ["a", "--at", "2023-06-15Z"], ["a", "--at", "\u0662\u0660\u0662\u0663-06-15"], ["a", "--at", "2023-06-15", "--at", "2023-06-15"], ["a", "--root"],
            ["a", "--root", "--json"], ["--rot", "a"], ["--roo", "b", "a"], ["a", "--digest", "0"], ["a", "--digest", "xy"],
            ["a", "--programs", "b", "--programs", "c"], ["a", "--", "b"], ["--"], ["--json=1", "a"],
        ):
            status, out, errors = self.said(*words)
            self.assertEqual((status, out), (2, ""), words)
            self.assertIn("usage:", errors)

    def test_usage_is_of_the_script(self):
        for tool in check_program, order_bag, ordered_program, pool_questions, signed_program, verdict_table:
            status, out, errors = self.said("--none", main=tool.main)
            lines = [line.removeprefix("usage: ").strip() for line in errors.splitlines() if "python3" in line]
            self.assertEqual((status, out, len(lines)), (2, "", 1), tool.__name__)
            self.assertTrue(lines[0].startswith(f"python3 tools/{tool.__name__}.py "), lines)

    def test_sentences_on_words(self):
        """A word is escaped, and the sentence on it isn't (the sentences are argparse's and ours)."""
        for words, said in (
            (["a", "--at", "tomorrow"], "argument --at: it isn't a date as 2025-01-31 or 2025-01-31T23:59:59"),
            (["a", "--root"], "argument --root: expected one argument"), ([], "the following arguments are required: PROGRAM"),
            (["a", "accepted: it's good\x1b"], r"unrecognized arguments: accepted:\20it\27s good\1B"),
            (["a", "value: 'x'"], r"unrecognized arguments: value:\20\27x\27"),
            (["--json=a: 'b'", "a"], r'argument --json: ignored explicit argument "a:\20\27b\27"'),
            (["--json=x", "a"], "argument --json: ignored explicit argument 'x'"),
        ):
            _, _, errors = self.said(*words)
            self.assertEqual(errors.splitlines()[0], f"check_program.py: {said}")

    def test_words(self):
        found = check_program.words_of(["p", "--root", "a", "--root=b", "--json", "--stamp-root", "c"])
        self.assertEqual((found.program, found.root, found.json, found.stamp_root, found.tried), ("p", ["a", "b"], True, ["c"], False))
        found = check_program.words_of(["--root", "a", "p", "--at=2025-01-31T23:59:59Z"])
        self.assertEqual((found.program, found.root, found.at), ("p", ["a"], "2025-01-31T23:59:59"))
        for word in "-h", "--help", "--json", "--root=x", "-":
            self.assertEqual(check_program.words_of(["--root", "a", "--", word]).program, word)
        for word in "2024-02-29", "0000-02-29", "9999-12-31T23:59:59":
            self.assertEqual(check_program.date(word), word)

    def test_help(self):
        """It is asked for by the sole word; a file of that name has no status 0."""
        for tool, many in (check_program, 1), (order_bag, 2), (signed_program, 2), (ordered_program, 3), (pool_questions, 1):
            for word in "-h", "--help":
                status, out, errors = self.said(word, main=tool.main)
                self.assertEqual((status, out.strip(), errors), (0, tool.__doc__.strip(), ""), tool.__name__)
                for words in [word, "x"], ["x", word], ["x", "y", word], [word, word], ["--root", "r", word]:
                    status, out, errors = self.said(*words, main=tool.main)
                    self.assertEqual((status, out), (2, ""), (tool.__name__, words))
                    self.assertIn("usage:", errors)
                status, out, errors = self.said("--", word, *["/none/x"] * (many - 1), main=tool.main)
                self.assertNotEqual(status, 0, tool.__name__)
                self.assertIn(f"{word}: No such file", errors, tool.__name__)

    def test_help_of_a_script(self):
        """The same of the script that is started."""
        for words, status in (["--help"], 0), (["-h", "--root", "x"], 2), (["--root", "x", "--help"], 2), (["--", "-h"], 4):
            done = subprocess.run([sys.executable, TOOLS / "check_program.py", *words], capture_output=True, cwd="/", env=os.environ | {"SSL_CERT_FILE": "/none"})
            self.assertEqual((done.returncode, bool(done.stdout)), (status, not status), words)

    def test_digest_says_what_it_has_seen(self):
        file = STORED["three"].file()
        self.assertIn("signed a program with this digest", checked(file.octets, digest=file.file_hash.hex()).sentence)
        self.assertIn("signed this program", checked(STORED["three"].octets).sentence)


def folder_of_stubs(folder, **scripts):
    """Programs that are scripts of the shell, in a folder."""
    for name, script in scripts.items():
        file = Path(folder, name)
        file.write_text(f"#!/bin/sh\n{script}\n")
        file.chmod(0o755)


class EndTest(unittest.TestCase):
    """How a call ends where something outside goes wrong, as a process of its own."""

    ASKS, REFUSES = "exit 0", "echo 'refused SignatureError'; exit 1"

    def files(self, folder):
        program, root, stubs = Path(folder, "one.exe"), Path(folder, "root.der"), Path(folder, "stubs")
        program.write_bytes(STORED["three"].octets)
        root.write_bytes(signed_programs.root())
        stubs.mkdir()
        folder_of_stubs(stubs, picky_ask=self.ASKS, picky_pe=self.REFUSES, picky_anchor="echo 'refused NoAnchoredPath'; exit 1", picky=self.REFUSES)
        Path(folder, "tmp").mkdir()
        return program, root, stubs

    def started(self, folder, program, root, stubs, *words, **how):
        called = [sys.executable, TOOLS / "check_program.py", program, "--root", root, "--programs", stubs, "--at", "2023-06-15", *words]
        return subprocess.Popen(called, stdin=subprocess.DEVNULL, env=os.environ | {"TMPDIR": str(Path(folder, "tmp"))}, **how)

    def ended(self, folder, *files, **how):
        with self.started(folder, *files, **{"stdout": subprocess.PIPE, "stderr": subprocess.PIPE} | how) as process:
            out, errors = process.communicate(timeout=100)
        self.assertNotIn(b"Traceback", errors or b"")
        self.assertEqual(list(Path(folder, "tmp").iterdir()), [])
        return process.returncode, out, errors

    def test_refused(self):
        with TemporaryDirectory() as folder:
            status, out, _ = self.ended(folder, *self.files(folder))
            self.assertEqual(status, 1)
            self.assertIn(b"\nrefused: ", out)

    def test_no_questions(self):
        """What `picky_ask` prints is looked at line by line: anything else than questions is a disagreement."""
        for script in "echo none", "printf 'rsa-sha256 %064d %064d %064d 00 00 00' 1 2 3", "echo 'accepted parents=0'", "echo 'refused some thing'; exit 1", "echo none; exit 9":
            with TemporaryDirectory() as folder:
                program, root, stubs = self.files(folder)
                folder_of_stubs(stubs, picky_ask=script)
                status, out, _ = self.ended(folder, program, root, stubs)
                self.assertEqual((status, b"refused: the programs disagree: picky_ask" in out), (1, True), script)

    def test_closed_output(self):
        with TemporaryDirectory() as folder:
            files = self.files(folder)
            begin, end = os.pipe()
            os.close(begin)
            self.assertEqual(self.ended(folder, *files, stdout=end)[0], 5)
            os.close(end)
            called = [sys.executable, str(TOOLS / "check_program.py"), str(files[0]), "--root", str(files[1]), "--programs", str(files[2])]
            done = subprocess.run(["sh", "-c", 'exec "$@" >&-', "sh", *called], capture_output=True)
            self.assertEqual((done.returncode, b"Traceback" in done.stderr), (5, False))

    @unittest.skipUnless(Path("/dev/full").exists(), "there is no /dev/full")
    def test_full_output(self):
        with TemporaryDirectory() as folder, open("/dev/full", "wb") as full:
            self.assertEqual(self.ended(folder, *self.files(folder), stdout=full)[0], 5)

    @unittest.skipUnless(Path("/dev/full").exists(), "there is no /dev/full")
    def test_full_errors(self):
        """Where standard error can't be written the status is the same."""
        begin, closed = os.pipe()
        os.close(begin)
        with TemporaryDirectory() as folder, open("/dev/full", "wb") as full:
            _, root, _ = self.files(folder)
            for errors in full, closed:
                for tool, words, status in (
                    ("check_program.py", ["--root", root, "/none/file"], 4), ("check_program.py", ["a", "b"], 2), ("check_program.py", [], 2),
                    ("verdict_table.py", ["a"], 2), ("signed_program.py", ["a"], 2), ("signed_program.py", ["/none/file", "/none/x"], 1),
                    ("order_bag.py", ["/none/file", "/none/x"], 1),
                ):
                    done = subprocess.run([sys.executable, TOOLS / tool, *words], stdout=subprocess.PIPE, stderr=errors, timeout=100)
                    self.assertEqual((done.returncode, done.stdout), (status, b""), (tool, words))
        os.close(closed)

    def test_no_regular_file(self):
        """A FIFO and a device are refused at once, as PROGRAM and as a root."""
        with TemporaryDirectory() as folder:
            program, root, stubs = self.files(folder)
            pipe = Path(folder, "pipe")
            os.mkfifo(pipe)
            for one, two in (pipe, root), (program, pipe), (Path("/dev/zero"), root):
                status, out, errors = self.ended(folder, one, two, stubs)
                self.assertEqual((status, out), (4, b""))
                self.assertIn(b"isn't a regular file", errors)
            for tool in "order_bag.py", "signed_program.py":
                done = subprocess.run([sys.executable, TOOLS / tool, pipe, Path(folder, "out")], capture_output=True, timeout=100)
                self.assertEqual((done.returncode, b"isn't a regular file" in done.stderr), (1, True), tool)

    def heed(self, *numbers):
        """Signals that a job in the background ignores aren't ignored by what the test starts."""
        for number in numbers:
            if signal.getsignal(number) is signal.SIG_IGN:
                signal.signal(number, signal.SIG_DFL)
                self.addCleanup(signal.signal, number, signal.SIG_IGN)

    def test_signals(self):
        """What was written for the call is removed, and it ends by the signal; so does the program that it waits for."""
        self.heed(*ENDING)
        for number in ENDING:
            with TemporaryDirectory() as folder:
                program, root, stubs = self.files(folder)
                folder_of_stubs(stubs, picky_pe=f"echo $$ > {folder}/waits; exec sleep 1000")
                with self.started(folder, program, root, stubs, stdout=subprocess.PIPE, stderr=subprocess.PIPE) as process:
                    waits = Path(folder, "waits")
                    while not (waits.exists() and waits.read_text().strip()):
                        self.assertIsNone(process.poll())
                        sleep(0.05)
                    # Until Python has returned from starting it.
                    sleep(1)
                    process.send_signal(number)
                    _, errors = process.communicate(timeout=100)
                self.assertNotIn(b"Traceback", errors)
                self.assertEqual((process.returncode, list(Path(folder, "tmp").iterdir())), (-number, []))
                self.assert_ended(int(waits.read_text()))

    def test_a_signal_while_a_program_starts(self):
        """One that comes when it has begun, and Popen hasn't returned."""
        script = (
            "import os, signal, subprocess\n"
            "from common import calls, command\n"
            "class Slow(subprocess.Popen):\n"
            "    def __init__(self, *words, **how):\n"
            "        super().__init__(*words, **how)\n"
            "        print(self.pid, flush=True)\n"
            "        os.kill(os.getpid(), signal.{})\n"
            "subprocess.Popen = Slow\n"
            "command.run(lambda words: calls.called(['sleep', '1000']).returncode, '')\n")
        self.heed(*ENDING)
        for number in ENDING:
            done = subprocess.run([sys.executable, "-c", script.format(number.name)], env=os.environ | {"PYTHONPATH": str(TOOLS)}, capture_output=True, timeout=100)
            self.assertEqual((done.returncode, done.stderr), (-number, b""))
            self.assert_ended(int(done.stdout))

    def assert_ended(self, pid):
        for _ in range(100):
            status = Path(f"/proc/{pid}/status")
            if not status.exists() or re.search(r"^State:\s+Z", status.read_text(), re.MULTILINE):
                return
            sleep(0.05)
        self.fail("the program still runs")

    def test_programs_without_an_answer(self):
        """One that is killed, or can't start, answers nothing: status 2."""
        for name in "picky_pe", "picky_anchor", "picky_ask":
            with TemporaryDirectory() as folder:
                program, root, stubs = self.files(folder)
                folder_of_stubs(stubs, **{name: "kill -9 $$"})
                status, out, errors = self.ended(folder, program, root, stubs)
                self.assertEqual((status, out), (2, b""), name)
                self.assertIn(f"{name} was ended by the signal SIGKILL".encode(), errors)
                for octets in b"\x7fELF none", b"#!/none/interpreter\n":
                    Path(stubs, name).write_bytes(octets)
                    status, out, errors = self.ended(folder, program, root, stubs)
                    self.assertEqual((status, out), (2, b""), name)
                    self.assertIn(f"{name} can't be started".encode(), errors)


class TryTest(unittest.TestCase):
    """What --try says of itself."""

    def tried(self, script):
        with TemporaryDirectory() as folder:
            folder_of_stubs(folder, rt=script)
            file = Path(folder, "file")
            file.write_bytes(b"")
            with patch.dict(os.environ, {"PATH": folder + os.pathsep + os.environ["PATH"]}):
                return Tried().run("picky_pe", [file], "picky_pe")

    def test_a_run_that_is_ended(self):
        with self.assertRaises(NotChecked) as refusal:
            self.tried("echo 'run=no-answer proved=no' >&2; exit 2")
        self.assertEqual(refusal.exception.status, 2)
        self.assertIn("it gives one 600 seconds and 1 MiB of output", str(refusal.exception))

    def test_the_limit_is_said_to_rt(self):
        answer = self.tried("echo \"refused $(echo \"$*\" | tr -dc 'a-z0-9')\"; echo 'run=ended status=1 proved=no' >&2; exit 1")
        self.assertIn("seconds600", answer.line())

    def test_it_says_so_at_once(self):
        """Ahead of anything that it does: here even ahead of a file that isn't there."""
        with redirect_stdout(StringIO()) as out, redirect_stderr(StringIO()) as errors:
            status = check_program.main(["none", "--root", "none", "--try"])
        first, second = errors.getvalue().splitlines()
        self.assertEqual((status, out.getvalue(), first.startswith("check_program.py: --try runs the programs from their sources")), (4, "", True))
        self.assertIn("none: No such file", second)


if __name__ == "__main__":
    unittest.main()
