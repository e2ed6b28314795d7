"""Tests of `run.py`, which runs these tests.

    python3 tools/tests/run.py test_run
"""

import subprocess
import sys
import unittest
from pathlib import Path
from tempfile import TemporaryDirectory
from textwrap import dedent

RUN = Path(__file__).resolve().parent / "run.py"

GOOD = """
import os, sys, unittest

class Good(unittest.TestCase):
    def test_one(self):
        print("not shown")

    def test_nothing_to_read(self):
        self.assertEqual(sys.stdin.read(), "")
        self.assertEqual(os.getsid(0), os.getpid())

    @unittest.expectedFailure
    def test_expected(self):
        self.fail()
"""
BAD = """
import unittest

class Bad(unittest.TestCase):
    def test_equal(self):
        print("shown")
        self.assertEqual(1, 2)

    def test_parts(self):
        for it in range(3):
            with self.subTest(it=it):
                self.assertNotEqual(it, 1)

    def test_error(self):
        raise ValueError("why")

    @unittest.expectedFailure
    def test_unexpected(self):
        pass
"""
SKIPPED = """
import unittest

class Some(unittest.TestCase):
    @unittest.skip("no such tool")
    def test_one(self):
        self.fail()

    def test_part(self):
        for it in range(2):
            with self.subTest(it=it):
                self.skipTest("in a part")

@unittest.skipUnless(False, "not here")
class Whole(unittest.TestCase):
    def test_one(self):
        self.fail()

class Before(unittest.TestCase):
    @classmethod
    def setUpClass(cls):
        raise unittest.SkipTest("no files")

    def test_one(self):
        self.fail()
"""
ENDED = """
import os, signal, unittest

class Ended(unittest.TestCase):
    APART = True

    def test_exit(self):
        os._exit(0)

    def test_signal(self):
        os.kill(os.getpid(), signal.SIGKILL)

    def test_good(self):
        pass

class Broken(unittest.TestCase):
    @classmethod
    def setUpClass(cls):
        raise ValueError("no class")

    def test_one(self):
        pass

class BrokenBehind(unittest.TestCase):
    @classmethod
    def tearDownClass(cls):
        raise ValueError("behind")

    def test_one(self):
        pass
"""


def told(files, *words):
    """The status, the lines, and what is on standard error, for a folder with these tests."""
    with TemporaryDirectory() as folder:
        for name, text in files.items():
            Path(folder, name).write_text(dedent(text))
        call = f"import sys; sys.path.insert(0, {str(RUN.parent)!r}); import run; sys.exit(run.main(sys.argv[1:], {folder!r}))"
        done = subprocess.run([sys.executable, "-c", call, *words], capture_output=True, text=True)
    return done.returncode, done.stdout.splitlines(), done.stderr


class RunTest(unittest.TestCase):

    SECONDS = 4

    def test_good_ones(self):
        status, lines, _ = told({"test_good.py": GOOD}, "-j", "3", "--none-skipped")
        self.assertEqual((status, len(lines), lines[-1]), (0, 2, "3 passed, 0 failed"))

    def test_bad_ones(self):
        status, lines, _ = told({"test_good.py": GOOD, "test_bad.py": BAD})
        self.assertEqual((status, lines[-1]), (1, "3 passed, 4 failed"))
        failed = [line for line in lines if line.startswith("== failed: ")]
        self.assertEqual(failed, [f"== failed: test_bad.Bad.test_{name}" for name in ("equal", "error", "parts", "unexpected")])
        for word in "ValueError: why", "shown":
            self.assertIn(word, lines)
        self.assertNotIn("not shown", lines)

    def test_skipped_ones(self):
        names = [f"skipped: test_some.{name}" for name in (
            "Before.test_one: no files", "Some.test_one: no such tool", "Some.test_part: in a part", "Whole.test_one: not here")]
        for words, expected in ((), (0, "3 passed, 0 failed")), (("--none-skipped",), (1, "3 passed, 4 failed")):
            status, lines, _ = told({"test_good.py": GOOD, "test_some.py": SKIPPED}, *words)
            self.assertEqual((status, lines[-1]), expected)
            self.assertEqual(sorted(line for line in lines if line.startswith("skipped: ")), names)

    def test_processes_that_end(self):
        status, lines, _ = told({"test_ended.py": ENDED})
        self.assertEqual((status, lines[-1]), (1, "2 passed, 4 failed"))
        self.assertIn("not run: the process ended with 0", lines)
        self.assertIn("not run: the process ended with -9", lines)
        for word in "ValueError: no class", "ValueError: behind":
            self.assertIn(word, lines)

    def test_a_file_that_isnt_read(self):
        status, lines, _ = told({"test_good.py": GOOD, "test_cut.py": "class"})
        self.assertEqual((status, lines[-1]), (1, "3 passed, 1 failed"))

    def test_words(self):
        files = {"test_good.py": GOOD, "test_bad.py": BAD}
        self.assertEqual(told(files, "test_good", "none")[1][-1], "3 passed, 0 failed")
        self.assertEqual(told(files, "Good.test_one")[1][-1], "1 passed, 0 failed")
        for words in ("nowhere",), ():
            status, lines, errors = told(files if words else {}, *words)
            self.assertEqual((status, lines, errors.count("\n")), (2, [], 1))


if __name__ == "__main__":
    unittest.main()
