"""Tests of what compares the wrappers in `bindings/`, and of what they say; `tools/interop/test_wrappers.py` has those that compile.

    python3 tools/tests/run.py test_bindings
"""

import importlib.util
import os
import re
import sys
import unittest
from pathlib import Path
from tempfile import TemporaryDirectory

sys.path.insert(0, str(Path(__file__).resolve().parents[1]))

from common import folders
from common.command import Refusal
from gate import bindings
from gate.bindings import Case

BINDINGS = folders.ROOT / "bindings"
HEADS = "c/picky.h", "cpp/picky.hpp", "rust/src/lib.rs", "go/picky.go", "python/picky.py"


class PythonTest(unittest.TestCase):
    """The module, without a library."""

    def test_an_answer_has_no_truth_value(self):
        spec = importlib.util.spec_from_file_location("picky", BINDINGS / "python/picky.py")
        picky = importlib.util.module_from_spec(spec)
        spec.loader.exec_module(picky)
        for status in range(8):
            with self.assertRaisesRegex(TypeError, "compare its line"):
                bool(picky.Answer(status, "accepted signer=0 path= excuse=none"))


class HeadTest(unittest.TestCase):
    """Each wrapper says at its head what an accepted signature with an empty path is worth."""

    def test_heads(self):
        for name in HEADS:
            head = re.sub(r"\s+(?:\*|//!?)?\s*", " ", "\n".join((BINDINGS / name).read_text().splitlines()[:16]))
            with self.subTest(name=name):
                self.assertIn("is vouched for by nobody", head)
                self.assertIn("compare the whole line with the one that you expect", head)


class ByProgramTest(unittest.TestCase):
    """What is expected of a call is what the built program answers over files."""

    def expected(self, case, script="for f in *; do printf '%s=%s ' $f \"$(cat $f)\"; done; echo; exit 1"):
        """The expectation by a script in the place of each program, which shows its files."""
        with TemporaryDirectory() as name:
            for program in "picky", "picky_pe", "picky_ask":
                file = Path(name, program, "out", program)
                file.parent.mkdir(parents=True)
                file.write_text(f"#!/bin/sh\nprintf '%s: ' {program} \"$@\"\n{script}\n")
                os.chmod(file, 0o755)
            return bindings.by_program(case, Path(name))

    def test_files(self):
        for case, printed in (
            (Case("check", (b"s", b"t", None), ("check", "SIG"), None), "1 picky: check: SIG: LIST= SIG=s TABLE=t \n"),
            (Case("pe", (None, b"t", b"l"), ("PROGRAM",), None), "1 picky_pe: PROGRAM: LIST=l PROGRAM= TABLE=t \n"),
            (Case("chain", (b"abc", b"t", b"1\n2\n"), ("chain",), None), "1 picky: chain: 0=a 1=bc TABLE=t \n"),
            (Case("ask", (b"abc", None, b"3"), ("0",), None), "1 picky_ask: 0: 0=abc \n"),
        ):
            self.assertEqual(self.expected(case), printed)

    def test_a_status_without_a_line(self):
        self.assertEqual(self.expected(Case("check", (b"", b"", None), (), None), "exit 2"), "2 picky: ")

    def test_a_program_that_isnt_there(self):
        with TemporaryDirectory() as name, self.assertRaisesRegex(Refusal, "picky_pe isn't there"):
            bindings.by_program(Case("pe", (b"", b"", None), (), None), Path(name))

    def test_a_folder_without_a_library(self):
        with TemporaryDirectory() as name, self.assertRaisesRegex(Refusal, "has no libpicky_door.a"):
            bindings.main([name])

    def test_changed_cases_have_no_answer_of_their_own(self):
        # So it is the program that says what is expected of them.
        self.assertEqual(sum(case.printed is None for case in bindings.of_library()), 43)


if __name__ == "__main__":
    unittest.main()
