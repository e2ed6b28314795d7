"""Tests of the steps of `.ci/run`: none passes on a folder without anything to look at, and a program that isn't there is a failure.

    python3 tools/tests/run.py test_gate
"""

import io
import re
import subprocess
import sys
import unittest
from contextlib import redirect_stderr, redirect_stdout
from pathlib import Path
from tempfile import TemporaryDirectory
from unittest.mock import patch

sys.path.insert(0, str(Path(__file__).resolve().parents[1]))

from common import folders
from gate import run_program

CI = (folders.ROOT / ".ci/run").read_text("utf-8")
SCRIPTS = re.findall(r"^(?:exec )?python3 (tools/gate/\S+) (.*?)(?: \|\| exit)?$", CI, re.MULTILINE)


class EmptyFolderTest(unittest.TestCase):

    def test_each_script(self):
        self.assertEqual({script.rpartition("/")[2] for script, _ in SCRIPTS}, {
            "unused_calls.py", "after_errors.py", "crate_readmes.py", "requires_list.py", "import_circles.py",
            "unused_lemmas.py", "line_lengths.py", "run_program.py", "door_library.py", "bindings.py"})
        with TemporaryDirectory() as name:
            for script, words in SCRIPTS:
                given = [name if word.startswith("crates") else word for word in words.split()]
                done = subprocess.run([sys.executable, folders.ROOT / script, *given], stdin=subprocess.DEVNULL, capture_output=True, text=True)
                with self.subTest(script):
                    self.assertEqual((done.returncode, done.stdout, done.stderr.count("\n")), (2, "", 1), done.stderr)

    def test_a_step_that_fails_ends_the_gate(self):
        steps = [line for line in CI.splitlines() if line.startswith(("python3 ", "rt ", "exec "))]
        self.assertTrue(all(line.endswith("|| exit") for line in steps[:-1]), steps)
        self.assertEqual(steps[-1], "exec python3 tools/tests/run.py --none-skipped")


class OtherProgramsTest(unittest.TestCase):
    """The programs beside `picky`."""

    def told(self, folder, names, rows=run_program.run_rows.commands):
        """The status and the lines of a run, where these programs are there and answer as their rows say."""
        picky = folder / "picky/out/picky"
        for name in names:
            file = folder / name / "out" / name
            file.parent.mkdir(parents=True)
            file.write_text("#!/bin/sh\n")
            file.chmod(0o755)

        def difference(program, row):
            return None if program.is_file() else "No such file or directory"

        with patch.object(run_program, "ROWS", run_program.ROWS[:3]), patch.object(run_program, "difference", difference), \
                patch.object(run_program.run_rows, "commands", rows), redirect_stdout(io.StringIO()) as out, redirect_stderr(out):
            status = run_program.main([str(picky)])
        return status, out.getvalue().splitlines()

    def test_all_are_there(self):
        with TemporaryDirectory() as name:
            status, lines = self.told(Path(name).resolve(), ["picky", *run_program.programs()])
        self.assertEqual((status, len(lines)), (0, 2), lines)
        self.assertRegex(lines[0], r"^runs of picky_anchor, picky_ask, picky_ca, picky_pe: \d+ as expected, 0 not$")
        self.assertEqual(lines[1], "runs of the program: 3 as expected, 0 not")

    def test_one_isnt_there(self):
        for missing in run_program.programs():
            with TemporaryDirectory() as name:
                there = ["picky", *(one for one in run_program.programs() if one != missing)]
                status, lines = self.told(Path(name).resolve(), there)
            self.assertEqual(status, 1)
            self.assertIn(f"{missing} isn't there", lines[0])

    def test_none_is_there(self):
        with TemporaryDirectory() as name:
            self.assertEqual(self.told(Path(name).resolve(), [])[0], 2)

    def test_one_without_a_row(self):
        rows = [row for row in run_program.run_rows.commands() if row.program != "picky_ca"]
        with TemporaryDirectory() as name:
            status, lines = self.told(Path(name).resolve(), ["picky", *run_program.programs()], lambda: rows)
        self.assertEqual((status, lines[0]), (1, "picky_ca has no row in run_rows.py"))


if __name__ == "__main__":
    unittest.main()
