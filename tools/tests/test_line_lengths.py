"""Tests of line_lengths.py: `python3 tools/tests/run.py test_line_lengths`."""

import io
import sys
import tempfile
import unittest
from contextlib import redirect_stderr, redirect_stdout
from pathlib import Path

sys.path.insert(0, str(Path(__file__).resolve().parents[1]))

from gate import line_lengths

FULL = "f : " + "a" * (line_lengths.MOST - 4)


def answer_of(files):
    """The status and the lines of the output for crates, each a file's path and its text."""
    with tempfile.TemporaryDirectory() as folder, redirect_stdout(io.StringIO()) as out, redirect_stderr(io.StringIO()):
        for path, text in files.items():
            file = Path(folder, path)
            file.parent.mkdir(parents=True, exist_ok=True)
            file.write_text(text, "utf-8")
        status = line_lengths.main([folder])
    return status, [line.removeprefix(f"{folder}/") for line in out.getvalue().splitlines()]


class LineLengths(unittest.TestCase):
    def test_a_line_of_the_limit_is_none(self):
        status, lines = answer_of({"one/specs/A.antt": f"{FULL}\n", "one/proofs/f/Answers.antt": "b : c\n"})
        self.assertEqual((status, lines), (0, ["lines of specs and proofs past 160 columns: 0, in 2 files"]))

    def test_one_more_is_printed_with_its_line(self):
        status, lines = answer_of({"one/specs/A.antt": f"-- head\n\n{FULL}b\n", "two/proofs/f/g/Answers.antt": f"{FULL}  c"})
        self.assertEqual(status, 1)
        self.assertEqual(lines, [
            "one/specs/A.antt:3: 161 columns", "two/proofs/f/g/Answers.antt:1: 163 columns",
            "lines of specs and proofs past 160 columns: 2, in 2 files"])

    def test_a_column_is_a_character(self):
        self.assertEqual(line_lengths.long_lines("→" * line_lengths.MOST), [])
        self.assertEqual(line_lengths.long_lines("→" * (line_lengths.MOST + 1)), [(1, line_lengths.MOST + 1)])

    def test_code_and_other_folders_are_left_out(self):
        files = {"one/src/lib.rt": f"{FULL}b", "one/wrong/A.antt": f"{FULL}b", "one/proofs/A.antt": ""}
        self.assertEqual(answer_of(files)[0], 0)

    def test_no_specs_and_no_proofs_are_an_error(self):
        self.assertEqual(answer_of({"one/src/lib.rt": ""}), (2, []))


if __name__ == "__main__":
    unittest.main()
