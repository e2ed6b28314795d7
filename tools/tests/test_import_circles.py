"""Tests of import_circles.py: `python3 -m unittest discover -s tools/tests -p test_import_circles.py`."""

import io
import sys
import tempfile
import unittest
from contextlib import redirect_stderr, redirect_stdout
from pathlib import Path

sys.path.insert(0, str(Path(__file__).resolve().parents[1]))

from gate import import_circles

CRATES = Path(__file__).resolve().parents[2] / "crates"


def answer_of(sources):
    """The status and the output for crates, each a module's path and its text."""
    with tempfile.TemporaryDirectory() as folder, redirect_stdout(io.StringIO()) as out, redirect_stderr(io.StringIO()):
        for path, text in sources.items():
            file = Path(folder, path)
            file.parent.mkdir(parents=True, exist_ok=True)
            file.write_text(text, "utf-8")
        status = import_circles.main([folder])
    return status, out.getvalue()


class ImportCircles(unittest.TestCase):
    def test_a_tree_of_names_has_its_paths(self):
        self.assertEqual(import_circles.paths_of("a::{b, c::{d, e as f}, g}"), ["a::b", "a::c::d", "a::c::e", "a::g"])
        self.assertEqual(import_circles.paths_of("a::b"), ["a::b"])

    def test_downwards_is_no_circle(self):
        status, out = answer_of({
            "one/src/lib.rt": "mod a;\nmod b;\n", "one/src/a.rt": "use crate::b::{B, C};\nuse crate::b::c::D;\n",
            "one/src/b.rt": "mod c;\n", "one/src/b/c.rt": "use crate::b::B;\n",
        })
        self.assertEqual((status, out), (0, "modules that import one another in a circle: 0, of 4 in 1 crates\n"))

    def test_two_that_import_one_another_are_printed(self):
        status, out = answer_of({"one/src/lib.rt": "", "one/src/a.rt": "use crate::b::B;\n", "one/src/b.rt": "pub(crate) use crate::a::A;\n"})
        self.assertEqual((status, out.splitlines()[0]), (1, "one: a, b"))

    def test_so_are_three_in_a_row(self):
        names = "abc"
        files = {f"one/src/{name}.rt": f"use crate::{names[(at + 1) % 3]}::X;\n" for at, name in enumerate(names)}
        self.assertEqual(answer_of(files | {"one/src/lib.rt": ""})[1].splitlines()[0], "one: a, b, c")

    def test_a_circle_that_is_named_and_gone_is_printed(self):
        status, out = answer_of({"der_core/src/lib.rt": "", "der_core/src/kids.rt": ""})
        self.assertEqual(status, 1)
        self.assertIn("kids, leaves, structure, tagging, testing: they are named here", out)

    def test_no_crates_are_an_error(self):
        self.assertEqual(answer_of({"a.txt": ""})[0], 2)

    def test_the_crates_of_the_repository_have_none(self):
        with redirect_stdout(io.StringIO()) as out:
            self.assertEqual(import_circles.main([str(CRATES)]), 0, out.getvalue())


if __name__ == "__main__":
    unittest.main()
