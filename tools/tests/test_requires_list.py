"""Tests of `requires_list`: differences between documents and sources, each way.

    python3 tools/tests/run.py test_requires_list
"""

import io
import sys
import tempfile
import unittest
from contextlib import redirect_stdout
from pathlib import Path

sys.path.insert(0, str(Path(__file__).resolve().parents[1]))

from common import folders
from common.command import Refusal
from gate import requires_list

LIB = "pub use list::{Checks, List, first, second};\n\nmod list;\n"
LIST = """
pub struct List;

pub trait Checks {
    fn check(&self) -> u8
        requires { true }
        ensures { true };
}

impl List {
    // A function that `unsafe` isn't said of.
    pub fn push(&mut self, alloc: Global) -> Result<(), Failed>
        requires few { true }
        ensures added { IfOk result (self.new) }
        ensures err { OnErr result ((self.new.a ≡ self.old.a) × (self.new.b ≡ self.old.b)) }
    {
        let _text = "unsafe { in a text }";
        Ok(())
    }

    pub fn write(&mut self) -> Result<(), Failed>
        ensures err { IfErr result (λ _. HasRisen self.old.faults self.new.faults) }
    {
        Ok(unsafe { ptr::read(self) })
    }
}

pub fn first(octets: &[u8]) -> u8
    requires { true }
{
    0
}

pub fn second(octets: &[u8]) -> u8 {
    0
}

fn inside(octets: &[u8]) -> u8
    requires { true }
{
    0
}

unsafe impl Send for List {}

#[unsafe(no_mangle)]
pub extern "C" fn list_first(octets: &[u8]) -> u8 {
    0
}
"""
PROVED = """
| call | it requires |
|---|---|
| `first`, `Checks::check` | something |
| `List::push` | that `second` is full |

| call that fails | what it leaves |
|---|---|
| `List::push` | the value as it was |
| `List::write` | a fault |
"""
DECISIONS = """
| unsafe | why |
|---|---|
| `low/src/list.rt`: `ptr::read` | so |
| `low/src/list.rt`: `impl Send for List`, `list_first` | so |
"""
README = """# low

Three calls have a `requires`: `first`, `List::push` and `Checks::check`.

<!-- calls -->

No call has a `requires`.

<!-- /calls -->
"""


def answer_of(proved=PROVED, decisions=DECISIONS, readme=README, source=LIST):
    """The status and the lines for a library."""
    with tempfile.TemporaryDirectory() as folder, redirect_stdout(io.StringIO()) as out:
        for path, text in (
            ("docs/PROVED.md", proved), ("docs/DECISIONS.md", decisions), ("crates/low/README.md", readme),
            ("crates/low/src/lib.rt", LIB), ("crates/low/src/list.rt", source),
        ):
            file = Path(folder, path)
            file.parent.mkdir(parents=True, exist_ok=True)
            file.write_text(text, "utf-8")
        status = requires_list.main([f"{folder}/crates"])
    return status, out.getvalue().splitlines()


class RequiresListTest(unittest.TestCase):

    def assert_one(self, expected, **texts):
        status, lines = answer_of(**texts)
        self.assertEqual((status, len(lines)), (1, 2), lines)
        self.assertIn(expected, lines[0])

    def test_no_difference(self):
        self.assertEqual(answer_of(), (0, [
            "1 libraries: 3 calls with a requires, 2 that change a value and may fail, 3 places with unsafe or exported; differences: 0"]))

    def test_calls_with_a_requires(self):
        self.assert_one("lacks Checks::check", proved=PROVED.replace(", `Checks::check`", ""))
        self.assert_one("has second, which isn't in the sources", proved=PROVED.replace("`first`", "`first`, `second`"))
        self.assert_one("lacks second", source=LIST.replace("second(octets: &[u8]) -> u8 {", "second(octets: &[u8]) -> u8\n    requires { true }\n{"),
                        readme="# low\n")
        self.assert_one("has first", source=LIST.replace("pub fn first(octets: &[u8]) -> u8\n    requires { true }", "pub fn first(octets: &[u8]) -> u8"),
                        readme="# low\n")

    def test_calls_that_fail(self):
        self.assert_one("the value as it was, lacks List::push", proved=PROVED.replace("| `List::push` | the value", "| | the value"))
        self.assert_one("other values, lacks List::write", proved=PROVED.replace("| `List::write` |", "| |"))
        for changed in ("self.new.b ≡ self.old.c", "self.new.b ≡ self.new.b", "Keeps self.new.b self.old.b"):
            status, lines = answer_of(source=LIST.replace("self.new.b ≡ self.old.b", changed))
            self.assertEqual((status, [line.split(",")[1] for line in lines[:2]]), (1, [" the value as it was", " other values"]), changed)

    def test_unsafe(self):
        self.assert_one("lacks low/src/list.rt: ptr::read", decisions=DECISIONS.replace("| `low/src/list.rt`: `ptr::read` | so |\n", ""))
        self.assert_one("lacks low/src/list.rt: list_first", decisions=DECISIONS.replace(", `list_first`", ""))
        self.assert_one("has low/src/list.rt: gone", decisions=DECISIONS.replace("`list_first`", "`list_first`, `gone`"))
        more = LIST + "fn more(at: *const u8) -> u8 {\n    unsafe {\n        one::two(at)\n    }\n}\n"
        self.assert_one("lacks low/src/list.rt: one::two", source=more)
        self.assert_one("lacks low/src/list.rt: more", source=LIST + "unsafe fn more() {}\n")
        self.assert_one("lacks low/src/list.rt: more", source=LIST + 'pub extern "C" fn more() {}\n')

    def test_readmes(self):
        for said in ("No call has a `requires`.", "Only `first` has a `requires`.", "Two calls have a `requires`: `first` and `List::push`.",
                     "Three calls have a `requires`: `first`, `List::push` and `second`.", "`first` requires it; no other call has a `requires`."):
            self.assert_one("low/README.md says", readme=f"# low\n\n{said}\n")
        self.assertEqual(answer_of(readme="# low\n\n`first`, `List::push` and `Checks::check` do; no other call has a `requires`.\n")[0], 0)

    def test_what_isnt_there(self):
        for texts in ({"proved": "# Proved\n"}, {"decisions": "# Decisions\n"}, {"proved": PROVED.replace("| `List::write` | a fault |\n", "")}):
            with self.assertRaises(Refusal):
                answer_of(**texts)

    def test_the_repository(self):
        with redirect_stdout(io.StringIO()) as out:
            self.assertEqual(requires_list.main([str(folders.CRATES)]), 0, out.getvalue())
        numbers = [int(word) for word in out.getvalue().split() if word.isdigit()]
        self.assertTrue(all(number > 10 for number in numbers[:4]), numbers)


if __name__ == "__main__":
    unittest.main()
