"""Tests of crate_readmes.py: `python3 -m unittest discover -s tools/tests -p test_crate_readmes.py`."""

import io
import sys
import tempfile
import unittest
from contextlib import redirect_stderr, redirect_stdout
from pathlib import Path

sys.path.insert(0, str(Path(__file__).resolve().parents[1] / "gate"))

import crate_readmes  # noqa: E402

LIB = """//! A library.
mod hidden;
mod list;
pub mod table;

pub use hidden::{Seen, made as built};
pub use list::{ListOf, Writes};
"""
LIST = """
use std::fmt;

/// "A list" // of 'values' {.
#[derive(Debug, Drop)]
pub struct ListOf<T> {
    items: Vec<T>,
    pub ghost all: { IsAll items },
    ghost inner: { ⊤ } by { inner-prop },
}

impl<T> ListOf<T> {
    pub fn new(alloc: Global) -> ListOf<T>
        ensures { result ≡ [] }
    {
        ListOf { items: Vec::new(alloc) }
    }

    pub fn push(&mut self, item: T) -> Result<(), AllocError>
    where
        T: Drop,
        requires room { length self.old < 2 ^ 63 }
        // Kept { as it is.
        ensures ok { OnOk result (self.new ≡ self.old ++ item ∷ []) }
        ensures err { OnErr result (self.new ≡ self.old) }
    {
        let text = "ensures lie { }";
        self.items.push(item)
    }

    pub fn six(&self) -> [u8; 6] {
        [b'{'; 6]
    }

    pub(crate) fn inside(&self)
        ensures { ⊤ }
    {}
}

impl<'a, T: Into<Vec<u8>>> From<&'a Vec<T>> for ListOf<T> {
    ghost from_gives = { λ items l. l ≡ items };

    fn from(items: &'a Vec<T>) -> ListOf<T> {
        ListOf { items }
    }
}

impl<T> fmt::Display for ListOf<T> {}

pub trait Writes {
    // What is written.
    ghost written: { Self → ℕ } = { λ _. 0 };

    fn write(&self)
        ensures one { ⊤ };

    fn clear(&mut self);
}

impl<T> Writes for ListOf<T> {
    ghost use Rattle.std.specs.Prelude.{Some};

    ghost written = { λ _. 1 };

    fn write(&self)
        ensures one { ⊤ }
        ensures two { ⊤ }
    {}

    fn clear(&mut self) {}
}
"""
HIDDEN = """
pub struct Secret;

impl Secret {
    pub fn told(&self)
        ensures { ⊤ }
    {}
}

impl From<Secret> for u8 {
    ghost from_gives = { ⊤ };
}

pub struct Seen;

pub fn made()
    ensures a { ⊤ }
    ensures { ⊤ }
{}
"""
TABLE = """
pub static ROWS: [(u8, &str); 2] = [(1, "{"), (2, "}")];

pub fn row(at: usize) -> Option<&'static str>
    requires { at < 2 }
    ensures { ⊤ }
{
    match ROWS[at] { (_, text) => Some(text) }
}

fn private() {}
"""
EXAMPLE = """//! A caller.

ghost use Rattle.std.specs.Prelude.{Some};

use lib::{
    ListOf,
};
use std::test::Fail;

/// One list.
fn one(alloc: Global) -> ListOf<u8> {
    ListOf::new(alloc)
}

#[test]
fn is_one(rt: HostRuntime) -> Result<(), Fail> {
    Ok(())
}
"""
README = """# lib

## Example

```rust
old
```

## Proved

### Calls and clauses

<!-- calls -->
old
<!-- /calls -->

## Tested only
"""


class Readmes(unittest.TestCase):
    def setUp(self):
        folder = tempfile.TemporaryDirectory()
        self.addCleanup(folder.cleanup)
        self.crates = Path(folder.name)
        self.source = self.crates / "lib" / "src"
        self.source.mkdir(parents=True)
        files = {"lib": LIB, "list": LIST, "hidden": HIDDEN, "table": TABLE}
        for name, text in files.items():
            (self.source / f"{name}.rt").write_text(text, encoding="utf-8")
        self.readme = self.crates / "lib" / "README.md"
        self.example = self.crates / "xtest_readme" / "src" / "of_lib.rt"
        self.example.parent.mkdir(parents=True)
        self.example.write_text(EXAMPLE, encoding="utf-8")

    def run_it(self, *arguments):
        out, err = io.StringIO(), io.StringIO()
        with redirect_stdout(out), redirect_stderr(err):
            status = crate_readmes.main([*arguments])
        return status, out.getvalue(), err.getvalue()

    def test_calls(self):
        lines = crate_readmes.calls_text(self.crates / "lib").splitlines()
        self.assertEqual(
            [line for line in lines if line.startswith("|")],
            [
                "| file | call | clauses |",
                "|---|---|---|",
                "| `hidden.rt` | `built` | contract, `a` |",
                "| `list.rt` | `ListOf` | ghost field `all` |",
                "|  | `ListOf::new` | contract |",
                "|  | `ListOf::push` | requires `room`; `ok`, `err` |",
                "|  | `ListOf::six` | none |",
                "|  | `Writes` | ghost member `written` |",
                "|  | `Writes::write` | `one` |",
                "|  | `Writes::clear` | none |",
                "| `table.rt` | `table::row` | requires; contract |",
                "| trait | types | members and clauses |",
                "|---|---|---|",
                "| `From<&Vec<T>>` | `ListOf<T>` | `from_gives` |",
                "| `Writes` | `ListOf<T>` | `written`; `write` `one`, `two` |",
            ],
        )

    def test_writes_and_checks(self):
        self.readme.write_text(README, encoding="utf-8")
        status, out, _ = self.run_it("--check", str(self.crates))
        self.assertEqual(status, 1)
        self.assertIn("out of date: 1, of 1\n", out)
        self.assertEqual(self.run_it(str(self.crates))[0], 0)
        text = self.readme.read_text(encoding="utf-8")
        self.assertNotIn("old", text)
        self.assertIn(
            "```rust\nuse lib::{\n    ListOf,\n};\n\n/// One list.\nfn one(alloc: Global)"
            " -> ListOf<u8> {\n    ListOf::new(alloc)\n}\n```\n",
            text,
        )
        self.assertEqual(self.run_it("--check", str(self.crates))[0], 0)
        self.example.write_text(EXAMPLE.replace("One", "A"), encoding="utf-8")
        self.assertEqual(self.run_it("--check", str(self.crates))[0], 1)

    def test_an_example_of_its_own(self):
        self.readme.write_text(README, encoding="utf-8")
        own = EXAMPLE.replace("use lib::", "use crate::").replace("One", "Its own")
        self.assertNotEqual(own, EXAMPLE)
        (self.source / "citing.rt").write_text(own, encoding="utf-8")
        self.assertEqual(self.run_it(str(self.crates))[0], 0)
        text = self.readme.read_text(encoding="utf-8")
        self.assertIn("```rust\nuse lib::{\n    ListOf,\n};\n\n/// Its own list.\n", text)

    def test_a_library_without_a_readme(self):
        status, out, _ = self.run_it("--check", str(self.crates))
        self.assertEqual((status, out.splitlines()[0]), (1, "lib has no README.md"))
        self.assertEqual(self.run_it(str(self.crates))[0], 0)

    def test_what_cannot_be_used(self):
        for arguments in ((), ("--other", str(self.crates)), (str(self.crates / "nowhere"),)):
            status, _, err = self.run_it(*arguments)
            self.assertEqual((status, err.count("\n")), (2, 1), arguments)
        for text in (README.replace("<!-- /calls -->", ""), README.replace("```rust", "```")):
            self.readme.write_text(text, encoding="utf-8")
            status, _, err = self.run_it(str(self.crates))
            self.assertEqual((status, err.count("\n")), (2, 1))
        self.readme.write_text(README, encoding="utf-8")
        (self.source / "list.rt").write_text("fn cut() {", encoding="utf-8")
        self.assertEqual(self.run_it(str(self.crates))[0], 2)
        self.example.unlink()
        (self.source / "list.rt").write_text("", encoding="utf-8")
        status, _, err = self.run_it(str(self.crates))
        self.assertEqual(status, 2)
        self.assertIn("of_lib.rt", err)


if __name__ == "__main__":
    unittest.main()
