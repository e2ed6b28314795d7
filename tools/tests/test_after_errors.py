"""Tests of after_errors.py: `python3 -m unittest discover -s tools/tests -p test_after_errors.py`."""

import io
import sys
import tempfile
import unittest
from contextlib import redirect_stderr, redirect_stdout
from pathlib import Path

sys.path.insert(0, str(Path(__file__).resolve().parents[1]))

from gate import after_errors

SAID = """
impl<T> ListOf<T> {
    pub fn push(&mut self, item: T) -> Result<(), AllocError>
    where
        T: Drop,
        ensures ok { OnOk result (self.new ≡ self.old ++ item ∷ []) }
        ensures err { OnErr result (self.new ≡ self.old) }
    {
        self.items.push(item)
    }

    pub fn next(&mut self) -> Result<Option<Elem<'a>>, Malformed>
        ensures stays { IfErr result
            (λ _. (self.new.rest ≡ self.old.rest) × (self.new.place ≡ self.old.place)) }
    {
        Ok(None)
    }

    pub fn both<'b>(&'b mut self) -> std::io::Result<usize>
        ensures { MatchResult result (λ _. ⊤) (λ _. self.new ≡ self.old) }
    {
        Ok(0)
    }

    pub fn same(&mut self) -> Result<(), Failed>
        ensures same { self.new ≡ self.old }
    {
        Ok(())
    }
}

pub trait Sink {
    fn write(&mut self, piece: &[u8]) -> Result<usize, Failed>
        ensures kept { OnErr result (Keeps (state self.old) (state self.new)) };
}
"""
SILENT = """
impl Store {
    pub fn add(&mut self, text: &str) -> Result<(), AllocError>
        // ensures err { OnErr result (self.new ≡ self.old) }
        ensures ok { OnOk result (self.new ≡ self.old ++ text) }
        ensures memory { IfErr result (λ e. e ≡ Memory) }
        ensures part { self.new.name ≡ self.old.name }
        ensures match { MatchResult result (λ _. self.new ≡ self.old) (λ e. e ≡ Memory) }
    {
        Ok(())
    }
}

impl Sink for Store {
    fn write(&mut self, piece: &[u8]) -> Result<usize, Failed>
        ensures counted { self.old.count ≤ self.new.count }
    {
        Ok(0)
    }
}
"""
# What isn't listed.
OTHERS = """
impl Store {
    pub(crate) fn inside(&mut self) -> Result<(), Failed> {
        Ok(())
    }

    fn own(&mut self) -> Result<(), Failed> {
        Ok(())
    }

    pub fn none(&mut self) -> Option<Result<(), Failed>> {
        None
    }

    pub fn set(&mut self, result: Result<(), Failed>) {}

    pub fn read(&self, out: &mut Store) -> Result<(), Failed> {
        Ok(())
    }
}

impl Sink for Store {
    fn write(&mut self, piece: &[u8]) -> Result<usize, Failed> {
        Ok(0)
    }
}

trait Inner {
    fn write(&mut self) -> Result<usize, Failed>;
}
"""


def printed(crates):
    """The status and the lines of a run over crates, by the texts of their files."""
    with tempfile.TemporaryDirectory() as folder:
        for name, files in crates.items():
            for path, text in files.items():
                file = Path(folder, name, "src", path)
                file.parent.mkdir(parents=True, exist_ok=True)
                file.write_text(text, encoding="utf-8")
        out = io.StringIO()
        with redirect_stdout(out):
            status = after_errors.main([folder])
    return status, out.getvalue().splitlines()


class AfterErrors(unittest.TestCase):
    def test_clauses_on_errors(self):
        status, lines = printed({"low": {"lib.rt": "mod list;", "list.rt": SAID}})
        self.assertEqual(status, 0)
        self.assertEqual(lines, [
            "low: ListOf<T>::push: err",
            "low: ListOf<T>::next: stays",
            "low: ListOf<T>::both: contract",
            "low: ListOf<T>::same: same",
            "low: Sink::write: kept",
            "calls that change a value and may fail: 5 in 1 libraries, 0 of them without a clause on the value after an error",
        ])

    def test_without_a_clause(self):
        status, lines = printed({"low": {"lib.rt": SILENT}})
        self.assertEqual(status, 1)
        self.assertEqual(lines, [
            "low: Store::add: NOTHING is said of the value after an error",
            "low: Store as Sink::write: NOTHING is said of the value after an error",
            "calls that change a value and may fail: 2 in 1 libraries, 2 of them without a clause on the value after an error",
        ])

    def test_not_listed(self):
        status, lines = printed({"low": {"lib.rt": OTHERS}, "xtest_low": {"lib.rt": SILENT}, "xgolden_low": {"lib.rt": SILENT}, "program": {"main.rt": SILENT}})
        self.assertEqual((status, len(lines)), (0, 1))

    def test_wrong_words(self):
        with redirect_stderr(io.StringIO()):
            self.assertEqual(after_errors.main([]), 2)
            self.assertEqual(after_errors.main(["/nowhere"]), 2)

    def test_own_crates(self):
        crates = Path(__file__).resolve().parents[2] / "crates"
        calls = list(after_errors.calls(crates))
        names = {(call.crate, call.name) for call in calls}
        self.assertLessEqual({("der_core", "next"), ("x509_issuing", "issuer_cert"), ("program_frame", "pick")}, names)
        self.assertEqual([str(call) for call in calls if not call.clauses], [])


if __name__ == "__main__":
    unittest.main()
