"""Each stored run is what its script makes, octet for octet.

    python3 tools/tests/run.py test_golden
"""

import sys
import unittest
from pathlib import Path

sys.path.insert(0, str(Path(__file__).resolve().parents[1]))

from common import folders
from golden import crates, stored_run
from golden.stored_runs import STORED_RUNS, StoredRun


def stored(names):
    """The octets of each file of the stored runs of some crates, by its path below `crates/`."""
    found = [file for name in names for file in [folders.CRATES / name / "stdout", *(folders.CRATES / name / "data").rglob("*")]]
    return {file.relative_to(folders.CRATES).as_posix(): file.read_bytes() for file in found if file.is_file()}


def differences(made, kept):
    """The paths of the files that are made otherwise, or not at all, or aren't stored."""
    return sorted(path for path in made.keys() | kept.keys() if made.get(path) != kept.get(path))


def test_of(run):
    """A class, so that each has a process of its own, with the test of one script."""

    class GoldenTest(unittest.TestCase):

        SECONDS = run.seconds

        def test_stored_run(self):
            self.assertEqual(differences(run.made(), stored(run.crates)), [])

    GoldenTest.__name__ = GoldenTest.__qualname__ = f"GoldenTest_{run.crates[0]}"
    return GoldenTest


globals().update((test.__name__, test) for test in map(test_of, STORED_RUNS))


class ListTest(unittest.TestCase):

    def test_each_stored_run_is_listed(self):
        listed = sorted(name for run in STORED_RUNS for name in run.crates)
        self.assertEqual(listed, sorted(file.parent.name for file in folders.CRATES.glob("*/stdout")))

    def test_each_script_is_listed(self):
        scripts = {file.stem for file in (folders.ROOT / "tools/golden").glob("*_vectors.py")}
        used = {makes.__module__ for kinds in crates.CRATES.values() for makes in kinds.values()} | {crates.der_vectors.__name__}
        self.assertEqual({f"golden.{script}" for script in scripts} - used, set())

    def test_each_kind_is_an_argument(self):
        for crate, kinds in crates.CRATES.items():
            self.assertEqual((folders.CRATES / crate / "args").read_bytes(), stored_run.args_of(kinds), crate)

    def test_what_tools_read_is_what_is_stored(self):
        for kind, makes in crates.CRATES["xgolden_issuing"].items():
            self.assertEqual(stored_run.stored("xgolden_issuing", kind), makes(), kind)

    def test_what_differs(self):
        made = {"a/stdout": b"1\n", "a/data/rows": b"x"}
        self.assertEqual(differences(made, dict(made)), [])
        for kept in {"a/stdout": b"1\n"}, {**made, "a/stdout": b"1"}, {**made, "a/data/more": b""}:
            self.assertEqual(len(differences(made, kept)), 1, kept)

    def test_an_octet_that_is_another(self):
        run = next(run for run in STORED_RUNS if run.crates == ("picky_pe",))
        made, kept = run.made(), stored(["picky_pe"])
        self.assertEqual(differences(made, kept), [])
        kept["picky_pe/stdout"] = kept["picky_pe/stdout"].replace(b"1", b"2")
        self.assertEqual(differences(made, kept), ["picky_pe/stdout"])
        changed = StoredRun(run.made_by, run.crates, lambda: {**run.files(), "more": b""})
        self.assertEqual(differences(changed.made(), stored(["picky_pe"])), ["picky_pe/more"])


if __name__ == "__main__":
    unittest.main()
