"""Tests of the documents: their links, the files that they name, the length of README.

    python3 -m unittest discover -s tools/tests
"""

import os
import re
import sys
import unittest
from collections.abc import Iterator
from pathlib import Path

sys.path.insert(0, str(Path(__file__).resolve().parents[1]))

from common import folders

MOST_WORDS = 900
BLOCK = re.compile(r"^```.*?^```$", re.MULTILINE | re.DOTALL)
CODE = re.compile(r"^```.*?^```$|`[^`\n]+`", re.MULTILINE | re.DOTALL)
LINK = re.compile(r"\]\(([^()\s]+)\)")
HEADING = re.compile(r"^#{1,6} +(.*?) *$", re.MULTILINE)
# A file by its path from the top: no pattern, no name that stands for any, nothing that is built.
PATH = re.compile(r"(?<![\w/.*-])((?:bench|bindings|crates|docs|man|tools)/[\w./-]*[\w/])(?![\w*{]|\.\.)")
BUILT = re.compile(r"/out(?:/|$)|/NAME\b|/x/")
# A file by its name alone, and the names that stand for any.
NAME = re.compile(r"(?<![\w*/.{-])([\w.-]*\w\.(?:py|sh|c|h|hpp|antt|rt|md|edit|toml))\b(?![\w*(])")
ANY = {"NEW.rt", "NEW.antt"}
# A crate of tests or a golden program.
CRATE = re.compile(r"\bx(?:golden|test)_[a-z]\w*\b(?!\.py)")
# Documents with names of files and crates that are gone.
OF_THE_PAST = {"CHANGELOG.md", "BENCHMARKS.md"}
TOPS = "bench", "bindings", "crates", "docs", "man", "tools"


def documents() -> list[Path]:
    """The documents of the repository."""
    patterns = "*.md", "docs/*.md", "bindings/*.md", "crates/*/README.md"
    return sorted(path for pattern in patterns for path in folders.ROOT.glob(pattern))


def anchor_of(heading: str) -> str:
    """The anchor of a heading: its text in small letters, without punctuation, with a hyphen for each space."""
    text = re.sub(r"\[([^]]*)\]\([^)]*\)", r"\1", heading).replace("`", "")
    return re.sub(r"[^\w\- ]", "", text.lower()).replace(" ", "-")


def anchors(path: Path) -> set[str]:
    """The anchors of a document; the second heading of a text has the number 1 behind it, and so on."""
    counts: dict[str, int] = {}
    found = set()
    for heading in HEADING.findall(BLOCK.sub("", path.read_text())):
        anchor = anchor_of(heading)
        number = counts.get(anchor, 0)
        counts[anchor] = number + 1
        found.add(f"{anchor}-{number}" if number else anchor)
    return found


def broken_links(path: Path) -> Iterator[str]:
    """The links within the repository that lead nowhere."""
    for link in LINK.findall(BLOCK.sub("", path.read_text())):
        if re.match(r"[a-z]+:", link):
            continue
        file, _, anchor = link.partition("#")
        target = (path.parent / file).resolve() if file else path
        if not target.exists():
            yield f"{link}: no such file"
        elif anchor and anchor not in anchors(target):
            yield f"{link}: no such heading"


def missing_paths(text: str) -> Iterator[str]:
    """The paths in code at which nothing is."""
    for name in dict.fromkeys(it for code in CODE.findall(text) for it in PATH.findall(code)):
        if not BUILT.search(name) and not (folders.ROOT / name).exists():
            yield f"{name}: no such file"


def missing_names(text: str, names: set[str]) -> Iterator[str]:
    """The names in code that no file has; what blocks of commands write isn't there."""
    for name in dict.fromkeys(it for code in CODE.findall(BLOCK.sub("", text)) for it in NAME.findall(code)):
        if name not in names and name not in ANY:
            yield f"{name}: no file of this name"


def missing_crates(text: str) -> Iterator[str]:
    """The crates of tests and golden programs in code that aren't there."""
    for name in dict.fromkeys(it for code in CODE.findall(BLOCK.sub("", text)) for it in CRATE.findall(code)):
        if not (folders.CRATES / name).exists():
            yield f"{name}: no such crate"


def names_of_files() -> set[str]:
    """The names of all files."""
    found = {path.name for path in folders.ROOT.iterdir()}
    for top in TOPS:
        for _, inner, files in os.walk(folders.ROOT / top):
            inner[:] = [name for name in inner if name not in ("out", "target")]
            found.update(files)
    return found


class DocumentsTest(unittest.TestCase):
    """What the documents lead to is there."""

    def test_links(self):
        self.assertGreater(len(documents()), 30)
        for path in documents():
            with self.subTest(path=path.relative_to(folders.ROOT)):
                self.assertEqual(list(broken_links(path)), [])

    def test_files(self):
        names = names_of_files()
        for path in documents():
            text = path.read_text()
            found = [] if path.name in OF_THE_PAST else [*missing_names(text, names), *missing_crates(text)]
            if path.name != "CHANGELOG.md":
                found += missing_paths(text)
            with self.subTest(path=path.relative_to(folders.ROOT)):
                self.assertEqual(found, [])

    def test_readme_is_short(self):
        self.assertLessEqual(len((folders.ROOT / "README.md").read_text().split()), MOST_WORDS)


class FindingTest(unittest.TestCase):
    """The search finds what is missing."""

    def test_a_path_at_which_nothing_is(self):
        text = "`docs/NOTHING.md`, `docs/MAP.md`, docs/NOR.md, `crates/picky/out/picky`"
        self.assertEqual(list(missing_paths(text)), ["docs/NOTHING.md: no such file"])
        text = "```sh\npython3 tools/nothing.py crates\n```\n"
        self.assertEqual(list(missing_paths(text)), ["tools/nothing.py: no such file"])

    def test_a_name_that_no_file_has(self):
        text = "`a.py --all`, `b.rt`, `x/c.py`, `NEW.rt`, d.py"
        self.assertEqual(list(missing_names(text, {"a.py"})), ["b.rt: no file of this name"])

    def test_a_crate_that_is_gone(self):
        text = "`xgolden_nothing`, `xgolden_value`, xtest_nothing, `crates/xgolden_nor/data`, `xgolden_*`"
        self.assertEqual(list(missing_crates(text)), ["xgolden_nothing: no such crate", "xgolden_nor: no such crate"])

    def test_links_that_lead_nowhere(self):
        path = folders.ROOT / "README.md"
        self.assertIn("try-it", anchors(path))
        self.assertNotIn("nothing", anchors(path))

    def test_anchors(self):
        self.assertEqual(anchor_of("`check.py`, beside `a verify`"), "checkpy-beside-a-verify")
        self.assertEqual(anchor_of("From C, and what calls C"), "from-c-and-what-calls-c")


if __name__ == "__main__":
    unittest.main()
