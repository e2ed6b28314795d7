"""Tests of unused_lemmas.py: `python3 tools/tests/run.py test_unused_lemmas`."""

import io
import sys
import tempfile
import unittest
from contextlib import redirect_stderr, redirect_stdout
from pathlib import Path

sys.path.insert(0, str(Path(__file__).resolve().parents[1]))

from gate import unused_lemmas

CRATES = Path(__file__).resolve().parents[2] / "crates"
LEMMA = "pub twice : (n : ℕ) → n ≡ n\ntwice n = refl\n"


def answer_of(files):
    """The status and the lines of the output for crates, each a file's path and its text."""
    with tempfile.TemporaryDirectory() as folder, redirect_stdout(io.StringIO()) as out, redirect_stderr(io.StringIO()):
        for path, text in files.items():
            file = Path(folder, path)
            file.parent.mkdir(parents=True, exist_ok=True)
            file.write_text(text, "utf-8")
        status = unused_lemmas.main([folder])
    return status, [line.removeprefix(f"{folder}/") for line in out.getvalue().splitlines()]


class UnusedLemmas(unittest.TestCase):
    def test_a_lemma_that_nothing_names_is_printed(self):
        status, lines = answer_of({"one/proofs/A.antt": f"-- a head\n\n{LEMMA}"})
        self.assertEqual((status, lines), (1, ["one/proofs/A.antt:3: twice", "lemmas and definitions that nothing uses: 1, of 1"]))

    def test_what_its_own_body_says_is_no_use(self):
        text = "loops : (n : ℕ) → ℕ\nloops zero = zero\nloops (suc n) = loops n\n"
        self.assertEqual(answer_of({"one/proofs/A.antt": text})[1][0], "one/proofs/A.antt:1: loops")

    def test_a_line_that_goes_on_from_a_signature_is_no_definition(self):
        text = "loops : (n : ℕ)\n    → (m : ℕ) → (k : loops_of m) → ℕ\nloops zero m k = zero\nloops (suc n) m k = loops n m k\n"
        status, lines = answer_of({"one/proofs/A.antt": text})
        self.assertEqual(lines, ["one/proofs/A.antt:1: loops", "lemmas and definitions that nothing uses: 1, of 1"])

    def test_a_use_is_another_definition_another_file_or_a_source(self):
        other = "pub more : (n : ℕ) → n ≡ n\nmore n = twice n\n"
        answers = {"one/proofs/f/Answers.antt": "pub goal : A\ngoal = twice 2\n"}
        self.assertEqual(answer_of({"one/proofs/A.antt": LEMMA + other})[1][0], "one/proofs/A.antt:3: more")
        self.assertEqual(answer_of({"one/proofs/A.antt": LEMMA} | answers)[0], 0)
        self.assertEqual(answer_of({"one/proofs/A.antt": LEMMA, "one/src/lib.rt": "ensures same { twice 2 }\n"})[0], 0)
        self.assertEqual(answer_of({"one/proofs/A.antt": LEMMA, "one/src/lib.rt": "#[tactic(auto, using(crate::proofs::A::twice))]\n"})[0], 0)

    def test_a_comment_is_no_use(self):
        self.assertEqual(answer_of({"one/proofs/A.antt": LEMMA, "one/proofs/B.antt": "-- as twice says\n"})[0], 1)

    def test_an_argument_may_follow_the_name(self):
        text = "pub record Pair (a : ℕ) : Type 0 where\n  first : ℕ\n"
        self.assertEqual(answer_of({"one/specs/A.antt": text})[1][0], "one/specs/A.antt:1: Pair")

    def test_fields_and_constructors_are_their_types(self):
        text = "pub data Way : Type 0 where\n  There : Way\n  Back : Way\n"
        uses = {"one/proofs/f/Answers.antt": "goal = Way\n"}
        self.assertEqual(answer_of({"one/specs/A.antt": text} | uses)[1], ["lemmas and definitions that nothing uses: 0, of 1"])

    def test_answers_and_examples_are_left_out(self):
        files = {f"one/proofs/f/{name}.antt": LEMMA for name in ("Answers", "Invariants")} | {"one/specs/DerExamples.antt": LEMMA}
        self.assertEqual(answer_of(files | {"one/proofs/A.antt": "-- none\n"}), (0, ["lemmas and definitions that nothing uses: 0, of 0"]))

    def test_no_specs_and_no_proofs_are_an_error(self):
        self.assertEqual(answer_of({"one/src/lib.rt": ""}), (2, []))

    def test_the_crates_of_the_repository_have_none(self):
        with redirect_stdout(io.StringIO()) as out:
            self.assertEqual(unused_lemmas.main([str(CRATES)]), 0, out.getvalue())


if __name__ == "__main__":
    unittest.main()
