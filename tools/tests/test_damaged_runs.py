"""Tests of `damaged_runs`: the commands as they are, changes of files, and a program that answers otherwise than it has to.

    python3 -m unittest discover -s tools/tests
"""

import argparse
import io
import random
import sys
import tempfile
import unittest
from collections import Counter
from contextlib import redirect_stdout
from pathlib import Path

sys.path.insert(0, str(Path(__file__).resolve().parents[1]))

from golden import damaged_runs
from judges.der_reader import read_first

STAND_IN = """#!{python}
import sys
for number, line in enumerate(open(sys.argv[2])):
    print({answer})
"""


def told(answer, count=3):
    """The status and what is printed, with a program that answers so."""
    with tempfile.TemporaryDirectory() as folder:
        program = Path(folder, "program")
        program.write_text(STAND_IN.format(python=sys.executable, answer=answer))
        program.chmod(0o755)
        out = io.StringIO()
        with redirect_stdout(out):
            status = damaged_runs.judge(program, 1, count, 1)
    return status, out.getvalue()


class DamagedRunsTest(unittest.TestCase):

    @classmethod
    def setUpClass(cls):
        cls.kinds = damaged_runs.commands()

    def test_jobs(self):
        for kind in self.kinds:
            self.assertTrue(any(given.said(given.files).startswith("0 ") for given in kind))
            for given in kind:
                self.assertLessEqual(set(given.changed), given.files.keys())
        self.assertEqual({given.program for kind in self.kinds for given in kind}, set(damaged_runs.PROGRAMS))

    def test_programs(self):
        """Those that are named are drawn, each kind of theirs as before others were added."""
        for programs in ("picky_ask",), ("picky_ca", "picky_pe"):
            self.assertEqual({given.program for given, _ in damaged_runs.cases(1, 40, programs)}, set(programs))
        three = damaged_runs.PROGRAMS[:3]
        self.assertEqual(damaged_runs.commands_of(three), self.kinds[:6])
        for word in "", "picky,", "demo", "picky,picky_Ca":
            with self.assertRaises(argparse.ArgumentTypeError):
                damaged_runs.names_in(word)

    def test_questions(self):
        """Several lines are one run's where they are questions."""
        commands = {given.words: given for given in self.kinds[6]}
        texts = [given.said(given.files) for given in commands.values()]
        self.assertEqual(damaged_runs.runs_in("".join(f"{text}\n" for text in texts)), texts)
        self.assertTrue(any(text.count("\n") > 1 for text in texts))
        self.assertEqual(damaged_runs.runs_in(""), [])
        self.assertEqual(damaged_runs.runs_in("0 \n1 refused Io\n"), ["0 ", "1 refused Io"])
        self.assertEqual(damaged_runs.runs_in("0 \nrsa-sha256 00\n"), ["0 ", "rsa-sha256 00"])

    def test_room_for_questions(self):
        """No questions are longer than the room that their vector has."""
        for given, files in damaged_runs.cases(5, 300, ["picky_ask"]):
            self.assertLess(len(given.said(files)), int(damaged_runs.vector(given, files).split(" ")[1]))

    def test_texts(self):
        """Registers that are accepted, refused and not in the form, by each change."""
        chance, found = random.Random(3), Counter()
        for change in damaged_runs.CHANGES_OF_TEXTS:
            for _ in range(100):
                given = chance.choice(self.kinds[7])
                text = change(chance, given.files["r"])
                found[change, given.said({"r": text}).split(" ")[0]] += text != given.files["r"]
        for change in set(damaged_runs.CHANGES_OF_TEXTS):
            for status in "03":
                self.assertGreater(found[change, status], 0, (change, status))
        for change in damaged_runs.with_lines, damaged_runs.with_number:
            self.assertGreater(found[change, "1"], 0, change)
        given = self.kinds[7][0]
        self.assertEqual([given.said({"r": octets}) for octets in (b"", b"\xff\n", b"\xc2\x85\n", b"\r\n")], ["0 ca issued=0 accepted=0", *["3 "] * 3])

    def test_ends(self):
        """Each number becomes one at an end, or beside it."""
        chance, texts = random.Random(4), set()
        for _ in range(4000):
            texts.add(damaged_runs.with_number(chance, b"child 7 00 N - 2020-01-01 2030-01-01\n"))
        for part in b"child 199 ", b"child 200 ", b"child 6 ", b" 2020-02-01 ", b" 2020-12-01 ", b" 2020-13-01 ", b" 9999-01-01\n", b" 2020-01-32 ":
            self.assertTrue(any(part in text for text in texts), part)

    def test_elements_fit(self):
        chance = random.Random(7)
        for kind in self.kinds[:7]:
            given = kind[0]
            octets = given.files[given.changed[0]]
            start, element = damaged_runs.element_in(octets)
            self.assertEqual(damaged_runs.refitted(octets, start, octets[start:]), octets)
            other = damaged_runs.with_elements(chance, octets)
            read_first(other[damaged_runs.element_in(other)[0] if damaged_runs.element_in(other) else start:])

    def test_same_seed(self):
        first, again, other = ([damaged_runs.vector(*case) for case in damaged_runs.cases(seed, 20)] for seed in (3, 3, 4))
        self.assertEqual(first, again)
        self.assertNotEqual(first, other)

    def test_wrong_answers(self):
        for answer, why in (("'9 '", "no line of a run"), ("'0 accepted parents=77'", "not "), ("sys.exit(1)", "status 1 of the process"),
                            ("'1 refused\\nrsa-sha256 ' + 64 * '0' + ' '", "no line of a run")):
            status, text = told(answer)
            self.assertEqual(status, 1)
            self.assertIn(why, text)

    def test_vectors(self):
        with tempfile.TemporaryDirectory() as folder:
            self.assertEqual(damaged_runs.write_cases(Path(folder), 1, 150), 0)
            self.assertEqual([len(file.read_text().splitlines()) for file in sorted(Path(folder).iterdir())], [100, 50])


if __name__ == "__main__":
    unittest.main()
