"""Tests of `refuse_memory` and `refuse_in_tests`, with programs that ask for memory as they are told.

    python3 -m unittest discover -s tools/tests
"""

import io
import subprocess
import sys
import tempfile
import unittest
from contextlib import redirect_stdout
from pathlib import Path
from shutil import which
from unittest.mock import patch

sys.path.insert(0, str(Path(__file__).resolve().parents[1]))

from cases import run_rows
from gate import refuse_in_tests, refuse_memory, run_program

# A program that asks twice for memory, and a test program with a test for each way to end without.
PROGRAM = r"""
#include <stdio.h>
#include <stdlib.h>
int main(void) {
    setvbuf(stdout, NULL, _IONBF, 0);
    char *one = malloc(3), *two = malloc(5);
    if (!one) return 7;
    if (!two) { SECOND }
    puts("accepted");
    free(one); free(two);
    return 0;
}
"""
TESTS = r"""
#include <stdio.h>
#include <stdlib.h>
#include <string.h>
int main(int count, char **words) {
    setvbuf(stdout, NULL, _IONBF, 0);
    if (count < 2) return 1;
    if (!strcmp(words[1], "--list")) { puts("a::error: test\na::assertion: test\na::fault: test\na::none: test"); return 0; }
    char *one = strcmp(words[1], "a::none") ? malloc(3) : words[0];
    if (one) return 0;
    if (!strcmp(words[1], "a::error")) { puts("error: Memory"); return 101; }
    if (!strcmp(words[1], "a::assertion")) { puts("assertion failed: x\n\ntest stopped at src/a.rt:7:5"); abort(); }
    return *(volatile int *)one;
}
"""


def built(folder, name, source):
    file = folder / f"{name}.c"
    file.write_text(source)
    subprocess.run(["cc", "-O0", "-o", folder / name, file], check=True)
    return str(folder / name)


def printed(call, *words):
    out = io.StringIO()
    with redirect_stdout(out):
        status = call(*words)
    return status, out.getvalue()


@unittest.skipUnless(which("cc"), "cc isn't there")
class RefusedTest(unittest.TestCase):

    def setUp(self):
        folder = tempfile.TemporaryDirectory()
        self.addCleanup(folder.cleanup)
        self.folder = Path(folder.name)

    def told(self, second):
        rows = [run_program.Row("a row", ("basic",), 0, "accepted\n", {})]
        with patch.object(refuse_memory, "rows", lambda name: rows):
            return printed(refuse_memory.main, [built(self.folder, "program", PROGRAM.replace("SECOND", second))])

    def test_program(self):
        status, text = self.told("return 7;")
        self.assertEqual(status, 0)
        self.assertIn("2 refusals, 0 with the same answer, 0 with another", text)

    def test_program_with_another_answer(self):
        status, text = self.told('puts("accept"); return 0;')
        self.assertEqual(status, 1)
        self.assertIn("refusal 2: (0, b'accept\\n')", text)

    def test_tests(self):
        status, text = printed(refuse_in_tests.main, [built(self.folder, "tests", TESTS)])
        self.assertEqual(status, 1)
        self.assertIn("4 tests, 3 refusals, 0 passed without, 1 at assertions, 1 told", text)
        self.assertIn("1 at the assertion of a::assertion at src/a.rt:7:5", text)
        self.assertIn("a::fault, refusal 1: status -11", text)


class CommandsTest(unittest.TestCase):

    def test_files(self):
        names = set()
        for one in run_rows.commands():
            self.assertLessEqual(one.zeros.keys(), one.files.keys())
            self.assertLessEqual(one.files.keys(), set(one.words))
            names.add(one.program)
        self.assertEqual(names, {"picky", "picky_pe", "picky_anchor", "picky_ask", "picky_ca"})

    def test_other_programs(self):
        """Each has a row in `run_program`; a program that isn't there, or ends otherwise, differs."""
        with tempfile.TemporaryDirectory() as name:
            folder = Path(name)
            runs = list(run_program.other_programs(folder / "picky/out/picky"))
            paths = {path.relative_to(folder).as_posix() for path, _ in runs}
            self.assertEqual(paths, {f"{one}/out/{one}" for one in ("picky_pe", "picky_anchor", "picky_ask", "picky_ca")})
            beside = {path for path, _ in run_program.other_programs(folder / "picky")}
            self.assertEqual(beside, {folder / one for one in ("picky_pe", "picky_anchor", "picky_ask", "picky_ca")})
            failed, text = printed(run_program.count_failed, "runs", runs)
            self.assertEqual((failed, text.splitlines()[-1]), (len(runs), f"runs: 0 as expected, {len(runs)} not"))
            for path, row in runs:
                path.parent.mkdir(parents=True, exist_ok=True)
                for status in row.status, 1 - row.status:
                    path.write_text(f"#!/bin/sh\nprintf '%s' '{row.line}'\nexit {status}\n")
                    path.chmod(0o755)
                    self.assertEqual(run_program.difference(path, row) is None, status == row.status, row.why)

    def test_greatest_files(self):
        lengths = [len(octets) * count for octets, count in (run_rows.GREATEST, run_rows.TOO_GREAT)]
        self.assertEqual(lengths, [16_777_216, 16_777_217])
        self.assertEqual(run_rows.calls_of({"a": b"", "b": bytes(16_384), "c": bytes(16_385)}), 2 + 3 + 4)


if __name__ == "__main__":
    unittest.main()
