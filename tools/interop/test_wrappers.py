"""Tests of the wrappers in `bindings/` that compile, where the compilers are, over libraries in C in the place of the proved one.

    python3 -m unittest discover -s tools/interop -p test_wrappers.py
"""

import subprocess
import sys
import unittest
from pathlib import Path
from shutil import which
from tempfile import TemporaryDirectory

sys.path.insert(0, str(Path(__file__).resolve().parents[1]))

from common import folders
from gate import bindings

BINDINGS = folders.ROOT / "bindings"

# Both libraries have a word that the line of an answer shows.
OF_DOOR = """
#include <stddef.h>
#include <stdint.h>
#include <stdio.h>
const char *word_of_kit(void);
uint8_t picky_check_bytes(const uint8_t *words, size_t words_length, const uint8_t *signature, size_t signature_length,
                          const uint8_t *table, size_t table_length, const uint8_t *list, size_t list_length,
                          uint8_t *line, size_t line_length, size_t *written) {
    (void)words, (void)words_length, (void)signature, (void)signature_length, (void)table, (void)table_length;
    (void)list, (void)list_length;
    *written = (size_t)snprintf((char *)line, line_length, "WORD %s\\n", word_of_kit());
    return 0;
}
"""
OTHERS = "pe_bytes", "chain_bytes", "ask_bytes", "table_parse", "table_free", "check_with_table", "pe_with_table", "chain_with_table"
OF_KIT = "const char *word_of_kit(void);\nconst char *word_of_kit(void) { return \"WORD\"; }\n"


def library(folder, name, source):
    """Writes the static library of a source in C."""
    (folder / "source.c").write_text(source)
    subprocess.run(["cc", "-c", "-fPIC", folder / "source.c", "-o", folder / "source.o"], check=True)
    (folder / name).unlink(missing_ok=True)
    subprocess.run(["ar", "rcs", folder / name, folder / "source.o"], check=True)


def write_door(folder, word):
    rest = "".join(f"void picky_{name}(void);\nvoid picky_{name}(void) {{}}\n" for name in OTHERS)
    library(folder, "libpicky_door.a", OF_DOOR.replace("WORD", word) + rest)


def write_kit(folder, word):
    library(folder, "liblibc_c.a", OF_KIT.replace("WORD", word))


@unittest.skipUnless(which("cargo"), "cargo isn't there")
class RustTest(unittest.TestCase):
    """The crate links what the libraries are now."""

    def test_another_library_is_linked_again(self):
        with TemporaryDirectory() as name:
            folder = Path(name)
            write_door(folder, "one")
            write_kit(folder, "a")
            self.assertEqual(self.printed(folder), "0 one a\n")
            write_door(folder, "two")
            self.assertEqual(self.printed(folder), "0 two a\n")
            write_kit(folder, "b")
            self.assertEqual(self.printed(folder), "0 two b\n")

    def printed(self, folder):
        """What the caller prints, built again."""
        caller = bindings.in_rust(folder, folder)
        return subprocess.run([*caller, "check", "-", "-", "-"], capture_output=True, text=True, check=True).stdout

    def test_what_a_caller_can_write(self):
        with TemporaryDirectory() as name:
            crate = Path(name) / "libpicky_door.rmeta"
            subprocess.run(
                ["rustc", "--edition=2021", "--crate-name=picky_door", "--crate-type=lib", "--emit=metadata", "-o", crate,
                 BINDINGS / "rust/src/lib.rs"], check=True)
            for body, is_compiled in (
                ("let _ = picky_door::check(&[], b\"\", b\"\", b\"\");", True),
                ("picky_door::check(&[], b\"\", b\"\", b\"\");", False),
                ("let _: Box<dyn std::error::Error> = picky_door::TableError::BadTable.into();", True),
            ):
                done = subprocess.run(
                    ["rustc", "--edition=2021", "--crate-type=lib", "--emit=metadata", "--out-dir", name, "-Dwarnings", "-",
                     "--extern", f"picky_door={crate}"], input=f"pub fn call() {{ {body} }}\n", capture_output=True, text=True)
                with self.subTest(body=body):
                    self.assertEqual(done.returncode == 0, is_compiled, done.stderr)


@unittest.skipUnless(which("c++"), "no compiler of C++ is there")
class CppTest(unittest.TestCase):
    """What a caller in C++ can't write."""

    def compiled(self, body, standard="c++17"):
        program = f'#include "picky.hpp"\nint main() {{ {body} }}\n'
        return subprocess.run(
            ["c++", f"-std={standard}", "-fsyntax-only", "-Wall", "-Wextra", "-Werror", f"-I{BINDINGS}/c", f"-I{BINDINGS}/cpp", "-x", "c++", "-"],
            input=program, capture_output=True, text=True)

    def is_compiled(self, body):
        return self.compiled(body).returncode == 0

    def test_an_answer_is_compared_by_its_line(self):
        self.assertTrue(self.is_compiled('return picky::check({"a"}, "b", "c").line == "accepted" ? 0 : 1;'))

    def test_an_answer_is_no_condition(self):
        self.assertFalse(self.is_compiled('if (picky::check({"a"}, "b", "c")) return 1;'))
        self.assertFalse(self.is_compiled('bool is = picky::check_program({"a"}, "b", "c"); return is;'))

    def test_an_answer_is_used(self):
        self.assertFalse(self.is_compiled('picky::check({"a"}, "b", "c");'))
        self.assertFalse(self.is_compiled('picky::Table table; table.parse("");'))

    def test_the_standard_is_said(self):
        self.assertIn("picky.hpp is written in C++17", self.compiled("", "c++14").stderr)


if __name__ == "__main__":
    unittest.main()
