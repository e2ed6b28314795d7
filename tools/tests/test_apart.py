"""What users run shares nothing with the reference implementation that it is compared with.

    python3 -m unittest discover -s tools/tests
"""

import ast
import unittest
from pathlib import Path

TOOLS = Path(__file__).resolve().parents[1]
# Folders of what the repository is tested with.
OF_TESTS = {"cases", "gate", "golden", "interop", "judges", "tests"}


def imported(file: Path) -> set:
    """The modules that a file imports, wherever in it, by their whole names."""
    found = set()
    for node in ast.walk(ast.parse(file.read_text("utf-8"))):
        if isinstance(node, ast.Import):
            found |= {one.name for one in node.names}
        elif isinstance(node, ast.ImportFrom) and node.level == 0:
            found |= {node.module, *(f"{node.module}.{one.name}" for one in node.names)}
        elif isinstance(node, ast.ImportFrom):
            found.add("." * node.level)
        elif isinstance(node, ast.Call) and getattr(node.func, "id", getattr(node.func, "attr", "")) in ("__import__", "import_module"):
            found.add("by a call")
    return found


def files_of_users(top: Path) -> list:
    """The scripts for users, and the modules beside them."""
    return sorted(file for file in top.rglob("*.py") if file.relative_to(top).parts[0] not in OF_TESTS)


def of_tests(file: Path, top: Path) -> set:
    """The modules of tests that a file imports, and imports that don't say which."""
    return {name for name in imported(file) if name.split(".")[0] in OF_TESTS or name.startswith(".") or name == "by a call"}


class ApartTest(unittest.TestCase):
    def test_users_scripts(self):
        files = files_of_users(TOOLS)
        names = {str(file.relative_to(TOOLS)) for file in files}
        scripts = {"check_program.py", "order_bag.py", "ordered_program.py", "pool_questions.py", "signed_program.py", "verdict_table.py"}
        self.assertLessEqual(scripts | {"common/der.py", "program_check/check.py", "program_check/signature.py"}, names)
        for file in files:
            self.assertEqual(of_tests(file, TOOLS), set(), file.name)

    def test_that_it_finds_them(self):
        """Each form of an import is found in files of the tests that have it."""
        self.assertIn("judges.der_reader", imported(TOOLS / "judges/asked_signatures.py"))
        self.assertIn("judges", of_tests(TOOLS / "gate/programs_stand_in.py", TOOLS))


if __name__ == "__main__":
    unittest.main()
