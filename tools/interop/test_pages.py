"""mandoc finds nothing wrong with the pages of the manual.

    python3 -m unittest discover -s tools/interop
"""

import subprocess
import sys
import unittest
from pathlib import Path

sys.path.insert(0, str(Path(__file__).resolve().parents[1]))

from common import folders


class PagesTest(unittest.TestCase):

    def test_pages(self):
        pages = sorted((folders.ROOT / "man").glob("*.1"))
        self.assertTrue(pages)
        for page in pages:
            done = subprocess.run(["mandoc", "-Tlint", "-W", "warning", page], stdin=subprocess.DEVNULL, capture_output=True, text=True)
            self.assertEqual((done.returncode, done.stdout), (0, ""), page.name)


if __name__ == "__main__":
    unittest.main()
