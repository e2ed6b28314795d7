"""Tests of `made_check`, where openssl and osslsigncode are.

    python3 -m unittest discover -s tools/interop
"""

import sys
import unittest
from pathlib import Path
from unittest.mock import patch

sys.path.insert(0, str(Path(__file__).resolve().parents[1]))

from interop import made_check


class MadeCheckTest(unittest.TestCase):

    def status(self, answers):
        with patch("builtins.print") as told:
            return made_check.check(answers), [str(call.args[0]) for call in told.call_args_list]

    def test_what_is_expected(self):
        status, told = self.status(lambda rows, asked: [case.line() for case in asked])
        self.assertEqual((status, told), (0, ["12 compared with openssl, 0 differing", "12 signatures, 0 complaints"]))

    def test_another_answer(self):
        status, told = self.status(lambda rows, asked: [asked[0].line()[:-2], *(case.line() for case in asked[1:])])
        self.assertEqual((status, told[-1]), (1, "12 signatures, 1 complaints"))

    def test_another_signature(self):
        with patch.object(made_check.Signers, "sign", lambda self, digest, message: bytes(256)):
            status, told = self.status(lambda rows, asked: [case.line() for case in asked])
        self.assertEqual((status, told[-1]), (1, "12 signatures, 12 complaints"))


if __name__ == "__main__":
    unittest.main()
