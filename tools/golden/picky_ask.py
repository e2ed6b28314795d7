#!/usr/bin/env python3
"""Make the files of the stored run of `picky_ask`.

Usage:

    python3 tools/golden/picky_ask.py FOLDER

writes FOLDER/data/signed.bin, the signature of the stored run of `picky`, and
FOLDER/stdout, its questions, which `question_judge` lists.
"""

import sys
from pathlib import Path

sys.path.insert(0, str(Path(__file__).resolve().parents[1]))

from common import command
from golden.stored_run import write_stored_run
from interop.signed_programs import sample
from judges import question_judge


def stored_files():
    """The octets of each file, by its path below the folder."""
    octets = sample().file().octets
    return {"data/signed.bin": octets, "stdout": question_judge.of_file(octets)[1].encode("ascii")}


def main(arguments):
    return write_stored_run("picky_ask.py", stored_files, arguments)


if __name__ == "__main__":
    command.run(main, __doc__)
