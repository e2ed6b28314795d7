#!/usr/bin/env python3
"""Vectors of certificates, requests and chains, for `xgolden_issuing`; and have openssl read what is issued.

Usage:

    python3 tools/golden/issuing_vectors.py --check

has openssl (3.0 or later) read each certificate and each request that the stored run made, and compares its fields
with what was asked for.  Their signatures are those of the demonstration scheme, which openssl doesn't judge.  The
vectors come from `issuing_rows` and `issuing_chains`, which rest on a maker and a judge of their own.
"""

import sys
from pathlib import Path

sys.path.insert(0, str(Path(__file__).resolve().parents[1]))

from cases.issuing_chains import chain_rows, parent_rows
from cases.issuing_rows import built_rows, generated_rows, request_rows
from common import command
from golden.stored_run import Vectors, stored
from interop import issuing_check


def rows():
    for some in (built_rows, request_rows, generated_rows, chain_rows, parent_rows):
        yield from some()


def vectors():
    return Vectors.of(rows())


def stored_rows():
    """The rows of the stored run, and their lines."""
    return zip(*stored("xgolden_issuing", "issuing"), strict=True)


def main(arguments):
    if arguments == ["--check"]:
        return issuing_check.check(stored_rows())
    print("usage: issuing_vectors.py --check", file=sys.stderr)
    return 2


if __name__ == "__main__":
    command.run(main, __doc__)
