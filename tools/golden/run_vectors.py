"""Vectors of whole runs of the programs, for `xgolden_run`.

Rows and lines come from `run_rows`, and for each program from the rows of its own that `run_rows` names, which rest on
searches and readers of their own.
"""

from cases.run_rows import rows
from golden.stored_run import Vectors


def vectors():
    return Vectors.of(rows())
