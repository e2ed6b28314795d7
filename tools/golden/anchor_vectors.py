"""Vectors of paths to trust anchors, for `xgolden_run`, from `anchor_rows`, which rests on a search of its own."""

from cases.anchor_rows import rows
from golden.stored_run import Vectors


def vectors():
    return Vectors.of(rows())
