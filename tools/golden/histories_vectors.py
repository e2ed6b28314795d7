#!/usr/bin/env python3
"""Vectors of issuing histories, for `xgolden_issuing`.

Usage:

    python3 tools/golden/histories_vectors.py --count

prints how many steps there are and how many are valid, by the number of their ancestors, then those issued for a
request and those issued to their issuer's name.  The histories are those of `drawn_histories`, and `history_judge` says
which of their steps are valid.
"""

import sys
from collections import Counter
from pathlib import Path

sys.path.insert(0, str(Path(__file__).resolve().parents[1]))

from cases.drawn_histories import histories
from common import command
from golden.stored_run import Vectors
from judges.history_judge import ancestors, is_valid


def shown(value):
    return "-" if value is None else str(value)


def step_word(step):
    flag = "ca" if step.ca else "end"
    asked = "request" if step.request else "key", "issuer" if step.same_name else "own"
    return ",".join((shown(step.issuer), flag, shown(step.path_length), f"{step.first}Z", f"{step.last}Z", *asked))


def row(date, steps):
    return " ".join((f"{date}Z", *map(step_word, steps)))


def line(date, steps):
    return "".join("1" if is_valid(steps, index, date) else "0" for index in range(len(steps)))


def vectors():
    return Vectors.of((row(*history), line(*history)) for history in histories())


def kinds_of(step):
    return ["request"] * step.request + ["same name"] * step.same_name


def counted():
    """Print the steps and the valid ones, by the number of their ancestors, and by how they were asked for."""
    steps, valid = Counter(), Counter()
    for date, history in histories():
        for index, step in enumerate(history):
            for kind in (len(ancestors(history, index)), *kinds_of(step)):
                steps[kind] += 1
                valid[kind] += is_valid(history, index, date)
    for kind in sorted(steps, key=str):
        print(kind, steps[kind], valid[kind])
    return 0


def main(arguments):
    if arguments == ["--count"]:
        return counted()
    print("usage: histories_vectors.py --count", file=sys.stderr)
    return 2


if __name__ == "__main__":
    command.run(main, __doc__)
