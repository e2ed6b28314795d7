#!/usr/bin/env python3
"""Compare what `xgolden_check` prints with what `check_judge` says, on signature files with elements changed at random.

Usage:

    python3 tools/golden/compare_check.py [--seed N] [--count N] PROGRAM

PROGRAM is the executable of the crate `xgolden_check`.  Half of the files are those
of `check_vectors.py`, changed as `compare_basic.py` changes them, under policies drawn
at random, the others are drawn whole (`drawn_excuses.py`).  The table accepts most of
the signatures that a check may ask for, so that the steps behind them are reached.  Of
two policies one has a trust list (`drawn_lists.py`).  Exit status 1 says that an answer
differs.
"""

import sys
from pathlib import Path

sys.path.insert(0, str(Path(__file__).resolve().parents[1]))

from cases import check_rows, drawn_excuses, drawn_lists, real_policies
from cases.basic_world import HEADER
from common import command
from golden import check_vectors
from golden.compare_basic import LONGEST, cases, changed, compare, digest_within, options
from judges import asked_signatures
from judges.check_judge import Policy, answer
from judges.der_reader import Malformed, read_first
from judges.value_reader import Shape, word
from judges.verdict_rows import FIRST_LINE

# Dates before, within and after most windows.
DATES = ("20190601000000", "20200101000000", "20230601000000", "20250101000000", "20280601000000", "20300101000001", "20310101000000", "20410101000000")

# What rows of version 2 say, most of them so that the steps behind are reached.
VERDICTS = ("accept",) * 18 + ("reject", "malformed")


def files():
    """The files, each once."""
    yield from dict.fromkeys(row.file.octets for row in check_rows.rows())
    for _, file in real_policies.written():
        yield file.octets
        yield (real_policies.in_order(file) or file).octets


def bases():
    """Values that are one element, each alone in a tuple."""
    for octets in files():
        try:
            element, _ = read_first(octets[HEADER:])
        except Malformed:
            continue
        if len(octets) <= LONGEST:
            yield (element,)


def accepting_table(chance, file):
    """Most of the rows of the signatures that a check of the file may ask for, whether they are good or not, in either version."""
    try:
        asked = list(asked_signatures.asked_of(file))
    except (asked_signatures.NotASignatureFile, Shape, Malformed, AttributeError, IndexError, ValueError):
        return ""
    lines = dict.fromkeys(one.line() for one in asked if one.name())
    rows = [f"{line}\n" for line in lines if chance.random() < 0.95]
    if chance.random() < 0.5:
        return "".join(rows)
    return f"{FIRST_LINE}\n" + "".join(f"{chance.choice(VERDICTS)} {row}" for row in rows * chance.choice((1, 2)))


def policy_for(chance, file):
    lower = chance.choice(DATES) if chance.random() < 0.95 else None
    upper = chance.choice(DATES) if lower and chance.random() < 0.3 else None
    flags = [chance.random() < part for part in (0.5, 0.95, 0.85, 0.85, 0.9)]
    file_hash = digest_within(file) if chance.random() < 0.95 else chance.choice((None, bytes(32)))
    return Policy(*flags, file_hash, lower, upper)


def case(chance, element):
    """A file, a policy and a table; None where there is no such file."""
    file = changed(chance, element, chance.choice((0, 1, 1, 2, 3)))
    return None if file is None else (file, policy_for(chance, file), accepting_table(chance, file))


def either(chance, element):
    """A case of the element, changed, or one that is drawn whole, with a trust list or without."""
    made = drawn_excuses.case(chance) if chance.random() < 0.5 else case(chance, element)
    if made is None or chance.random() < 0.5:
        return made
    file, policy, table = made
    return file, drawn_lists.with_list(chance, file, policy), table


def kind(said):
    """The name of a refusal, or how a file is accepted."""
    words = said.split()
    return " ".join(words[:2]) if words[0] == "refused" else words[-1]


def main(arguments):
    words = options(arguments, "A check under a policy beside a judge in Python.", 4000, "xgolden_check")
    made = cases(words.seed, words.count, bases(), either)
    rows = [(word(octets), check_vectors.table_word(table), check_vectors.asked_word(policy)) for octets, policy, table in made]
    return compare(words.program, ("check", rows), [answer(*one) for one in made], kind)


if __name__ == "__main__":
    command.run(main, __doc__)
