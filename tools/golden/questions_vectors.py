#!/usr/bin/env python3
"""Vectors of the questions of a check, for `xgolden_run`.

Usage:

    python3 tools/golden/questions_vectors.py --all FOLDER

A vector has a signature file of `check_vectors` with its table, the digest that is asked for, dates and intervals,
those of its policies there and one more of each, and a trust list with the time for it, one of its policies or an
empty one.  Of the files each eighth is stored; `--all` writes FOLDER/data/questions and FOLDER/stdout of
every one, for a run that isn't stored.

How many questions there are is what `question_judge` lists; how many are asked is how
many rows `check_judge` looks up under the same policies, with the verdicts of the table
and where every signature is accepted; and none may be another.
"""

import sys
from itertools import product
from typing import NamedTuple
from pathlib import Path
from unittest.mock import patch

sys.path.insert(0, str(Path(__file__).resolve().parents[1]))

from cases import check_rows, list_rows, real_policies
from common import command
from golden.check_vectors import moment_word, table_word
from golden.stored_run import Vectors, stored_files, write_stored_run
from judges import basic_judge, check_judge, question_judge
from judges.basic_judge import Refused
from judges.check_judge import Policy
from judges.value_reader import word
from judges.verdict_rows import verdicts

SOME, LATER = "20250101000000", "20400101000000"
STEP = 8
FLAGS = "basic", "signing", "not_before", "not_after", "chain"


class Recorded(dict):
    """The rows of a table, which records those that are looked up."""

    asked = set()

    def get(self, row, default=None):
        self.asked.add(row)
        return super().get(row, default)


class Accepting(Recorded):
    """A table with every row, each accepted."""

    def get(self, row, default=None):
        super().get(row)
        return "accept"


class Of(NamedTuple):
    """What is asked of a file: digests, dates with the end of an interval or None, and lists with their times."""

    hashes: dict
    dates: dict
    lists: dict

    @classmethod
    def none(cls):
        return cls({}, {(SOME, None): None, (SOME, LATER): None}, {})

    def add(self, policy):
        self.hashes[policy.file_hash] = None
        if policy.lower:
            self.dates[policy.lower, policy.upper] = None
        if policy.trust_list is not None and is_list(policy.trust_list):
            self.lists[policy.trust_list, policy.now] = None

    def file_hash(self):
        return next(filter(None, self.hashes), None)

    def trust_list(self):
        return next(iter(self.lists), (list_rows.EMPTY, list_rows.NOW))

    def policies(self):
        """Each choice of flags at each date, without a list and against it."""
        file_hash, (trust_list, now) = self.file_hash(), self.trust_list()
        for (lower, upper), flags in product(self.dates, product((False, True), repeat=len(FLAGS))):
            policy = Policy(**dict(zip(FLAGS, flags)), file_hash=file_hash, lower=lower, upper=upper)
            yield policy
            yield policy._replace(against_list=True, trust_list=trust_list, now=now)

    def words(self):
        file_hash, (trust_list, now) = self.file_hash(), self.trust_list()
        dates = ("-".join(map(moment_word, filter(None, date))) for date in self.dates)
        return "-" if file_hash is None else word(file_hash), ",".join(dates), word(trust_list), str(now)


def is_list(octets):
    try:
        check_judge.list_in(octets)
    except Refused:
        return False
    return True


def once(read):
    """A reader that reads each value once."""
    found = {}

    def known(value):
        if id(value) not in found:
            found[id(value)] = value, read(value)
        return found[id(value)][1]

    return known


def asked_of(octets, policies, rows):
    """The rows that are looked up for a file under these policies."""
    rows.asked = set()
    readers = {name: once(getattr(check_judge, name)) for name in ("certificate_in", "signed_data_in", "dated", "list_in")}
    with patch.object(basic_judge, "verdicts", lambda _: rows), patch.multiple(check_judge, verdicts=lambda _: rows, **readers):
        for policy in policies:
            check_judge.answer(octets, policy, "")
    return rows.asked


def files():
    """Each file with its table, and what its policies ask for."""
    found = {}
    policies = [((row.file.octets, row.file.table), row.policy) for row in check_rows.rows()]
    policies += [((file.octets, file.table), policy) for file, policy, _, _ in real_policies.asked()]
    for file, policy in policies:
        found.setdefault(file, Of.none()).add(policy)
    return found


def vector(file, of_it):
    """A vector and its line."""
    octets, table = file
    status, text = question_judge.of_file(octets)
    lines = text.splitlines() if status == 0 else []
    listed, counts = {" ".join(line.split(" ")[:4]) for line in lines}, []
    for rows in Recorded(verdicts(table)), Accepting():
        asked = asked_of(octets, of_it.policies(), rows)
        counts += len(asked), len(asked - listed)
    words = word(octets), table_word(table), *of_it.words()
    return " ".join(words), "questions={} asked={} others={} accepting: asked={} others={}".format(len(lines), *counts)


def vectors(step=STEP):
    return Vectors.of(vector(file, of_it) for file, of_it in list(files().items())[::step])


def main(arguments):
    folder = arguments[1:] if arguments[:1] == ["--all"] else ()
    return write_stored_run("questions_vectors.py --all", lambda: stored_files({"questions": vectors(1)}), folder)


if __name__ == "__main__":
    command.run(main, __doc__)
