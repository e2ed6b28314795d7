#!/usr/bin/env python3
"""Check files by tables that are made from their questions alone.

Usage:

    python3 tools/golden/question_tables.py [--seed N] [--tables N] PROGRAM

PROGRAM is the executable of the crate `xgolden_check`.  The files are all those of its
stored run, under their policies, with the answers there.  By `question_judge`'s list of
the questions about a file,

  - a table with the rows of the questions, each with the verdict of the file's own table,
    gives the stored answer;
  - so do N tables (10,000 unless said) in which rows with random verdicts are added, of the
    questions about other files and of parts of these questions, in any order;
  - where the answer is an acceptance, a table that lacks one of the questions that were asked
    gives a refusal.  Which were asked is what `check_judge` looks up.

Differences are printed, and make the exit status 1.
"""

import argparse
import random
import subprocess
import sys
from pathlib import Path
from tempfile import TemporaryDirectory
from unittest.mock import patch

sys.path.insert(0, str(Path(__file__).resolve().parents[1]))

from cases import check_rows, real_policies
from common import command
from golden.check_vectors import asked_word, table_word
from golden.questions_vectors import Recorded
from judges import basic_judge, check_judge, question_judge
from judges.value_reader import word
from judges.verdict_rows import FIRST_LINE, verdicts

MOST_ADDED, SHOWN = 12, 10
VERDICTS = "accept", "reject", "malformed"


def asked():
    """Each file with its table, a policy, and the stored answer; those that are asked about with an octet changed are left out."""
    for row in check_rows.rows():
        yield row.file.octets, row.file.table, row.policy, row.said
    for file, policy, change, said in real_policies.asked():
        if change is None:
            yield file.octets, file.table, policy, said


def questions_about(octets):
    """The rows of the questions about a file."""
    status, text = question_judge.of_file(octets)
    return [" ".join(line.split(" ")[:4]) for line in text.splitlines()] if status == 0 else []


def table_of(rows):
    return "".join(f"{line}\n" for line in (FIRST_LINE, *(f"{verdict} {row}" for row, verdict in rows)))


def verdicts_on(rows, table):
    """The rows with a table's verdicts, as far as it has them."""
    known = verdicts(table)
    return [(row, known[row]) for row in dict.fromkeys(rows) if row in known]


def looked_up(octets, policy, table):
    """The rows that a check looks up."""
    rows = Recorded(verdicts(table))
    rows.asked = set()
    with patch.object(basic_judge, "verdicts", lambda _: rows), patch.object(check_judge, "verdicts", lambda _: rows):
        check_judge.answer(octets, policy, table)
    return rows.asked


def mixed(chance, rows, others):
    """A row of another file, or one of these with a part of another."""
    other = chance.choice(others).split(" ")
    if not rows or chance.random() < 0.5:
        return " ".join(other)
    one = chance.choice(rows).split(" ")
    place = chance.randrange(4)
    return " ".join([*one[:place], other[place], *one[place + 1:]])


def added(chance, rows, own, others):
    """A table with these rows and others, of random verdicts, in any order."""
    more = {}
    for _ in range(chance.randint(1, MOST_ADDED)):
        row = mixed(chance, own, others)
        if row not in own:
            more.setdefault(row, chance.choice(VERDICTS))
    lines = [*rows, *more.items()]
    chance.shuffle(lines)
    return table_of(lines)


def cases(chance, tables):
    """Each case: what it is, the file, a table, a policy, and whether an answer fits."""
    stored = list(asked())
    known = {octets: questions_about(octets) for octets, *_ in stored}
    others = [row for rows in known.values() for row in rows]
    for octets, table, policy, said in stored:
        rows = verdicts_on(known[octets], table)
        yield "the questions alone", octets, table_of(rows), policy, said.__eq__
        if said.startswith("accepted"):
            for lacking in looked_up(octets, policy, table):
                left = [(row, verdict) for row, verdict in rows if row != lacking]
                yield "a table without a question that decides", octets, table_of(left), policy, lambda answer: answer.startswith("refused")
    for _ in range(tables):
        octets, table, policy, said = chance.choice(stored)
        rows = verdicts_on(known[octets], table)
        yield "other rows of random verdicts", octets, added(chance, rows, known[octets], others), policy, said.__eq__


def answers(program, all_cases):
    """What the program answers to each."""
    with TemporaryDirectory() as folder:
        file = Path(folder, "cases.txt")
        with file.open("w", encoding="ascii") as out:
            for _, octets, table, policy, _ in all_cases:
                print(word(octets), table_word(table), asked_word(policy), file=out)
        return subprocess.run([program, "check", file], check=True, capture_output=True, text=True).stdout.splitlines()


def main(words):
    parser = argparse.ArgumentParser(description="Checks by tables of the questions alone.")
    parser.add_argument("--seed", type=int, default=1)
    parser.add_argument("--tables", type=int, default=10_000)
    parser.add_argument("program", type=command.executable)
    options = parser.parse_args(words)
    all_cases = list(cases(random.Random(options.seed), options.tables))
    found, counts, wrong = answers(options.program.resolve(), all_cases), {}, []
    for (what, octets, table, policy, fits), answer in zip(all_cases, found, strict=True):
        counts[what] = counts.get(what, 0) + 1
        if not fits(answer):
            wrong.append(f"{what}: {answer}: {word(octets)} {table_word(table)} {asked_word(policy)}")
    for line in wrong[:SHOWN]:
        print(line)
    for what, count in counts.items():
        print(f"{what}: {count}")
    print(f"{len(wrong)} differ")
    return 1 if wrong else 0


if __name__ == "__main__":
    command.run(main, __doc__)
