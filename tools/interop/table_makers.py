#!/usr/bin/env python3
"""Compare the makers of verdict tables: `verdict_table.py`, over `cryptography`, and `verdict_table.c`, over libcrypto.

Usage:

    python3 tools/interop/table_makers.py [--python PYTHON] [PROGRAM]

Both makers print one table, with the same sentences on standard error and one status, for

  - the questions that `question_judge` lists of the signatures of `world_signatures.txt`,
    `signed_programs.txt` and `signed_images.txt`, as they are and with their certificates
    in order, of the chains of `chains.py`, of each root of Debian's package
    ca-certificates under itself, and of pools: the certificates of each of these files
    with two of them or more, those of `chains.py`, and all of these roots;
  - the questions of `hostile_questions.py`, whose verdicts are known;
  - of each algorithm two questions whose signatures are good, the shortest of the files
    and of the hostile ones, with each octet of key and signature changed, left out and
    doubled, cut at each, and under other names.

PYTHON is another interpreter, which has another version of `cryptography`, as a third
maker.  PROGRAM is the executable `picky_ask`, in a folder under this name; with it

  - the program prints what `question_judge` lists, and `pool_questions.py` what it lists of
    each certificate of a pool under each whose subject is its issuer;
  - of a signature `check_judge` answers under that table as under the table of
    `asked_signatures`, under the policies of `real_policies`; of a pool the table has the
    rows of that of `asked_signatures`.

The maker in C is compiled by `cc`.  Differences are printed, and make the exit status 1.
"""

import argparse
import sys
from collections import Counter
from itertools import zip_longest
from pathlib import Path
from tempfile import TemporaryDirectory
from typing import NamedTuple

sys.path.insert(0, str(Path(__file__).resolve().parents[1]))

import pool_questions
import signed_program
import verdict_table
from cases import hostile_questions, real_policies
from cases.basic_world import asked_hash
from cases.check_making import File
from common import command, folders
from common.calls import called
from common.openssl import openssl
from interop import chains, question_changes, signed_images
from interop.question_changes import Question, shortest
from judges import asked_signatures, question_judge
from judges.basic_judge import Refused, certificate_in, signed_data_in
from judges.check_judge import answer
from judges.der_reader import write
from judges.verdict_rows import verdicts
from program_check.programs import Programs

TOOLS = folders.ROOT / "tools"
SYSTEM = Path("/usr/share/ca-certificates/mozilla")
COMPILED = "-O2", str(TOOLS / "interop/verdict_table.c"), "-lcrypto"
SECONDS = 1800
MOST_AT_ONCE = 5_000


def images():
    """The signatures of the signed images."""
    for image in signed_images.stored():
        octets = signed_program.signature(image.octets)
        yield f"{image.label}, {image.algorithm}", File(octets, "", asked_hash(octets))


def signatures():
    """Each signature file, as it is and in order, with its label."""
    for label, file in (*real_policies.written(), *images()):
        yield label, file
        ordered = real_policies.in_order(file)
        if ordered is not None and ordered.octets != file.octets:
            yield f"{label}, in order", ordered


def roots():
    """The roots of the system."""
    return [openssl("x509", "-in", file, "-outform", "DER") for file in sorted(SYSTEM.glob("*.crt"))]


def lines_of_certificates():
    """Chains of openssl's certificates, and roots of the system, each under itself."""
    stored = chains.stored()
    for case in chains.CASES:
        yield [stored[label] for label in case.labels]
    for root in roots():
        yield [root, root]


def certificates_in(octets):
    """The certificates of a signature file, none where it isn't read."""
    try:
        bag = signed_data_in(certificate_in(octets)).bag
    except Refused:
        return []
    return [write(one.element) for one in bag]


def pools():
    """Certificates in no order, with a label."""
    for label, file in (*real_policies.written(), *images()):
        members = dict.fromkeys(certificates_in(file.octets))
        if len(members) > 1:
            yield label, list(members)
    yield "certificates of openssl", list(chains.stored().values())
    yield "roots of the system", roots()


def makers(folder, interpreters=()):
    """The words for each maker, by its library; that in C is compiled into the folder."""
    compiled = Path(folder, "verdict_table")
    done = called(["cc", "-Wall", "-o", compiled, *COMPILED])
    if done.returncode:
        raise command.Refusal(f"cc ends with status {done.returncode}: {done.stderr.decode(errors='replace')}")
    script = TOOLS / "verdict_table.py"
    others = {f"cryptography of {python}": [python, script] for python in interpreters}
    return {"cryptography": [sys.executable, script], "libcrypto": [compiled], **others}


class Made(NamedTuple):
    """What a maker answers: its status, its table, and the sentences on standard error."""

    status: int
    table: str
    said: list

    @classmethod
    def by(cls, words, lines):
        """The answer of a maker to lines as octets."""
        done = called(words, lines, SECONDS)
        said = [line.partition(": ")[2] for line in done.stderr.decode(errors="replace").splitlines()]
        return cls(done.returncode, done.stdout.decode(errors="replace"), said)


class Comparison:
    """What was compared, and what differs."""

    def __init__(self, commands):
        self.commands, self.differences = commands, []
        self.questions, self.verdicts = 0, Counter()

    def expect(self, holds, what):
        if not holds:
            self.differences.append(what)

    def of_lines(self, label, lines):
        """What the first maker answers to questions, as far as all answer the same."""
        octets = "".join(f"{line}\n" for line in lines).encode()
        first, *others = (Made.by(words, octets) for words in self.commands.values())
        self.questions += len(lines)
        for name, made in zip(list(self.commands)[1:], others):
            self.expect(made == first, f"{label}: {name} answers otherwise: {first_difference(first, made)}")
        self.verdicts.update(row.partition(" ")[0] for row in first.table.splitlines()[1:])
        self.verdicts["no row"] += sum(": it has no row: " in f": {line}" for line in first.said)
        return first

    def many(self, label, lines):
        """The same of more questions than a table may have."""
        distinct = list(dict.fromkeys(lines))
        for begin in range(0, len(distinct), MOST_AT_ONCE):
            self.of_lines(f"{label}, from {begin}", distinct[begin:begin + MOST_AT_ONCE])

    def hostile(self, questions):
        """The verdicts on questions that are known."""
        known = {one.line(): one for one in questions}
        lines = list(known)
        made = self.of_lines("hostile questions", lines)
        rows = verdicts(made.table)
        for line, one in known.items():
            found = rows.get(" ".join(line.split(" ")[:4]))
            self.expect(found == one.verdict,
                f"{one.name}, {one.label}: {found or 'no row'}, where {one.verdict or 'no row'} is right")

    def summary(self):
        """A line on what was compared."""
        found = ", ".join(f"{many} {verdict}" for verdict, many in sorted(self.verdicts.items()))
        many = len(self.differences)
        return f"{self.questions} questions to {len(self.commands)} makers ({found}), {many} differences"


def first_difference(one, other):
    """Where two answers differ first."""
    if one.status != other.status:
        return f"status {one.status} and {other.status}"
    for what, lines in ("row", (one.table.splitlines(), other.table.splitlines())), ("sentence",
            (one.said, other.said)):
        for place, (first, second) in enumerate(zip_longest(*lines)):
            if first != second:
                return f"{what} {place} is {first!r} and {second!r}"
    return "nothing"


class OfProgram:
    """What the program asks about files, beside `question_judge`, and what follows from the tables."""

    def __init__(self, program, comparison, folder):
        self.program, self.comparison, self.folder = program, comparison, Path(folder)
        self.files, self.pools, self.answers = 0, 0, 0

    def written(self, files):
        paths = [self.folder / str(place) for place in range(len(files))]
        for path, octets in zip(paths, files):
            path.write_bytes(octets)
        return paths

    def expect_asked(self, label, files, listed, *options):
        """The program lists what `question_judge` lists."""
        done = called([self.program, *options, *self.written(files)])
        self.files += 1
        said = done.returncode, done.stdout.decode()
        self.comparison.expect(said == listed, f"{label}: picky_ask prints otherwise than question_judge lists")

    def signature(self, label, file, table):
        """A check under the table answers as under that of `asked_signatures`."""
        known = "".join(f"{line}\n" for line in asked_signatures.table(file.octets, 2)[0])
        for policy in real_policies.many_ways(file):
            self.answers += 1
            same = answer(file.octets, policy, table) == answer(file.octets, policy, known)
            self.comparison.expect(same, f"{label}: the answer under {policy} is another")

    def pool(self, label, files, table):
        """`pool_questions.py` lists what `question_judge` lists, and the table is that of `asked_signatures`."""
        lines = pool_questions.questions(Programs(self.program.parent), self.written(files))
        self.pools += 1
        listed = "".join(f"{line}\n" for line in lines)
        self.comparison.expect((0, listed) == question_judge.of_pool(files),
            f"{label}: pool_questions.py prints otherwise than question_judge lists")
        known = "".join(f"{line}\n" for line in asked_signatures.pool_table(files, 2)[0])
        self.comparison.expect(verdicts(table) == verdicts(known), f"{label}: the table of the pool is another")

    def summary(self):
        return f"{self.files} files, {self.pools} pools, {self.answers} answers"


def real_questions(comparison, of_program):
    """The questions about all files, each with its table; the lines."""
    found = {}
    for label, file in signatures():
        status, listed = question_judge.of_file(file.octets)
        if of_program:
            of_program.expect_asked(label, [file.octets], (status, listed))
        if status:
            continue
        table = comparison.of_lines(label, listed.splitlines()).table
        found |= dict.fromkeys(listed.splitlines())
        if of_program:
            of_program.signature(label, file, table)
    for files in lines_of_certificates():
        status, listed = question_judge.of_chain(files)
        if of_program:
            of_program.expect_asked("a chain", files, (status, listed), "--chain")
        found |= dict.fromkeys(listed.splitlines() if status == 0 else ())
    for label, files in pools():
        listed = question_judge.of_pool(files)[1]
        table = comparison.of_lines(label, listed.splitlines()).table
        found |= dict.fromkeys(listed.splitlines())
        if of_program:
            of_program.pool(label, files, table)
    return list(found)


def good(lines):
    """The questions among these whose signatures are good."""
    return [Question.of(line) for line in lines if verdict_table.rows_of([line]).findings[0].verdict == "accept"]


def main(words):
    parser = argparse.ArgumentParser(description="Two makers of verdict tables.")
    parser.add_argument("--python", action="append", default=[], help="another interpreter, as a third maker")
    parser.add_argument("program", type=command.executable, nargs="?", help="the executable picky_ask")
    known = parser.parse_args(words)
    with TemporaryDirectory() as folder:
        comparison = Comparison(makers(folder, known.python))
        of_program = OfProgram(known.program.resolve(), comparison, folder) if known.program else None
        lines = real_questions(comparison, of_program)
        comparison.many("files", lines)
        hostile = hostile_questions.questions()
        comparison.hostile(hostile)
        bases = dict.fromkeys([*shortest(good(lines)), *shortest(good(one.line() for one in hostile))])
        comparison.many("changes", (one.line() for base in bases for one in question_changes.of(base)))
    for line in comparison.differences:
        print(line)
    print(f"{of_program.summary()}; {comparison.summary()}" if of_program else comparison.summary())
    return 1 if comparison.differences or not comparison.questions else 0


if __name__ == "__main__":
    command.run(main, __doc__)
