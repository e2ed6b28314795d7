#!/usr/bin/env python3
"""Compare the answers of a program's reader of DER with those of `der_reader`.

Usage:

    python3 tools/golden/compare_readers.py [--count N] [--seed N] [--skip-digests] PROGRAM [WORD ..]

asks the program for its answers to

  - the rows of `hostile_inputs`;
  - N mutations of valid elements (100,000 unless said) from `der_cases`;
  - all inputs of up to three octets, and all of four octets that begin with
    30, 31, A0, 04 or 02: 100,729,089 of them.

It prints how many answers were compared and the first differences, and ends
with status 0 where there are none, else 1.


The answer line

of an input has three answers with spaces between, those of `read_first`, of
`read_exact` and of a cursor, and a newline:

    ok 5 Trailing 5 5 2 end
    Overrun 2 Overrun 2 Overrun 2

An answer is `ok` and the number of octets taken, or the fault and its place
in decimal.  That of a cursor is the number of octets that each element takes,
one after another, and then the fault and its place, or `end` where no octets
are left.  The faults are spelled as in `der_reader.FAULTS`.  The program
says `ok` only where writing the element that was read gives the octets taken;
else it says `Rewritten` in its place.  As no two elements have one encoding,
this compares the elements too.


The program

is called with the given words and then either

    cases FILE

to print the answer line of each case in the file, in order.  A case is a
length of two octets, little-endian, and so many octets; cases follow each
other up to the end of the file, which is shorter than 16 MiB.  Or with

    digests PREFIX COUNT

for all inputs that are a prefix, in lower-case hexadecimal or `-` for none,
followed by COUNT octets, 0 to 3.  They are ordered as these octets are, read
as a big-endian number, and cut into blocks of at most 65,536: those that
agree in all but the last two of the COUNT octets.  For each block the program
prints one line: the octets in which its inputs agree, spelled as a prefix is,
a space, and in lower-case hexadecimal the SHA-256 of the answer lines of its
inputs, joined.  So every answer counts.  Where a digest differs, the block is
asked for again as cases.

`reader_stand_in.py` is such a program.


How the digests are made here

One reading answers for many inputs.  The reader is given octets that note how
far it looked; where it looked only at the prefix, each input with this prefix
and this length has the same answer.  Else each next octet is tried in turn.
"""

import argparse
import shutil
import subprocess
import sys
import tempfile
from hashlib import sha256
from itertools import islice, product, zip_longest
from pathlib import Path

sys.path.insert(0, str(Path(__file__).resolve().parents[1]))

from cases.der_cases import mutations
from cases.hostile_inputs import ROWS
from common import command
from judges.der_reader import cursor_answer, exact_answer, first_answer

# Prefixes, and how many octets follow.
FAMILIES = (
    ("", 0), ("", 1), ("", 2), ("", 3),
    ("30", 3), ("31", 3), ("a0", 3), ("04", 3), ("02", 3),
)
BLOCK_OCTETS = 2
CASES_IN_A_FILE = 20_000
SHOWN = 20


def answer_line(octets):
    return f"{first_answer(octets)} {exact_answer(octets)} {cursor_answer(octets)}\n"


# Cases in a file.

def case_file(cases):
    """The octets of a file of cases."""
    return b"".join(len(case).to_bytes(2, "little") + case for case in cases)


def cases_of(octets):
    """The cases in the octets of a file."""
    place = 0
    while place < len(octets):
        start = place + 2
        place = start + int.from_bytes(octets[place:start], "little")
        yield octets[start:place]


# Digests of blocks.

def spelled(prefix):
    return prefix.hex() or "-"


def blocks(prefix, count):
    """The prefixes of the blocks of a family, each with its number of octets."""
    free = min(count, BLOCK_OCTETS)
    for octets in product(range(256), repeat=count - free):
        yield prefix + bytes(octets), free


def inputs(prefix, count):
    """The inputs of a block, in order."""
    for octets in product(range(256), repeat=count):
        yield prefix + bytes(octets)


class Watched:
    """Octets that note how far they were looked at."""

    def __init__(self, octets):
        self.octets = octets
        self.seen = 0

    def __len__(self):
        return len(self.octets)

    def __getitem__(self, index):
        if isinstance(index, slice):
            return None  # Contents, which an answer line doesn't show.
        self.seen = max(self.seen, index + 1)
        return self.octets[index]


def runs(prefix, count):
    """The answer lines of all inputs, in order, each with how often it is repeated."""
    watched = Watched(prefix + bytes(count))
    line = answer_line(watched)
    if watched.seen <= len(prefix):
        yield line, 256 ** count
    else:
        for octet in range(256):
            yield from runs(prefix + bytes([octet]), count - 1)


def block_line(prefix, count):
    """What a program must print for a block."""
    digest = sha256()
    for line, repeated in runs(prefix, count):
        digest.update(line.encode() * repeated)
    return f"{spelled(prefix)} {digest.hexdigest()}\n"


# The comparison.

class Comparison:
    """A program's answers against ours, counted; the first differences are kept."""

    def __init__(self, program, folder):
        self.program = program
        self.case_path = Path(folder) / "cases.bin"
        self.compared = 0
        self.different = 0
        self.shown = []

    def asked(self, *words):
        """The lines that the program prints."""
        call = [*self.program, *words]
        printed = subprocess.run(call, check=True, stdout=subprocess.PIPE).stdout
        return printed.decode("ascii").splitlines(keepends=True)

    def differs(self, what, expected, got):
        self.different += 1
        if self.different <= SHOWN:
            self.shown.append(f"{what}: expected {(expected or '').strip() or 'no line'}, "
                              f"got {(got or '').strip() or 'no line'}")

    def compare_cases(self, cases):
        """Each answer line to a list of cases."""
        self.case_path.write_bytes(case_file(cases))
        lines = self.asked("cases", str(self.case_path))
        for case, got in zip_longest(cases, lines):
            expected = None if case is None else answer_line(case)
            if got != expected:
                what = "past the last case" if case is None else case.hex(" ") or "no octets"
                self.differs(what, expected, got)
        self.compared += len(cases)

    def compare_digests(self, prefix, count):
        """Each block of a family; the cases of a block whose digest differs."""
        lines = self.asked("digests", spelled(prefix), str(count))
        for block, got in zip_longest(blocks(prefix, count), lines):
            expected = None if block is None else block_line(*block)
            if block is None:
                self.differs("past the last block", expected, got)
            elif got == expected:
                self.compared += 256 ** block[1]
            else:
                self.explain_block(block, expected, got)

    def explain_block(self, block, expected, got):
        """Compare its inputs as cases; where these agree, the digest is wrong."""
        before = self.different
        if before < SHOWN:
            self.compare_cases(list(inputs(*block)))
        if self.different == before:
            self.differs(f"block {spelled(block[0])}", expected, got)


def in_chunks(cases, size):
    cases = iter(cases)
    while chunk := list(islice(cases, size)):
        yield chunk


def compare(program, count, seed, families):
    """The Comparison of a program, given as a list of words."""
    with tempfile.TemporaryDirectory() as folder:
        comparison = Comparison(program, folder)
        comparison.compare_cases([bytes.fromhex(row.octets) for row in ROWS])
        for chunk in in_chunks(mutations(count, seed), CASES_IN_A_FILE):
            comparison.compare_cases(chunk)
        for prefix, octets in families:
            comparison.compare_digests(bytes.fromhex(prefix), octets)
        return comparison


def main(words):
    parser = argparse.ArgumentParser(description="Compare a program's reader of DER with der_reader.")
    parser.add_argument("--count", type=int, default=100_000, help="how many mutations")
    parser.add_argument("--seed", type=int, default=1, help="what the mutations are drawn from")
    parser.add_argument("--skip-digests", action="store_true", help="compare cases alone")
    parser.add_argument("program", nargs=argparse.REMAINDER, help="the program and its first words")
    options = parser.parse_args(words)
    if not options.program:
        parser.error("no program is given")
    if shutil.which(options.program[0]) is None:
        parser.error(f"'{options.program[0]}' is no executable")
    families = () if options.skip_digests else FAMILIES
    comparison = compare(options.program, options.count, options.seed, families)
    print(f"{comparison.compared:,} inputs compared, {comparison.different:,} differences")
    for difference in comparison.shown:
        print(" ", difference)
    return 1 if comparison.different else 0


if __name__ == "__main__":
    command.run(main, __doc__)
