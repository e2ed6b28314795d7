"""The verdict table for a signature and for certificates: which signatures are asked about, and what is found of them.

`picky_ask` is the one place that says what is asked, and which certificates the programs read; nothing of the file is
read here.
"""

from collections.abc import Iterator
from itertools import chain
from typing import NamedTuple

import verdict_table
from program_check import notes, text
from program_check.certificate import Certificate
from program_check.programs import ASK

# Each pair is a call of `picky_ask`; a chain of 32 has 33.
MOST_PAIRS = 100
# The octets of the certificates in them: of one of a usual length all pairs are asked about.
MOST_OCTETS = 4_194_304


class Pair(NamedTuple):
    """A certificate, and one that may have issued it."""

    child: Certificate
    parent: Certificate


class Pairs(NamedTuple):
    """Those that are asked about, and how many aren't."""

    asked: list
    left_out: int


class Table(NamedTuple):
    """A verdict table as a text, what is found of each signature by its row, notes, and the certificates that no program reads."""

    text: str
    findings: dict
    lacking: list
    unread: set

    def counts(self) -> dict:
        return {"asked": len(self.findings), "good": sum(one.verdict == "accept" for one in self.findings.values())}

    def accepts(self, row: str | None) -> bool:
        """Whether the table takes a signature for good."""
        return row is not None and row in self.findings and self.findings[row].verdict == "accept"


def may_fit(child: Certificate, parent: Certificate) -> bool:
    """Whether the key that a certificate names, where it names one, is that of the other: no link is without that (RFC 5280 4.2.1.1)."""
    return child.authority_key is None or child.authority_key == parent.subject_key


def pairs_of(children, parents, trusted=()) -> Pairs:
    """Each certificate with each of the others that has its issuer's name, as long as both limits allow.

    First come those under a key that the certificate names, then those under a root; certificates that have issued
    themselves come last, since anyone can make any number of them.
    """
    named: dict = {}
    for parent in dict.fromkeys(parents):
        named.setdefault(parent.subject_name, []).append(parent)
    roots = set(trusted)
    found = [Pair(child, parent) for child in dict.fromkeys(children) for parent in named.get(child.issuer_name, ()) if may_fit(child, parent)]
    found.sort(key=lambda pair: (pair.child.is_self_issued(), pair.child.authority_key is None, pair.parent not in roots))
    asked, octets = [], 0
    for pair in found[:MOST_PAIRS]:
        size = len(pair.child.der) + len(pair.parent.der)
        if octets + size <= MOST_OCTETS:
            asked.append(pair)
            octets += size
    return Pairs(asked, len(found) - len(asked))


class Asking:
    """The calls of `picky_ask` about a signature file and certificates."""

    def __init__(self, programs, files, entry, children=(), parents=(), trusted=()):
        self.programs, self.files = programs, files
        self.pairs = pairs_of(children, parents, trusted)
        self.alone = list(dict.fromkeys(chain(children, parents)))
        self.signature = files.of("signature.bin", entry) if entry is not None else None
        self.written = {one: files.of(f"asked{place}.der", one.der) for place, one in enumerate(self.alone)}
        self.unread: set = set()
        self.lacking = [notes.PAIRS.format(self.pairs.left_out)] if self.pairs.left_out else []

    def words_of(self, *certificates) -> list:
        return ["--chain", *(self.written[one] for one in certificates)]

    def calls(self) -> list:
        """The words of each call."""
        of_file = [[self.signature]] if self.signature is not None else []
        return [*of_file, *map(self.words_of, self.alone), *(self.words_of(*pair) for pair in self.pairs.asked)]

    def lines(self) -> Iterator[str]:
        """The questions, those about the signature file first."""
        if self.signature is not None:
            answer = self.programs.questions_of([self.signature])
            if answer.lines is None:
                self.lacking.append(f"{ASK} reads no signature: {answer.line}")
            yield from answer.lines or ()
        for one in self.alone:
            answer = self.programs.questions_of(self.words_of(one))
            if answer.lines is None:
                self.unread.add(one)
                self.lacking.append(f"{ASK} doesn't read the certificate '{one.called()}': {answer.line}")
        for pair in self.pairs.asked:
            if not self.unread.intersection(pair):
                yield from self.programs.questions_of(self.words_of(*pair)).lines or ()

    def table(self) -> Table:
        """The table; NoTable where there is none."""
        judged = verdict_table.rows_of(self.lines())
        rows = "".join(f"{line}\n" for line in judged.rows)
        return Table(rows, {one.row: one for one in judged.findings}, [*self.lacking, *judged.lacking()], self.unread)


def made(programs, files, entry, children=(), parents=(), trusted=(), progress=lambda words: None) -> Table:
    """The table; NoTable where there is none."""
    progress(programs.progress)
    asking = Asking(programs, files, entry, children, parents, trusted)
    programs.expect([(ASK, words) for words in asking.calls()])
    progress(f"{text.counted(len(asking.pairs.asked), 'pair')} of certificates, and the signature, are asked about and verified")
    return asking.table()
