"""The proved programs as the reference implementations in Python answer, for tests where none is built.

`StandIn` takes the place of `program_check.programs.Programs`.
"""

from pathlib import Path

import signed_program
from judges import chain_reader, check_judge, pe_judge, question_judge
from judges.chain_reader import Read, Refused
from judges.check_judge import Policy
from judges.verdict_rows import verdicts
from program_check.programs import Answer, Programs

# By the text of a refusal.
PE_NAMES = {
    "no MS-DOS header": "NotMz", "no PE signature": "NotPe", "unknown magic number": "WrongMagic",
    "no data directory": "NoDirectory", "no signature": "NoTable", "not the end of the file": "TableOutside",
}
MOST_PARENTS = 16


def digits_of(date):
    return "".join(filter(str.isdigit, date)).ljust(14, "0")


def signature_line(entry, file_hash, table, date, chain):
    """The line for an entry of a certificate table."""
    line = check_judge.answer(entry, Policy(True, True, True, True, chain, file_hash, digits_of(date)), table)
    return line if line.startswith("accepted") else " ".join(line.split()[:2])


def program_line(octets, table, date, chain):
    """The line of `picky_pe`."""
    try:
        _, _, at = pe_judge.places(octets)
    except pe_judge.NotSigned as refusal:
        return "refused " + next(name for text, name in PE_NAMES.items() if text in str(refusal))
    try:
        digest = signed_program.image_digest(octets, signed_program.named_digest(octets[at:]))
    except signed_program.NotSigned:
        digest = None
    return signature_line(octets[at:], digest and bytes.fromhex(digest), table, date, chain)


def is_link(parent, child, number, date, rows):
    try:
        chain_reader.expect_link(parent, child, number, date, rows)
    except Refused:
        return False
    return True


def anchored_line(anchors, checked, pool, date, table):
    """The line of `picky_anchor`: lists of places by their length, then in their order, then each anchor."""
    try:
        anchors, checked, pool = list(map(Read.of, anchors)), Read.of(checked), list(map(Read.of, pool))
    except Refused:
        return "refused Asn1Deserialization"
    rows, lists = verdicts(table), [[]]
    try:
        checked.expect_valid(date)
    except Refused:
        return "refused NoAnchoredPath"
    for number in range(MOST_PARENTS):
        for places in lists:
            child = pool[places[-1]] if places else checked
            for at, anchor in enumerate(anchors):
                if is_link(anchor, child, number, date, rows):
                    return f"anchored pool={','.join(map(str, places))} anchor={at}"
        lists = [[*places, at] for places in lists for at, one in enumerate(pool)
                 if at not in places and is_link(one, pool[places[-1]] if places else checked, number, date, rows)]
    return "refused NoAnchoredPath"


class StandIn(Programs):
    """The programs, by the reference implementations."""

    questions_of = Programs.in_memory

    def __init__(self):
        super().__init__()
        self.asked = []

    def run(self, program, words, shown):
        self.asked.append((program, list(map(str, words))))
        if program == "picky_ask":
            return Answer(program, shown, *self.questions(*words))
        line = self.line(program, list(words))
        return Answer(program, shown, 0 if line.startswith(("accepted", "anchored")) else 1, line + "\n")

    def line(self, program, words):
        if program == "picky_pe":
            file, table, date, *options = words
            return program_line(Path(file).read_bytes(), Path(table).read_text("ascii"), date, "--no-chain" not in options)
        if program == "picky_anchor":
            table, _, date, count, *files = words
            octets = [Path(file).read_bytes() for file in files]
            return anchored_line(octets[:count], octets[count], octets[count + 1:], digits_of(date), Path(table).read_text("ascii"))
        return self.picky(*words)

    @staticmethod
    def questions(first, *files):
        """Status and output of `picky_ask`."""
        if first == "--chain":
            return question_judge.of_chain([Path(file).read_bytes() for file in files])
        return question_judge.of_file(Path(first).read_bytes())

    @staticmethod
    def picky(command, *words):
        if command == "chain":
            table, date, *files = words
            rows = verdicts(Path(table).read_text("ascii"))
            return chain_reader.line([Path(file).read_bytes() for file in files], digits_of(date), rows)[1].rstrip("\n")
        file, table, digest, date, *options = words
        return signature_line(Path(file).read_bytes(), bytes.fromhex(digest), Path(table).read_text("ascii"), date, "--no-chain" not in options)


