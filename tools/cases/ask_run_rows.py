"""Rows of `xgolden_run`: whole runs of `picky_ask`, each with the reason why it is there.

The line of a question comes from `question_judge`; status and line of other runs are those of docs/MANUAL.md.  No
run here has two questions, since each row has one line.  `run_rows` has the shelves that fail and the rooms.
"""

from cases.anchor_rows import INT, LEAF
from cases.anchor_run_rows import SHELF, UNREAD, USAGE
from cases.first_path import signature_file
from cases.issuing_chains import UNKNOWN, certificate
from judges import question_judge

SIG, AMPLE, MOST = signature_file(), 4000, 32
# No key fits its algorithm.
STRANGE = certificate("Leaf", "Int", outer=UNKNOWN)


def told(found):
    """Status and line of a run with one line at the most."""
    status, text = found
    return status, text.rstrip("\n")


def of_file(octets):
    return told(question_judge.of_file(octets))


def of_chain(*files):
    return told(question_judge.of_chain(files))


def named(certificates):
    return {f"c{place}": octets for place, octets in enumerate(certificates)}


def files():
    """The files, the words, status and line, and why."""
    yield {"s": SIG}, ["s"], of_file(SIG), "a signature with one question"
    yield {"--chain": SIG}, ["--chain"], USAGE, "the option alone, and a file of its name"
    for octets, why in (
        (b"", "an empty file"), (SIG[:7], "seven octets"), (bytes(8), "zeros"), (SIG[:-1], "an octet fewer"), (SIG[:8], "a header alone"),
        (SIG[:4] + b"\3" + SIG[5:], "another revision"), (SIG[:6] + b"\4" + SIG[7:], "another type"), (SIG[8:], "no header"),
        (SIG[:8] + bytes(len(SIG) - 8), "a header before zeros"), (SIG + b"\0", "an octet behind the header's length"),
    ):
        yield {"s": octets}, ["s"], of_file(octets), why
    for certificates, why in (
        ([LEAF], "a certificate alone"), ([LEAF, INT], "two certificates"), ([INT, LEAF], "two in another order"), ([LEAF, LEAF], "one twice"),
        ([STRANGE, INT], "an algorithm that isn't known"), ([STRANGE] * MOST, f"{MOST} certificates"),
    ):
        members = named(certificates)
        yield members, ["--chain", *members], of_chain(*certificates), why
    for place in 0, 1:
        for octets in b"", LEAF + b"\0", LEAF[:-1], b"\x30\0", SIG:
            members = named([*[LEAF] * place, octets, *[INT] * (1 - place)])
            yield members, ["--chain", *members], UNREAD, f"certificate {place} is none"


def words():
    """Words that are no command."""
    for asked in [], ["s", "s"], ["s", "--chain"], ["--chain", *["c"] * (MOST + 1)]:
        yield {"s": SIG, "c": LEAF}, asked, USAGE, f"{len(asked)} words"
    for option in "-chain", "--Chain", "--chains", "--pool", "--help":
        yield {"s": SIG}, [option, "s"], USAGE, f"the option {option}"
        yield {"s": SIG}, [option], SHELF, f"no file {option}"


def missing():
    yield {}, ["s"], SHELF, "no file"
    for name in "c0", "c1":
        members = named([LEAF, INT])
        yield {other: octets for other, octets in members.items() if other != name}, ["--chain", "c0", "c1"], SHELF, f"no file {name}"


def all_cases():
    """The room, the call that fails, the files, the words, status and line, and why."""
    for each in (files, words, missing):
        for held, asked, expected, why in each():
            yield AMPLE, None, held, asked, expected, why
