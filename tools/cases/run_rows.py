"""Rows of `xgolden_run` on failing shelves, sinks that are too small, and files at the greatest length, for all programs.

A program is added by a line of `commands`; each has rows of its own too (`OWN_ROWS`).  Status and line are those of
docs/MANUAL.md; that a command is accepted is what the rules of each program say of the files, which other rows show.
"""

from dataclasses import dataclass

from cases import anchor_run_rows, ask_run_rows, ca_run_rows, image_run_rows, signature_run_rows
from cases.anchor_rows import CODE, CROSS, INT, LEAF, ROOT
from cases.anchor_run_rows import ROOM, SHELF, SINK, table_for
from cases.check_making import file
from cases.check_parts import DAY, LATER, S, T, I
from cases.first_path import FILE_HASH, signature_file, verdict_line
from cases.list_rows import list_with
from golden.image_vectors import made
from judges import demo_maker

TOO_LONG, BAD_TABLE = (6, ""), (3, "")
# The octets that a call of the shelf returns at the most, and those of the longest file.
PIECE, LONGEST = 16_384, 16_777_216
# So many times these zeros are a file of the greatest length, and one of an octet more.
GREATEST, TOO_GREAT = (bytes(64), LONGEST // 64), (bytes(257), (LONGEST + 1) // 257)
EMPTY, NO_ELEMENT, NO_LIST, NO_IMAGE = (f"refused {name}" for name in ("CertificateDataIsEmpty", "Asn1Deserialization", "FailedToParseCtl", "NotMz"))
TABLE = None


@dataclass(frozen=True)
class Command:
    """A program's name, its words, its files in the order in which they are read, status and line.

    `zeros` has for each file that is also tried at the greatest length the line of the refusal where it is zeros, None for a table.
    """

    program: str
    words: tuple
    files: dict
    line: str
    zeros: dict
    status: int = 0


# The commands.

def of_signature(words, made_file, line, zeros=None, **others):
    """A command of `picky` over a signature file and its table."""
    files = {"s": made_file.octets, "t": made_file.table.encode(), **others}
    return Command("picky", words, files, line, {"s": EMPTY, "t": TABLE} if zeros is None else zeros)


def of_chain():
    members = {"leaf": LEAF, "int": INT, "root": ROOT}
    table = bytes.fromhex(table_for(members.values()).word)
    return Command("picky", ("chain", "t", DAY, *members), {"t": table, **members}, "accepted parents=2", {"t": TABLE, "leaf": NO_ELEMENT, "root": NO_ELEMENT})


def of_image(*options, **others):
    """A command of `picky_pe` over a program of zeros."""
    image, table = made()
    files = {"p": image, "t": table.encode(), **others}
    zeros = dict.fromkeys(others, NO_LIST) or {"p": NO_IMAGE, "t": TABLE}
    return Command("picky_pe", ("p", "t", DAY, *options), files, "accepted signer=0 path= excuse=none", zeros)


def of_anchor(anchors, checked, pool, line, status=0):
    members = {f"c{place}": octets for place, octets in enumerate((*anchors, checked, *pool))}
    table = bytes.fromhex(table_for(members.values()).word)
    words = ("t", CODE, DAY, str(len(anchors)), *members)
    zeros = {} if status else {"t": TABLE, **dict.fromkeys((words[4], words[-1]), NO_ELEMENT)}
    return Command("picky_anchor", words, {"t": table, **members}, line, zeros, status)


def of_question():
    """A command of `picky_ask` over a signature file, and one over two certificates."""
    sig, members = FirstPath.octets, {"leaf": LEAF, "int": INT}
    yield Command("picky_ask", ("s",), {"s": sig}, ask_run_rows.of_file(sig)[1], {"s": EMPTY})
    line = ask_run_rows.of_chain(*members.values())[1]
    yield Command("picky_ask", ("--chain", *members), members, line, dict.fromkeys(members, NO_ELEMENT))


def of_register(text, line, status=0):
    return Command("picky_ca", ("r", DAY), {"r": text.encode()}, line, {} if status else {"r": TABLE}, status)


class FirstPath:
    octets, table = signature_file(), verdict_line()


CHAIN, EXCUSED, HASH = file(S, I), file(S, I, T), FILE_HASH.hex()


def commands():
    """One for each command of each program."""
    yield of_signature(("basic", "s", "t", HASH), FirstPath, "accepted signer=0 path= excuse=none")
    yield of_signature(("check", "s", "t", HASH, DAY), CHAIN, "accepted signer=0 path=1 excuse=none")
    yield of_signature(("check", "s", "t", HASH, LATER), EXCUSED, "accepted signer=0 path=1 excuse=bag", {})
    yield of_signature(("check", "s", "t", HASH, DAY, "--list", "l", "0"), CHAIN, "accepted signer=0 path=1 excuse=none", {"l": NO_LIST}, l=list_with(b"R"))
    yield of_chain()
    yield Command("picky", ("demo", "2"), {}, demo_maker.line(2), {})
    yield of_image()
    yield of_image("--list", "l", "0", l=list_with(b"A"))
    yield of_anchor([ROOT], LEAF, [CROSS, INT], "anchored pool=1 anchor=0")
    yield of_anchor([ROOT], LEAF, [], "refused NoAnchoredPath", 1)
    yield from of_question()
    yield of_register(ca_run_rows.CHAIN, "ca issued=3 accepted=3")
    yield of_register(ca_run_rows.CHAIN + "child 2 14 X n - 2022-01-01 2023-01-01\n", "refused NotCa", 1)


# The rows: the program, the room, the call that fails, the files, the words, status and line.

def row(program, room, call, files, words, expected):
    listed = ",".join(f"{name}={word_of(octets)}" for name, octets in files.items()) or "-"
    status, line = expected
    return " ".join((program, str(room), "-" if call is None else str(call), listed, *words)), f"{status} {line}"


def word_of(octets):
    """A file in one word: octets, or some and how often they are repeated."""
    if isinstance(octets, tuple):
        return f"{octets[0].hex()}*{octets[1]}"
    return octets.hex() or "-"


def calls_of(files):
    """The calls of the shelf: each file is picked, read piece by piece, and read at its end."""
    return sum(2 + -(-len(octets) // PIECE) for octets in files.values())


def of_command(one):
    """The command as it is, with each call of the shelf failing, each file missing, at the greatest length and longer, and with each room."""
    whole, ample = (one.status, one.line), max(ROOM, len(one.line) + 1)
    calls = calls_of(one.files)
    for call in range(calls + 2):
        yield ample, call, one.files, one.words, SHELF if call < calls else whole
    for room in range(len(one.line) + 2):
        yield room, None, one.files, one.words, whole if room > len(one.line) else (SINK[0], one.line[:room])
    for name in one.files:
        yield ample, None, {other: octets for other, octets in one.files.items() if other != name}, one.words, SHELF
    for name, said in one.zeros.items():
        yield ample, None, {**one.files, name: GREATEST}, one.words, BAD_TABLE if said is TABLE else (1, said)
        yield ample, None, {**one.files, name: TOO_GREAT}, one.words, TOO_LONG


OWN_ROWS = {
    "picky_anchor": anchor_run_rows,
    "picky_ask": ask_run_rows,
    "picky_ca": ca_run_rows,
    "picky": signature_run_rows,
    "picky_pe": image_run_rows,
}


def rows():
    """Every row, and what is printed of it."""
    for program, cases in OWN_ROWS.items():
        for case in cases.all_cases():
            yield row(program, *case[:-1])
    for one in commands():
        for case in of_command(one):
            yield row(one.program, *case)
