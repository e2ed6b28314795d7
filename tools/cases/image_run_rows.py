"""Rows of `xgolden_run`: whole runs of `picky_pe` over the program of `made`, each with its reason.

Status and line are those of docs/MANUAL.md; what is refused follows from the tables of the format and the steps in
docs/FORMATS.md.
"""

from cases.anchor_run_rows import BAD_TABLE, SHELF, SINK, USAGE
from cases.signature_run_rows import ACCEPTED, LONGEST, MANY_CALLS, ROOM, TOO_LONG, named, refused, zeros
from golden.image_vectors import made

PROGRAM, ROW = made()
DAY = "2025-01-01"
MISMATCH = refused("FileHashMismatch")

# Why, the length to which the program is cut or lengthened with zeros, an offset, the octets from there on, and status
# and line.
PROGRAMS = [
    ("as it is made",           774, 0,   "",     ACCEPTED),
    ("no octets",               0,   0,   "",     refused("NotMz")),
    ("63 octets",               63,  0,   "",     refused("NotMz")),
    ("another first octet",     774, 0,   "00",   refused("NotMz")),
    ("89 octets",               89,  0,   "",     refused("NotPe")),
    ("no PE signature",         774, 64,  "00",   refused("NotPe")),
    ("no magic number",         774, 88,  "00",   refused("WrongMagic")),
    ("PE32's magic number",     774, 89,  "01",   refused("NoDirectory")),
    ("four data directories",   774, 196, "04",   refused("NoDirectory")),
    ("the first part changed",  774, 100, "01",   MISMATCH),
    ("the checksum changed",    774, 153, "01",   ACCEPTED),
    ("the second part changed", 774, 200, "01",   MISMATCH),
    ("another address",         774, 232, "49",   refused("TableOutside")),
    ("the size 0",              774, 236, "0000", refused("NoTable")),
    ("the size 0x1BF",          774, 236, "bf",   refused("TableOutside")),
    ("the third part changed",  774, 300, "01",   MISMATCH),
    ("type of certificate 3",   774, 334, "03",   ACCEPTED),
    ("type of certificate 4",   774, 334, "04",   refused("WrongCertificateType")),
    ("one octet appended",      775, 0,   "",     refused("TableOutside")),
]

# Why, a table, and status and line.
TABLES = [
    ("the accepting row", ROW,                               ACCEPTED),
    ("an empty table",    "",                                refused("SignatureError")),
    ("accept",            f"picky-verdicts 2\naccept {ROW}", ACCEPTED),
    ("reject",            f"picky-verdicts 2\nreject {ROW}", refused("SignatureError")),
    ("a bad line",        f"x\n{ROW}",                       BAD_TABLE),
]

# Why, words after the program and the table, and status and line.
LISTED = [
    ("no list", "2025-01-01", ACCEPTED),
    ("the CA is listed", "2025-01-01 --list any 0", ACCEPTED),
    ("another CA is", "2025-01-01 --list another 0", refused("CAIsNotTrusted")),
    ("up to this second", "2025-01-01 --list until5 5", ACCEPTED),
    ("up to the second before", "2025-01-01 --list until5 6", refused("CaCertificateExpired")),
    ("an empty list", "2025-01-01 --list empty 0", refused("FailedToParseCtl")),
    ("the list is read first", "2035-01-01 --list empty 0", refused("FailedToParseCtl")),
    ("the signer before the CA", "2035-01-01 --list another 0", refused("InvalidCertificate:CertificateExpired")),
    ("but not with this option", "2035-01-01 --no-after --list another 0", refused("CAIsNotTrusted")),
    ("before its first day", "2019-01-01", refused("InvalidCertificate:CertificateNotYetValid")),
    ("but not with this option", "2019-01-01 --no-before", ACCEPTED),
    ("up to a day past its end", "2025-01-01 --until 2035-01-01", ACCEPTED),
    ("up to a day ahead of it", "2018-01-01 --until 2019-01-01", refused("InvalidCertificate:CertificateNotYetValid")),
    ("no list of this name", "2025-01-01 --list missing 0", SHELF),
]

# Which comes first: why, the first octets of the program, a table, the name of a list, and status and line.
ORDER = [
    ("no program, and no list",         "00", ROW,   "empty",   refused("FailedToParseCtl")),
    ("no program, and another CA",      "00", ROW,   "another", refused("NotMz")),
    ("no program, and a bad table",     "00", "x\n", "any",     BAD_TABLE),
    ("a bad table, and no list",        "",   "x\n", "empty",   BAD_TABLE),
    ("a bad table, and a missing list", "00", "x\n", "missing", SHELF),
]

# Why, words for a program, a file `--until` and a table that are empty, and whether they request a check.
WORDS = [
    ("no words",               None,                                                                  False),
    ("a program alone",        "p",                                                                   False),
    ("without a date",         "p t",                                                                 False),
    ("at a day",               "p t 2025-01-31",                                                      True),
    ("at a moment",            "p t 2024-02-29T23:59:59",                                             True),
    ("at no such day",         "p t 2023-02-29",                                                      False),
    ("at no such hour",        "p t 2025-01-31T24:00:00",                                             False),
    ("a digest for a date",    "p t 00",                                                              False),
    ("the date first",         "2025-01-31 p t",                                                      False),
    ("a command first",        "check p t 2025-01-31",                                                False),
    ("a digest between",       "p t 00 2025-01-31",                                                   False),
    ("a word too many",        "p t 2025-01-31 x",                                                    False),
    ("an empty word too many", "p t 2025-01-31 ",                                                     False),
    ("a name like an option",  "--until t 2025-01-31",                                                True),
    ("up to a day",            "p t 2025-01-31 --until 2025-02-01",                                   True),
    ("to a moment",            "p t 2025-01-31 --until 2025-02-01T00:00:01",                          True),
    ("to an earlier day",      "p t 2025-01-31 --until 2024-02-01",                                   True),
    ("to no such day",         "p t 2025-01-31 --until 2025-02-30",                                   False),
    ("to no day",              "p t 2025-01-31 --until",                                              False),
    ("an option for a day",    "p t 2025-01-31 --until --no-chain",                                   False),
    ("a day in one word",      "p t 2025-01-31 --until=2025-02-01",                                   False),
    ("not already",            "p t 2025-01-31 --no-before",                                          True),
    ("not still",              "p t 2025-01-31 --no-after",                                           True),
    ("no chain",               "p t 2025-01-31 --no-chain",                                           True),
    ("each option",            "p t 2025-01-31 --no-chain --until 2025-02-01 --no-after --no-before", True),
    ("in another order",       "p t 2025-01-31 --no-before --no-after --no-chain --until 2025-02-01", True),
    ("two days",               "p t 2025-01-31 --until 2025-02-01 --until 2025-02-01",                False),
    ("not still, twice",       "p t 2025-01-31 --no-after --no-chain --no-after",                     False),
    ("ahead of the date",      "p t --no-chain 2025-01-31",                                           False),
    ("ahead of the files",     "--no-chain p t 2025-01-31",                                           False),
    ("a word between",         "p t 2025-01-31 --no-after p --no-chain",                              False),
    ("another option",         "p t 2025-01-31 --help",                                               False),
    ("in another case",        "p t 2025-01-31 --No-Chain",                                           False),
    ("a list",                 "p t 2025-01-31 --list t 0",                                           True),
    ("of 18 digits",           "p t 2025-01-31 --list t 999999999999999999",                          True),
    ("of 19 digits",           "p t 2025-01-31 --list t 0000000000000000000",                         False),
    ("with a sign",            "p t 2025-01-31 --list t +1",                                          False),
    ("without seconds",        "p t 2025-01-31 --list t",                                             False),
    ("two lists",              "p t 2025-01-31 --list t 0 --list t 0",                                False),
    ("a list like an option",  "p t 2025-01-31 --list --until 0 --until 2025-02-01",                  True),
]

# Why, words for files that may be missing, and status and line.
NAMES = [
    ("no program",         "x t 2025-01-31",            SHELF),
    ("no table",           "p x 2025-01-31",            SHELF),
    ("no list",            "p t 2025-01-31 --list x 0", SHELF),
    ("an empty name",      " t 2025-01-31",             SHELF),
    ("another case",       "P t 2025-01-31",            SHELF),
    ("no words, no files", "x y z",                     USAGE),
]

# So many zeros as a program, so many newlines as a table, and status and line.
SIZES = [
    (LONGEST, 0, refused("NotMz")),
    (LONGEST + 1, 0, TOO_LONG),
    (1, LONGEST, BAD_TABLE),
    (1, LONGEST + 1, TOO_LONG),
    (LONGEST + 1, 1, TOO_LONG),
]
# The calls of the shelf of a run over three short files, each picked, read, and read at its end.
CALLS = 9


def shelf(program=PROGRAM, table=ROW, words=()):
    """A program, a table, and the lists that words name."""
    return {"p": program, "t": table.encode() if isinstance(table, str) else table, **named(words)}


def changed(length, at, octets):
    """The program at this length, with these octets from an offset on."""
    program = PROGRAM[:length].ljust(length, b"\0")
    behind = bytes.fromhex(octets)[:max(0, length - at)]
    return program[:at] + behind + program[at + len(behind):]


def over_programs():
    for why, length, at, octets, expected in PROGRAMS:
        yield ROOM, None, shelf(changed(length, at, octets)), ["p", "t", DAY], expected, why
    yield ROOM, None, shelf(bytes(63)), ["p", "t", DAY], refused("NotMz"), "63 zeros"
    for why, table, expected in TABLES:
        yield ROOM, None, shelf(table=table), ["p", "t", DAY], expected, why
    for why, words, expected in LISTED:
        asked = ["p", "t", *words.split(" ")]
        yield ROOM, None, shelf(words=asked), asked, expected, why
    for why, first, table, name, expected in ORDER:
        asked = ["p", "t", DAY, "--list", name, "0"]
        yield ROOM, None, shelf(changed(len(PROGRAM), 0, first), table, asked), asked, expected, why
    for octets, newlines, expected in SIZES:
        why = f"{octets} zeros, {newlines} newlines"
        yield ROOM, None, shelf(zeros(octets), zeros(newlines, 10)), ["p", "t", DAY], expected, why


def of_words():
    """What is refused first of empty files: the list, else the program."""
    files = {"p": b"", "--until": b"", "t": b""}
    for why, words, requests in WORDS:
        asked = [] if words is None else words.split(" ")
        first = refused("FailedToParseCtl" if "--list" in asked else "NotMz")
        yield ROOM, None, files, asked, first if requests else USAGE, why
    for why, words, expected in NAMES:
        yield ROOM, None, files, words.split(" "), expected, why


def within_limits():
    """Each call of the shelf fails; the line is cut where the room ends."""
    asked = ["p", "t", DAY, "--list", "any", "0"]
    for call in range(MANY_CALLS):
        yield ROOM, call, shelf(words=asked), asked, SHELF if call < CALLS else ACCEPTED, f"call {call} fails"
    for table, (status, line) in (ROW, ACCEPTED), ("", refused("SignatureError")):
        for room in range(len(line) + 3):
            expected = (status, line) if room > len(line) else (SINK[0], line[:room])
            yield room, None, shelf(table=table), ["p", "t", DAY], expected, f"room {room}"


def all_cases():
    """The room, the call that fails, the files, the words, status and line, and why."""
    yield from over_programs()
    yield from of_words()
    yield from within_limits()
