#!/usr/bin/env python3
"""Run the built program on real files, and compare what it answers.

Usage:

    python3 tools/gate/run_program.py PROGRAM

runs PROGRAM, the executable of the crate `picky`, once for each row below,
in a fresh folder with the files of the row, and compares the exit status,
the octets on standard output and standard error, which must stay empty.  Each
run has a stack of 1 MiB.  The other programs are run so too, once for each of their
commands in `run_rows.py`: in crates/NAME/out/NAME where PROGRAM is in crates/picky/out,
else in the folder of PROGRAM.  It has failed where one of them isn't there.

The contracts of `picky_check` speak of shelves and sinks, and stop where
the system begins: at the words of the command line, the paths of files,
standard output, and the exit status.  These rows are for
that part, each status from 0 to 6 among them.

The files of `basic` come from `first_path.py`, which shares nothing with a
reader here, from the signatures that osslsigncode and openssl wrote, with the
tables of openssl's arithmetic (`basic_world.py`), and from the rows of every
refusal (`basic_steps.py`); the answers from the tables of statuses in
docs/MANUAL.md and of refusals in docs/FORMATS.md.  The certificates of
`chain` are those of `chains.py`, which openssl made, and the answers to them
are those of the reader in `chain_reader.py`, and those of
`issuing_chains.py`, with answers by hand.  The lines of `demo` are those of
`demo_maker.py`.  The files of `check` are those of
`check_rows.py` and `list_rows.py`, which have their answers, and programs that
osslsigncode signed (`signed_programs.py`), whose answers are those of `check_judge.py`.
Exit status 1 says that a row differs.
"""

import os
import resource
import struct
import subprocess
import sys
import tempfile
from base64 import b64encode
from dataclasses import dataclass, field
from hashlib import sha256
from pathlib import Path

sys.path.insert(0, str(Path(__file__).resolve().parents[1]))

from cases import basic_steps, basic_world, check_making, check_parts, check_rows, list_rows, run_rows
from cases import issuing_chains as issued
from cases.first_path import FILE_HASH, signature_file, verdict_line
from common import command, folders
from interop import chains, signed_programs, world_signatures
from judges import check_judge, demo_maker

SECONDS = 60
LONGEST_FILE = 16_777_216
# An eighth of the usual limit of the stack.
STACK = 1024 * 1024

SIGNATURE = signature_file()
TABLE = verdict_line().encode("ascii")
HASH = FILE_HASH.hex()
OTHER_HASH = sha256(b"abd").hexdigest()

ACCEPTED = "accepted signer=0 path= excuse=none\n"


def accepted_at(place):
    return f"accepted signer={place} path= excuse=none\n"


def refused(name):
    return f"refused {name}\n"


def header(length, revision=0x0200, kind=2):
    """The header of a WIN_CERTIFICATE, whose length counts its own 8 octets."""
    return struct.pack("<IHH", length, revision, kind)


class Folder:
    """A folder, in the place of a file's octets."""


class Zeros(int):
    """So many zeros, in the place of a file's octets: they take no room."""


@dataclass(frozen=True)
class Row:
    why: str
    words: tuple
    status: int
    line: str = ""
    files: dict = field(default_factory=lambda: {"s": SIGNATURE, "t": TABLE})
    # What standard input gives: octets, or None where it is closed.
    given: object = b""
    # Where standard output goes: `read` here, a `full` device, an `unread` pipe,
    # nowhere as it is `closed`, or a file that is open for `reading` alone.
    output: str = "read"


def accepted_by_name(why, signature="s", table="t", others=()):
    """A row with files of these names, and others which aren't to be read."""
    files = {name: b"another file\n" for name in others}
    files |= {signature: SIGNATURE, table: TABLE}
    return Row(why, ("basic", signature, table, HASH), 0, ACCEPTED, files)


def judged(why, signature, status, line):
    """A row with this signature file."""
    return Row(why, ("basic", "s", "t", HASH), status, line, {"s": signature, "t": TABLE})


def by_table(why, table, status, line=""):
    """A row with this table."""
    return Row(why, ("basic", "s", "t", HASH), status, line, {"s": SIGNATURE, "t": table})


BASIC = ("basic", "s", "t", HASH)
NOT_UTF_8 = b"s\xff"
PIPE = "/dev/stdin"
BAD_TABLE = b"rsa-sha256\n"
OTHER_TABLE = TABLE.replace(b"rsa-sha256", b"rsa-sha1")
VERSION_2 = b"picky-verdicts 2\n"
# An empty SEQUENCE.
EMPTY = b"\x30\x00"

ACCEPTED_ROWS = [
    Row("the accepted files", BASIC, 0, ACCEPTED),
    Row("upper-case digits", ("basic", "s", "t", HASH.upper()), 0, ACCEPTED),
    Row("no standard input", BASIC, 0, ACCEPTED, given=None),
    Row("a signature from a pipe", ("basic", PIPE, "t", HASH), 0, ACCEPTED, given=SIGNATURE),
    Row("a table from a pipe", ("basic", "s", PIPE, HASH), 0, ACCEPTED, given=TABLE * 1000),
    by_table("a table of many rows", TABLE * 1000, 0, ACCEPTED),
    by_table("version 2", VERSION_2 + b"accept " + TABLE, 0, ACCEPTED),
    by_table("many rows of version 2", VERSION_2 + b"accept " + TABLE + (b"reject " + TABLE) * 1000, 0, ACCEPTED),
    accepted_by_name("a space inside", "a b", "c d", ["a", "b", "c", "d"]),
    accepted_by_name("a space in front", " s", " t", ["s", "t"]),
    accepted_by_name("a space at the end", "s ", "t ", ["s", "t"]),
    accepted_by_name("a newline at the end", "s\n", "t\n", ["s", "t"]),
    accepted_by_name("another case", "S", "T", ["s", "t"]),
    accepted_by_name("a hyphen in front", "-s", "-t"),
    accepted_by_name("hyphens alone", "-", "--"),
    accepted_by_name("a name like an option", "--help", "--version"),
    accepted_by_name("a name that isn't ASCII", "Unterschrift-ü", "表"),
]

REFUSED_ROWS = [
    Row("another hash", ("basic", "s", "t", OTHER_HASH), 1, refused("FileHashMismatch")),
    by_table("no row accepts", b"", 1, refused("SignatureError")),
    by_table("a row of another algorithm", OTHER_TABLE, 1, refused("SignatureError")),
    by_table("version 2 without rows", VERSION_2, 1, refused("SignatureError")),
    by_table("malformed before accept", VERSION_2 + b"malformed " + TABLE + b"accept " + TABLE, 1, refused("SignatureError")),
    judged("an element that is no signed data", header(10) + EMPTY, 1, refused("Asn1Deserialization")),
    judged("no element", header(8), 1, refused("Asn1Deserialization")),
    judged("no octets", b"", 1, refused("WrongLength")),
    judged("a length below the header's", header(7) + EMPTY, 1, refused("WrongLength")),
    judged("a length of 0", header(0), 1, refused("CertificateDataIsEmpty")),
    judged("revision 3.0", header(10, 0x0300) + EMPTY, 1, refused("WrongRevisionValue")),
    judged("type 4", header(10, kind=4) + EMPTY, 1, refused("WrongCertificateType")),
    judged("fewer octets than the length says", header(11) + EMPTY, 1, refused("Io")),
]

# Signatures that osslsigncode and openssl wrote, by their labels in `world_signatures.txt`.
WRITTEN = {label: octets for label, _, octets in world_signatures.stored()}
TABLES = basic_world.tables()
SIGNED = "program, RSA, sha256"
TOWER = "program, a token, five certificates"


def written(why, label, line, change="", rows=None):
    """A row with a signature file that was written so, its digest and its table, an octet of it changed."""
    octets = basic_world.signature_file(WRITTEN[label])
    file_hash = basic_world.asked_hash(octets)
    if change:
        at, octet = next((at, octet) for what, at, octet in basic_world.changes_of(octets) if what == change)
        octets = basic_world.with_octet(octets, at, octet)
    lines = TABLES[label] if rows is None else rows
    files = {"s": octets, "t": "".join(f"{one}\n" for one in lines).encode("ascii")}
    return Row(why, ("basic", "s", "t", file_hash.hex()), 1 if line.startswith("refused") else 0, line, files)


WRITTEN_ROWS = [
    written("a program that osslsigncode signed", SIGNED, ACCEPTED),
    *(written(f"the same by {digest}", f"program, RSA, {digest}", ACCEPTED) for digest in ("md5", "sha1", "sha384", "sha512")),
    written("a signer of two certificates", "program, two certificates", accepted_at(1)),
    written("a signer of five certificates, and a token", TOWER, accepted_at(3)),
    written("a counter-signature behind", "program, a counter-signature", ACCEPTED),
    written("a cabinet", "cabinet, a counter-signature, five certificates", accepted_at(3)),
    written("the rows of the table from the last to the first", TOWER, accepted_at(3), rows=TABLES[TOWER][::-1]),
    written("no row for the signer", TOWER, refused("SignatureError"), rows=TABLES[TOWER][1:]),
    written("another program's row", SIGNED, refused("SignatureError"), rows=TABLES["program, RSA, sha1"]),
    written("another signature", SIGNED, refused("SignatureError"), change="signature"),
    written("another attribute", SIGNED, refused("SignatureError"), change="first attribute"),
    written("another digest of the program", SIGNED, refused("FileHashMismatch"), change="digest in the content"),
    written("another content", SIGNED, refused("HashMismatch"), change="what is signed"),
    written("another purpose of the signer", SIGNED, refused("NoEKUCodeSigning"), change="purpose of the signer's certificate"),
    written("another serial number", SIGNED, refused("NoCertificatesAssociatedWithIssuerAndSerialNumber"), change="identifier of the signer"),
    written("another digest algorithm of the signer", SIGNED, refused("DigestAlgorithmMismatch"), change="digest of the signer"),
    written("another version", SIGNED, refused("IncorrectVersion"), change="version"),
    written("a signer on a curve", "program, P-256, sha256", refused("SignatureError")),
    written("a catalogue", "catalogue, sha1, RSA", refused("NoSpcIndirectDataContent")),
    written("a message", "cms, RSA, sha256", refused("NoSpcIndirectDataContent")),
    written("a message whose content is left out", "cms, the content left out", refused("NoEncapsulatedContentInfo")),
    written("a signer by the identifier of its key", "cms, the signer by its key's identifier", refused("IncorrectVersion")),
    written("two signers", "cms, two signers", refused("MultipleSignerInfo")),
    written("no signer", "certificates alone", refused("MultipleSignerInfo")),
    written("a message in pieces", "cms, written in pieces", refused("Asn1Deserialization")),
]


def first_of(name):
    """The first row of every step that is refused so."""
    why, octets, file_hash, table, _ = next(row for row in basic_steps.rows() if row[4].split()[0] == name)
    return Row(f"{name}: {why}", ("basic", "s", "t", file_hash), 1, refused(name), {"s": octets, "t": table.encode("ascii")})


STEP_ROWS = [first_of(name) for name in (
    "IncorrectDigestAlgorithmsCount", "IncorrectSignerIdentifier", "UnsupportedAlgorithmError", "NoMessageDigest", "UnsupportedHashAlgorithmError",
)]

USAGE_ROWS = [
    Row("no words", (), 2),
    Row("a call for help", ("--help",), 2),
    Row("a call for the version", ("--version",), 2),
    Row("the command alone", ("basic",), 2),
    Row("a word too few", ("basic", "s", "t"), 2),
    Row("a word too many", (*BASIC, "s"), 2),
    Row("an empty word too many", (*BASIC, ""), 2),
    Row("another command", ("sign", "s", "t", HASH), 2),
    Row("a command that begins like another", ("basics", "s", "t", HASH), 2),
    Row("the command in another case", ("BASIC", "s", "t", HASH), 2),
    Row("an empty hash", ("basic", "s", "t", ""), 2),
    Row("an odd digit", ("basic", "s", "t", HASH[:-1]), 2),
    Row("no digit", ("basic", "s", "t", HASH[:-1] + "g"), 2),
    Row("a space after the hash", ("basic", "s", "t", HASH + " "), 2),
    Row("a hash of 65 octets", ("basic", "s", "t", "00" * 65), 2),
    Row("a command that isn't UTF-8", (b"basic\xff", "s", "t", HASH), 2),
    Row("a signature's name that isn't UTF-8", ("basic", NOT_UTF_8, "t", HASH), 2,
        files={NOT_UTF_8: SIGNATURE, "t": TABLE}),
    Row("a table's name that isn't UTF-8", ("basic", "s", NOT_UTF_8, HASH), 2,
        files={"s": SIGNATURE, NOT_UTF_8: TABLE}),
    Row("a hash that isn't UTF-8", ("basic", "s", "t", b"\xff\xfe"), 2),
    Row("a word too many that isn't UTF-8", (*BASIC, b"\xff"), 2),
]

BAD_TABLE_ROWS = [
    by_table("a bad line", BAD_TABLE, 3),
    by_table("no last newline", TABLE.rstrip(), 3),
    by_table("a bad line after a good one", TABLE + BAD_TABLE, 3),
    by_table("another verdict in version 2", VERSION_2 + b"yes " + TABLE, 3),
    by_table("a row of version 1 in version 2", VERSION_2 + TABLE, 3),
    by_table("a row of version 2 in version 1", b"accept " + TABLE, 3),
    by_table("version 2 without its newline", VERSION_2.rstrip(), 3),
    Row("the files exchanged", ("basic", "t", "s", HASH), 3),
]

SHELF_ROWS = [
    Row("no signature file", ("basic", "x", "t", HASH), 4),
    Row("no signature file before a bad table", BASIC, 4, files={"t": BAD_TABLE}),
    Row("no table", ("basic", "s", "x", HASH), 4),
    Row("neither file", BASIC, 4, files={}),
    Row("an empty name", ("basic", "", "t", HASH), 4),
    Row("a name below a file", ("basic", "s/s", "t", HASH), 4),
    Row("a name with a space too many", ("basic", "s ", "t", HASH), 4),
    Row("a folder for the signature file", BASIC, 4, files={"s": Folder(), "t": TABLE}),
    Row("a folder for the table", BASIC, 4, files={"s": SIGNATURE, "t": Folder()}),
    Row("a folder before a bad table", BASIC, 4, files={"s": Folder(), "t": BAD_TABLE}),
    Row("the signature from a closed input", ("basic", PIPE, "t", HASH), 4, given=None),
]

SINK_ROWS = [
    Row("a full device", BASIC, 5, output="full"),
    Row("a full device for a refusal", ("basic", "s", "t", OTHER_HASH), 5, output="full"),
    Row("a closed output", BASIC, 5, output="closed"),
    Row("a pipe that nobody reads", BASIC, 5, output="unread"),
    Row("an output that is open for reading", BASIC, 5, output="reading"),
    Row("nothing to write to a closed output", (), 2, output="closed"),
    Row("no file, and a full device", ("basic", "x", "t", HASH), 4, output="full"),
]

LENGTH_ROWS = [
    judged("the longest signature file", Zeros(LONGEST_FILE), 1, refused("CertificateDataIsEmpty")),
    judged("a signature file of an octet more", Zeros(LONGEST_FILE + 1), 6, ""),
    by_table("the longest table", Zeros(LONGEST_FILE), 3),
    by_table("a table of an octet more", Zeros(LONGEST_FILE + 1), 6),
    Row("a signature file without end", ("basic", "/dev/zero", "t", HASH), 6),
    Row("too long a signature file, and no table", ("basic", "/dev/zero", "x", HASH), 6),
]

# Chains of certificates.

CERTIFICATES = chains.stored()
CHAIN_TABLE = chains.stored_table().encode("ascii")
DAY = chains.DAY
LEAF, AUTHORITY, ROOT = (CERTIFICATES[label] for label in ("by first", "first", "root"))
PARENTS = {"l": LEAF, "a": AUTHORITY, "r": ROOT}
CHAIN = ("chain", "t", DAY, "l", "a", "r")
TWO_PARENTS = "accepted parents=2\n"
ONE_PARENT = "accepted parents=1\n"
UNREAD = refused("Asn1Deserialization")


def of_chain(why, words, status, line="", table=CHAIN_TABLE, **others):
    """A row with the files of a chain of three, some of them others."""
    return Row(f"chain: {why}", words, status, line, {"t": table, **PARENTS, **others})


def of_case(case):
    """The row of a case of `chains.py`."""
    names = tuple(f"{number}.cer" for number in range(len(case.labels)))
    files = {name: CERTIFICATES[label] for name, label in zip(names, case.labels)}
    status, line = chains.answer(case, CERTIFICATES, chains.stored_table())
    return Row(f"{', '.join(case.labels)} at {case.date}", ("chain", "t", case.date, *names), status, line, {"t": CHAIN_TABLE, **files})


def dated(date, status, line=""):
    """A row with this word DATE."""
    return of_chain(f"the date {date!r}", ("chain", "t", date, "l", "a", "r"), status, line)


NOT_YET, EXPIRED = (refused(f"InvalidCertificate:Certificate{word}") for word in ("NotYetValid", "Expired"))
MANY = ("l", "a", *["r"] * 30)

CHAIN_ROWS = [
    *map(of_case, chains.CASES),
    of_chain("32 certificates", ("chain", "t", DAY, *MANY), 0, "accepted parents=31\n"),
    of_chain("33 certificates", ("chain", "t", DAY, *MANY, "r"), 2),
    of_chain("the command alone", ("chain",), 2),
    of_chain("a table alone", ("chain", "t"), 2),
    of_chain("no certificate", ("chain", "t", DAY), 2),
    of_chain("the command in another case", ("Chain", *CHAIN[1:]), 2),
    of_chain("a name that isn't UTF-8", (*CHAIN, b"\xff"), 2),
    # dates
    dated("2025-01-31T00:00:00", 0, TWO_PARENTS),
    dated("2024-02-29", 0, TWO_PARENTS),
    dated("2024-02-29T23:59:59", 0, TWO_PARENTS),
    dated("0000-02-29", 1, NOT_YET),
    dated("9999-12-31T23:59:59", 1, EXPIRED),
    dated("2023-02-29", 2),
    dated("1900-02-29", 2),
    dated("2025-00-10", 2),
    dated("2025-13-10", 2),
    dated("2025-04-31", 2),
    dated("2025-04-00", 2),
    dated("2025-01-31T24:00:00", 2),
    dated("2025-01-31T23:60:00", 2),
    dated("2025-01-31T23:59:60", 2),
    dated("2025-01-31T23:59", 2),
    dated("2025-01-31 23:59:59", 2),
    dated("2025-01-31t23:59:59", 2),
    dated("2025-01-31T23:59:59Z", 2),
    dated("2025-1-31", 2),
    dated("25-01-31", 2),
    dated("02025-01-31", 2),
    dated("-025-01-31", 2),
    dated("+025-01-31", 2),
    dated("2025/01/31", 2),
    dated("20250131", 2),
    dated("2025-01-3x", 2),
    dated("2025-01-31T", 2),
    dated(" 2025-01-31", 2),
    dated("", 2),
    # tables
    of_chain("a table without rows", CHAIN, 1, refused("InvalidCertificate:Signature"), table=b""),
    of_chain("a bad line", CHAIN, 3, table=CHAIN_TABLE + BAD_TABLE),
    of_chain("a bad line before what isn't a certificate", CHAIN, 3, table=BAD_TABLE, l=b"", r=b"\x30"),
    of_chain("a certificate for the table", ("chain", "l", DAY, "l"), 3),
    # certificates
    of_chain("no octets", CHAIN, 1, UNREAD, l=b""),
    of_chain("an octet behind the first", CHAIN, 1, UNREAD, l=LEAF + b"\0"),
    of_chain("an octet behind the last", CHAIN, 1, UNREAD, r=ROOT + b"\0"),
    of_chain("an empty sequence", CHAIN, 1, UNREAD, a=EMPTY),
    of_chain("a certificate cut short", CHAIN, 1, UNREAD, a=AUTHORITY[:-1]),
    of_chain("one that isn't read behind a root", (*CHAIN, "e"), 1, UNREAD, e=EMPTY),
    of_chain("one that isn't read behind one that is refused", ("chain", "t", "2040-01-01", "l", "e"), 1, UNREAD, e=EMPTY),
    of_chain("one octet of the signature is another", CHAIN, 1, refused("InvalidCertificate:Signature"), l=LEAF[:-1] + bytes([LEAF[-1] ^ 1])),
    Row("a certificate from a pipe", ("chain", "t", DAY, "l", PIPE, "r"), 0, TWO_PARENTS, {"t": CHAIN_TABLE, **PARENTS}, given=AUTHORITY),
    # files
    of_chain("no table", ("chain", "x", DAY, "l", "a", "r"), 4),
    of_chain("no first certificate", ("chain", "t", DAY, "x", "a", "r"), 4),
    of_chain("no last certificate", ("chain", "t", DAY, "l", "a", "x"), 4),
    of_chain("no last certificate, and a bad table", ("chain", "t", DAY, "l", "x"), 4, table=BAD_TABLE),
    of_chain("a folder for a certificate", CHAIN, 4, a=Folder()),
    of_chain("a certificate of an octet too many", CHAIN, 6, a=Zeros(LONGEST_FILE + 1)),
    of_chain("the longest certificate", CHAIN, 1, UNREAD, a=Zeros(LONGEST_FILE)),
    of_chain("a table of an octet too many, and no certificate", ("chain", "t", DAY, "x"), 6, table=Zeros(LONGEST_FILE + 1)),
    of_chain("no certificate, and one of an octet too many behind it", ("chain", "t", DAY, "x", "a"), 4, a=Zeros(LONGEST_FILE + 1)),
    of_chain("one file for two", ("chain", "t", DAY, "r", "r"), 0, ONE_PARENT),
    of_chain("names like options", ("chain", "--t", DAY, "-l", "--", "-r"), 0, TWO_PARENTS,
             **{"--t": CHAIN_TABLE, "-l": LEAF, "--": AUTHORITY, "-r": ROOT}),
    # the sink
    Row("a full device for a chain", CHAIN, 5, files={"t": CHAIN_TABLE, **PARENTS}, output="full"),
    Row("a closed output for a refused chain", CHAIN, 5, files={"t": b"", **PARENTS}, output="closed"),
]

# Signers and those who vouch for them.

CHECKED = check_rows.CHAIN
CHECK = ("check", "s", "t", HASH)
BEGINS, ENDS, BEFORE, AFTER = "2020-01-01", "2030-01-01", "2019-01-01", "2031-01-01"
WITH_PATH, WITHOUT_PATH = (f"{check_parts.accepted(0, path)}\n" for path in ("1,2", ""))
LATE, EARLY = refused("InvalidCertificate:CertificateExpired"), refused("InvalidCertificate:CertificateNotYetValid")
UNTIL = ("--until", "2026-01-01")
OPTIONS = (*UNTIL, "--no-before", "--no-after", "--no-chain")


def of_check(why, words, status, line="", made=CHECKED, **others):
    """A row with these words behind HASH, on a file of `check_rows`."""
    return Row(f"check: {why}", (*CHECK, *words), status, line, {"s": made.octets, "t": made.table.encode("ascii"), **others})


def refused_words(why, *words):
    """A row with words that aren't in the table."""
    return of_check(why, words, 2)


def day_of(digits):
    """The word DATE of fourteen digits."""
    day = f"{digits[:4]}-{digits[4:6]}-{digits[6:8]}"
    return day if digits.endswith("000000") else f"{day}T{digits[8:10]}:{digits[10:12]}:{digits[12:]}"


def words_of(policy):
    """The words behind HASH for a policy, None where there are none."""
    is_listed = policy.trust_list is not None
    if not (policy.basic and policy.signing and policy.file_hash and policy.lower) or policy.exclude or policy.against_list != is_listed:
        return None
    if policy.now not in range(10**18):
        return None
    options = [f"--no-{word}" for word, is_on in (("before", policy.not_before), ("after", policy.not_after), ("chain", policy.chain)) if not is_on]
    until = ["--until", day_of(policy.upper)] if policy.upper else []
    listed = ["--list", "l", str(policy.now)] if is_listed else []
    return (day_of(policy.lower), *options, *until, *listed)


def line_of(said):
    """The line of an answer of the judge, without the text of a refusal."""
    return f"{said}\n" if said.startswith("accepted") else refused(said.split()[1])


def of_each_answer():
    """The first row of `check_rows` for each name, and for each excuse and each option."""
    known = set()
    for row in check_rows.rows():
        words = words_of(row.policy)
        line = line_of(row.said)
        kind = line if line.startswith("refused") else (line.split("excuse=")[1], words and words[1:])
        if words and kind not in known and row.policy.file_hash == FILE_HASH:
            known.add(kind)
            others = {} if row.policy.trust_list is None else {"l": row.policy.trust_list}
            yield of_check(row.why, words, 1 if line.startswith("refused") else 0, line, row.file, **others)


def of_program(label, date, *options, in_order=True):
    """A program that osslsigncode signed at a date, its certificates in order."""
    made = signed_programs.stored()[label]
    file = (made.in_order() if in_order else made).file()
    words = (date, *options)
    flags = {name: f"--no-{name.removeprefix('not_')}" not in options for name in ("not_before", "not_after", "chain")}
    moment = check_parts.digits(date)
    policy = check_judge.Policy(True, True, file_hash=file.file_hash, lower=moment, **flags)
    line = line_of(check_judge.answer(file.octets, policy, file.table))
    files = {"s": file.octets, "t": file.table.encode("ascii")}
    why = f"{label} at {' '.join(words)}, {'' if in_order else 'not '}in order"
    return Row(f"check: {why}", ("check", "s", "t", file.file_hash.hex(), *words), 0 if line.startswith("accepted") else 1, line, files)


CHECK_ROWS = [
    # dates
    of_check("a day", (DAY,), 0, WITH_PATH),
    of_check("a moment", ("2025-01-31T23:59:59",), 0, WITH_PATH),
    of_check("the first second", (BEGINS,), 0, WITH_PATH),
    of_check("a second before it", ("2019-12-31T23:59:59",), 1, EARLY),
    of_check("the last second", (ENDS,), 0, WITH_PATH),
    of_check("a second after it", ("2030-01-01T00:00:01",), 1, LATE),
    *(refused_words(f"the date {date!r}", date) for date in (
        "2023-02-29", "2025-13-01", "2025-04-31", "2025-01-01T24:00:00", "2025-01-01T00:00:60", "2025-1-1", "20250101", "2025-01-01Z", "")),
    *(refused_words(f"until {date!r}", DAY, "--until", date) for date in ("2023-02-29", "2025-00-01", "2025-01-01T12", "20250101", "")),
    # options
    of_check("until", (DAY, *UNTIL), 0, WITH_PATH),
    of_check("until a moment", (BEFORE, "--until", "2020-01-01T00:00:00"), 0, WITH_PATH),
    of_check("until before the first second", (BEFORE, "--until", "2019-12-31T23:59:59"), 1, EARLY),
    of_check("from the last second on", (ENDS, "--until", AFTER), 0, WITH_PATH),
    of_check("from after the last second on", ("2030-01-01T00:00:01", "--until", AFTER), 1, LATE),
    of_check("until an earlier date", (ENDS, "--until", BEGINS), 0, WITH_PATH),
    of_check("the same date twice", (AFTER, "--until", AFTER), 1, LATE),
    of_check("the first end left out, before", (BEFORE, "--no-before"), 0, WITH_PATH),
    of_check("the first end left out, after", (AFTER, "--no-before"), 1, LATE),
    of_check("the last end left out, after", (AFTER, "--no-after"), 0, WITH_PATH),
    of_check("the last end left out, before", (BEFORE, "--no-after"), 1, EARLY),
    of_check("no chain", (DAY, "--no-chain"), 0, WITHOUT_PATH),
    of_check("no chain, after", (AFTER, "--no-chain"), 1, LATE),
    of_check("all options", (AFTER, *OPTIONS), 0, WITHOUT_PATH),
    of_check("all options from the last to the first", (BEFORE, *OPTIONS[:1:-1], *UNTIL), 0, WITHOUT_PATH),
    of_check("until between others", (BEFORE, "--no-chain", "--until", DAY, "--no-after"), 0, WITHOUT_PATH),
    *(refused_words(f"{option[0]} twice", DAY, *option, *option) for option in (UNTIL, *((one,) for one in OPTIONS[2:]))),
    refused_words("until two dates", DAY, "--until", DAY, "--until", AFTER),
    refused_words("one of all twice, in front and behind", DAY, "--no-chain", *UNTIL, "--no-before", "--no-chain"),
    refused_words("until nothing", DAY, "--until"),
    refused_words("until nothing, behind others", DAY, "--no-chain", "--until"),
    refused_words("until an option", DAY, "--until", "--no-chain"),
    refused_words("an option in the place of the date", "--no-chain", DAY),
    refused_words("until in the place of the date", "--until", DAY),
    refused_words("two dates", DAY, AFTER),
    refused_words("a word too many", DAY, "s"),
    refused_words("a word behind the options", DAY, *OPTIONS, "s"),
    refused_words("an empty word too many", DAY, ""),
    *(refused_words(f"the word {word!r}", DAY, word) for word in (
        "--no-date", "--No-chain", "--no-chain ", "-no-chain", "no-chain", "--no_chain", "--no-chain=", "--no", "--until=2026-01-01", "--", "-", "--help", "--after", "--no-signing")),
    refused_words("an option that isn't UTF-8", DAY, b"--no-chain\xff"),
    refused_words("no date"),
    *(Row(f"check: {why}", words, 2) for why, words in (
        ("the command alone", ("check",)),
        ("a signature alone", ("check", "s")),
        ("no hash", ("check", "s", "t")),
        ("an option in front", ("check", "--no-chain", "s", "t", HASH, DAY)),
        ("an option before the hash", ("check", "s", "t", "--no-chain", HASH, DAY)),
        ("an odd digit of the hash", ("check", "s", "t", HASH[:-1], DAY)),
        ("a hash of 65 octets", ("check", "s", "t", "00" * 65, DAY)),
        ("an empty hash", ("check", "s", "t", "", DAY)),
        ("the command in another case", ("Check", "s", "t", HASH, DAY)),
        ("an option of `check` for `basic`", (*BASIC, "--no-chain")),
    )),
    Row("check: an option of `check` for `chain` is a file", ("chain", "t", DAY, "--no-chain"), 4, files={"t": CHAIN_TABLE}),
    Row("check: names like options", ("check", "--until", "--no-chain", HASH, DAY, "--no-chain"), 0, WITHOUT_PATH,
        {"--until": CHECKED.octets, "--no-chain": CHECKED.table.encode("ascii")}),
    Row("check: upper-case digits", ("check", "s", "t", HASH.upper(), DAY), 0, WITH_PATH, {"s": CHECKED.octets, "t": CHECKED.table.encode("ascii")}),
    Row("check: another hash", ("check", "s", "t", OTHER_HASH, DAY), 1, refused("FileHashMismatch"), {"s": CHECKED.octets, "t": CHECKED.table.encode("ascii")}),
    Row("check: a signature from a pipe", ("check", PIPE, "t", HASH, DAY), 0, WITH_PATH, {"t": CHECKED.table.encode("ascii")}, given=CHECKED.octets),
    Row("check: a table from a pipe", ("check", "s", PIPE, HASH, DAY), 0, WITH_PATH, {"s": CHECKED.octets}, given=CHECKED.table.encode("ascii")),
    # answers
    of_check("an expired signer by another key than its parent's", (AFTER,), 1, refused("InvalidCertificate:Signature"), check_rows.BY_ANOTHER_KEY),
    of_check("an expired signer by its parent's key", (AFTER,), 0, f"{check_parts.accepted(0, '1', 'bag')}\n", check_rows.BY_ITS_PARENT),
    of_check("an expired signer by another key, no chain", (AFTER, "--no-chain"), 0, f"{check_parts.accepted(excuse='bag')}\n", check_rows.BY_ANOTHER_KEY),
    *of_each_answer(),
    *(of_program(label, date) for label in ("three", "stamped, three", "stamped by openssl", "lifetime, stamped", "alone", "server", "by other")
      for date in ("2021-06-01", "2023-06-01", "2036-06-01")),
    of_program("three", "2023-06-01", in_order=False),
    of_program("stamped", "2031-01-01", in_order=False),
    of_program("stamped", "2031-01-01", "--no-after"),
    of_program("stamped", "2031-01-01", "--no-chain"),
    of_program("three", "2021-06-01", "--no-before"),
    # tables and files
    of_check("a table without rows", (DAY,), 1, refused("SignatureError"), t=b""),
    of_check("a bad line", (DAY,), 3, t=CHECKED.table.encode("ascii") + BAD_TABLE),
    of_check("a bad line before what is no signature", (DAY,), 3, s=b"", t=BAD_TABLE),
    of_check("words before a bad line", (DAY, DAY), 2, t=BAD_TABLE),
    of_check("no octets", (DAY,), 1, refused("WrongLength"), s=b""),
    Row("check: no signature file", (*CHECK, DAY), 4, files={"t": TABLE}),
    Row("check: no table", (*CHECK, DAY), 4, files={"s": SIGNATURE}),
    Row("check: no signature file, and a bad table", (*CHECK, DAY), 4, files={"t": BAD_TABLE}),
    Row("check: a folder for the table", (*CHECK, DAY), 4, files={"s": SIGNATURE, "t": Folder()}),
    Row("check: the longest signature file", (*CHECK, DAY), 1, refused("CertificateDataIsEmpty"), {"s": Zeros(LONGEST_FILE), "t": TABLE}),
    Row("check: a signature file of an octet more", (*CHECK, DAY), 6, files={"s": Zeros(LONGEST_FILE + 1), "t": TABLE}),
    Row("check: a table of an octet more", (*CHECK, DAY), 6, files={"s": SIGNATURE, "t": Zeros(LONGEST_FILE + 1)}),
    # trust lists
    Row("check: a full device", (*CHECK, DAY), 5, files={"s": SIGNATURE, "t": TABLE}, output="full"),
    Row("check: a closed output for a refusal", (*CHECK, AFTER), 5, files={"s": SIGNATURE, "t": TABLE}, output="closed"),
    Row("check: nothing to write to a closed output", CHECK, 2, output="closed"),
]


# Trust lists: the CA of the signer is R.

LISTED, ENDED = list_rows.list_with(b"R"), list_rows.list_of(list_rows.entry_of(b"R", list_rows.ends("ff" * 8)))
LIST = ("--list", "l", "1")
UNLISTED, UNREAD, CA_EXPIRED = refused("CAIsNotTrusted"), refused("FailedToParseCtl"), refused("CaCertificateExpired")
LAST_SECOND = "9" * 18


# Certificates that the key of R didn't sign.
OF_R, OF_Q = (check_parts.s(serial=serial, issuer=issuer, by=check_parts.K_X) for serial, issuer in ((b"\x02", b"R"), (b"\x01", b"Q")))
BY_ANOTHER_R = check_making.file(check_parts.S, check_parts.i(by=check_parts.K_X), check_parts.r(key=check_parts.K_X))


def of_list(why, words, status, line="", l=LISTED, **others):
    """A row with these words behind HASH, and a list."""
    return of_check(f"a list: {why}", words, status, line, l=l, **others)


def of_token(why, options, status, line, *texts, made=list_rows.EXCUSED_BY_TOKEN):
    """A row on an expired signer that a token of the CA T, or a member of the bag, may excuse, with a list of these CAs."""
    path = "" if "--no-chain" in options else "1"
    said = line if status else f"{check_parts.accepted(0, path, line)}\n"
    return of_list(f"an expired signer: {why}", (AFTER, *options, *LIST), status, said, list_rows.list_with(*texts), made=made)


LIST_ROWS = [
    of_list("the CA is on it", (DAY, *LIST), 0, WITH_PATH),
    of_list("the CA isn't on it", (DAY, *LIST), 1, UNLISTED, list_rows.EMPTY),
    # seconds
    of_list("an end of 0 seconds, at 0", (DAY, "--list", "l", "0"), 0, WITH_PATH, ENDED),
    of_list("an end of 0 seconds, at 1", (DAY, "--list", "l", "1"), 1, CA_EXPIRED, ENDED),
    of_list("18 digits", (DAY, "--list", "l", LAST_SECOND), 0, WITH_PATH),
    of_list("18 digits behind the end", (DAY, "--list", "l", LAST_SECOND), 1, CA_EXPIRED, ENDED),
    of_list("18 zeros", (DAY, "--list", "l", "0" * 18), 0, WITH_PATH, ENDED),
    of_list("zeros in front", (DAY, "--list", "l", "1".zfill(18)), 1, CA_EXPIRED, ENDED),
    *(of_list(f"the seconds {word!r}", (DAY, "--list", "l", word), 2) for word in (
        "", "9" * 19, "0" * 19, "+1", "-1", "-0", " 1", "1 ", "1\n", "1.0", "0x1", "1e3", "1_000", "a", "\u0661", "--no-chain")),
    # words
    of_list("in front of all options", (AFTER, *LIST, *OPTIONS), 0, WITHOUT_PATH),
    of_list("behind all options", (AFTER, *OPTIONS, *LIST), 0, WITHOUT_PATH),
    of_list("between others", (AFTER, "--no-chain", *LIST, "--no-after"), 0, WITHOUT_PATH),
    of_list("twice", (DAY, *LIST, *LIST), 2),
    of_list("twice, of other words", (DAY, *LIST, "--no-chain", "--list", "s", "2"), 2),
    of_list("no words", (DAY, "--list"), 2),
    of_list("no seconds", (DAY, "--list", "l"), 2),
    of_list("a word too many", (DAY, *LIST, "1"), 2),
    of_list("in the place of the date", (*LIST, DAY), 2),
    of_list("an empty name", (DAY, "--list", "", "1"), 4),
    of_list("a name that isn't UTF-8", (DAY, "--list", b"l\xff", "1"), 2),
    *(of_list(f"the option {word!r}", (DAY, word, "l", "1"), 2) for word in ("--List", "--lists", "-list", "--list=l", "--ctl")),
    Row("check: a list: a name like an option", (*CHECK, DAY, "--list", "--no-chain", "1"), 0, WITH_PATH,
        {"s": CHECKED.octets, "t": CHECKED.table.encode("ascii"), "--no-chain": LISTED}),
    Row("check: a list: a name like itself", (*CHECK, DAY, "--list", "--list", "1"), 0, WITH_PATH,
        {"s": CHECKED.octets, "t": CHECKED.table.encode("ascii"), "--list": LISTED}),
    Row("check: a list from a pipe", (*CHECK, DAY, "--list", PIPE, "1"), 0, WITH_PATH, {"s": CHECKED.octets, "t": CHECKED.table.encode("ascii")}, given=LISTED),
    Row("check: a list for `basic`", (*BASIC, *LIST), 2),
    Row("check: a list for `chain` is three files", ("chain", "t", DAY, *LIST), 4, files={"t": CHAIN_TABLE}),
    # what is no list, and what comes first
    of_list("no octets", (DAY, *LIST), 1, UNREAD, b""),
    of_list("another structure", (DAY, *LIST), 1, UNREAD, EMPTY),
    of_list("an octet behind", (DAY, *LIST), 1, UNREAD, LISTED + b"\0"),
    of_list("not read, before what is no signature", (DAY, *LIST), 1, UNREAD, EMPTY, s=b""),
    of_list("not read, before an expired signer", (AFTER, *LIST), 1, UNREAD, EMPTY),
    of_list("a bad table before a list that isn't read", (DAY, *LIST), 3, l=EMPTY, t=BAD_TABLE),
    of_list("the links before the list", (AFTER, *LIST), 1, LATE, list_rows.EMPTY),
    of_list("no content isn't asked of an expired signer", (AFTER, *LIST), 1, LATE, list_rows.signed(check_judge.TRUST_LIST)),
    of_list("no content, and no signature", (DAY, *LIST), 1, refused("WrongLength"), list_rows.signed(check_judge.TRUST_LIST), s=b""),
    # files that are no list, and what a list is found in
    of_list("PEM", (DAY, *LIST), 1, UNREAD, b"-----BEGIN PKCS7-----\n" + b64encode(LISTED) + b"\n-----END PKCS7-----\n"),
    of_list("behind a header", (DAY, *LIST), 1, UNREAD, header(8 + len(LISTED)) + LISTED),
    of_list("the content alone", (DAY, *LIST), 1, UNREAD, bytes.fromhex(list_rows.trust_list(list_rows.entry_of(b"R")))),
    of_list("an octet is missing", (DAY, *LIST), 1, UNREAD, LISTED[:-1]),
    of_list("the signature file", (DAY, "--list", "s", "1"), 1, UNREAD),
    of_list("the table", (DAY, "--list", "t", "1"), 1, UNREAD),
    # a name on the list, and no key
    of_list("a root of this name with another key", (DAY, *LIST), 0, WITH_PATH, made=BY_ANOTHER_R),
    of_list("a signer alone whose issuer has this name", (DAY, *LIST), 0, WITHOUT_PATH, made=check_making.file(OF_R)),
    of_list("another one of the signer's subject, whose issuer has this name", (DAY, *LIST), 0, accepted_at(1), made=check_making.file(OF_R, OF_Q, signer=OF_Q)),
    # a token's CA
    of_token("the token's CA and the signer's", (), 0, "token", b"T", b"R"),
    of_token("the token's CA isn't on it", (), 1, UNLISTED, b"R"),
    of_token("the signer's CA isn't on it", (), 1, UNLISTED, b"T"),
    of_token("the token's CA isn't on it, no chain", ("--no-chain",), 1, UNLISTED, b"R"),
    of_token("the token's CA isn't on it, no excuse needed", ("--no-after",), 0, "none", b"R"),
    of_token("an excuse of the bag asks for the signer's CA alone", (), 0, "bag", b"R", made=list_rows.EXCUSED_BY_BAG),
    # files
    Row("check: no list", (*CHECK, DAY, *LIST), 4, files={"s": SIGNATURE, "t": TABLE}),
    Row("check: no table, and a list of an octet more", (*CHECK, DAY, *LIST), 4, files={"s": SIGNATURE, "l": Zeros(LONGEST_FILE + 1)}),
    Row("check: a table of an octet more, and no list", (*CHECK, DAY, *LIST), 6, files={"s": SIGNATURE, "t": Zeros(LONGEST_FILE + 1)}),
    Row("check: the table and the list from one pipe, the table first", (*CHECK[:2], PIPE, HASH, DAY, "--list", PIPE, "1"), 1, UNREAD,
        {"s": CHECKED.octets}, given=CHECKED.table.encode("ascii")),
    Row("check: no list, and a bad table", (*CHECK, DAY, *LIST), 4, files={"s": SIGNATURE, "t": BAD_TABLE}),
    Row("check: a folder for the list", (*CHECK, DAY, *LIST), 4, files={"s": SIGNATURE, "t": TABLE, "l": Folder()}),
    of_list("the longest one", (DAY, *LIST), 1, UNREAD, Zeros(LONGEST_FILE)),
    of_list("an octet more", (DAY, *LIST), 6, l=Zeros(LONGEST_FILE + 1)),
    of_list("an octet more, and a bad table", (DAY, *LIST), 6, l=Zeros(LONGEST_FILE + 1), t=BAD_TABLE),
    Row("check: a list, and a full device", (*CHECK, DAY, *LIST), 5, output="full",
        files={"s": CHECKED.octets, "t": CHECKED.table.encode("ascii"), "l": LISTED}),
    Row("check: a list that isn't read, and a closed output", (*CHECK, DAY, *LIST), 5, output="closed",
        files={"s": CHECKED.octets, "t": CHECKED.table.encode("ascii"), "l": EMPTY}),
]


def of_issued(why, certificates, date, status, line):
    """A row with certificates of the demonstration scheme, and the table of the signatures that it accepts."""
    names = tuple("lar"[:len(certificates)])
    table = bytes.fromhex(issued.table_by_demo(certificates).word)
    return Row(f"issued: {why}", ("chain", "t", date, *names), status, line, {"t": table, **dict(zip(names, certificates))})


FUTURE = issued.FUTURE_LEAF, issued.FUTURE_INT, issued.FUTURE_ROOT

ISSUED_ROWS = [
    of_issued("no root", FUTURE[:2], "2069-10-01", 1, refused("InvalidChain:NoRoot")),
    of_issued("a root", FUTURE, "2069-10-01", 0, TWO_PARENTS),
    of_issued("another key signed", (FUTURE[0], issued.FUTURE_INT_BY_ANOTHER, FUTURE[2]), "2069-10-01", 1, refused("InvalidCertificate:Signature")),
    of_issued("the authority expired", FUTURE, "2071-06-01", 1, EXPIRED),
    of_issued("the path length of the root is 0", (issued.FUTURE_LEAF_0, FUTURE[1], issued.FUTURE_ROOT_0), "2069-10-01", 1, refused("InvalidChain:TooDeep")),
    of_issued("that of the root is 1", (issued.FUTURE_LEAF_0, *FUTURE[1:]), "2069-10-01", 0, TWO_PARENTS),
    of_issued("TRUE in another octet", (issued.ODD_LEAF, issued.ODD), "2025-01-01", 0, ONE_PARENT),
    of_issued("all dates hold", issued.MY_CHAIN, "2020-12-20", 0, TWO_PARENTS),
    of_issued("the leaf expired", issued.MY_CHAIN, "2021-01-02", 1, EXPIRED),
]



def demonstrated(count, output="read", again=""):
    """A row of a demonstration of so many steps. No file is there."""
    status, line = (0, f"{demo_maker.line(count)}\n") if output == "read" else (5, "")
    return Row(f"a demonstration of {count} steps, {output}{again}", ("demo", str(count)), status, line, {}, output=output)


DEMO_ROWS = [
    *map(demonstrated, (1, 2, 3, 9, 10, 99, 100, 199, 200)),
    demonstrated(200, again=", once more"),
    *(demonstrated(2, output) for output in ("full", "closed", "unread", "reading")),
    Row("a demonstration without standard input", ("demo", "1"), 0, f"{demo_maker.line(1)}\n", {}, given=None),
    *(Row(f"a demonstration of {word!r} steps", ("demo", word), 2, files={}) for word in (
        "0", "00", "01", "001", "0200", "201", "202", "256", "257", "1000", "18446744073709551617", "-1", "+1", " 1", "1 ", "1\n", "1.0", "0x1", "1e2", "1_0",
        "a", "", "\u0661", b"1\xff")),
    *(Row(f"a demonstration: {why}", words, 2, files={}) for why, words in (
        ("the command alone", ("demo",)),
        ("two numbers", ("demo", "1", "1")),
        ("an empty word too many", ("demo", "1", "")),
        ("the command in another case", ("Demo", "1")),
        ("the command behind", ("1", "demo")),
        ("an option", ("demo", "--no-chain")),
    )),
    Row("a demonstration in the place of a file", ("basic", "demo", "1", HASH), 0, ACCEPTED, {"demo": SIGNATURE, "1": TABLE}),
]

ROWS = [
    *ACCEPTED_ROWS,
    *REFUSED_ROWS,
    *WRITTEN_ROWS,
    *STEP_ROWS,
    *USAGE_ROWS,
    *BAD_TABLE_ROWS,
    *SHELF_ROWS,
    *SINK_ROWS,
    *LENGTH_ROWS,
    *CHAIN_ROWS,
    *CHECK_ROWS,
    *LIST_ROWS,
    *ISSUED_ROWS,
    *DEMO_ROWS,
]


def path_of(name, program):
    """Where another program is, beside `picky`."""
    if program.parts[-3:] == ("picky", "out", "picky"):
        return program.parents[2] / name / "out" / name
    return program.parent / name


def programs():
    """The names of the other programs, by the sources of their `main`."""
    return sorted(file.parents[1].name for file in folders.CRATES.glob("picky_*/src/main.rt"))


def other_programs(program):
    """The other programs beside this one, each with a row for a command."""
    for one in run_rows.commands():
        if one.program != "picky":
            yield path_of(one.program, program), Row(f"{one.program}: {' '.join(one.words)}", one.words, one.status, f"{one.line}\n", one.files)


def make_file(path, octets):
    if isinstance(octets, Folder):
        os.mkdir(path)
        return
    with open(path, "wb") as file:
        if isinstance(octets, Zeros):
            file.truncate(octets)
        else:
            file.write(octets)


def close_streams(row):
    """Close what the row has closed, in the process that becomes the program."""
    if row.given is None:
        os.close(0)
    if row.output == "closed":
        os.close(1)


def opened_output(row):
    """What the program gets as standard output, and what closes it here."""
    if row.output == "full":
        return open("/dev/full", "wb")
    if row.output == "unread":
        reading, writing = os.pipe()
        os.close(reading)
        return open(writing, "wb")
    if row.output == "reading":
        return open("/dev/null", "rb")
    return None


def prepare(row):
    """In the process of the program: little stack, and the streams of the row."""
    resource.setrlimit(resource.RLIMIT_STACK, (STACK, STACK))
    close_streams(row)


def run(program, row, folder):
    """The status, and the octets on standard output and standard error."""
    given = {"stdin": subprocess.DEVNULL} if row.given is None else {"input": row.given}
    output = opened_output(row)
    try:
        done = subprocess.run(
            [program, *row.words],
            cwd=folder,
            stdout=output or subprocess.PIPE,
            stderr=subprocess.PIPE,
            preexec_fn=lambda: prepare(row),
            timeout=SECONDS,
            check=False,
            **given,
        )
    finally:
        if output:
            output.close()
    return done.returncode, done.stdout or b"", done.stderr


def difference(program, row):
    """How the answer differs from that of the row, or None."""
    with tempfile.TemporaryDirectory() as folder:
        for name, octets in row.files.items():
            make_file(os.path.join(os.fsencode(folder), os.fsencode(name)), octets)
        try:
            answer = run(program, row, folder)
        except subprocess.TimeoutExpired:
            return f"no answer within {SECONDS} seconds"
        except OSError as error:
            return command.sentence(error)
    wanted = (row.status, row.line.encode("ascii"), b"")
    if answer == wanted:
        return None
    parts = zip(("status", "output", "errors"), answer, wanted)
    return ", ".join(f"{part} {got}, not {want}" for part, got, want in parts if got != want)


def main(arguments):
    if len(arguments) != 1:
        return command.usage(__doc__)
    program = Path(arguments[0]).resolve()
    if not os.access(program, os.X_OK) or not program.is_file():
        print(f"run_program.py: {arguments[0]} is no program", file=sys.stderr)
        return 2
    missing = [name for name in programs() if not path_of(name, program).is_file()]
    for name in missing:
        print(f"{path_of(name, program)} isn't there")
    others = list(other_programs(program))
    unasked = set(programs()) - {path.name for path, _ in others}
    for name in sorted(unasked):
        print(f"{name} has no row in run_rows.py")
    failed = len(missing) + len(unasked) + count_failed(f"runs of {', '.join(programs())}", others)
    failed += count_failed("runs of the program", [(program, row) for row in ROWS])
    return 1 if failed else 0


def count_failed(what, runs):
    """How many runs of programs differ from their rows, each of which is printed, and then their number."""
    differences = [(row, difference(program, row)) for program, row in runs]
    failed = [(row, differs) for row, differs in differences if differs]
    for row, differs in failed:
        print(f"{row.why}: {differs}")
    print(f"{what}: {len(runs) - len(failed)} as expected, {len(failed)} not")
    return len(failed)


if __name__ == "__main__":
    command.run(main, __doc__)
