"""Rows of `xgolden_run`: whole runs of `picky basic` and `picky check` over the file of `first_path`, with reasons.

Status and line are those of docs/MANUAL.md; what is refused follows from the formats, the header, the steps and the
lists of docs/FORMATS.md.  Words are one text, a space between, so that an empty word is a space at the end.
"""

from pathlib import Path

from cases.anchor_run_rows import BAD_TABLE, SHELF, SINK, USAGE
from cases.first_path import FILE_HASH, signature_file, verdict_line

ACCEPTED = 0, "accepted signer=0 path= excuse=none"
ROOM = 100
TOO_LONG = 6, ""
FILE, ROW, HASH = signature_file(), verdict_line(), FILE_HASH.hex()
_, KEY, MESSAGE, SIGNATURE = ROW.split()
# A header of length 446, revision 2.0 and type 2, and what is behind it.
HEADER, VALUE = FILE[:8].hex(), FILE[8:].hex()
# Signed data without certificates and signers, as in RFC 2315 and RFC 5652.
CERTIFICATES_ALONE = "302706092a864886f70d010702a01a30180201013100300b06092a864886f70d010701a000a1003100"


def refused(name):
    return 1, f"refused {name}"


# Why, the header of a signature file, what is behind it, and status and line.
FILES = [
    ("the accepted file", HEADER, VALUE, "", ACCEPTED),
    ("revision 1.0", "be01000000010200", VALUE, "", ACCEPTED),
    ("type 1", "be01000000020100", VALUE, "", ACCEPTED),
    ("type 3", "be01000000020300", VALUE, "", ACCEPTED),
    ("type 9", "be01000000020900", VALUE, "", ACCEPTED),
    ("octets after the length", HEADER, VALUE, "ff00", ACCEPTED),
    ("one zero of padding", "bf01000000020200", VALUE, "00", ACCEPTED),
    ("seven zeros of padding", "c501000000020200", VALUE, "00000000000000", ACCEPTED),
    ("eight zeros", "c601000000020200", VALUE, "0000000000000000", refused("Asn1Deserialization")),
    ("padding that is no zero", "c501000000020200", VALUE, "00000000000001", refused("Asn1Deserialization")),
    ("the value is cut", "bd01000000020200", VALUE, "", refused("Asn1Deserialization")),
    ("no value", "0800000000020200", "", "", refused("Asn1Deserialization")),
    ("an indefinite length", "0c00000000020200", "", "30800000", refused("Asn1Deserialization")),
    ("an empty sequence", "0a00000000020200", "", "3000", refused("Asn1Deserialization")),
    ("no certificates", "3800000000020200", CERTIFICATES_ALONE, "00000000000000", refused("MultipleSignerInfo")),
    ("no octets", "", "", "", refused("WrongLength")),
    ("seven octets", "be010000000202", "", "", refused("WrongLength")),
    ("the length 4", "0400000000020200", "", "", refused("WrongLength")),
    ("the length 7", "0700000000020200", VALUE, "", refused("WrongLength")),
    ("the length 0", "0000000000010100", "", "", refused("CertificateDataIsEmpty")),
    ("before the revision", "0000000000030400", "", "", refused("CertificateDataIsEmpty")),
    ("revision 3.0", "0900000000030100", "", "01", refused("WrongRevisionValue")),
    ("before the type", "be01000000000400", VALUE, "", refused("WrongRevisionValue")),
    ("type 4", "be01000000020400", VALUE, "", refused("WrongCertificateType")),
    ("before a length below 8", "0400000000020000", "", "", refused("WrongCertificateType")),
    ("one octet fewer", "bf01000000020200", VALUE, "", refused("Io")),
    ("nine octets of sixteen", "1000000000020200", "", "aa", refused("Io")),
    ("the greatest length", "ffffffff00020200", "", "", refused("Io")),
]

VERSION_2 = "picky-verdicts 2\n"
REJECTED = refused("SignatureError")

# Why, a table, and status and line.
TABLES = [
    ("the accepting row",       f"rsa-sha256 {KEY} {MESSAGE} {SIGNATURE}\n",         ACCEPTED),
    ("behind another row",      f"ed25519 {KEY} {KEY} {KEY}\n{ROW}",                 ACCEPTED),
    ("the row twice",           f"{ROW}{ROW}",                                       ACCEPTED),
    ("an empty table",          "",                                                  REJECTED),
    ("another algorithm",       f"rsa-sha1 {KEY} {MESSAGE} {SIGNATURE}\n",           REJECTED),
    ("another key",             f"rsa-sha256 {MESSAGE} {MESSAGE} {SIGNATURE}\n",     REJECTED),
    ("another message",         f"rsa-sha256 {KEY} {KEY} {SIGNATURE}\n",             REJECTED),
    ("another signature",       f"rsa-sha256 {KEY} {MESSAGE} {KEY}\n",               REJECTED),
    ("no last newline",         f"rsa-sha256 {KEY} {MESSAGE} {SIGNATURE}",           BAD_TABLE),
    ("a carriage return",       f"rsa-sha256 {KEY} {MESSAGE} {SIGNATURE}\r\n",       BAD_TABLE),
    ("upper-case digits",       f"rsa-sha256 {KEY} {MESSAGE} {SIGNATURE.upper()}\n", BAD_TABLE),
    ("an unknown algorithm",    f"rsa-sha3 {KEY} {MESSAGE} {SIGNATURE}\n",           BAD_TABLE),
    ("a doubled space",         f"rsa-sha256 {KEY}  {MESSAGE} {SIGNATURE}\n",        BAD_TABLE),
    ("a bad third line",        f"{ROW}{ROW}rsa-sha256 00\n",                        BAD_TABLE),
    ("a bad line after others", f"{ROW}\n",                                          BAD_TABLE),
    ("a digest of one octet",   "rsa-sha256 00\n",                                   BAD_TABLE),
    ("an empty line",           "\n",                                                BAD_TABLE),
    ("version 2 without rows",  VERSION_2,                                           REJECTED),
    ("accept",                  f"{VERSION_2}accept {ROW}",                          ACCEPTED),
    ("reject",                  f"{VERSION_2}reject {ROW}",                          REJECTED),
    ("malformed before accept", f"{VERSION_2}malformed {ROW}accept {ROW}",           REJECTED),
    ("accept before reject",    f"{VERSION_2}accept {ROW}reject {ROW}",              ACCEPTED),
    ("another verdict",         f"{VERSION_2}yes {ROW}",                             BAD_TABLE),
    ("no verdict",              f"{VERSION_2}{ROW}",                                 BAD_TABLE),
    ("a verdict in version 1",  f"accept {ROW}",                                     BAD_TABLE),
    ("no newline",              "picky-verdicts 2",                                  BAD_TABLE),
    ("another version",         f"picky-verdicts 3\naccept {ROW}",                   BAD_TABLE),
    ("the first line behind",   f"{ROW}{VERSION_2}",                                 BAD_TABLE),
]

OTHER = refused("FileHashMismatch")
OTHER_HASH = HASH[:-1] + "c"

# Why, words for the file `s` and its table `t`, and status and line.
WORDS = [
    ("the accepted words",     f"basic s t {HASH}",         ACCEPTED),
    ("upper-case digits",      f"basic s t {HASH.upper()}", ACCEPTED),
    ("the last octet differs", f"basic s t {OTHER_HASH}",   OTHER),
    ("a hash of 1 octet",      "basic s t ba",              OTHER),
    ("of 64 octets",           f"basic s t {HASH * 2}",     OTHER),
    ("of 65 octets",           f"basic s t {HASH * 2}00",   USAGE),
    ("of 0 octets",            "basic s t ",                USAGE),
    ("an odd digit",           "basic s t ba7",             USAGE),
    ("no digit",               "basic s t bg",              USAGE),
    ("a prefix",               "basic s t 0xba",            USAGE),
    ("no words",               None,                        USAGE),
    ("the command alone",      "basic",                     USAGE),
    ("a word too few",         "basic s t",                 USAGE),
    ("a word too many",        "basic s t 00 x",            USAGE),
    ("an empty word too many", f"basic s t {HASH} ",        USAGE),
    ("another case",           f"BASIC s t {HASH}",         USAGE),
    ("another command",        "check s t zz 2021-01-02",   USAGE),
    ("no demonstration",       "demo 0",                    USAGE),
    ("an empty command",       f" s t {HASH}",              USAGE),
    ("no words, and no files", "basic x y zz",              USAGE),
    ("no signature file",      f"basic x t {HASH}",         SHELF),
    ("before a bad table",     f"basic x s {HASH}",         SHELF),
    ("no table",               f"basic s x {HASH}",         SHELF),
    ("neither",                f"basic x y {HASH}",         SHELF),
    ("an empty name",          f"basic  t {HASH}",          SHELF),
    ("a name in another case", f"basic S t {HASH}",         SHELF),
    ("the files exchanged",    f"basic t s {HASH}",         BAD_TABLE),
]

# Why, words after the file, the table and the digest of a check, and status and line.
LISTED = [
    ("no list", "2025-01-31", ACCEPTED),
    ("the CA is listed", "2025-01-31 --list any 0", ACCEPTED),
    ("at the last moment", "2025-01-31 --list any 999999999999999999", ACCEPTED),
    ("another CA is", "2025-01-31 --list another 0", refused("CAIsNotTrusted")),
    ("up to this second", "2025-01-31 --list until5 5", ACCEPTED),
    ("up to the second before", "2025-01-31 --list until5 6", refused("CaCertificateExpired")),
    ("up to second 0", "2025-01-31 --list until0 0", ACCEPTED),
    ("up to second 0, at 1", "2025-01-31 --list until0 1", refused("CaCertificateExpired")),
    ("from this second on", "2025-01-31 --list from5 000000000000000005", ACCEPTED),
    ("from the second after it", "2025-01-31 --list from5 4", refused("CaCertificateNotYetValid")),
    ("an end of seven octets", "2025-01-31 --list short 0", refused("CaCertificateRevoked")),
    ("a beginning without a value", "2025-01-31 --list none 0", refused("MalformedEntry")),
    ("no content", "2025-01-31 --list alone 0", refused("NoContent")),
    ("the signer before its content", "2035-01-31 --list alone 0", refused("InvalidCertificate:CertificateExpired")),
    ("no list, without a chain", "2025-01-31 --no-chain --list another 0", refused("CAIsNotTrusted")),
    ("the signer comes first", "2035-01-31 --list another 0", refused("InvalidCertificate:CertificateExpired")),
    ("but not with this option", "2035-01-31 --list another 0 --no-after", refused("CAIsNotTrusted")),
    ("an empty file", "2025-01-31 --list empty 0", refused("FailedToParseCtl")),
    ("another structure", "2025-01-31 --list shape 0", refused("FailedToParseCtl")),
    ("the list comes first", "2035-01-31 --list empty 0", refused("FailedToParseCtl")),
    ("no file of this name", "2025-01-31 --list missing 0", SHELF),
    ("no seconds", "2025-01-31 --list any", USAGE),
    ("a list twice", "2025-01-31 --list any 0 --list any 0", USAGE),
    ("seconds with a sign", "2025-01-31 --list any +1", USAGE),
]

# Which comes first: why, a table for a file without octets, the name of a list, and status and line.
ORDER = [
    ("no signature, and no list",       ROW,   "empty",   refused("FailedToParseCtl")),
    ("no signature",                    ROW,   "any",     refused("WrongLength")),
    ("no signature, and no content",    ROW,   "alone",   refused("WrongLength")),
    ("a bad table, and no list",        "x\n", "empty",   BAD_TABLE),
    ("a bad table, and a missing list", "x\n", "missing", SHELF),
]

LONGEST = 16_777_216
# So many zeros as a signature file, so many newlines as a table, and status and line.
SIZES = [
    (LONGEST, 0, refused("CertificateDataIsEmpty")),
    (LONGEST + 1, 0, TOO_LONG),
    (1, LONGEST, BAD_TABLE),
    (1, LONGEST + 1, TOO_LONG),
    (LONGEST + 1, 1, TOO_LONG),
]
# The calls of the shelf of a run over two short files, each picked, read, and read at its end; and over three.
CALLS, CALLS_WITH_LIST, MANY_CALLS = 6, 9, 20


def lists():
    """The lists of `run_lists.txt` by their names."""
    lines = Path(__file__).with_name("run_lists.txt").read_text(encoding="ascii").splitlines()
    named = (line.split() for line in lines if not line.startswith("#"))
    return {name: bytes.fromhex(octets.removeprefix("-")) for name, octets in named}


def zeros(count, octet=0):
    """A file of an octet this often."""
    return (bytes([octet]), count) if count else b""


def named(words):
    """The lists that words name."""
    return {name: octets for name, octets in lists().items() if name in words}


def shelf(file=FILE, table=ROW, words=()):
    """A file, a table, and the lists that words name."""
    return {"s": file, "t": table.encode() if isinstance(table, str) else table, **named(words)}


def over_files():
    basic = ["basic", "s", "t", HASH]
    for why, header, value, behind, expected in FILES:
        yield ROOM, None, shelf(bytes.fromhex(header + value + behind)), basic, expected, why
    for why, table, expected in TABLES:
        yield ROOM, None, shelf(table=table), basic, expected, why
    for why, words, expected in WORDS:
        yield ROOM, None, shelf(), [] if words is None else words.split(" "), expected, why
    for octets, newlines, expected in SIZES:
        why = f"{octets} zeros, {newlines} newlines"
        yield ROOM, None, shelf(zeros(octets), zeros(newlines, 10)), basic, expected, why


def over_lists():
    check = ["check", "s", "t", HASH]
    for why, words, expected in LISTED:
        asked = [*check, *words.split(" ")]
        yield ROOM, None, shelf(words=asked), asked, expected, why
    for why, table, name, expected in ORDER:
        asked = [*check, "2025-01-31", "--list", name, "0"]
        yield ROOM, None, shelf(b"", table, asked), asked, expected, why


def within_limits():
    """Each call of the shelf fails; the line is cut where the room ends."""
    basic, check = ["basic", "s", "t", HASH], ["check", "s", "t", HASH, "2025-01-31", "--list", "any", "0"]
    for call in range(MANY_CALLS):
        yield ROOM, call, shelf(), basic, SHELF if call < CALLS else ACCEPTED, f"call {call} fails"
    for call in range(CALLS_WITH_LIST + 1):
        expected = SHELF if call < CALLS_WITH_LIST else ACCEPTED
        yield ROOM, call, shelf(words=check), check, expected, f"call {call} fails, with a list"
    for digest, (status, line) in (HASH, ACCEPTED), ("00", OTHER):
        for room in range(len(line) + 3):
            expected = (status, line) if room > len(line) else (SINK[0], line[:room])
            yield room, None, shelf(), ["basic", "s", "t", digest], expected, f"room {room}"


def all_cases():
    """The room, the call that fails, the files, the words, status and line, and why."""
    yield from over_files()
    yield from over_lists()
    yield from within_limits()
