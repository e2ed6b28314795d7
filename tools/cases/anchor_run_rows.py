"""Rows of `xgolden_run`: whole runs of `picky_anchor`, each with the reason why it is there.

The certificates are those of `anchor_rows`.  A table has a row for each signature that the demonstration scheme
accepts.  The line of a path comes from `anchor_judge`; status and line of other runs are those of docs/MANUAL.md.
"""

from cases.anchor_rows import BOTH, CODE, CROSS, EARLIER, INT, LEAF, LOW, LOW_LEAF, OTHER, OTHER_INT, ROOT, ROOT_1, TIME, ca
from cases.issuing_chains import certificate, row_of
from cases.issuing_rows import DEMO
from judges.anchor_judge import Search
from judges.issuing_judge import Read
from judges.issuing_maker import CALLED, Table
from judges.value_reader import Shape

ROOM = 200
DATE, SECOND = "2025-01-01", "2025-01-01T00:00:00"
USAGE, BAD_TABLE, SHELF, SINK = (2, ""), (3, ""), (4, ""), (5, "")
UNREAD = 1, "refused Asn1Deserialization"
NONE = 1, "refused NoAnchoredPath"


def accepted_links(certificates):
    """The rows for the signatures that the demonstration scheme accepts, of each by each."""
    read = list(map(Read, dict.fromkeys(certificates)))
    for child in read:
        for parent in read:
            link = CALLED[child.algorithm.kids[0]], parent.key, child.signed, child.signature
            if DEMO.verdict(*link) == "accepted":
                yield row_of(*link)


def table_for(certificates):
    return Table(*accepted_links(certificates))


def files_of(table, octets):
    """The files by name, and the names of the certificates."""
    names = [f"c{place}" for place in range(len(octets))]
    return {"t": bytes.fromhex("" if table.word == "-" else table.word), **dict(zip(names, octets))}, names


def answer(anchors, checked, pool, purpose, date, table):
    """The status and the line for certificates that are read."""
    line = Search(checked, pool, [(octets, CODE) for octets in anchors], purpose, date, table).line()
    return (0, line) if line.startswith("anchored") else NONE


def run_of(anchors, checked, pool, purpose=CODE, word=DATE, table=None):
    """The files, the words, the status and the line of a run over certificates."""
    octets = [*anchors, checked, *pool]
    table = table_for(octets) if table is None else table
    files, names = files_of(table, octets)
    digits = "".join(filter(str.isdigit, word)).ljust(14, "0")
    return files, ["t", purpose, word, str(len(anchors)), *names], answer(anchors, checked, pool, purpose, digits, table)


def paths():
    """The files, the words, status and line, and why."""
    low = ca("Low", "Int")
    for anchors, checked, pool, purpose, why in (
        ([ROOT], LEAF, [INT], CODE, "over one intermediate"),
        ([ROOT], LEAF, [CROSS, INT], CODE, "a cross certificate before it"),
        ([ROOT], INT, [], CODE, "under the anchor itself"),
        ([ROOT], LEAF, [INT], TIME, "an anchor serves code alone"),
        ([ROOT], INT, [], TIME, "under the anchor itself, which serves code alone"),
        ([ROOT_1], LEAF, [INT], CODE, "a path length of 1 with one between"),
        ([ROOT_1], LOW_LEAF, [low, INT], CODE, "a path length of 1 with two between"),
        ([ROOT_1, ROOT], LOW_LEAF, [INT, low], CODE, "the second anchor allows two between"),
        ([OTHER, ROOT], LEAF, [OTHER_INT, INT], CODE, "two paths as long"),
        ([OTHER, ROOT], LEAF, [INT, OTHER_INT], CODE, "the same, in another order"),
        ([ROOT, OTHER], LEAF, [OTHER_INT, INT], CODE, "the same, with the anchors in another order"),
        ([OTHER], LEAF, [INT], CODE, "another anchor"),
        ([ROOT], LEAF, [], CODE, "no intermediate"),
        ([ROOT], ROOT, [], CODE, "the anchor under itself"),
        ([LEAF], LEAF, [], CODE, "an anchor that is no CA"),
        ([ROOT], certificate("Leaf", "Int", EARLIER, ca=False), [INT], CODE, "the certificate has expired"),
        ([ca("Root", "Root", dates=EARLIER)], LEAF, [INT], CODE, "the anchor has expired"),
        ([ROOT], LEAF, [ca("Int", "Root", dates=EARLIER), INT], CODE, "the first intermediate has expired"),
        ([ROOT], LEAF, [ca("Int", "Root", changed=True)], CODE, "the signature is another's"),
    ):
        yield *run_of(anchors, checked, pool, purpose), why
    yield *run_of([ROOT], LEAF, [INT], word=SECOND), "a moment"
    yield *run_of([ROOT], LEAF, [INT], word="2019-12-31"), "before all are valid"
    yield *run_of([ROOT], LEAF, [INT], word="2019-12-31T23:59:59"), "a second before all are valid"
    yield *run_of([ROOT], LEAF, [INT], table=table_for([LEAF, INT])), "the table lacks the anchor's row"
    yield *run_of([ROOT], LEAF, [INT], table=Table()), "an empty table"


def limits():
    """As many anchors and as many of the pool as may be, and one more."""
    for count in range(1, 9):
        yield *run_of([*[OTHER] * (count - 1), ROOT], LEAF, [INT]), f"{count} anchors"
    for count in (31, 32):
        yield *run_of([ROOT], LEAF, [*[CROSS] * (count - 1), INT]), f"{count} in the pool"
        yield *run_of([ROOT] * 8, LEAF, [*[CROSS] * (count - 1), INT]), f"8 anchors and {count} in the pool"
    files, words, _ = run_of([ROOT], LEAF, [*[CROSS] * 32, INT])
    yield files, words, USAGE, "33 in the pool"
    files, words, _ = run_of([ROOT] * 8, LEAF, [*[CROSS] * 32, INT])
    yield files, words, USAGE, "8 anchors and 33 in the pool"
    files, words, _ = run_of([ROOT] * 9, LEAF, [INT])
    yield files, words, USAGE, "9 anchors"
    # A number that isn't that of the anchors makes others of the same files.
    files, words, _ = run_of([ROOT, LEAF], INT, [])
    yield files, [*words[:3], "1", *words[4:]], answer([ROOT], LEAF, [INT], CODE, "20250101000000", table_for([ROOT, LEAF, INT])), "fewer anchors"
    files, words, _ = run_of([ROOT], INT, [OTHER])
    yield files, [*words[:3], "2", *words[4:]], answer([ROOT, INT], OTHER, [], CODE, "20250101000000", table_for([ROOT, INT, OTHER])), "more anchors"


def words():
    """Words that are no command."""
    files, right, _ = run_of([ROOT], LEAF, [INT])
    for number in range(len(right) - 1):
        yield files, right[:number], USAGE, f"{number} words"
    yield files, right[:-1], NONE, "no pool"
    yield files, ["anchored", *right], USAGE, "a word before them"
    for number in ("0", "9", "01", "10", "+1", "-1", "1 ".strip() + ".", "one", "\u0661", "/", ":"):
        yield files, [*right[:3], number, *right[4:]], USAGE, f"the number {number}"
    for count in range(2, 9):
        yield files, [*right[:3], str(count), *right[4:]], USAGE if count > 2 else answer([ROOT, LEAF], INT, [], CODE, "20250101000000", table_for([ROOT, LEAF, INT])), f"{count} anchors of three certificates"
    for purpose in ("Code", "CODE", "cod", "codes", "timestamp", "time.", "both", "1"):
        yield files, [right[0], purpose, *right[2:]], USAGE, f"the purpose {purpose}"
    for date in ("2025-02-29", "2025-1-1", "20250101", "2025-01-01T00:00", "2025-01-01T24:00:00", "2025-01-01Z", "now"):
        yield files, [*right[:2], date, *right[3:]], USAGE, f"the date {date}"


def files():
    """Files that are missing, or are no table, or no certificates."""
    right, words, line = run_of([ROOT], LEAF, [CROSS, INT])
    for name in right:
        yield {other: octets for other, octets in right.items() if other != name}, words, SHELF, f"no file {name}"
        if name != "t":
            yield {**right, name: b""}, words, UNREAD, f"the file {name} is empty"
            yield {**right, name: right[name] + b"\0"}, words, UNREAD, f"the file {name} has an octet more"
            yield {**right, name: right[name][:-1]}, words, UNREAD, f"the file {name} has an octet fewer"
            yield {**right, name: b"\x30\x00"}, words, UNREAD, f"the file {name} is an empty sequence"
            yield {**right, name: right["t"]}, words, UNREAD, f"the file {name} is a table"
    yield {}, words, SHELF, "no files"
    yield {**right, "more": b""}, words, line, "a file that isn't named"
    for text in (b"\n", right["t"][:-1], right["t"] + b"x\n", b"picky-verdicts 3\n", b"0\r\n", right["c0"]):
        yield {**right, "t": text}, words, BAD_TABLE, "no table"
        yield {**right, "t": text, "c0": b""}, words, BAD_TABLE, "no table and no certificate: the table is read first"
    yield {"t": b"\n"}, words, SHELF, "no table, and the certificates are missing"
    version_2 = b"picky-verdicts 2\n" + b"".join(b"accept " + row + b"\n" for row in right["t"].splitlines())
    yield {**right, "t": version_2}, words, line, "a table of version 2"
    yield {**right, "t": version_2.replace(b"accept", b"reject")}, words, NONE, "which rejects"
    yield {**right, "t": version_2.replace(b"accept", b"malformed")}, words, NONE, "to which all are malformed"
    yield right, [*words[:4], words[4], *words[4:]], answer([ROOT], ROOT, [LEAF, CROSS, INT], CODE, "20250101000000", table_for([ROOT, LEAF, INT])), "a file twice"


def sinks():
    """A sink that is too small holds what fits of the line."""
    for given in (run_of([ROOT], LEAF, [CROSS, INT]), run_of([ROOT], LEAF, []), ({"t": b"", "c0": b"", "c1": b""}, ["t", CODE, DATE, "1", "c0", "c1"], UNREAD)):
        files, words, (status, line) = given
        for room in range(len(line) + 3):
            whole = room > len(line)
            yield room, None, files, words, (status, line) if whole else (SINK[0], line[:room]), f"room for {room}"


def shelves():
    """A call of the shelf fails: each file is found, read, and read to its end."""
    files, words, line = run_of([ROOT], LEAF, [CROSS, INT])
    calls = 3 * len(files)
    for call in range(calls + 3):
        yield ROOM, call, files, words, SHELF if call < calls else line, f"call {call} fails"
    yield ROOM, 0, files, words[:4], USAGE, "nothing is read if the words are no command"
    yield ROOM, 0, files, ["none", *words[1:]], SHELF, "a failed call and a missing file"


def all_cases():
    """The room, the call that fails, the files, the words, status and line, and why."""
    for cases in (paths, limits, words, files):
        for case in cases():
            yield ROOM, None, *case
    yield from sinks()
    yield from shelves()
