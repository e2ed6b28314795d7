"""What `picky_ca` reports of the text of a register, by its lines alone.

Status 3 unless each line is in the form; else the name of the first refusal, or how many certificates are issued and
how many of them are accepted at the date, of 14 digits.
"""

import re
from datetime import date
from typing import NamedTuple

from judges.register_judge import Record, is_accepted, refusal_under

BAD = 3, ""
MOST_LINES, MOST_ISSUER, MOST_PATH = 200, 199, 255
NUMBER = "0|[1-9][0-9]{0,2}"
DAY = "[0-9]{4}-[0-9]{2}-[0-9]{2}"
LINE = re.compile(
    rf"(?:root|child (?P<issuer>{NUMBER})) (?P<key>[0-9A-F]{{2}}) (?P<name>[0-9A-Za-z]{{1,64}})"
    rf"(?: (?P<ca>[yn]))? (?P<path>-|{NUMBER}) (?P<first>{DAY}) (?P<last>{DAY})"
)


class Asked(NamedTuple):
    """The certificate of a line, as `register_judge` has calls."""

    kind: str
    issuer: int
    signer: int


def exists(day):
    """Whether a day exists; year 0000 is a leap year, as 0004 is."""
    year, month, number = map(int, day.split("-"))
    try:
        date(year or 4, month, number)
    except ValueError:
        return False
    return True


def read(line):
    """The issuer and the record of a line, None where it isn't in the form."""
    it = LINE.fullmatch(line)
    if not it or line.startswith("root") != (it["ca"] is None):
        return None
    issuer = None if it["issuer"] is None else int(it["issuer"])
    path = None if it["path"] == "-" else int(it["path"])
    if (issuer or 0) > MOST_ISSUER or (path or 0) > MOST_PATH or not (exists(it["first"]) and exists(it["last"])):
        return None
    first, last = (it[end].replace("-", "") + "000000" for end in ("first", "last"))
    return Record(issuer, it["ca"] != "n", path, first, last, int(it["key"], 16))


def answer(text, moment):
    """The status and the line for the text at a moment."""
    *lines, rest = text.split("\n")
    found = [read(line) for line in lines]
    if rest or len(found) > MOST_LINES or None in found:
        return BAD
    issued = []
    for record in found:
        if record.issuer is not None:
            known = record.issuer < len(issued)
            signer = issued[record.issuer].key if known else 0
            refused = refusal_under(issued, Asked("child", record.issuer, signer))
            if refused:
                return 1, f"refused {refused[0]}"
        issued.append(record)
    accepted = sum(is_accepted(issued, place, moment) for place in range(len(issued)))
    return 0, f"ca issued={len(issued)} accepted={accepted}"
