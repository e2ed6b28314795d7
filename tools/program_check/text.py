"""Names, moments and counts out of a file as text for people.

A name in a file may hold any character.  What is printed of it is as RFC 4514 says, its last part first, and escaped
as `common.shown` does.
"""

import re

from common import der
from common.der import NOT_READ, Element
from common.shown import clean, cut, escaped, in_a_sentence, visible

__all__ = ["clean", "common_name", "counted", "in_a_sentence", "moment_of", "name", "shown_moment", "visible", "whole_moment"]

# RFC 4514 3, RFC 4519; the last ones as openssl names them.
SHORT = {
    "2.5.4.3": "CN", "2.5.4.4": "SN", "2.5.4.5": "serialNumber", "2.5.4.6": "C", "2.5.4.7": "L", "2.5.4.8": "ST",
    "2.5.4.9": "street", "2.5.4.10": "O", "2.5.4.11": "OU", "2.5.4.12": "title", "2.5.4.15": "businessCategory",
    "2.5.4.17": "postalCode", "2.5.4.42": "GN", "2.5.4.97": "organizationIdentifier",
    "0.9.2342.19200300.100.1.1": "UID", "0.9.2342.19200300.100.1.25": "DC", "1.2.840.113549.1.9.1": "emailAddress",
    "1.3.6.1.4.1.311.60.2.1.1": "jurisdictionL", "1.3.6.1.4.1.311.60.2.1.2": "jurisdictionST",
    "1.3.6.1.4.1.311.60.2.1.3": "jurisdictionC",
}
COMMON_NAME = "2.5.4.3"
ENCODINGS = {0x0C: "utf-8", 0x13: "latin-1", 0x14: "latin-1", 0x16: "ascii", 0x1E: "utf-16-be"}
ESCAPED = set(',+"\\<>;')
MOST_NAME = 400
# More parts of a name, and more octets of one, than any name has that is shown whole.
MOST_PARTS, MOST_OCTETS = 64, 4 * MOST_NAME
# The forms of UTCTime and GeneralizedTime in DER (X.690 11.7, 11.8).
TIMES = {0x17: re.compile(rb"[0-9]{12}Z"), 0x18: re.compile(rb"[0-9]{14}(?:\.[0-9]+)?Z")}
LONGEST_TIME = 64


def value_of(value: Element) -> str | None:
    """The text of a value in a name, as much as is shown; None where it is none."""
    encoding = ENCODINGS.get(value.tag)
    octets = value.octets[value.begin:min(value.end, value.begin + MOST_OCTETS)]
    whole = value.end - value.begin <= MOST_OCTETS
    try:
        return octets.decode(encoding, "strict" if whole else "ignore") if encoding else None
    except UnicodeDecodeError:
        return None


def is_special(text: str):
    """Which characters have a stroke in front, by their places (RFC 4514 2.4)."""
    last = len(text) - 1
    return lambda at, one: one in ESCAPED or one == "#" and at == 0 or one == " " and at in (0, last)


def shown_value(value: Element) -> str:
    """A value in a name; of one that is no text the octets, behind a number sign (RFC 4514 2.4)."""
    text = value_of(value)
    if text is None:
        return "#" + value.octets[value.at:min(value.end, value.at + MOST_OCTETS)].hex()
    return escaped(text, is_special(text))


def attribute(member: Element) -> tuple:
    """The OID and the value of a part of a name."""
    kind, value = member.kids(2)
    return der.oid(kind), value


def shown_attribute(member: Element) -> str:
    oid, value = attribute(member)
    return f"{SHORT.get(oid, oid)}={shown_value(value)}"


def name(octets: bytes) -> str:
    """The text of the encoding of a name, its last part first (RFC 4514 2.1)."""
    try:
        parts = ["+".join(map(shown_attribute, members.kids(MOST_PARTS))) for members in reversed(der.whole(octets).kids(MOST_PARTS))]
    except NOT_READ:
        return "?"
    return cut(",".join(parts), MOST_NAME)


def common_name(octets: bytes) -> str:
    """The first common name in the encoding of a name, else its whole text, as short as a sentence takes it."""
    try:
        found = [attribute(member) for members in der.whole(octets).kids(MOST_PARTS) for member in members.kids(MOST_PARTS)]
        texts = [value_of(value) for oid, value in found if oid == COMMON_NAME]
    except NOT_READ:
        return "?"
    return in_a_sentence(escaped(texts[0]) if texts and texts[0] is not None else name(octets))


def moment_of(element: Element) -> str:
    """A UTCTime or a GeneralizedTime as a DATE of the programs, without parts of a second; NotRead where it isn't in the form of one."""
    form, octets = TIMES.get(element.tag), element.octets[element.begin:min(element.end, element.begin + LONGEST_TIME)]
    if form is None or not form.fullmatch(octets):
        raise der.NotRead("the time isn't in the form of one")
    digits = octets.decode("ascii")
    if element.tag == 0x17:
        digits = ("19" if int(digits[:2]) >= 50 else "20") + digits
    return f"{digits[:4]}-{digits[4:6]}-{digits[6:8]}T{digits[8:10]}:{digits[10:12]}:{digits[12:14]}"


def whole_moment(date: str) -> str:
    """A DATE with its second: that of a day is the first."""
    return date if "T" in date else f"{date}T00:00:00"


def shown_moment(date: str) -> str:
    """A DATE for people."""
    return f"{whole_moment(date).replace('T', ' ')} UTC"


def counted(many: int, one: str, more: str | None = None) -> str:
    """How many there are of one, in words."""
    return f"{many:,} {one if many == 1 else more or one + 's'}"
