"""What a register of a CA issues and refuses, and which of its certificates are accepted at a date.

A register has a record for each certificate: the place of its issuer, whether it is a CA, a path
length, the first and the last second of its validity, and the number of its key.  A call is refused
for the first of these reasons: there is no such issuer; the issuer is no CA, or a root is to be none;
the path length of an ancestor, the nearest being 0, is less than its number (RFC 5280 4.2.1.9); the
octets are no request; the request isn't signed by its own key; the key that signs isn't that of the
issuer's certificate.  A certificate is accepted while its own validity and those of all its ancestors
last.  Nothing is shared with the program, and no certificate is made or read.
"""

from typing import NamedTuple, Optional


class Record(NamedTuple):
    issuer: Optional[int]
    ca: bool
    path_length: Optional[int]
    first: str
    last: str
    key: int


def with_ancestors(records, place):
    """The record at an index, that of its issuer, and so on up to a root."""
    found = []
    while place is not None:
        found.append(records[place])
        place = records[place].issuer
    return found


def refusal_under(records, call):
    """The words of the first reason not to issue under another certificate, none if there is no reason."""
    if call.issuer >= len(records):
        return ["NoIssuer", str(call.issuer), str(len(records))]
    above = with_ancestors(records, call.issuer)
    if not above[0].ca:
        return ["NotCa"]
    for number, record in enumerate(above):
        if record.path_length is not None and record.path_length < number:
            return ["TooDeep", str(number)]
    if call.kind == "unread":
        return ["Request"]
    if call.kind == "unsigned":
        return ["Build"]
    if call.signer != above[0].key:
        return ["WrongKey"]
    return None


def answers(calls):
    """The records after the calls, and the words of what each returns."""
    records, words = [], []
    for number, call in enumerate(calls):
        is_root = call.kind == "root"
        refused = (None if call.ca else ["NotCa"]) if is_root else refusal_under(records, call)
        words.append(refused or [str(len(records))])
        if not refused:
            issuer, key = (None, call.signer) if is_root else (call.issuer, number)
            records.append(Record(issuer, call.ca, call.path_length, call.first, call.last, key))
    return records, words


def is_accepted(records, place, date):
    """Whether the certificate at an index is accepted at a date, of 14 digits."""
    return all(record.first <= date <= record.last for record in with_ancestors(records, place))
