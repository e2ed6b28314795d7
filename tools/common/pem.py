"""Certificates in the textual encoding of RFC 7468."""

import re
from base64 import b64decode

# A BEGIN counts at the start of a line alone (RFC 7468 2, 3).
BEGIN = re.compile(rb"^-----BEGIN [A-Z0-9 ]+-----", re.MULTILINE)
CERTIFICATE = re.compile(rb"^-----BEGIN CERTIFICATE-----[ \t]*\r?$", re.MULTILINE)
END = re.compile(rb"^-----END CERTIFICATE-----[ \t]*\r?$", re.MULTILINE)


class NotPem(Exception):
    """Why a text isn't certificates in this encoding."""


def begins(octets: bytes) -> bool:
    """Whether octets have a line with which a structure begins."""
    return BEGIN.search(octets) is not None


def certificates_in(octets: bytes) -> list:
    """The octets of each certificate in a text, in its order; none where it has none."""
    found = []
    for begin in CERTIFICATE.finditer(octets):
        end = END.search(octets, begin.end())
        if end is None:
            raise NotPem(f"certificate {len(found) + 1} of it has no END line")
        try:
            found.append(b64decode(b"".join(octets[begin.end():end.start()].split()), validate=True))
        except ValueError as refusal:
            raise NotPem(f"certificate {len(found) + 1} of it isn't base64 between its BEGIN and its END line") from refusal
    return found
