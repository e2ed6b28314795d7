"""When the name of a CA is listed on a trust list at a time, and which refusal
comes first otherwise (Microsoft, wincrypt.h), by Python's integers."""

from hashlib import md5

from judges.der_reader import read_exact

PROPERTY = bytes.fromhex("2b0601040182370a0b")
NAME_DIGEST, NOT_AFTER, NOT_BEFORE, USAGES = b"\x1d", b"\x68", b"\x7e", b"\x7f"
CODE_SIGNING = bytes.fromhex("2b06010505070303")
PER_SECOND = 10_000_000

TEXTS = {
    "CAIsNotTrusted": "the CA is not on the trust list",
    "MalformedEntry": "the CA's entry of the trust list is malformed",
    "CaCertificateRevoked": "the trust list revokes the CA",
    "CaCertificateExpired": "the CA was on the trust list until {}, and it is {} (seconds since 1601)",
    "CaCertificateNotYetValid": "the CA is on the trust list from {} on, and it is {} (seconds since 1601)",
}


def entries_of(element):
    """The entries of a list, each a list of pairs of kind and values."""
    fields = [*element.kids]
    if fields[-1].tag == 0xA0:
        fields.pop()
    return [[(pair.kids[0].contents, [*pair.kids[1].kids]) for pair in one.kids[1].kids] for one in fields[-1].kids]


def values_of(entry, kind):
    """The values of the first attribute of a kind, or None."""
    return next((values for oid, values in entry if oid == PROPERTY + kind), None)


def time_of(octets):
    """Whole seconds, towards zero; None for fewer than eight octets."""
    if len(octets) < 8:
        return None
    intervals = int.from_bytes(octets[:8], "little", signed=True)
    return intervals // PER_SECOND if intervals >= 0 else -(-intervals // PER_SECOND)


def is_of(entry, digest):
    return any(oid == PROPERTY + NAME_DIGEST and values and values[0].contents == digest for oid, values in entry)


def names_code_signing(value):
    return any(purpose.contents == CODE_SIGNING for purpose in read_exact(value.contents).kids)


def refusal_of_end(entry, now):
    """The first refusal of the end of an entry, None where there is none."""
    ends = values_of(entry, NOT_AFTER)
    if ends is None:
        return None
    if not ends:
        return ("MalformedEntry",)
    not_after = time_of(ends[0].contents)
    if not_after is None:
        return ("CaCertificateRevoked",)
    return ("CaCertificateExpired", not_after, now) if not_after < now else None


def refusal_of_beginning(entry, now):
    """The first refusal of the beginning of an entry, None where there is none."""
    begins = values_of(entry, NOT_BEFORE)
    if begins is None:
        return None
    not_before = time_of(begins[0].contents) if begins else None
    if not_before is None:
        return ("MalformedEntry",)
    usages = values_of(entry, USAGES)
    is_of_others = bool(usages) and not names_code_signing(usages[0])
    return ("CaCertificateNotYetValid", not_before, now) if not_before > now and not is_of_others else None


def first_refusal(entries, name, now):
    """The name of the first refusal and its times, None where the name is listed."""
    digest = md5(name).digest()
    entry = next((one for one in entries if is_of(one, digest)), None)
    if entry is None:
        return ("CAIsNotTrusted",)
    return refusal_of_end(entry, now) or refusal_of_beginning(entry, now)


def listing_line(octets, name, now):
    """`listed`, or the text of the first refusal."""
    refusal = first_refusal(entries_of(read_exact(octets)), name, now)
    return TEXTS[refusal[0]].format(*refusal[1:]) if refusal else "listed"
