"""Rows of names on trust lists: a list and a name in hexadecimal, a time in
seconds since 1601, and why the row is there."""

from hashlib import md5
from struct import pack

from cases.cms_rows import der, entry, property_of, trust_list

NAME = "300c310a300806035504030c0141"
OTHER = "300c310a300806035504030c0142"
SECOND = 10_000_000
NOW = 13_400_000_000


def digest_of(name):
    return der("04", md5(bytes.fromhex(name)).hexdigest())


def octets(intervals):
    """A FILETIME: a signed number of intervals of 100 nanoseconds, little-endian."""
    return pack("<q", intervals).hex()


def times(number, *values):
    return property_of(number, *(der("04", value) for value in values))


def ends(*values):
    return times(104, *values)


def begins(*values):
    return times(126, *values)


def usages(*values):
    return property_of(127, *(der("04", der("30", *purposes)) for purposes in values))


CODE_SIGNING = "06082b06010505070303"
TIME_STAMPING = "06082b06010505070308"
SERVER = "06082b06010505070301"

NAMED = property_of(29, digest_of(NAME))
LISTED = entry(NAMED)
LATE, EARLY = octets((NOW + 1) * SECOND), octets((NOW - 1) * SECOND)
SEVEN = "ff" * 7

ENTRIES = [
    ([], "no entry"),
    ([LISTED], "an entry with the digest alone"),
    ([entry(property_of(29, digest_of(OTHER)))], "an entry of another name"),
    ([entry(property_of(29, digest_of(OTHER))), LISTED], "the second entry is of the name"),
    ([entry(property_of(29))], "a digest without a value"),
    ([entry(property_of(29, digest_of(OTHER), digest_of(NAME)))], "the second digest is of the name"),
    ([entry(property_of(29, digest_of(NAME), digest_of(OTHER)))], "the first digest is of the name"),
    ([entry(property_of(29, der("04", md5(bytes.fromhex(NAME)).hexdigest() + "00")))], "a digest with an octet behind"),
    ([entry(property_of(29, digest_of(OTHER)), NAMED)], "the second attribute of digests is of the name"),
    ([entry(property_of(11, digest_of(NAME)))], "the digest is in another property"),
    ([entry(ends(LATE), NAMED)], "the digest is the second attribute"),
    # two entries of the name: the first counts
    ([entry(NAMED, ends(EARLY)), LISTED], "the second entry would be good"),
    ([LISTED, entry(NAMED, ends(EARLY))], "the second entry has ended"),
    ([entry(NAMED, ends()), LISTED], "the first entry is malformed"),
    # the end
    ([entry(NAMED, ends())], "no end in its set"),
    ([entry(NAMED, ends(""))], "an end of no octets"),
    ([entry(NAMED, ends(SEVEN))], "an end of seven octets"),
    ([entry(NAMED, ends(octets(NOW * SECOND)))], "it ends now"),
    ([entry(NAMED, ends(octets(NOW * SECOND + 9_999_999)))], "it ends within this second"),
    ([entry(NAMED, ends(octets(NOW * SECOND - 1)))], "it ended an interval before"),
    ([entry(NAMED, ends(EARLY))], "it ended a second before"),
    ([entry(NAMED, ends(LATE))], "it ends a second later"),
    ([entry(NAMED, ends(LATE + "00"))], "nine octets, the last one passed over"),
    ([entry(NAMED, ends(EARLY + "7f"))], "nine octets, and eight have ended"),
    ([entry(NAMED, ends(LATE, EARLY))], "the second value has ended"),
    ([entry(NAMED, ends(EARLY, LATE))], "the first value has ended"),
    ([entry(NAMED, ends(LATE), ends(EARLY))], "the second attribute has ended"),
    ([entry(NAMED, ends(EARLY), ends(LATE))], "the first attribute has ended"),
    ([entry(NAMED, ends(SEVEN, LATE))], "the first value is no time"),
    # the beginning
    ([entry(NAMED, begins())], "no beginning in its set"),
    ([entry(NAMED, begins(""))], "a beginning of no octets"),
    ([entry(NAMED, begins(SEVEN))], "a beginning of seven octets"),
    ([entry(NAMED, begins(SEVEN), usages([SERVER]))], "the same, said of others"),
    ([entry(NAMED, begins(octets(NOW * SECOND)))], "it begins now"),
    ([entry(NAMED, begins(octets(NOW * SECOND + 9_999_999)))], "it begins within this second"),
    ([entry(NAMED, begins(LATE))], "it begins a second later"),
    ([entry(NAMED, begins(EARLY))], "it began a second before"),
    ([entry(NAMED, begins(LATE + "80"))], "nine octets, and eight are later"),
    ([entry(NAMED, begins(EARLY, LATE))], "the second value is later"),
    ([entry(NAMED, begins(LATE, EARLY))], "the first value is later"),
    ([entry(NAMED, begins(EARLY), begins(LATE))], "the second attribute is later"),
    ([entry(NAMED, begins(LATE), begins(EARLY))], "the first attribute is later"),
    # of which usages it is said
    ([entry(NAMED, begins(LATE), usages())], "no usages in their set"),
    ([entry(NAMED, begins(LATE), usages([]))], "usages that are none"),
    ([entry(NAMED, begins(LATE), usages([CODE_SIGNING]))], "code signing"),
    ([entry(NAMED, begins(LATE), usages([TIME_STAMPING]))], "time stamping"),
    ([entry(NAMED, begins(LATE), usages([SERVER, CODE_SIGNING]))], "code signing is the second one"),
    ([entry(NAMED, begins(LATE), usages([SERVER, TIME_STAMPING]))], "two others"),
    ([entry(NAMED, begins(LATE), usages([SERVER], [CODE_SIGNING]))], "the second value names code signing"),
    ([entry(NAMED, begins(LATE), usages([CODE_SIGNING], [SERVER]))], "the first value names code signing"),
    ([entry(NAMED, begins(LATE), usages([SERVER]), usages([CODE_SIGNING]))], "the second attribute names code signing"),
    ([entry(NAMED, begins(LATE), usages([CODE_SIGNING]), usages([SERVER]))], "the first attribute names code signing"),
    ([entry(usages([SERVER]), begins(LATE), NAMED)], "in another order"),
    ([entry(NAMED, usages([CODE_SIGNING]))], "usages without a beginning"),
    # both
    ([entry(NAMED, begins(LATE), ends(EARLY))], "the end is asked first"),
    ([entry(NAMED, begins(), ends(EARLY))], "the end is asked before a beginning without a value"),
    ([entry(NAMED, begins(SEVEN), ends(SEVEN))], "neither is a time"),
    ([entry(NAMED, begins(EARLY), ends(LATE))], "within both"),
    ([entry(NAMED, begins(LATE), ends(LATE), usages([SERVER]))], "within the end, and the beginning is of others"),
]

# Times below zero, which divide towards zero, and the largest ones.
SIGNED = [
    ([entry(NAMED, ends("ff" * 8))], 1, "an interval before 1601 is the second 0"),
    ([entry(NAMED, ends("ff" * 8))], 0, "an interval before 1601, at the second 0"),
    ([entry(NAMED, ends("ff" * 8))], -1, "the same a second before"),
    ([entry(NAMED, ends(octets(-SECOND)))], -1, "a second before 1601"),
    ([entry(NAMED, ends(octets(-SECOND)))], 0, "a second later"),
    ([entry(NAMED, ends(octets(-SECOND - 1)))], -1, "an interval more"),
    ([entry(NAMED, begins(octets(-1)))], -1, "a beginning an interval before 1601"),
    ([entry(NAMED, begins(octets(-1)))], 0, "the same at the second 0"),
    ([entry(NAMED, begins("000000000000007f"))], 1, "a beginning in the far future"),
    ([entry(NAMED, begins("000000000000007f"), usages([TIME_STAMPING]))], 1, "the same of time stamping alone"),
    ([entry(NAMED, begins("ffffffffffffff7f"))], 922_337_203_685, "the last time"),
    ([entry(NAMED, begins("ffffffffffffff7f"))], 922_337_203_684, "a second before the last time"),
    ([entry(NAMED, ends("0000000000000080"))], -922_337_203_685, "the first time"),
    ([entry(NAMED, ends("0000000000000080"))], -922_337_203_684, "a second after the first time"),
    ([entry(NAMED, ends("0000000000000080"))], -2**63, "the first second of all"),
    ([entry(NAMED, begins("ffffffffffffff7f"))], 2**63 - 1, "the last second of all"),
]

ROWS = [
    *((trust_list(*entries), NAME, NOW, why) for entries, why in ENTRIES),
    *((trust_list(*entries), NAME, now, why) for entries, now, why in SIGNED),
    (trust_list(entry(property_of(29, digest_of("")))), "", NOW, "the name of no octets"),
    (trust_list(LISTED), OTHER, NOW, "another name"),
    (trust_list(LISTED, behind="a000"), NAME, NOW, "extensions behind the entries"),
    (trust_list(*(entry(property_of(29, digest_of(f"0101{index:02x}"))) for index in range(200)), LISTED), NAME, NOW, "the last of 201 entries"),
]

# What some rows expect, by hand.
BY_HAND = {
    "an interval before 1601 is the second 0": "the CA was on the trust list until 0, and it is 1 (seconds since 1601)",
    "an interval before 1601, at the second 0": "listed",
    "a beginning in the far future": "the CA is on the trust list from 915131444281 on, and it is 1 (seconds since 1601)",
    "the same of time stamping alone": "listed",
    "an end of seven octets": "the trust list revokes the CA",
    "no beginning in its set": "the CA's entry of the trust list is malformed",
    "no entry": "the CA is not on the trust list",
    "an entry with the digest alone": "listed",
}
