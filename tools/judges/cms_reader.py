"""Structures of PKCS #7 and Authenticode read from elements, and what `xgolden_certificate` prints of them.

This reader exists to be compared with the project's own, as `value_reader`,
whose functions on the values within it takes: it is written from RFC 2315, RFC
5652, the Windows Authenticode Portable Executable Signature Format and X.690,
over the elements of `der_reader`.
"""

from hashlib import sha256

from judges.der_reader import Malformed, Primitive, read_exact, write
from judges.value_reader import (
    Shape, algorithm, contents, dotted, explicit, integer, kids, name, name_text, need, optional, shown_fault, valued_attribute, word,
)


def digest_info(element):
    """A digest and its algorithm (RFC 2315 9.4)."""
    fields = kids(element, 0x30)
    need(len(fields) == 2)
    return f"{algorithm(fields[0])} {word(contents(fields[1], 4))}"


def attribute(element):
    """A type, and a value of any form or none."""
    fields = kids(element, 0x30)
    need(len(fields) in (1, 2))
    value = word(write(fields[1])) if len(fields) == 2 else "none"
    return f"{dotted(contents(fields[0], 6))} {value}"


def indirect_data(element):
    """What kind of file is signed, and its digest."""
    fields = kids(element, 0x30)
    need(len(fields) == 2)
    return f"{attribute(fields[0])} {digest_info(fields[1])}"


def string(element):
    """A text in units of two octets."""
    octets = contents(element, 0x80)
    need(len(octets) % 2 == 0)
    return word(octets)


def link(element):
    """The octets of a URL."""
    return word(contents(element, 0x80))


def opus_info(element):
    """The name of a program and a link, each left out or under a tag of its own."""
    rest = list(kids(element, 0x30))
    name = optional(rest, 0xA0, lambda one: string(explicit(one, 0xA0)))
    more = optional(rest, 0xA1, lambda one: link(explicit(one, 0xA1)))
    need(not rest)
    return f"{name} {more}"


# Trust lists (Microsoft, wincrypt.h: CTL_INFO, CTL_ENTRY).

def tagged(rest, tag):
    """The next element, where it has the tag."""
    return rest.pop(0) if rest and rest[0].tag == tag else None


def listed(elements, shown):
    return " ".join(("[", *map(shown, elements), "]"))


def held_purposes(element):
    """Identifiers in a string."""
    try:
        inner = read_exact(contents(element, 4))
    except Malformed:
        raise Shape from None
    return listed(kids(inner, 0x30), lambda one: dotted(contents(one, 6)))


def string_word(element):
    return word(contents(element, 4))


ENTRY_ATTRIBUTES = {
    "1.3.6.1.4.1.311.10.11.29": ("hashes", string_word),
    "1.3.6.1.4.1.311.10.11.104": ("disallowed", string_word),
    "1.3.6.1.4.1.311.10.11.126": ("starts", string_word),
    "1.3.6.1.4.1.311.10.11.127": ("purposes", held_purposes),
}


def entry_attribute(element):
    """An attribute of an entry: its values by its identifier."""
    fields = kids(element, 0x30)
    need(len(fields) == 2)
    oid = dotted(contents(fields[0], 6))
    shown, shape = ENTRY_ATTRIBUTES.get(oid, (oid, lambda one: word(write(one))))
    return f"{shown} {listed(kids(fields[1], 0x31), shape)}"


def entry(element):
    """A subject, and what is said of it."""
    fields = kids(element, 0x30)
    need(len(fields) == 2)
    return f"{string_word(fields[0])} {listed(kids(fields[1], 0x31), entry_attribute)}"


def time_in(rest):
    """A time of any contents is next."""
    need(rest and rest.pop(0).tag in (0x17, 0x18))


def trust_list(element):
    """The entries of a list; the other fields have their forms."""
    rest = list(kids(element, 0x30))
    for tag in 2, 0x30, 4, 2:
        one = tagged(rest, tag)
        if tag == 0x30:
            need(one is not None)
            listed(one.kids, lambda kid: dotted(contents(kid, 6)))
        elif tag == 2 and one is not None:
            integer(contents(one, 2))
    time_in(rest)
    if rest and rest[0].tag in (0x17, 0x18):
        time_in(rest)
    need(len(rest) >= 2)
    algorithm(rest.pop(0))
    entries = listed(kids(rest.pop(0), 0x30), entry)
    tagged(rest, 0xA0)
    need(not rest)
    return f"list {entries}"


CONTENTS = {
    "1.3.6.1.4.1.311.2.1.4": indirect_data,
    "1.3.6.1.4.1.311.10.1": trust_list,
    "1.2.840.113549.1.7.1": lambda element: f"data {word(contents(element, 4))}",
}


def content_info(element):
    """A type, and a content by the type, or none (RFC 5652 5.2, RFC 2315 7)."""
    rest = list(kids(element, 0x30))
    need(rest)
    ty = dotted(contents(rest.pop(0), 6))
    shown = CONTENTS.get(ty, lambda one: word(write(one)))
    content = optional(rest, 0xA0, lambda one: shown(explicit(one, 0xA0)))
    need(not rest)
    return f"{ty} {content}"


# Signers hold unsigned attributes, these hold signers or signed data, and signed data holds signers.

def version(element):
    """The number of a version from 0 to 5 (RFC 5652 10.2.5)."""
    octets = contents(element, 2)
    need(len(octets) == 1 and octets[0] <= 5)
    return octets[0]


def identifier(element):
    """An issuer and a serial number, or the identifier of a key (RFC 5652 5.3)."""
    if isinstance(element, Primitive):
        return f"key {word(contents(element, 0x80))}"
    fields = kids(element, 0x30)
    need(len(fields) == 2)
    name(fields[0])
    return f"{name_text(fields[0])} {integer(contents(fields[1], 2)).split()[0]}"


def oid_of(element):
    return algorithm(element).split()[0]


UNSIGNED = {
    "1.2.840.113549.1.9.6": ("signers", lambda one: signer_info(one)),
    "1.3.6.1.4.1.311.3.3.1": ("tokens", lambda one: pkcs7(one)),
}


def unsigned_attribute(element):
    """An attribute whose values are signers, signed data, or anything, by its identifier."""
    fields = kids(element, 0x30)
    need(len(fields) == 2)
    oid = dotted(contents(fields[0], 6))
    values = kids(fields[1], 0x31)
    word_of, shape = UNSIGNED.get(oid, (oid, lambda one: None))
    for one in values:
        shape(one)
    return f"{word_of} {len(values)}"


def signer_info(element):
    """A signer (RFC 5652 5.3)."""
    rest = list(kids(element, 0x30))
    need(len(rest) >= 5)
    head = f"{version(rest.pop(0))} {identifier(rest.pop(0))} {oid_of(rest.pop(0))}"
    signed = "none"
    if rest[0].tag == 0xA0:
        attributes = kids(rest.pop(0), 0xA0)
        for one in attributes:
            valued_attribute(one)
        signed = str(len(attributes))
    need(len(rest) >= 2)
    tail = f"{oid_of(rest.pop(0))} {word(contents(rest.pop(0), 4))}"
    unsigned = optional(rest, 0xA1, lambda one: listed(kids(one, 0xA1), unsigned_attribute))
    need(not rest)
    return f"{head} {signed} {tail} {unsigned}"


def signed_data(element):
    """Signed data (RFC 5652 5.1)."""
    rest = list(kids(element, 0x30))
    need(len(rest) >= 4)
    number = version(rest.pop(0))
    algorithms = kids(rest.pop(0), 0x31)
    for one in algorithms:
        algorithm(one)
    content = content_info(rest.pop(0))
    certificates = optional(rest, 0xA0, lambda one: str(len(kids(one, 0xA0))))
    lists = optional(rest, 0xA1, lambda one: str(len(kids(one, 0xA1))))
    need(len(rest) == 1)
    signers = listed(kids(rest[0], 0x31), signer_info)
    return f"{number} {len(algorithms)} {content} {certificates} {lists} {signers}"


def pkcs7(element):
    """Signed data with its type (RFC 5652 3)."""
    fields = kids(element, 0x30)
    need(len(fields) == 2 and dotted(contents(fields[0], 6)) == "1.2.840.113549.1.7.2")
    return signed_data(explicit(fields[1], 0xA0))


def timestamp_request(element):
    """What kind of stamp is asked for, and the content that is to be signed."""
    fields = kids(element, 0x30)
    need(len(fields) == 2)
    return f"{dotted(contents(fields[0], 6))} {content_info(fields[1])}"


# The same fields where they lie: each in its octets.

def given(element):
    return "none" if element is None else word(write(element))


def named_by(element):
    """The octets of the issuer and the contents of the serial number, unless a key is named."""
    if isinstance(element, Primitive):
        return "none"
    issuer, serial = element.kids
    return f"{word(write(issuer))} {word(serial.contents)}"


def signer_view(element):
    rest = list(element.kids)
    number, sid, digest = (rest.pop(0) for _ in range(3))
    signed = tagged(rest, 0xA0)
    algorithm_element, signature = rest.pop(0), rest.pop(0)
    return (f"{version(number)} {named_by(sid)} {given(digest)} {given(signed)} {given(algorithm_element)} "
            f"{word(signature.contents)} {given(tagged(rest, 0xA1))}")


def signed_view(element):
    """The fields of signed data with its type that is one."""
    rest = list(explicit(element.kids[1], 0xA0).kids)
    number, algorithms, content = (rest.pop(0) for _ in range(3))
    oid, *held = content.kids
    certificates = tagged(rest, 0xA0)
    tagged(rest, 0xA1)
    whole = given(held[0].kids[0]) if held else "none"
    members = certificates.kids if certificates is not None else ()
    return (f"{version(number)} {listed(algorithms.kids, given)} {word(oid.contents)} {whole} "
            f"{listed(members, given)} {listed(rest[0].kids, signer_view)}")


KINDS = {
    "trust_list": trust_list,
    "entry": entry,
    "entry_attribute": entry_attribute,
    "timestamp_request": timestamp_request,
    "content_info": content_info,
    "unsigned_attribute": unsigned_attribute,
    "signer_info": signer_info,
    "signed_data": signed_data,
    "pkcs7": pkcs7,
    "digest_info": digest_info,
    "attribute": attribute,
    "indirect_data": indirect_data,
    "string": string,
    "link": link,
    "opus_info": opus_info,
}


def cms_line(kind, octets):
    """What is printed of octets as a structure: every value comes back as it was read."""
    try:
        return f"same {KINDS[kind](read_exact(octets))}"
    except Shape:
        return "Shape"
    except Malformed as malformed:
        need(malformed.fault == "TooDeep")
        return "TooDeep"


def digest(line):
    """The first half of the SHA-256 of a line."""
    return sha256(line.encode("ascii")).digest()[:16].hex()


def both_line(octets):
    """Whether signed data comes back as it was read, and the digest of its fields, a bar, and that of the
    fields where they lie; or the refusals."""
    try:
        element = read_exact(octets)
        return f"same {digest(pkcs7(element))} | {digest(signed_view(element))}"
    except Shape:
        return "Shape | Shape"
    except Malformed as malformed:
        need(malformed.fault != "Trailing")
        return f"{shown_fault(malformed)} | {shown_fault(malformed)}"
