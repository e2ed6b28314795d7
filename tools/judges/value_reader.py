"""Structures of X.509 read from elements, and what `xgolden_value` prints of them.

This reader exists to be compared with the project's own, so it shares nothing
with it: it is written from X.690, RFC 5280 and the rules of printing below,
over the elements of `der_reader`.

Each function takes an element and gives the words that are printed of its
value; it raises `Shape` where the element is none.

A name is printed with a comma between sets and a plus sign between the members
of a set, each as WORD=TEXT: the word of its type, or the dotted identifier,
and the text of its value.  That is, of a PrintableString and a TeletexString
the octets up to 7F as ASCII and `?` for any other; of a UTF8String its
characters, or as before where it isn't UTF-8; of a BMPString a character for
two octets, `?` for a surrogate or a last single octet; of an IA5String its
octets; of anything else `#` and the element in hexadecimal.
"""

from datetime import datetime
from functools import lru_cache

from judges.der_reader import Constructed, Malformed, Primitive, read_exact, write

LIMIT = 1 << 128
# Elements that are read again and again, as those of one certificate in many files, are read once.
kept = lru_cache(4096)

WORDS = {
    "2.5.4.3": "CN",
    "2.5.4.4": "SN",
    "2.5.4.5": "SERIALNUMBER",
    "2.5.4.6": "C",
    "2.5.4.7": "L",
    "2.5.4.8": "ST",
    "2.5.4.9": "STREET",
    "2.5.4.10": "O",
    "2.5.4.11": "OU",
    "2.5.4.42": "GN",
    "1.2.840.113549.1.9.1": "EMAIL",
}

RSA = "1.2.840.113549.1.1.1"
EC = "1.2.840.10045.2.1"
ED = {f"1.3.101.{arc}" for arc in (110, 111, 112, 113)}
MLDSA = {f"2.16.840.1.101.3.4.3.{arc}" for arc in (17, 18, 19)}

STRINGS = {
    0x0C: "Utf8String",
    0x13: "PrintableString",
    0x14: "TeletexString",
    0x1E: "BmpString",
}


TIMES = {0x17: ("Utc", 2), 0x18: ("Generalized", 4)}


class Shape(Exception):
    """The element is none of the structure that is asked for, and why where that is known."""


def word(octets):
    """Octets as a word of a row."""
    return octets.hex() or "-"


def need(holds, why=""):
    if not holds:
        raise Shape(why)


def contents(element, tag):
    """The contents octets of a primitive element."""
    need(isinstance(element, Primitive) and element.tag == tag)
    return element.contents


def kids(element, tag):
    """The elements in a constructed one."""
    need(isinstance(element, Constructed) and element.tag == tag)
    return element.kids


# Values by their contents octets.

@kept
def dotted(octets):
    """The text of an OBJECT IDENTIFIER's contents (X.690 8.19)."""
    numbers, number, begins = [], 0, True
    for octet in octets:
        need(not (begins and octet == 0x80))
        number = number << 7 | octet & 0x7F
        need(number < LIMIT)
        begins = octet < 0x80
        if begins:
            numbers.append(number)
            number = 0
    need(begins and numbers)
    first = min(numbers[0] // 40, 2)
    return ".".join(map(str, (first, numbers[0] - 40 * first, *numbers[1:])))


def integer(octets):
    """The contents octets of an INTEGER, and those of the same number without a sign."""
    need(octets)
    without = octets[1:] if len(octets) > 1 and octets[0] == 0 else octets
    return f"{word(octets)} {word(without)}"


def bits(octets):
    """The number of unused bits of a BIT STRING, and the octets of its bits."""
    need(octets and octets[0] <= 7 and (octets[0] == 0 or len(octets) > 1))
    return f"{octets[0]} {word(octets[1:])}"


def ia5(octets):
    need(octets.isascii())
    return word(octets)


# Texts.

def octet_text(octets):
    return "".join(chr(octet) if octet < 0x80 else "?" for octet in octets)


def pair_text(pair):
    number = int.from_bytes(pair, "big")
    return "?" if len(pair) < 2 or 0xD800 <= number <= 0xDFFF else chr(number)


def value_text(value):
    """The text of a value in a name."""
    octets = value.contents if isinstance(value, Primitive) else b""
    match value.tag:
        case 0x0C:
            try:
                return octets.decode("utf-8")
            except UnicodeDecodeError:
                return octet_text(octets)
        case 0x13 | 0x14:
            return octet_text(octets)
        case 0x1E:
            return "".join(pair_text(octets[i:i + 2]) for i in range(0, len(octets), 2))
        case 0x16 if octets.isascii():
            return octets.decode("ascii")
        case _:
            return "#" + write(value).hex()


def member_text(member):
    kind, value = member.kids
    text = dotted(kind.contents)
    return f"{WORDS.get(text, text)}={value_text(value)}"


def name_text(name):
    return ",".join("+".join(map(member_text, members.kids)) for members in name.kids)


# Structures.

def directory_string(element):
    need(isinstance(element, Primitive) and element.tag in STRINGS)
    text = value_text(element).encode()
    return f"{STRINGS[element.tag]} {word(element.contents)} {word(text)}"


def value(element):
    text = word(value_text(element).encode())
    if element.tag in STRINGS:
        return directory_string(element)
    if element.tag == 0x16 and element.contents.isascii():
        return f"Ia5String {word(element.contents)} {text}"
    return f"Other {word(write(element))} {text}"


def attribute(element):
    fields = kids(element, 0x30)
    need(len(fields) == 2)
    return f"{dotted(contents(fields[0], 6))} {value(fields[1])}"


def members(element):
    """How many members a set has."""
    found = kids(element, 0x31)
    for member in found:
        attribute(member)
    return str(len(found))


def common_name(element):
    """The first common name of a name that is a DirectoryString."""
    for one in kids(element, 0x30):
        for kind, text in (member.kids for member in one.kids):
            if dotted(kind.contents) == "2.5.4.3" and text.tag in STRINGS:
                return directory_string(text)
    return "none"


@kept
def name(element):
    for one in kids(element, 0x30):
        members(one)
    return f"{word(name_text(element).encode())} {common_name(element)}"


def algorithm(element):
    fields = kids(element, 0x30)
    need(len(fields) in (1, 2))
    oid = dotted(contents(fields[0], 6))
    return f"{oid} {word(write(fields[1])) if len(fields) == 2 else 'none'}"


def rsa_key(element):
    fields = kids(element, 0x30)
    need(len(fields) == 2)
    return " ".join(integer(contents(field, 2)).split()[1] for field in fields)


def rsa_private_key(element):
    version, *numbers = kids(element, 0x30) or [None]
    need(version == Primitive(2, b"\0") and len(numbers) == 8)
    return " ".join(integer(contents(number, 2)).split()[0] for number in numbers)


def optional(fields, tag, printed):
    """What is printed of the next field, which is taken off, where it has the tag."""
    return printed(fields.pop(0)) if fields and fields[0].tag == tag else "none"


def ec_private_key(element):
    """An ECPrivateKey (RFC 5915 3)."""
    fields = list(kids(element, 0x30))
    need(len(fields) >= 2 and fields[0] == Primitive(2, b"\1"))
    private, rest = word(contents(fields[1], 4)), fields[2:]
    curve = optional(rest, 0xA0, lambda one: dotted(contents(explicit(one, 0xA0), 6)))
    point = optional(rest, 0xA1, lambda one: bits(contents(explicit(one, 0xA1), 3)))
    need(not rest)
    return f"{private} {curve} {point}"


PRIVATE_KEYS = {
    "Rsa": rsa_private_key,
    "Ec": ec_private_key,
    "Ed": lambda element: word(contents(element, 4)),
}


def private_key_info(element):
    """A PrivateKeyInfo (RFC 5208 5, RFC 5958 2) of an algorithm that is known."""
    fields = list(kids(element, 0x30))
    need(len(fields) >= 3)
    number = contents(fields[0], 2)
    need(number in (b"\0", b"\1"))
    shown = algorithm(fields[1])
    oid = shown.split()[0]
    need(oid in ED | {RSA, EC})
    kind = "Rsa" if oid == RSA else "Ec" if oid == EC else "Ed"
    private, rest = PRIVATE_KEYS[kind](inner(contents(fields[2], 4))), fields[3:]
    attributes = optional(rest, 0xA0, lambda one: word(write(one)))
    public = optional(rest, 0x81, lambda one: bits(contents(one, 0x81)))
    need(not rest)
    return f"V{number[0] + 1} {shown} {kind} {private} {attributes} {public}"


@kept
def key(element):
    """A SubjectPublicKeyInfo of a kind that is known, with the parameters of its kind."""
    fields = kids(element, 0x30)
    need(len(fields) == 2)
    shown = algorithm(fields[0])
    oid, parameters = shown.split()
    octets = contents(fields[1], 3)
    found = bits(octets)
    if oid == RSA:
        need(parameters in ("none", "0500") and octets[0] == 0)
        return f"Rsa {shown} {rsa_key(inner(octets[1:]))}"
    if oid == EC:
        need(parameters != "none")
        curve = read_exact(bytes.fromhex(parameters))
        need(curve.tag == 6, "the curve of its key isn't named by an identifier")
        dotted(contents(curve, 6))
        return f"Ec {shown} {found}"
    need(oid in ED | MLDSA, f"its key is of the algorithm {oid}")
    return f"{'Ed' if oid in ED else 'Mldsa'} {shown} {found}"


def time(element):
    """A UTCTime or a GeneralizedTime, by its moment (X.690 11.7, 11.8)."""
    need(element.tag in TIMES)
    form, digits = TIMES[element.tag]
    octets = contents(element, element.tag)
    numbers = octets[:-1]
    need(len(octets) == digits + 11 and octets.endswith(b"Z") and numbers.isdigit())
    year = int(numbers[:digits])
    if form == "Utc":
        year += 1900 if year >= 50 else 2000
    try:
        # `datetime` has no year 0, and the year 400 is like it.
        moment = datetime.strptime(f"{year or 400:04}{numbers[digits:].decode()}", "%Y%m%d%H%M%S")
    except ValueError as refusal:
        raise Shape from refusal
    return f"{form} {year:04}-{moment:%m-%d %H:%M:%S}"


@kept
def validity(element):
    times = kids(element, 0x30)
    need(len(times) == 2)
    return " ".join(map(time, times))


def explicit(element, tag):
    """The element under a tag around its own."""
    found = kids(element, tag)
    need(len(found) == 1)
    return found[0]


def other_name(element):
    fields = kids(element, 0xA0)
    need(len(fields) == 2)
    return f"{dotted(contents(fields[0], 6))} {word(write(explicit(fields[1], 0xA0)))}"


def edi_party_name(element):
    *assigners, party = kids(element, 0xA5) or [None]
    need(party and len(assigners) <= 1)
    strings = [directory_string(explicit(assigner, 0xA0)) for assigner in assigners] or ["none"]
    return f"{strings[0]} {directory_string(explicit(party, 0xA1))}"


def directory_name(element):
    found = explicit(element, 0xA4)
    name(found)
    return word(name_text(found).encode())


def general_name(element):
    """A name in one of the forms of RFC 5280 4.2.1.6."""
    need(element.tag in GENERAL_NAMES)
    form, read = GENERAL_NAMES[element.tag]
    return f"{form} {read(element)}"


def general_names(element):
    """How many names there are, and each."""
    names = kids(element, 0x30)
    return " ".join((str(len(names)), *map(general_name, names)))


def inner(octets):
    """The element that a string holds."""
    try:
        return read_exact(octets)
    except Exception as refusal:
        raise Shape from refusal


GENERAL_NAMES = {
    0xA0: ("OtherName", other_name),
    0x81: ("Rfc822Name", lambda element: ia5(contents(element, 0x81))),
    0x82: ("DnsName", lambda element: ia5(contents(element, 0x82))),
    0xA4: ("DirectoryName", directory_name),
    0xA5: ("EdiPartyName", edi_party_name),
    0x86: ("Uri", lambda element: ia5(contents(element, 0x86))),
    0x87: ("IpAddress", lambda element: word(contents(element, 0x87))),
    0x88: ("RegisteredId", lambda element: dotted(contents(element, 0x88))),
}


# Extensions, with the element that is written for each: TRUE is FF, and FALSE by default left out.

def boolean(element):
    octets = contents(element, 1)
    need(len(octets) == 1)
    return octets != b"\0"


def written_boolean(flag):
    return Primitive(1, b"\xff" if flag else b"\0")


def basic_constraints(element):
    rest = list(kids(element, 0x30))
    ca = boolean(rest.pop(0)) if rest and rest[0].tag == 1 else None
    pathlen = contents(rest.pop(0), 2) if rest else None
    need(not rest)
    written = [] if ca is None else [written_boolean(ca)]
    shown = "none"
    if pathlen is not None:
        need(pathlen)
        number = int.from_bytes(pathlen, "big", signed=True)
        need(0 <= number <= 255, "its path length isn't from 0 to 255")
        need(len(pathlen) == number.bit_length() // 8 + 1)
        written.append(Primitive(2, pathlen))
        shown = str(number)
    return f"{'none' if ca is None else str(ca).lower()} {shown}", Constructed(0x30, tuple(written))


def key_usage(element):
    octets = contents(element, 3)
    shown = bits(octets)
    digits = "".join(f"{octet:08b}" for octet in octets[1:])
    digits = digits[:len(digits) - octets[0]][:9].ljust(9, "0")
    return f"{shown} {digits}", element


def extended_key_usage(element):
    purposes = [dotted(contents(purpose, 6)) for purpose in kids(element, 0x30)]
    code_signing = "1.3.6.1.5.5.7.3.3" in purposes
    return f"{','.join(purposes) or '-'} {str(code_signing).lower()}", element


def authority_key(element):
    rest = list(kids(element, 0x30))
    shown = []
    for tag in 0x80, 0xA1, 0x82:
        found = rest.pop(0) if rest and rest[0].tag == tag else None
        if found is None:
            shown.append("none")
        else:
            shown.append(word(found.contents if isinstance(found, Primitive) else write(found)))
    need(not rest)
    return " ".join(shown), element


def subject_key(element):
    return word(contents(element, 4)), element


EXTENSION_VALUES = {
    "2.5.29.14": ("SubjectKeyIdentifier", subject_key),
    "2.5.29.15": ("KeyUsage", key_usage),
    "2.5.29.19": ("BasicConstraints", basic_constraints),
    "2.5.29.35": ("AuthorityKeyIdentifier", authority_key),
    "2.5.29.37": ("ExtendedKeyUsage", extended_key_usage),
}


# Names beside a name, by the identifiers of the extensions that hold them.
ALTERNATIVE_NAMES = {"2.5.29.17": "SubjectAltName", "2.5.29.18": "IssuerAltName"}


def alternative_names(kind, octets):
    """General names where the octets hold some, else the octets."""
    try:
        return f"{kind} {general_names(inner(octets))}"
    except Shape:
        return f"Raw {word(octets)}"


@kept
def extension(element):
    fields = kids(element, 0x30)
    need(2 <= len(fields) <= 3)
    oid = dotted(contents(fields[0], 6))
    critical = len(fields) == 3 and boolean(fields[1])
    octets = contents(fields[-1], 4)
    value = f"Raw {word(octets)}"
    if oid in ALTERNATIVE_NAMES:
        value = alternative_names(ALTERNATIVE_NAMES[oid], octets)
    elif oid in EXTENSION_VALUES:
        kind, value_of = EXTENSION_VALUES[oid]
        shown, value_element = value_of(inner(octets))
        value, octets = f"{kind} {shown}", write(value_element)
    flag = (written_boolean(True),) if critical else ()
    written = Constructed(0x30, (fields[0], *flag, Primitive(4, octets)))
    return f"{oid} {str(critical).lower()} {value} {word(write(written))}"


def given(fields, tag):
    """The first of the fields, which goes, where it has this tag."""
    return fields.pop(0) if fields and fields[0].tag == tag else None


def whole(value):
    """A whole element as a word, `none` for none."""
    return "none" if value is None else word(write(value))


@kept
def certificate(element):
    """A Certificate (RFC 5280 4.1), field by field, and what is written for it."""
    parts = kids(element, 0x30)
    need(len(parts) == 3)
    to_be_signed, outer, signature = parts
    fields = list(kids(to_be_signed, 0x30))
    version, shown_version = given(fields, 0xA0), "none"
    if version is not None:
        shown_version = word(contents(explicit(version, 0xA0), 2))
        need(shown_version in ("00", "01", "02"))
    need(len(fields) >= 6)
    serial, inner_algorithm, issuer, dates, subject, subject_key, *rest = fields
    oids = algorithm(inner_algorithm).split()[0], algorithm(outer).split()[0]
    name(issuer), name(subject), key(subject_key)
    ids = [one and contents(one, tag) for tag in (0x81, 0x82) for one in [given(rest, tag)]]
    listed, written = given(rest, 0xA3), None
    need(not rest)
    if listed is not None:
        lines = map(extension, kids(explicit(listed, 0xA3), 0x30))
        written = Constructed(0x30, tuple(read_exact(bytes.fromhex(line.split()[-1])) for line in lines))
        replaced = (*to_be_signed.kids[:-1], Constructed(0xA3, (written,)))
        to_be_signed = Constructed(0x30, replaced)
    return " ".join((
        shown_version, integer(contents(serial, 2)).split()[0], oids[0], whole(issuer), validity(dates), whole(subject), whole(subject_key),
        *("none" if one is None else word(one) for one in ids), whole(written), oids[1], bits(contents(signature, 3)),
        whole(Constructed(0x30, (to_be_signed, outer, signature))),
    ))


CODE_SIGNING, TIME_STAMPING = "1.3.6.1.5.5.7.3.3", "1.3.6.1.5.5.7.3.8"


def said(extensions):
    """What the first basic constraints and key identifiers say, and which purposes some usage holds."""
    values = {}
    for one in extensions:
        values.setdefault(dotted(one.kids[0].contents), []).append(one.kids[-1].contents)

    def first(oid, printed, none):
        return printed(inner(values[oid][0])) if oid in values else none

    usages = values.get("2.5.29.37", [])
    purposes = {dotted(purpose.contents) for usage in usages for purpose in inner(usage).kids}
    tests = bool(usages), CODE_SIGNING in purposes, TIME_STAMPING in purposes
    return " ".join((
        first("2.5.29.19", lambda one: basic_constraints(one)[0], "none none"),
        first("2.5.29.14", lambda one: subject_key(one)[0], "none"),
        first("2.5.29.35", lambda one: authority_key(one)[0].split()[0], "none"),
        *(str(test).lower() for test in tests),
    ))


def view_line(octets):
    """What is printed of a certificate where it lies: each field as it is, and what extensions say."""
    element = read_exact(octets)
    try:
        certificate(element)
    except Shape:
        return "Shape"
    to_be_signed, outer, signature = element.kids
    fields = list(to_be_signed.kids)
    version = given(fields, 0xA0)
    serial, inner_algorithm, issuer, dates, subject, subject_key, *rest = fields
    ids = [given(rest, tag) for tag in (0x81, 0x82)]
    listed = given(rest, 0xA3)
    key_algorithm, key_bits = subject_key.kids
    return " ".join((
        whole(version and version.kids[0]), word(serial.contents), *map(whole, (inner_algorithm, issuer, dates)), validity(dates),
        *map(whole, (subject, subject_key, key_algorithm)), word(key_bits.contents[1:]),
        *("none" if one is None else word(one.contents) for one in ids), whole(listed and listed.kids[0]),
        whole(outer), word(signature.contents[1:]), whole(to_be_signed), said(listed.kids[0].kids if listed else ()),
    ))


# Attributes of requests and of signed data, with the element that is written for each.

def requested(element):
    """How many extensions there are, and each."""
    listed = kids(element, 0x30)
    return " ".join((str(len(listed)), *map(extension, listed)))


def written_request(element):
    """Extensions as they are written."""
    return Constructed(0x30, tuple(read_exact(bytes.fromhex(extension(one).split()[-1])) for one in element.kids))


ATTRIBUTE_VALUES = {
    "1.2.840.113549.1.9.3": ("ContentType", lambda value: dotted(contents(value, 6))),
    "1.2.840.113549.1.9.4": ("MessageDigest", lambda value: word(contents(value, 4))),
    "1.2.840.113549.1.9.14": ("Extensions", requested),
}


def valued_attribute(element):
    """An Attribute (RFC 2986 4.1, RFC 5652 5.3): how many values there are, and each; and what is written for it."""
    fields = kids(element, 0x30)
    need(len(fields) == 2)
    oid = dotted(contents(fields[0], 6))
    kind, shown = ATTRIBUTE_VALUES.get(oid, ("Raw", lambda one: word(write(one))))
    values = kids(fields[1], 0x31)
    line = " ".join((oid, kind, str(len(values)), *map(shown, values)))
    written = tuple(map(written_request, values)) if kind == "Extensions" else values
    return f"{line} {word(write(Constructed(0x30, (fields[0], Constructed(0x31, written)))))}"


def request(element):
    """A CertificationRequest (RFC 2986 4.2), field by field, and what is written for it."""
    parts = kids(element, 0x30)
    need(len(parts) == 3)
    info, outer, signature = parts
    fields = list(kids(info, 0x30))
    need(len(fields) >= 3 and fields[0] == Primitive(2, b"\0"))
    version, subject, subject_key, *rest = fields
    name(subject), key(subject_key)
    listed, shown = given(rest, 0xA0), "none"
    need(not rest)
    written = [version, subject, subject_key]
    if listed is not None:
        lines = list(map(valued_attribute, kids(listed, 0xA0)))
        shown = " ".join((str(len(lines)), *lines))
        written.append(Constructed(0xA0, tuple(read_exact(bytes.fromhex(line.split()[-1])) for line in lines)))
    whole_request = Constructed(0x30, (Constructed(0x30, tuple(written)), outer, signature))
    return " ".join((
        whole(subject), whole(subject_key), shown, algorithm(outer).split()[0], bits(contents(signature, 3)), whole(whole_request),
    ))


# Of these what is written may be another element than the one that was read; it is printed last.
WRITTEN_ANEW = ("extension", "certificate", "valued_attribute", "request")

KINDS = {
    "integer": lambda element: integer(contents(element, 2)).split()[0],
    "bits": lambda element: bits(contents(element, 3)),
    "identifier": lambda element: dotted(contents(element, 6)),
    "ia5": lambda element: ia5(contents(element, 0x16)),
    "algorithm": algorithm,
    "rsa_key": rsa_key,
    "rsa_private_key": rsa_private_key,
    "ec_private_key": ec_private_key,
    "private_key_info": private_key_info,
    "key": key,
    "directory_string": directory_string,
    "value": value,
    "attribute": attribute,
    "set": members,
    "name": name,
    "extension": extension,
    "validity": validity,
    "general_names": general_names,
    "certificate": certificate,
    "valued_attribute": valued_attribute,
    "request": request,
}


def structure_line(kind, octets):
    """What is printed of octets as a structure: a value comes back as it was read.

    Extensions alone may come back otherwise, with their flags as DER has them.
    """
    try:
        line = KINDS[kind](read_exact(octets))
    except Shape:
        return "Shape"
    same = kind not in WRITTEN_ANEW or line.endswith(f" {octets.hex()}")
    return f"{'same' if same else 'changed'} {line}"


OTHER = "the element has another structure than the one that is read"

FAULTS = {
    "Truncated": "the octets end within the element",
    "ReservedTag": "the reserved tag 0",
    "HighTag": "a tag number above 30",
    "Indefinite": "an indefinite length",
    "NotShortest": "a length that is not in its shortest form",
    "WideLength": "a length of more than four octets",
    "TooDeep": "an element nested deeper than 64 levels",
    "Overrun": "an element that runs past the end of the one around it",
    "Trailing": "octets after the element",
}


def shown_fault(refusal):
    """How a fault and its place are printed."""
    return f"{FAULTS[refusal.fault]} at octet {refusal.at}"


def unread(element, octets, made):
    """The line of what is made of the octets of an element, or why there is none."""
    try:
        return made(read_exact(octets))
    except Malformed as refusal:
        why = f"malformed DER: {shown_fault(refusal)}"
    except Shape:
        why = OTHER
    return f"(ASN1) couldn't deserialize {element}: {why}"
