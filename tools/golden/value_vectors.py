"""Vectors of values and structures, for `xgolden_value`, `xgolden_certificate` and `xgolden_issuing`.

The lines come from
`value_reader` and `cms_reader`, from Python's arithmetic, `datetime` and
codecs, from the list in `oid_table`, and for the names and keys of certificates
from what openssl said of them (`certificate_rows.txt`, which
`certificate_parts.py` makes), and not from what the programs printed.  Private
keys are among the rows that openssl made (`private_key_rows.txt`, from
`private_keys.py`).
"""

from datetime import datetime
from hashlib import sha256
from itertools import chain

from cases import cms_rows, kept_certificates, kept_private_keys, signature_rows, whole_certificates
from cases import hostile_certificates as hostile
from cases import listing_rows as listings
from cases import structure_rows as structures
from cases import value_rows as values
from common import command, folders
from golden.stored_run import Vectors
from interop import private_keys, world_certificates, world_signatures
from interop.certificate_parts import STORED, rows_of
from interop.oid_table import BAD_CONTENTS, BAD_TEXTS, KNOWN, READ, contents
from judges import cms_reader
from judges.cms_reader import cms_line
from judges.der_reader import Constructed, Malformed, Primitive, read_exact, read_first, write
from judges.listing_judge import listing_line
from judges.value_reader import ATTRIBUTE_VALUES, FAULTS, KINDS, Shape, bits, general_name, ia5, integer, name, shown_fault, structure_line, unread, valued_attribute, view_line, word


EMAIL = "1.2.840.113549.1.9.1"

ERRORS = [
    ("TextError::BadText", "the text is not an object identifier in dotted decimal form"),
    ("TextError::Memory", "out of memory"),
    ("CharSetError::CharSet", "a character is outside the character set of the string"),
    ("CharSetError::Memory", "out of memory"),
]


def text_word(text):
    return word(text.encode())


def shape_of(function, octets):
    """What a function prints of octets, or that they have no such shape."""
    try:
        return function(octets)
    except Shape:
        return "Shape"


# Object identifiers.

def identifier_rows():
    for text, _ in READ:
        yield f"identifier from_text {text_word(text)}", word(contents(text))
        yield f"identifier from_content {word(contents(text))}", text
    for text, _ in (*BAD_TEXTS, ("1.2\n", "a line end behind")):
        yield f"identifier from_text {text_word(text)}", "BadText"
    for octets, _ in BAD_CONTENTS:
        yield f"identifier from_content {word(bytes.fromhex(octets))}", "Shape"
    for _, known, text, _ in KNOWN:
        octets = word(contents(text))
        line = f"{known} {text} {octets}"
        yield f"identifier by_name {text_word(known)}", line
        yield f"identifier by_contents {octets}", line
        yield f"identifier from_text {text_word(text)}", octets
    for known in ("id-sha257", "", "ID-SHA256", "id-sha25", "id-sha2566"):
        yield f"identifier by_name {text_word(known)}", "none"
    for octets in ("-", "2a03", "2a8648"):
        yield f"identifier by_contents {octets}", "none"
    for attribute, text, _ in structures.ATTRIBUTE_TYPES:
        yield f"identifier attribute {word(contents(text))}", f"{attribute} {text}"
    for octets in structures.NO_ATTRIBUTE_TYPES:
        yield f"identifier attribute {octets}", "none"


# Integers, bit strings, IA5 strings.

def shortest(octets):
    """The shortest contents octets of a number without a sign."""
    number = int.from_bytes(octets, "big")
    return number.to_bytes(number.bit_length() // 8 + 1, "big", signed=True)


def bits_line(octets):
    return f"{bits(octets)} {word(octets)}"


def string_rows():
    numbers = [bytes.fromhex(octets) for octets, _ in values.NUMBERS]
    for octets in numbers:
        yield f"string number {word(octets)}", integer(shortest(octets))
    read = [bytes.fromhex(octets) for octets in values.INTEGERS]
    for octets in (*read, *map(shortest, numbers)):
        yield f"string integer {word(octets)}", shape_of(integer, octets)
    for octets in map(bytes.fromhex, (*values.BIT_STRINGS, *values.NO_BIT_STRINGS)):
        yield f"string bits {word(octets)}", shape_of(bits_line, octets)
    for octets in map(bytes.fromhex, values.WHOLE_BITS):
        yield f"string whole_bits {word(octets)}", bits_line(b"\0" + octets)
    for text in values.IA5_TEXTS:
        yield f"string ia5_text {text_word(text)}", text_word(text)
        yield f"string ia5_content {text_word(text)}", shape_of(ia5, text.encode())
    for text in values.OTHER_TEXTS:
        yield f"string ia5_text {text_word(text)}", "CharSet"
    for octets in map(bytes.fromhex, values.OTHER_OCTETS):
        yield f"string ia5_content {word(octets)}", "Shape"


# Times.

def moment(fields):
    """The moment of six numbers, or None; `datetime` has no year 0, and year 400 is like it."""
    year, *others = fields
    try:
        datetime(year or 400, *others)
    except ValueError:
        return None
    return tuple(fields)


def digits(fields, first):
    """Contents octets: the year's digits from `first` on, two for each other field, and Z."""
    year, *others = fields
    return f"{year:04}"[first:].encode() + b"".join(b"%02d" % field for field in others) + b"Z"


def is_utc_year(year):
    return 1950 <= year <= 2049


def spaced(fields):
    return " ".join(map(str, fields))


def time_text(fields):
    year, month, day, hour, minute, second = fields
    return f"{year:04}-{month:02}-{day:02} {hour:02}:{minute:02}:{second:02}"


def generalized_line(fields):
    return f"{time_text(fields)} {spaced(fields)} {word(digits(fields, 0))}" if fields else "none"


def utc_line(fields):
    if not fields or not is_utc_year(fields[0]):
        return "none"
    contents_of_both = f"{word(digits(fields, 2))} {word(digits(fields, 0))}"
    return f"{time_text(fields)} {spaced(fields)} {contents_of_both}"


def date_line(fields):
    if not fields:
        return "none"
    utc = word(digits(fields, 2)) if is_utc_year(fields[0]) else "none"
    element = word(write(time_element(fields)))
    return f"{time_text(fields)} {generalized_line(fields)} {utc} {element} {time_text(fields)}"


def time_element(fields):
    """The time that a certificate has for a moment (RFC 5280 4.1.2.5)."""
    if is_utc_year(fields[0]):
        return Primitive(0x17, digits(fields, 2))
    return Primitive(0x18, digits(fields, 0))


def read_time(octets, size):
    """The moment of contents octets with so many digits of the year."""
    numbers = octets[:-1]
    if len(octets) != size + 11 or octets[-1:] != b"Z" or not numbers.isdigit():
        return None
    year = int(numbers[:size])
    if size == 2:
        year += 1900 if year >= 50 else 2000
    return moment((year, *(int(numbers[at:at + 2]) for at in range(size, size + 10, 2))))


def order_line(one, other):
    pairs = (one, other), (other, one)
    return " ".join("Less" if a < b else "Equal" if a == b else "Greater" for a, b in pairs)


def fields_of(text):
    return tuple(map(int, text.split()))


def time_rows():
    for text, _ in values.MOMENTS:
        found = moment(fields_of(text))
        yield f"time generalized {text}", generalized_line(found)
        yield f"time utc {text}", utc_line(found)
        yield f"time date {text}", date_line(found)
    for octets, _ in values.GENERALIZED:
        yield f"time generalized_content {word(octets)}", generalized_line(read_time(octets, 4))
    for octets, _ in values.UTC:
        yield f"time utc_content {word(octets)}", utc_line(read_time(octets, 2))
    for text in values.DATES:
        yield f"time date {text}", date_line(moment(fields_of(text)))
    for text, _ in values.MOMENTS_IN_BOTH_FORMS:
        fields = fields_of(text)
        for element in time_element(fields), Primitive(0x18, digits(fields, 0)):
            yield f"time date_of {word(write(element))}", date_line(fields)
    for text in values.DAYS:
        yield f"time day {text}", date_line(moment((*fields_of(text), 0, 0, 0)))
    for one, other in values.ORDER:
        yield f"time order {one} {other}", order_line(fields_of(one), fields_of(other))


# Structures.

READ_AS = [
    ("algorithm", structures.ALGORITHMS, structures.NO_ALGORITHMS),
    ("rsa_key", structures.RSA_PUBLIC_KEYS, structures.NO_RSA_PUBLIC_KEYS),
    ("rsa_private_key", structures.RSA_PRIVATE_KEYS, structures.NO_RSA_PRIVATE_KEYS),
    ("ec_private_key", structures.EC_PRIVATE_KEYS, structures.NO_EC_PRIVATE_KEYS),
    ("private_key_info", structures.PRIVATE_KEY_INFOS, structures.NO_PRIVATE_KEY_INFOS),
    ("key", structures.RSA_KEYS + structures.EC_KEYS, structures.NO_KEYS),
    ("key", structures.ED_KEYS + structures.MLDSA_KEYS, []),
    ("name", structures.NAMES, structures.NO_NAMES),
    ("value", structures.VALUES, []),
    ("extension", structures.EXTENSIONS, structures.NO_EXTENSIONS),
    ("validity", structures.VALIDITIES, structures.NO_VALIDITIES),
    ("general_names", structures.GENERAL_NAMES, structures.NO_GENERAL_NAMES),
    ("valued_attribute", structures.ATTRIBUTES, structures.NO_ATTRIBUTES),
    ("request", structures.REQUESTS, structures.NO_REQUESTS),
]

UNLIKE = [
    ("algorithm", structures.UNLIKE_ALGORITHMS),
    ("rsa_private_key", structures.UNLIKE_RSA_PRIVATE_KEYS),
    ("ec_private_key", structures.UNLIKE_EC_PRIVATE_KEYS),
    ("private_key_info", structures.UNLIKE_PRIVATE_KEY_INFOS),
    ("key", structures.UNLIKE_KEYS),
    ("name", structures.UNLIKE_NAMES),
    ("validity", structures.UNLIKE_VALIDITIES),
    ("general_names", structures.UNLIKE_GENERAL_NAMES),
    ("integer", structures.UNLIKE_INTEGERS),
    ("bits", structures.UNLIKE_BITS),
    ("identifier", structures.UNLIKE_IDENTIFIERS),
    ("ia5", structures.UNLIKE_IA5),
    ("extension", structures.UNLIKE_EXTENSIONS),
    ("valued_attribute", structures.UNLIKE_ATTRIBUTES),
    ("request", structures.UNLIKE_REQUESTS),
]


def structure_row(kind, element, is_read):
    line = structure_line(kind, bytes.fromhex(element))
    assert (line != "Shape") == is_read, (kind, element, line)
    return f"structure {kind} {element}", line


def read_rows():
    for kind, read, refused in READ_AS:
        for element, _ in read:
            yield structure_row(kind, element, True)
        for element, _ in refused:
            yield structure_row(kind, element, False)
    yield from alternative_name_rows()
    for kind, read, refused in structures.PARTS:
        for element in read:
            yield structure_row(kind, element, True)
        for element in refused:
            yield structure_row(kind, element, False)


def deep_names(levels):
    """The octets of a general name with a value of so many levels, in a list: 64 levels are in bounds."""
    value = Primitive(5, b"")
    for _ in range(levels - 1):
        value = Constructed(0x30, (value,))
    name = write(Constructed(0xA0, (Primitive(6, b"\x2a"), Constructed(0xA0, (value,)))))
    assert 128 <= len(name) < 256
    return bytes([0x30, 0x81, len(name)]) + name


def alternative_name_rows():
    """General names, and what is none, as the names of subjects and issuers: all of them read, some as octets."""
    read = [bytes.fromhex(element) for element, _ in structures.GENERAL_NAMES] + [deep_names(61)]
    kept = [bytes.fromhex(element) for element, _ in structures.NO_GENERAL_NAMES] + [deep_names(62)]
    for octets in read + kept:
        for arc, kind in (17, "SubjectAltName"), (18, "IssuerAltName"):
            row, line = structure_row("extension", write(made_extension(arc, octets)).hex(), True)
            assert line.split()[3] == (kind if octets in read else "Raw"), line
            yield row, line


def unlike_rows():
    for kind, rows in UNLIKE:
        for one, other, _ in rows:
            yield f"unlike {kind} {one} {other}", "unlike"
            yield f"unlike {kind} {one} {one}", "equal"
    for one, other, _ in structures.LIKE_EXTENSIONS:
        yield f"unlike extension {one} {other}", "equal"
    for one, other, _ in structures.LIKE_ATTRIBUTES:
        yield f"unlike valued_attribute {one} {other}", "equal"
    for one, other, _ in structures.LIKE_REQUESTS:
        yield f"unlike request {one} {other}", "equal"


def made_row(call, kind, element):
    octets = write(element)
    return f"make {call}", f"{word(octets)} {KINDS[kind](element)}"


def made_algorithm(oid, *parameters):
    return Constructed(0x30, (Primitive(6, contents(oid)), *parameters))


def made_set(oid, tag, text):
    attribute = Constructed(0x30, (Primitive(6, contents(oid)), Primitive(tag, text.encode())))
    return Constructed(0x31, (attribute,))


def made_key(kind, algorithm):
    """A key of bits with an algorithm: None where a reader of the whole finds another kind, or no key."""
    key = Constructed(0x30, (algorithm, Primitive(3, b"\0\xaa\xbb")))
    call = f"public_key {kind} {word(write(algorithm))} aabb"
    line = structure_line("key", write(key))
    if line.split()[1:2] != [kind]:
        return f"make {call}", "None"
    return made_row(call, "key", key)


def made_rows():
    sha256 = "2.16.840.1.101.3.4.2.1"
    oid = word(contents(sha256))
    yield made_row(f"algorithm {oid}", "algorithm", made_algorithm(sha256))
    null = Primitive(5, b"")
    yield made_row(f"algorithm {oid} 0500", "algorithm", made_algorithm(sha256, null))
    yield made_row(f"algorithm_null {oid}", "algorithm", made_algorithm(sha256, null))
    for octets in b"", b"\xaa", bytes(32):
        key = Constructed(0x30, (made_algorithm("1.3.101.112"), Primitive(3, b"\0" + octets)))
        yield made_row(f"ed25519_key {word(octets)}", "key", key)
    for kind in "Ec", "Ed", "Mldsa":
        for algorithm, _ in structures.KEY_ALGORITHMS:
            yield made_key(kind, read_exact(bytes.fromhex(algorithm)))
    for text in "A", "", "caf\u00e9":
        name = Constructed(0x30, (made_set("2.5.4.3", 0x0C, text),))
        yield made_row(f"common_name {text_word(text)}", "name", name)
    for attributes in structures.MADE_NAMES:
        sets = tuple(made_set(oid, 0x16 if oid == EMAIL else 0x0C, text) for oid, text in attributes)
        words = "".join(f" {word(contents(oid))}={text_word(text)}" for oid, text in attributes)
        yield made_row(f"name{words}", "name", Constructed(0x30, sets))


def made_extension(arc, octets):
    oid = Primitive(6, contents(f"2.5.29.{arc}"))
    return Constructed(0x30, (oid, Primitive(4, octets)))


def made_usage(flags):
    """The BIT STRING of flags, which ends with the last one."""
    digits = "".join(str(flags >> bit & 1) for bit in range(9)).rstrip("0")
    octets = bytes(int(digits[at:at + 8].ljust(8, "0"), 2) for at in range(0, len(digits), 8))
    return Primitive(3, bytes([-len(digits) % 8]) + octets)


def made_extension_rows():
    def row(call, arc, value):
        return made_row(f"extension {call}", "extension", made_extension(arc, write(value)))

    for ca in False, True:
        flag = Primitive(1, b"\xff" if ca else b"\0")
        for pathlen in None, 0, 127, 128, 255:
            number = () if pathlen is None else (Primitive(2, shortest(bytes([pathlen]))),)
            words = f"{str(ca).lower()} {'none' if pathlen is None else pathlen}"
            yield row(f"basic_constraints {words}", 19, Constructed(0x30, (flag, *number)))
    for flags in structures.MADE_USAGES:
        yield row(f"key_usage {flags}", 15, made_usage(flags))
    for purposes in structures.MADE_PURPOSES:
        value = Constructed(0x30, tuple(Primitive(6, contents(text)) for text in purposes))
        words = "".join(f" {word(contents(text))}" for text in purposes)
        yield row(f"extended_key_usage{words}", 37, value)
    for octets in b"", b"\xaa\xbb", bytes(200):
        yield row(f"subject_key {word(octets)}", 14, Primitive(4, octets))
        yield row(f"authority_key {word(octets)}", 35, Constructed(0x30, (Primitive(0x80, octets),)))
    for text, octets, is_read in structures.MADE_RAW:
        oid, octets = Primitive(6, contents(text)), bytes.fromhex(octets)
        line = structure_line("extension", write(Constructed(0x30, (oid, Primitive(4, octets)))))
        assert (line != "Shape") == is_read, (text, octets, line)
        _, _, details = line.partition(" ")
        answer = f"{line.split()[-1]} {details}" if is_read else line
        yield f"make extension raw {word(oid.contents)} {word(octets)}", answer
    for element, _ in structures.GENERAL_NAMES:
        names = read_exact(bytes.fromhex(element))
        yield row(f"subject_alt_name {element}", 17, names)
        yield row(f"issuer_alt_name {element}", 18, names)
    usage = made_extension(15, write(made_usage(1)))
    critical = Constructed(0x30, (usage.kids[0], Primitive(1, b"\xff"), usage.kids[1]))
    yield made_row("extension critical_key_usage 1", "extension", critical)
    # The flag alone is taken away; one that isn't there stays so.
    for element, why in structures.EXTENSIONS:
        if "octet of TRUE" not in why:
            oid, *_, value = read_exact(bytes.fromhex(element)).kids
            yield made_row(f"extension non_critical {element}", "extension", Constructed(0x30, (oid, value)))


def made_attribute_rows():
    """Attributes that ask for extensions, and such as have the values of another: none where these are of another kind."""
    requests = Primitive(6, contents("1.2.840.113549.1.9.14"))
    for element, _ in structures.ATTRIBUTES:
        octets = bytes.fromhex(element)
        whole, read = read_exact(octets), structure_line("valued_attribute", octets)
        kind, written = read.split()[2], read_exact(bytes.fromhex(read.split()[-1])).kids[1]
        if kind == "Extensions":
            for given, kept in zip(whole.kids[1].kids, written.kids):
                line = valued_attribute(Constructed(0x30, (requests, Constructed(0x31, (kept,)))))
                yield f"make valued_attribute extension_request {word(write(given))}", line
        for text in structures.MADE_ATTRIBUTE_TYPES:
            oid = Primitive(6, contents(text))
            named, _ = ATTRIBUTE_VALUES.get(text, ("Raw", None))
            line = valued_attribute(Constructed(0x30, (oid, written))) if named == kind else "None"
            yield f"make valued_attribute new {word(oid.contents)} {element}", line


def made_general_name(call, element):
    return f"make general_name {call}", f"{word(write(element))} {general_name(element)} same"


def made_general_name_rows():
    """Names of each form that is made; a text past the alphabet of seven bits makes none."""
    for call, tag in ("rfc822_name", 0x81), ("dns_name", 0x82), ("uri", 0x86):
        for text, is_made, _ in structures.MADE_NAME_TEXTS:
            words = f"{call} {text_word(text)}"
            if is_made:
                yield made_general_name(words, Primitive(tag, text.encode("ascii")))
            else:
                yield f"make general_name {words}", "CharSet"
    for octets, _ in structures.MADE_ADDRESSES:
        address = bytes.fromhex(octets.replace("-", ""))
        yield made_general_name(f"ip_address {octets}", Primitive(0x87, address))
    for text in "1.2.3", "2.999":
        oid = contents(text)
        yield made_general_name(f"registered_id {word(oid)}", Primitive(0x88, oid))
    for text in "A", "p", "", "caf\u00e9":
        name = Constructed(0x30, (made_set("2.5.4.3", 0x0C, text),))
        yield made_general_name(f"directory_name {text_word(text)}", Constructed(0xA4, (name,)))
        party = Constructed(0xA1, (Primitive(0x0C, text.encode()),))
        words = f"edi_party_name {text_word(text)}"
        yield made_general_name(words, Constructed(0xA5, (party,)))
        assigner = Constructed(0xA0, (Primitive(0x0C, b"q"),))
        yield made_general_name(f"{words} {text_word('q')}", Constructed(0xA5, (assigner, party)))


def first_of(tag, names):
    """What is printed of the value of the first name of a form."""
    found = [general_name(name).split(" ")[1] for name in names if name.tag == tag]
    return found[0] if found else "none"


def found_general_name_rows():
    """The first host and the first name of the directory in lists of names."""
    for element, _ in structures.GENERAL_NAMES + structures.FOUND_GENERAL_NAMES:
        names = read_exact(bytes.fromhex(element)).kids
        line = f"{len(names)} {first_of(0x82, names)} {first_of(0xA4, names)} same"
        yield f"find general_names {element}", line


def certificate_rows():
    """Names and keys of certificates: text, kind and numbers are what openssl said."""
    names, keys = rows_of(STORED.read_text(encoding="ascii"))
    for row in names:
        common_name = name(read_exact(bytes.fromhex(row.octets))).split(" ", 1)[1]
        yield f"structure name {row.octets}", f"same {row.text or '-'} {common_name}"
    for row in keys:
        line = structure_line("key", bytes.fromhex(row.octets))
        kind, *_ = line.split()[1:]
        assert kind.lower() == row.kind and line.endswith(" ".join(row.numbers)), row
        yield f"structure key {row.octets}", line


def whole_certificate_rows():
    """The rows of `xgolden_certificate`: whole certificates, where they lie and kept, and pairs of them."""
    for label, octets in whole_certificates.stored():
        yield structure_row("certificate", octets.hex(), whole_certificates.READS[label])
    for octets, _ in whole_certificates.WRITTEN:
        yield structure_row("certificate", octets.hex(), True)
    for octets, _ in whole_certificates.REFUSED:
        yield structure_row("certificate", octets.hex(), False)
    read = [octets for _, octets in whole_certificates.stored()]
    for octets in (*read, *(octets for octets, _ in whole_certificates.WRITTEN + whole_certificates.REFUSED)):
        yield f"view certificate {octets.hex()}", view_line(octets)
    for one, other, _ in whole_certificates.UNLIKE:
        yield f"unlike certificate {one.hex()} {other.hex()}", "unlike"
        yield f"unlike certificate {one.hex()} {one.hex()}", "equal"
    for one, other, _ in whole_certificates.LIKE:
        yield f"unlike certificate {one.hex()} {other.hex()}", "equal"
    yield from kept_certificates.rows()


def digest(line):
    """The first half of the SHA-256 of a line."""
    return sha256(line.encode()).digest()[:16].hex()


def owned_line(octets):
    """Whether a certificate comes back as it was read, and the digest of its fields; or the refusal."""
    try:
        answer, *fields = structure_line("certificate", octets).split(" ", 1)
    except Malformed as refusal:
        return shown_fault(refusal)
    return " ".join((answer, *map(digest, fields)))


def lent_line(octets):
    """The digest of the fields of a certificate where it lies; or the refusal."""
    try:
        read_exact(octets)
    except Malformed as refusal:
        return shown_fault(refusal)
    line = view_line(octets)
    return line if line == "Shape" else digest(line)


def kept_line(octets):
    """The digests of what a caller asks for, and of the fields where the kept octets lie; or the refusal."""
    line = kept_certificates.kept_line(octets)
    return line if kept_certificates.refusal(octets) else f"{digest(line)} {lent_line(octets)}"


def threefold(octets):
    """What the value of its own answers, the one that is lent, and the certificate that is kept."""
    return " | ".join((owned_line(octets), lent_line(octets), kept_line(octets)))


def both_line(octets, answer):
    """The answers to a certificate; the row says how they begin."""
    line = threefold(octets)
    fault, *place = answer.split()
    begins = f"{FAULTS[fault]} at octet {place[0]} |" if place else f"{answer} "
    assert line.startswith(begins), (answer, line)
    return line


def world_rows():
    """Certificates of the world, hostile ones, and long ones that the program puts together."""
    for label, octets in world_certificates.stored():
        yield f"both certificate {octets.hex()}", both_line(octets, "same")
    for answer, octets, _ in hostile.ROWS:
        yield f"both certificate {word(octets)}", both_line(octets, answer)
    for answer, (begin, part, times, end), _ in hostile.LONG:
        call = f"both certificate {word(begin)} {word(part)} {times} {word(end)}"
        yield call, both_line(begin + part * times + end, answer)


def cms_row(kind, element, is_read):
    line = cms_line(kind, bytes.fromhex(element))
    assert (line not in ("Shape", "TooDeep")) == is_read, (kind, element, line)
    return f"structure {kind} {element}", line


def world_signature_rows():
    """Signatures of the world, kept and where they lie, and a request for one."""
    for _, kind, octets in world_signatures.stored():
        if kind == "pkcs7":
            yield f"both pkcs7 {octets.hex()}", cms_reader.both_line(octets)
        else:
            yield cms_row(kind, octets.hex(), True)


def stored_signer():
    """The signer of the signature that lies beside the program, behind the eight octets of its head."""
    signature = (folders.CRATES / "picky/data/signature.bin").read_bytes()
    _, explicit = read_exact(signature[8:]).kids
    signed_data, = explicit.kids
    signer, = signed_data.kids[-1].kids
    return write(signer)


def signed_content_rows():
    """The rows of `xgolden_certificate`: what Authenticode signs, texts of Authenticode, digest algorithms."""
    for rows, is_read in (cms_rows.READ, True), (cms_rows.REFUSED, False):
        for kind, elements in rows:
            for element, _ in elements:
                yield cms_row(kind, element, is_read)
    for kind, one, other, _ in cms_rows.UNLIKE:
        yield f"unlike {kind} {one} {other}", "unlike"
        yield f"unlike {kind} {one} {one}", "equal"
    for kind, element, _ in [("signer_info", stored_signer().hex(), "of the stored signature"), *cms_rows.MEMBERS]:
        yield f"members {kind} {element}", "1 same none"
    for element, whole, _ in cms_rows.WITHIN:
        yield f"members within {element}", "TooDeep" if whole is None else str(len(whole) // 2)
    for text, _ in cms_rows.TEXTS:
        has_units = all(ord(character) < 0x10000 for character in text)
        string = Primitive(0x80, text.encode("utf-16-be"))
        yield f"make string {text_word(text)}", word(write(string)) if has_units else "CharSet"
    for name, text in cms_rows.DIGESTS:
        yield f"make sha {name}", word(write(made_algorithm(text, Primitive(5, b""))))


def listing_rows():
    """Names on trust lists."""
    for octets, name, now, why in listings.ROWS:
        line = listing_line(bytes.fromhex(octets), bytes.fromhex(name), now)
        assert line == listings.BY_HAND.get(why, line), (why, line)
        yield f"listed name {octets} {word(bytes.fromhex(name))} {now}", line


def value_rows():
    """The rows of `xgolden_value`."""
    yield from identifier_rows()
    yield from string_rows()
    yield from ((f"error {name}", text) for name, text in ERRORS)
    yield from time_rows()


NO_CURVE = "ED error: the algorithm on a curve 25519 or 448 isn't supported"


def public_key_line(element):
    octets = write(element)
    line = structure_line("key", octets)
    if line == "Shape":
        raise Shape
    shown = line.removeprefix("same ")
    return f"{word(octets)} {shown.split()[0]} {shown} true"


def key_element(oid, parameters, octets):
    algorithm = Constructed(0x30, (Primitive(6, oid), *parameters))
    return Constructed(0x30, (algorithm, Primitive(3, b"\0" + octets)))


def rsa_element(key):
    """A key of RSA with its algorithm, which has NULL parameters (RFC 3279 2.3.1)."""
    return key_element(contents("1.2.840.113549.1.1.1"), (Primitive(5, b""),), write(key))


def ec_element(curve, point):
    return key_element(contents("1.2.840.10045.2.1"), (Primitive(6, curve),), point)


def rsa_key_line(key):
    KINDS["rsa_key"](key)
    return public_key_line(rsa_element(key))


def pkcs1_line(octets):
    """The octets in the bits of a key of RSA."""
    _, key = read_exact(octets).kids
    is_rsa = structure_line("key", octets).split()[1] == "Rsa"
    return word(key.contents[1:]) if is_rsa else "RSA error: the key is of another kind than RSA"


def public_key_rows():
    """Public keys that are put together of their parts, or read."""
    for row in structures.RSA_COMPONENTS:
        numbers = tuple(map(bytes.fromhex, row))
        key = Constructed(0x30, tuple(Primitive(2, shortest(number)) for number in numbers))
        yield f"key rsa_components {' '.join(map(word, numbers))}", public_key_line(rsa_element(key))
    for curve, point in (map(bytes.fromhex, row) for row in structures.EC_COMPONENTS):
        line = public_key_line(ec_element(curve, point))
        yield f"key ec_components {word(curve)} {word(point)}", line
    for oid, octets in (map(bytes.fromhex, row) for row in structures.ED_COMPONENTS):
        element = key_element(oid, (), octets)
        is_ed = structure_line("key", write(element)).split()[1:2] == ["Ed"]
        line = public_key_line(element) if is_ed else NO_CURVE
        yield f"key ed_components {word(oid)} {word(octets)}", line
    for octets in (bytes.fromhex(octets) for octets, _ in structures.PUBLIC_KEYS):
        line = unread("subject public key info", octets, public_key_line)
        yield f"key from_der {word(octets)}", line


def pkcs1_rows():
    """Keys of RSA without an algorithm."""
    read = structures.RSA_PUBLIC_KEYS + structures.NO_RSA_PUBLIC_KEYS + structures.NO_ELEMENTS
    for octets in (bytes.fromhex(octets) for octets, _ in read):
        yield f"key from_pkcs1 {word(octets)}", unread("rsa public key", octets, rsa_key_line)
    keys = structures.RSA_KEYS + structures.EC_KEYS + structures.ED_KEYS + structures.MLDSA_KEYS
    for octets in (bytes.fromhex(octets) for octets, _ in keys):
        yield f"key to_pkcs1 {word(octets)}", pkcs1_line(octets)


def point_line(curve, size, x, y):
    if len(x) != size or len(y) != size:
        return "EC error: a coordinate hasn't as many octets as the field of the curve"
    return public_key_line(ec_element(curve, b"\4" + x + y))


def curve_rows():
    """Curves and algorithms on the curve 25519 by their identifiers, and points by their coordinates."""
    named = structures.CURVES + structures.ED_ALGORITHMS
    identifiers = [text for _, text, *_ in named] + [text for text, _ in structures.NO_CURVES]
    for subject, table in ("curve", structures.CURVES), ("algorithm", structures.ED_ALGORITHMS):
        for text in identifiers:
            found = [name for name, known, *_ in table if known == text]
            oid = word(contents(text))
            yield f"point {subject} {oid}", f"{found[0]} {oid}" if found else "none"
    sizes = {contents(text): (bits + 7) // 8 for _, text, bits in structures.CURVES}
    for curve, x, y, _ in structures.COORDINATES:
        oid, x, y = contents(curve), bytes.fromhex(x), bytes.fromhex(y)
        yield f"point coordinates {word(oid)} {word(x)} {word(y)}", point_line(oid, sizes[oid], x, y)


def made_private_key(algorithm, kind, octets, beside):
    """A private key with an algorithm: None where a reader of the whole finds another, or none."""
    attributes, public = beside
    inner = write(Primitive(4, octets)) if kind == "Ed" else octets
    more = [bytes.fromhex(attributes)] if attributes != "none" else []
    if public != "none":
        more.append(write(Primitive(0x81, b"\0" + bytes.fromhex(public))))
    version = "V2" if public != "none" else "V1"
    number = Primitive(2, b"\1" if public != "none" else b"\0")
    fields = write(number) + algorithm + write(Primitive(4, inner)) + b"".join(more)
    whole = write(Constructed(0x30, tuple(read_all(fields))))
    line = structure_line("private_key_info", whole)
    call = f"key private_key {version} {word(algorithm)} {kind} {word(octets)} {' '.join(beside)}"
    if line == "Shape" or line.split()[4] != kind:
        return call, "None"
    return call, f"{word(whole)} {line.removeprefix('same ')}"


def read_all(octets):
    """The elements one after another."""
    while octets:
        element, taken = read_first(octets)
        yield element
        octets = octets[taken:]


def made_private_key_rows():
    for algorithm, _ in structures.KEY_ALGORITHMS:
        for kind, octets in structures.PRIVATE_PARTS:
            for beside in structures.BESIDE_PRIVATE_KEYS[:2]:
                yield made_private_key(bytes.fromhex(algorithm), kind, bytes.fromhex(octets), beside)
    for beside in structures.BESIDE_PRIVATE_KEYS:
        yield made_private_key(bytes.fromhex("300506032b6570"), "Ed", b"", beside)


def private_key_rows():
    """Private keys that openssl made."""
    for kind, _, element in private_keys.rows_of(private_keys.STORED.read_text(encoding="ascii")):
        yield structure_row(kind, element.hex(), True)


def structure_rows():
    """The rows of the kinds `structure`, `extension` and `request`."""
    yield from read_rows()
    yield from unlike_rows()
    yield from made_rows()
    yield from made_extension_rows()
    yield from made_attribute_rows()
    yield from made_general_name_rows()
    yield from found_general_name_rows()
    yield from certificate_rows()
    yield from private_key_rows()
    yield from public_key_rows()
    yield from pkcs1_rows()
    yield from curve_rows()
    yield from made_private_key_rows()
    yield from kept_private_keys.kept_rows()
    yield from signature_rows.signature_rows()


def once(rows_and_lines):
    """The vectors of rows, each once."""
    lines = {}
    for row, line in rows_and_lines:
        assert lines.setdefault(row, line) == line, row
    return Vectors(tuple(lines), tuple(lines.values()))


def kind_of(row_and_line):
    """What a row of `structure_rows` is about: its second word."""
    row, _ = row_and_line
    return row.split()[1]


def is_extension(row_and_line):
    return kind_of(row_and_line) in ("extension", "general_name", "general_names", "validity", "valued_attribute")


def is_request(row_and_line):
    return kind_of(row_and_line) == "request"


def values_alone():
    return once(value_rows())


def structures_alone():
    return once(row for row in structure_rows() if not is_extension(row) and not is_request(row))


def extensions():
    return once(filter(is_extension, structure_rows()))


def requests():
    return once(filter(is_request, structure_rows()))


def certificates():
    return once(chain(whole_certificate_rows(), world_rows()))


def signed_structures():
    return once(chain(signed_content_rows(), world_signature_rows(), listing_rows()))
