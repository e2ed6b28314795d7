#!/usr/bin/env python3
"""Subject names and public keys out of certificates, and what openssl says of them.

Usage:

    python3 tools/interop/certificate_parts.py --make
    python3 tools/interop/certificate_parts.py --check

`--make` prints `tools/cases/certificate_rows.txt` anew: it has openssl (3.0 or later) make keys and
certificates for the rows of `certificate_cases` and takes their parts out.
The keys are fresh each time.  `--check` has openssl read each name and key of
that file again, and prints what differs from its row.  Rows are

    name|label|Name|printed text, in hexadecimal of DER and of UTF-8
    key|label|rsa|SubjectPublicKeyInfo|modulus|exponent
    key|label|ec|SubjectPublicKeyInfo
    key|label|ed|SubjectPublicKeyInfo

with `ed` for the four algorithms of RFC 8410, and modulus and exponent as
unsigned numbers of whole octets without zeros before them.

A name is printed from what `openssl x509 -subject` says of it: identifier,
kind and characters of each value with TEXT_OPTIONS, its element with
ELEMENT_OPTIONS.  The script keeps the order and the separators, undoes the
escapes, and turns openssl's form into the one of this repository:

  - an identifier of WORDS becomes the word, any other stays dotted;
  - a UTF8String, a BMPString and an IA5String up to 7F become their text;
  - a PRINTABLESTRING and a T61STRING become their text with `?` for each
    character past 7F, since openssl reads an octet as a Latin-1 character;
  - any other value becomes its element, `#` and hexadecimal in lower case.

Names that `openssl req` can't make come from `openssl asn1parse -genconf`, in
a certificate that is put together around them; its signature is a stand-in,
at which nothing looks.  `--check` puts such a certificate around each name.

Some values are none for openssl in a name: a Utf8String that isn't UTF-8, a
BmpString with a surrogate or a last single octet, most raw values; and of an
empty set it says nothing.  These names are written by `certificate_making`.
Their text was worked out by hand, with `?` for each octet past 7F of a
Utf8String, for each surrogate and for the last octet of a BmpString, and
`--check` compares it as it is.
"""

import re
import sys
from itertools import cycle
from pathlib import Path
from tempfile import TemporaryDirectory
from typing import NamedTuple

sys.path.insert(0, str(Path(__file__).resolve().parents[1]))

from cases.certificate_cases import (
    AGREED, AGREEMENT_KEYS, GENERATED, KEY_LABELS, LABELS, REQUESTED, SIGNING_KEYS, WRITTEN,
)
from common import command, folders
from interop.certificate_making import (
    agreed_certificate, certificate_around, generated_name, make_key, openssl,
    requested_certificate, written_name,
)
from judges.value_reader import WORDS

# Without `utf8`, so that each character is escaped by its number.
TEXT_OPTIONS = "sep_comma_plus,esc_2253,esc_ctrl,esc_msb,oid,show_type"
ELEMENT_OPTIONS = "sep_comma_plus,oid,dump_all,dump_der"

STORED = folders.CASES / "certificate_rows.txt"


# The parts of a certificate.

class Element(NamedTuple):
    octets: bytes
    contents: bytes


def elements(octets):
    """The elements of DER that follow one another in octets."""
    place = 0
    while place < len(octets):
        begin, size = place + 2, octets[place + 1]
        if size >= 0x80:
            length = octets[begin:begin + (size & 0x7F)]
            begin, size = begin + len(length), int.from_bytes(length, "big")
        end = begin + size
        yield Element(octets[place:end], octets[begin:end])
        place = end


class Parts(NamedTuple):
    """The octets of a certificate's subject and of its SubjectPublicKeyInfo."""

    name: bytes
    key: bytes


def parts(certificate):
    """The parts of a certificate's octets."""
    whole, = elements(certificate)
    to_be_signed, _, _ = elements(whole.contents)
    fields = list(elements(to_be_signed.contents))
    if fields[0].octets[0] == 0xA0:  # the version, which version 1 leaves out
        del fields[0]
    _, _, _, _, subject, key, *_ = fields
    return Parts(subject.octets, key.octets)


# What openssl says of a name, and how it is printed here.

def said_subject(certificate, options):
    """The line of a certificate's subject, all in ASCII."""
    line = openssl("x509", "-inform", "DER", "-noout", "-subject", "-nameopt", options,
                   given=certificate)
    return line.decode("ascii").removeprefix("subject=").removesuffix("\n")


def split(text, separator):
    """The pieces between separators that aren't escaped; none of an empty text."""
    pieces = [""]
    for step in re.findall(r"\\.|.", text):
        if step == separator:
            pieces.append("")
        else:
            pieces[-1] += step
    return pieces if text else []


ESCAPE = re.compile(r"\\(?:U([0-9A-F]{4})|W([0-9A-F]{8})|([0-9A-F]{2})|(.))")


def unescaped(text):
    """The characters of a value: openssl escapes some by themselves, others by their number."""
    def character(escape):
        *numbers, itself = escape.groups()
        return itself or chr(int(next(filter(None, numbers)), 16))

    return ESCAPE.sub(character, text)


def printed_value(kind, text, element):
    """A value in the form of this repository: of a kind as openssl names it, or an element."""
    match kind:
        case "UTF8STRING" | "BMPSTRING":
            return text
        case "PRINTABLESTRING" | "T61STRING":
            return "".join(c if c.isascii() else "?" for c in text)
        case "IA5STRING" if text.isascii():
            return text
        case _:
            return element.lower()


def printed_member(member, with_element):
    dotted, _, value = member.partition("=")
    kind, _, text = value.partition(":")
    element = with_element.partition("=")[2]
    return f"{WORDS.get(dotted, dotted)}={printed_value(kind, unescaped(text), element)}"


def printed_set(said, said_elements):
    members = zip(split(said, "+"), split(said_elements, "+"), strict=True)
    return "+".join(printed_member(*both) for both in members)


def printed(said, said_elements):
    """A name from openssl's two lines of it."""
    sets = zip(split(said, ","), split(said_elements, ","), strict=True)
    return ",".join(printed_set(*both) for both in sets)


def printed_subject(certificate):
    """The subject of a certificate as openssl reads it."""
    return printed(*(said_subject(certificate, options)
                     for options in (TEXT_OPTIONS, ELEMENT_OPTIONS)))


# The rows.

class NameRow(NamedTuple):
    label: str
    octets: str
    text: str

    @classmethod
    def of(cls, label, octets, text):
        return cls(label, octets.hex(), text.encode().hex())


class KeyRow(NamedTuple):
    """The numbers are modulus and exponent, for RSA alone."""

    label: str
    kind: str
    octets: str
    numbers: tuple[str, ...] = ()


def key_row(label, octets):
    """The row of a SubjectPublicKeyInfo, from what openssl says of it."""
    text = openssl("pkey", "-pubin", "-inform", "DER", "-noout", "-text", given=octets).decode()
    if "\nModulus:" in text:
        return KeyRow(label, "rsa", octets.hex(), rsa_numbers(octets))
    if "\nASN1 OID: " in text:
        return KeyRow(label, "ec", octets.hex())
    if re.match("(ED|X)(25519|448) Public-Key:", text):
        return KeyRow(label, "ed", octets.hex())
    raise ValueError(f"{label}: unknown key\n{text}")


def rsa_numbers(octets):
    said = openssl("rsa", "-pubin", "-inform", "DER", "-noout", "-modulus", "-text", given=octets)
    modulus = re.search("^Modulus=([0-9A-F]+)$", said.decode(), re.MULTILINE)[1]
    exponent = re.search("^Exponent: ([0-9]+)", said.decode(), re.MULTILINE)[1]
    return unsigned(int(modulus, 16)), unsigned(int(exponent))


def unsigned(number):
    """A number in as many whole octets as it needs, in hexadecimal."""
    return number.to_bytes((number.bit_length() + 7) // 8, "big").hex()


def made_rows(folder):
    """Rows of names and of keys, out of certificates that are made in a folder."""
    files = {}
    for key in (*SIGNING_KEYS, *AGREEMENT_KEYS):
        files[key] = folder / f"{len(files)}.pem"
        make_key(key, files[key])
    certificates = [
        (request.label, key, requested_certificate(request, files[key], folder))
        for request, key in zip(REQUESTED, cycle(SIGNING_KEYS))
    ]
    certificates += (
        (agreed.label, agreed.key,
         agreed_certificate(agreed, files[agreed.key], files[SIGNING_KEYS[0]], folder))
        for agreed in AGREED
    )
    keys = {key: parts(certificate).key for _, key, certificate in certificates}
    certificates += (
        (case.label, key, certificate_around(generated_name(case.sets, folder), keys[key]))
        for case, key in zip(GENERATED, cycle(keys))
    )
    names = [NameRow.of(label, parts(certificate).name, printed_subject(certificate))
             for label, _, certificate in certificates]
    return names + written_rows(), [key_row(key.label, keys[key]) for key in files]


def written_rows():
    return [NameRow.of(case.label, written_name(case.sets), case.text) for case in WRITTEN]


# The file of rows.

def source(names, keys):
    """The file with these rows."""
    lines = ["|".join(("name", *row)) for row in names]
    lines += ("|".join(("key", *row[:3], *row.numbers)) for row in keys)
    return "".join(f"{line}\n" for line in lines)


def rows_of(text):
    """The rows of a file, of names and of keys."""
    names, keys = [], []
    for line in text.splitlines():
        match line.split("|"):
            case ["name", *fields]:
                names.append(NameRow(*fields))
            case ["key", label, kind, octets, *numbers]:
                keys.append(KeyRow(label, kind, octets, tuple(numbers)))
            case _:
                raise ValueError(f"no row: {line}")
    return names, keys


def complaints(text):
    """What differs in a file from the cases and from what openssl says."""
    names, keys = rows_of(text)
    if source(names, keys) != text:
        yield "the file isn't laid out as it is made"
    if [row.label for row in names] != LABELS or [row.label for row in keys] != KEY_LABELS:
        yield "the labels aren't those of the cases"
    written = {row.label: row for row in written_rows()}
    for row in names:
        expected = written.get(row.label) or name_row(row)
        if row != expected:
            yield f"{row.label}: expected {expected.text} of {expected.octets}"
    for row in keys:
        if row != (expected := key_row(row.label, bytes.fromhex(row.octets))):
            yield f"{row.label}: expected {expected.kind} {' '.join(expected.numbers)}"


def name_row(row):
    """The row of the same name as openssl reads it."""
    octets = bytes.fromhex(row.octets)
    return NameRow.of(row.label, octets, printed_subject(certificate_around(octets)))


def main(arguments):
    match arguments:
        case ["--make"]:
            with TemporaryDirectory() as folder:
                print(source(*made_rows(Path(folder))), end="")
            return 0
        case ["--check"]:
            found = list(complaints(STORED.read_text(encoding="ascii")))
            print(*found or ["no difference"], sep="\n")
            return 1 if found else 0
        case _:
            return command.usage(__doc__)


if __name__ == "__main__":
    command.run(main, __doc__)
