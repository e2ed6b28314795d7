"""Whether a signed program of Windows is whole, and the entries of its certificate table (PE Format, "COFF File
Header", "Optional Header", "Section Table", "The Attribute Certificate Table"), by Python's integers, which don't wrap."""

from struct import unpack_from
from typing import NamedTuple

from judges.pe_judge import CHECKSUM, NotSigned, places

BAD_TABLE = "the certificate table is no list of entries"
HEADERS_OUTSIDE = "the program's section table isn't in its headers, or these reach into its signature"
SECTION_OUTSIDE = "section {} of the program isn't between its headers and its signature"
WHOLE = "whole"
HEADER, ALIGNMENT = 8, 8


class Section(NamedTuple):
    """Where the data of a section is."""

    size: int
    begin: int


class Entry(NamedTuple):
    """An entry of a certificate table: its fields, and what is behind its header."""

    begin: int
    length: int
    revision: int
    kind: int
    certificate: bytes


class BadTable(Exception):
    """The certificate table is no list of entries."""


def sections(octets, at, count):
    """What the section table says of each section."""
    return [Section(*unpack_from("<II", octets, at + 40 * number + 16)) for number in range(count)]


def layout(octets):
    """Why a signed program isn't whole, or that it is."""
    checksum, _, table = places(octets)
    optional = checksum - CHECKSUM
    mark = optional - 24
    count, = unpack_from("<H", octets, mark + 6)
    optional_size, = unpack_from("<H", octets, mark + 20)
    headers, = unpack_from("<I", octets, optional + 60)
    at = optional + optional_size
    if at + 40 * count > headers or headers > table:
        return HEADERS_OUTSIDE
    for number, section in enumerate(sections(octets, at, count)):
        if section.size > 0 and not headers <= section.begin <= section.begin + section.size <= table:
            return SECTION_OUTSIDE.format(number)
    return WHOLE


def entries(table):
    """Each entry of a certificate table."""
    found, begin = [], 0
    while True:
        if begin + HEADER > len(table):
            raise BadTable
        length, revision, kind = unpack_from("<IHH", table, begin)
        end = begin + length
        if length < HEADER or end > len(table):
            raise BadTable
        found.append(Entry(begin, length, revision, kind, table[begin + HEADER:end]))
        behind = table[end:]
        if len(behind) < ALIGNMENT:
            if any(behind):
                raise BadTable
            return found
        begin = end + -end % ALIGNMENT
        if any(table[end:begin]):
            raise BadTable


def answer(octets):
    """The line for a program."""
    try:
        said = layout(octets)
        table = octets[places(octets)[2]:]
        words = [f"{entry.length} {entry.revision} {entry.kind} {entry.certificate.hex() or '-'}" for entry in entries(table)]
    except NotSigned as refusal:
        return str(refusal)
    except BadTable:
        words = [BAD_TABLE]
    return " ".join([said, *words])
