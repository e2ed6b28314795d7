"""Test vectors of `xgolden_run`: programs of Windows by where their headers and sections lie, and by the entries of
their certificate tables, each with its reason."""

from dataclasses import dataclass
from struct import pack

from cases.pe_rows import DIRECTORIES, LAST, PE32, PE32_PLUS, Image, changed

HEADER_SIZES = {PE32: 224, PE32_PLUS: 240}
# Behind the optional header of a program with one section: data of 72 octets up to the table.
DATA = 72
SECTION = 40
SIZE_OF_HEADERS = 60


def entry(certificate, revision=0x200, kind=2, length=None):
    """An entry of a certificate table."""
    return pack("<IHH", 8 + len(certificate) if length is None else length, revision, kind) + certificate


def padded(octets):
    return octets + bytes(-len(octets) % 8)


PLAIN_TABLE = entry(bytes(range(1, 33)))


@dataclass
class Program:
    """A program of zeros but for its headers, by the size and the offset of each section's data. The headers end with
    the section table, and its table begins so many octets behind, unless something else is said."""

    sections: tuple = None
    magic: int = PE32_PLUS
    at: int = 64
    table: bytes = PLAIN_TABLE
    count: int = None
    headers: int = None
    header_size: int = None
    data: int = DATA
    others: int = 0

    def optional(self):
        return self.at + 24

    def section_table(self):
        return self.optional() + (HEADER_SIZES[self.magic] if self.header_size is None else self.header_size)

    def begin(self):
        """Where the data begins: behind the section table of so many sections."""
        return self.optional() + HEADER_SIZES[self.magic] + SECTION * self.places()

    def places(self):
        return 1 if self.sections is None else len(self.sections)

    def end(self):
        """Where the certificate table begins."""
        return self.begin() + self.data

    def octets(self):
        begin, end = self.begin(), self.end()
        sections = ((DATA, begin),) if self.sections is None else self.sections
        entry_end = self.optional() + DIRECTORIES[self.magic] + 40
        image = Image(magic=self.magic, places=self.magic, at=self.at, rest=end - entry_end, table=self.table,
                      header_size=self.section_table() - self.optional())
        octets = image.octets()
        octets = changed(octets, self.at + 6, pack("<H", len(sections) if self.count is None else self.count))
        octets = changed(octets, self.optional() + SIZE_OF_HEADERS, pack("<I", begin if self.headers is None else self.headers))
        for number, (size, offset) in enumerate(sections):
            at = self.section_table() + SECTION * number
            header = pack("<8s8I", b".data", self.others, self.others, size, offset, self.others, self.others, self.others, self.others)
            if at + SECTION <= len(octets):
                octets = changed(octets, at, header)
        return octets


PLAIN = Program()
BEGIN, END = PLAIN.begin(), PLAIN.end()
FORMATS = (("PE32+", PE32_PLUS), ("PE32", PE32))


def headers_rows():
    """Where the headers are, at each limit in both formats."""
    for name, magic in FORMATS:
        plain = Program(magic=magic)
        none = Program(magic=magic, sections=())
        begin, end = plain.begin(), plain.end()
        yield f"{name}, one section", plain
        yield f"{name}, no section", none
        yield f"{name}, no section, and no octet between the headers and the table", Program(magic=magic, sections=(), data=0)
        yield f"{name}, no section, and the headers end before the section table would begin", Program(magic=magic, sections=(), headers=none.begin() - 1)
        yield f"{name}, the headers end an octet before the section table", Program(magic=magic, headers=begin - 1)
        yield f"{name}, the headers end an octet before the last section's header", Program(magic=magic, headers=begin - SECTION - 1)
        yield f"{name}, the headers have no octets", Program(magic=magic, headers=0)
        yield f"{name}, the headers have no octets, and there is no section", Program(magic=magic, sections=(), headers=0)
        yield f"{name}, the headers end where the data of the one section begins, behind the section table", Program(magic=magic, sections=((8, begin + 8),), headers=begin + 8)
        yield f"{name}, the headers are all up to the table", Program(magic=magic, sections=((0, 0),), headers=end)
        yield f"{name}, the headers have the first octet of the table", Program(magic=magic, sections=((0, 0),), headers=end + 1)
        yield f"{name}, no section, the headers are all up to the table", Program(magic=magic, sections=(), headers=none.end())
        yield f"{name}, no section, the headers have the first octet of the table", Program(magic=magic, sections=(), headers=none.end() + 1)
        yield f"{name}, the headers are the file", Program(magic=magic, sections=(), headers=len(none.octets()))
        yield f"{name}, the headers of the greatest size", Program(magic=magic, headers=LAST)
        yield f"{name}, a section more than the headers have", Program(magic=magic, count=2)
        yield f"{name}, a section more than the headers have, which end behind it", Program(magic=magic, count=2, headers=begin + SECTION, sections=((0, 0),))
        yield f"{name}, a section more, of which an octet is behind the headers", Program(magic=magic, count=2, headers=begin + SECTION - 1, sections=((0, 0),))
        yield f"{name}, the greatest number of sections", Program(magic=magic, count=0xFFFF)
        yield f"{name}, the greatest number of sections, in headers of the greatest size", Program(magic=magic, count=0xFFFF, headers=LAST)
        yield f"{name}, an optional header of the greatest size", Program(magic=magic, header_size=0xFFFF)
        yield f"{name}, an optional header of the greatest size, in headers of the greatest size", Program(magic=magic, header_size=0xFFFF, headers=LAST)
        yield f"{name}, the section table eight octets behind the directories", Program(magic=magic, header_size=HEADER_SIZES[magic] + 8, headers=begin + 8, sections=((8, begin + 8),))
        yield f"{name}, the section table eight octets behind the directories, and the headers end before it does", Program(magic=magic, header_size=HEADER_SIZES[magic] + 8, sections=((8, begin),))
        yield f"{name}, the section table ends where the table begins", Program(magic=magic, header_size=HEADER_SIZES[magic] + DATA, headers=end, sections=((0, 0),))
        yield f"{name}, the section table ends behind the beginning of the table", Program(magic=magic, header_size=HEADER_SIZES[magic] + DATA + 1, headers=end + 1, sections=((0, 0),))
        yield f"{name}, the section table in the table, and headers without it", Program(magic=magic, header_size=end + 8 - plain.optional(), sections=((8, begin),))
        yield f"{name}, the section table in the table, and headers up to its end", Program(magic=magic, header_size=end + 8 - plain.optional(), sections=((8, begin),), headers=end + 48, table=entry(bytes(80)))
        yield f"{name}, the headers further behind", Program(magic=magic, at=512)


def sections_rows():
    """Where the data of sections is, at each limit in both formats."""
    for name, magic in FORMATS:
        plain = Program(magic=magic)
        begin, end = plain.begin(), plain.end()

        def one(size, offset):
            return Program(magic=magic, sections=((size, offset),))

        yield f"{name}, an octet behind the headers", one(1, begin)
        yield f"{name}, the last octet of the headers", one(1, begin - 1)
        yield f"{name}, the last octet of the headers and all behind it", one(DATA + 1, begin - 1)
        yield f"{name}, the last octet before the table", one(1, end - 1)
        yield f"{name}, the first octet of the table", one(1, end)
        yield f"{name}, all up to the table and its first octet", one(DATA + 1, begin)
        yield f"{name}, all but the first octet, and the table's first", one(DATA, begin + 1)
        yield f"{name}, the table", one(len(PLAIN_TABLE), end)
        yield f"{name}, an octet behind the file", one(1, end + len(PLAIN_TABLE))
        yield f"{name}, the whole file", one(end + len(PLAIN_TABLE), 0)
        yield f"{name}, the checksum", one(4, plain.optional() + 64)
        yield f"{name}, the table's entry", one(8, plain.optional() + DIRECTORIES[magic] + 32)
        yield f"{name}, no data, at offset 0", one(0, 0)
        yield f"{name}, no data, in the headers", one(0, begin - 1)
        yield f"{name}, no data, in the table", one(0, end + 1)
        yield f"{name}, no data, at the greatest offset", one(0, LAST)
        yield f"{name}, the greatest size", one(LAST, begin)
        yield f"{name}, the greatest offset", one(1, LAST)
        yield f"{name}, the greatest size and offset", one(LAST, LAST)
        yield f"{name}, a sum that is 0 in 32 bits", one(2**32 - begin, begin)
        yield f"{name}, a sum that is the beginning of the data in 32 bits", one(2**32 - 16, begin + 16)
        yield f"{name}, a sum that is behind the headers in 32 bits", one(2**32 - 8, begin + 8 + DATA)
        yield f"{name}, an offset of the half of 32 bits", one(8, 2**31)
        yield f"{name}, a size of the half of 32 bits", one(2**31, begin)
        yield f"{name}, what the rest of the header says is of no account", Program(magic=magic, others=LAST)


def several_rows():
    """Several sections, and the first that is outside."""
    def several(*sections, **said):
        program = Program(sections=(None,) * len(sections), **said)
        begin = program.begin()
        return Program(sections=tuple((size, begin + offset if size else offset) for size, offset in sections), **said)

    good, bad, none = (8, 0), (8, DATA - 7), (0, 0)
    yield "two sections, one behind the other", several((8, 0), (64, 8))
    yield "two sections in the other order", several((64, 8), (8, 0))
    yield "two sections of the same octets", several((8, 0), (8, 0))
    yield "two sections with a gap", several((8, 0), (8, 64))
    yield "the first of two outside", several(bad, good)
    yield "the second of two outside", several(good, bad)
    yield "both of two outside", several(bad, bad)
    yield "the third of three outside, behind one without data", several(good, none, bad)
    yield "the last of ninety-six outside", several(*[good] * 95, bad)
    yield "ninety-six sections", several(*[good] * 96)
    yield "the 256th of 257 outside", several(*[good] * 255, bad, good)
    yield "a section outside in headers that are outside", several(bad, headers=BEGIN - 1)
    yield "a section outside that the number of sections leaves out", several(good, bad, count=1)
    yield "a section that reaches past the end of the file, as a signer has it, who doesn't look", Program(sections=((DATA + 512, BEGIN),))
    yield "a section outside, and a bad table", Program(sections=((DATA + 1, BEGIN),), table=bytes(16))
    yield "headers outside, and a bad table", Program(headers=LAST, table=bytes(16))


def tables():
    """Tables of entries, each with its reason."""
    one, nine = entry(b""), entry(b"\1")
    yield "an entry that is its header", one
    yield "an entry of nine octets, and nothing behind it", nine
    for count in range(1, 9):
        yield f"an entry of eight octets, and {count} zeros behind it", one + bytes(count)
        yield f"an entry of nine octets, and {count} zeros behind it", nine + bytes(count)
    yield "an entry of nine octets, and fourteen zeros behind it", nine + bytes(14)
    yield "an entry of nine octets, and fifteen zeros behind it", nine + bytes(15)
    for at in (0, 6):
        yield f"seven octets behind the last entry, the one at {at} not zero", one + changed(bytes(7), at, b"\1")
    for length in (0, 1, 7):
        yield f"an entry that says {length} octets", entry(b"", length=length)
        yield f"a second entry that says {length} octets", one + entry(b"", length=length)
    yield "an entry that ends an octet behind the table", entry(bytes(8), length=17)
    yield "an entry that ends with the table", entry(bytes(8), length=16)
    yield "an entry of the greatest length", entry(bytes(8), length=LAST)
    yield "a second entry that ends an octet behind the table", one + entry(bytes(8), length=17)
    yield "a second entry of the greatest length", one + entry(bytes(8), length=LAST)
    yield "a length that would lead back to the beginning in 32 bits", one + entry(bytes(8), length=2**32 - 8)
    for length in range(1, 8):
        yield f"a table of {length} zeros", bytes(length)
    yield "a table of eight zeros", bytes(8)
    yield "a table of seven octets that aren't zero", entry(b"")[:7]
    yield "two entries", PLAIN_TABLE + PLAIN_TABLE
    for extra in range(1, 9):
        yield f"two entries, the first with {extra} octets behind its header", padded(entry(b"\1" * extra)) + one
    yield "two entries without the zeros between them", nine + one
    yield "two entries with a zero less between them", padded(nine)[:-1] + one
    yield "two entries with eight zeros more between them", padded(nine) + bytes(8) + one
    for at in range(7):
        yield f"two entries, the octet at {at} between them not zero", nine + changed(bytes(7), at, b"\1") + one
    yield "the last octet between two entries of sixteen less one not zero", entry(bytes(7)) + b"\1" + one
    yield "an entry of type 1 between two of type 2", PLAIN_TABLE + padded(entry(b"x509", kind=1)) + PLAIN_TABLE
    yield "an entry of type 9, and one of no known type", padded(entry(b"pkcs1", kind=9)) + entry(b"other", kind=0xFFFF)
    yield "an entry of revision 1.0, and one of no known revision", padded(entry(b"old", revision=0x100)) + entry(b"none", revision=0)
    yield "its length, revision and type with their octets apart", entry(bytes(300), revision=0x1234, kind=0x5678)
    yield "sixteen entries", padded(entry(b"sixteen")) * 16
    yield "seventeen entries", padded(entry(b"seventeen")) * 17
    yield "a hundred entries of eight octets", one * 100


def entries_rows():
    for reason, table in tables():
        yield reason, Program(table=table)
    yield "PE32, two entries", Program(magic=PE32, table=padded(entry(b"first")) + entry(b"second"))
    yield "two entries in a table at an offset that is no multiple of eight", Program(data=DATA + 3, table=padded(entry(b"first")) + entry(b"second"))


def made_rows():
    """Why the row is there, and the file."""
    yield "no octets", b""
    yield "no program", bytes(64)
    yield "a program without a table", Image(table=b"").octets()
    yield "a program whose headers say nothing of their size", Image().octets()
    for made in headers_rows, sections_rows, several_rows, entries_rows:
        for reason, program in made():
            yield reason, program.octets()


def rows():
    for _, octets in made_rows():
        yield octets
