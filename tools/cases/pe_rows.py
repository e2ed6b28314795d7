"""Test vectors of `xgolden_run`: programs of Windows and what isn't one, each with its reason."""

from dataclasses import dataclass
from struct import pack

PE32, PE32_PLUS = 0x10B, 0x20B
# By the magic number: where the number of data directories and the first of them are.
COUNT, DIRECTORIES = {PE32: 92, PE32_PLUS: 108}, {PE32: 96, PE32_PLUS: 112}
CERTIFICATES = 4 * 8


@dataclass
class Image:
    """A program of zeros but for what is here. The table is the end of the file, unless `address` or `size` says otherwise."""

    magic: int = PE32_PLUS
    places: int = PE32_PLUS
    marked: bytes = b"MZ"
    at: int = 64
    stated_at: int = None
    signature: bytes = b"PE\0\0"
    header_size: int = 240
    count: int = 16
    rest: int = 88
    table: bytes = bytes(range(1, 41))
    address: int = None
    size: int = None
    behind: bytes = b""

    def entry(self):
        return self.at + 24 + DIRECTORIES[self.places] + CERTIFICATES

    def octets(self):
        head = bytearray(self.entry() + 8)

        def put(at, octets):
            head[at:at + len(octets)] = octets

        address = self.entry() + 8 + self.rest
        put(0, self.marked)
        put(60, pack("<I", self.at if self.stated_at is None else self.stated_at))
        put(self.at, self.signature)
        put(self.at + 20, pack("<H", self.header_size))
        put(self.at + 24, pack("<H", self.magic))
        put(self.at + 24 + COUNT[self.places], pack("<I", self.count))
        put(self.entry(), pack("<II", address if self.address is None else self.address, len(self.table) if self.size is None else self.size))
        return bytes(head) + bytes(self.rest) + self.table + self.behind


def changed(octets, at, new):
    """The octets with others at an offset."""
    return octets[:at] + new + octets[at + len(new):]


PLAIN = Image()
OLD = Image(magic=PE32, places=PE32)
LAST = 2**32 - 1


def with_two_entries():
    """PE32 by its magic number, with entries of a table at the places of both formats, the one of PE32+ first in the file's size."""
    image = Image(magic=PE32, places=PE32_PLUS).octets()
    return changed(changed(image, 64 + 24 + 92, pack("<I", 16)), 64 + 24 + 96 + CERTIFICATES, pack("<II", len(PLAIN.octets()) - 1, 1))


# Why the row is there, and the file; the digest is SHA-256 but in `ALGORITHMS`.
ROWS = [
    ("no octets", b""),
    ("63 octets", bytes(63)),
    ("63 octets, marked", b"MZ" + bytes(61)),
    ("64 octets, unmarked", bytes(64)),
    ("marked with its octets exchanged", b"ZM" + bytes(62)),
    ("the second octet of the mark alone", Image(marked=b"mZ").octets()),
    ("marked, and the PE signature at the mark", b"MZ" + bytes(62)),
    ("a PE32+ image", PLAIN.octets()),
    ("a PE32 image", OLD.octets()),
    ("its headers within the MS-DOS header", changed(Image(at=4).octets(), 60, pack("<I", 4))),
    ("its headers behind more of the stub", Image(at=1000).octets()),
    ("the signature at the last 32-bit offset", Image(stated_at=LAST).octets()),
    ("an offset whose header would wrap to 0", Image(stated_at=2**32 - 24).octets()),
    ("an offset whose magic number would wrap behind 0", Image(stated_at=2**32 - 26).octets()),
    ("an offset of the half of 32 bits", Image(stated_at=2**31).octets()),
    ("the signature an octet later", Image(stated_at=65).octets()),
    ("the signature of another format", Image(signature=b"NE\0\0").octets()),
    ("the signature without its last zero", Image(signature=b"PE\0\1").octets()),
    ("the signature with its octets in reverse", Image(signature=b"\0\0EP").octets()),
    ("the file ends before the magic number", PLAIN.octets()[:64 + 25]),
    ("the file ends behind the magic number", PLAIN.octets()[:64 + 26]),
    ("the same with another magic number", Image(magic=0).octets()[:64 + 26]),
    ("the magic number of a ROM image", Image(magic=0x107).octets()),
    ("the magic number of no format", Image(magic=0).octets()),
    ("the magic number of PE32 with its octets exchanged", Image(magic=0x0B01).octets()),
    ("the last magic number", Image(magic=0xFFFF).octets()),
    ("PE32+, whose optional header ends before the entry's last octet", Image(header_size=151).octets()),
    ("PE32+, whose optional header ends behind the entry", Image(header_size=152).octets()),
    ("PE32, whose optional header ends before the entry's last octet", Image(magic=PE32, places=PE32, header_size=135).octets()),
    ("PE32, whose optional header ends behind the entry", Image(magic=PE32, places=PE32, header_size=136).octets()),
    ("an optional header without a size", Image(header_size=0).octets()),
    ("an optional header of the greatest size, past the file", Image(header_size=0xFFFF).octets()),
    ("four directories", Image(count=4).octets()),
    ("five directories", Image(count=5).octets()),
    ("PE32 of four directories", Image(magic=PE32, places=PE32, count=4).octets()),
    ("PE32 of five directories", Image(magic=PE32, places=PE32, count=5).octets()),
    ("the greatest number of directories", Image(count=LAST).octets()),
    ("no directories", Image(count=0).octets()),
    ("PE32+, the file ends before the entry's last octet", PLAIN.octets()[:239]),
    ("PE32+, the file ends behind the entry", PLAIN.octets()[:240]),
    ("PE32, the file ends before the entry's last octet", OLD.octets()[:223]),
    ("PE32, the file ends behind the entry", OLD.octets()[:224]),
    ("PE32 by its number, with the fields of PE32+", Image(magic=PE32).octets()),
    ("PE32+ by its number, with the fields of PE32", Image(places=PE32).octets()),
    ("PE32 by its number, with a table's entry at the places of both", with_two_entries()),
    ("no table", Image(table=b"").octets()),
    ("no table, at offset 0", Image(table=b"", address=0).octets()),
    ("a size of 0 before a table", Image(size=0).octets()),
    ("a table of one octet", Image(table=b"x").octets()),
    ("a table right behind the entry", Image(rest=0).octets()),
    ("PE32, a table right behind the entry", Image(magic=PE32, places=PE32, rest=0).octets()),
    ("a table from the entry's last octet on", Image(rest=0, address=239, size=41).octets()),
    ("a table that is all of the file", Image(address=0, size=len(PLAIN.octets())).octets()),
    ("a table from the checksum on", Image(address=152, size=len(PLAIN.octets()) - 152).octets()),
    ("a table from the entry on", Image(address=232, size=len(PLAIN.octets()) - 232).octets()),
    ("an octet behind the table", Image(behind=b"\0").octets()),
    ("zeros behind the table up to a multiple of eight", Image(table=bytes(37), behind=bytes(3)).octets()),
    ("an octet of the table missing", PLAIN.octets()[:-1]),
    ("a table that begins an octet early", Image(address=327).octets()),
    ("a table that begins an octet late", Image(address=329).octets()),
    ("a table an octet longer", Image(size=41).octets()),
    ("a table an octet shorter", Image(size=39).octets()),
    ("a table at the end of the file", Image(address=len(PLAIN.octets())).octets()),
    ("a table past the file", Image(address=LAST, size=LAST).octets()),
    ("an offset and a size whose sum would wrap to the file's length", Image(address=2**32 - 32, size=len(PLAIN.octets()) + 32).octets()),
    ("an offset in the headers and a size whose sum would wrap", Image(address=8, size=2**32 - 8).octets()),
    ("neither marked nor with a signature", Image(marked=b"xx", signature=b"xxxx").octets()),
    ("neither with a signature nor with a magic number", Image(signature=b"xxxx", magic=0).octets()),
    ("neither with a magic number nor with directories", Image(magic=0, count=0).octets()),
    ("neither with directories nor with a table", Image(count=0, size=0).octets()),
    ("another checksum", changed(PLAIN.octets(), 152, b"\xff\xff\xff\xff")),
    ("the octet before the checksum changed", changed(PLAIN.octets(), 151, b"\1")),
    ("the octet behind the checksum changed", changed(PLAIN.octets(), 156, b"\1")),
    ("PE32, another checksum", changed(OLD.octets(), 152, b"\xff\xff\xff\xff")),
    ("the octet before the entry changed", changed(PLAIN.octets(), 231, b"\1")),
    ("the octet behind the entry changed", changed(PLAIN.octets(), 240, b"\1")),
    ("PE32, the octet before the entry changed", changed(OLD.octets(), 215, b"\1")),
    ("PE32, the octet behind the entry changed", changed(OLD.octets(), 224, b"\1")),
    ("the last octet before the table changed", changed(PLAIN.octets(), 327, b"\1")),
    ("the first octet of the table changed", changed(PLAIN.octets(), 328, b"\xff")),
    ("the last octet of the table changed", changed(PLAIN.octets(), 367, b"\xff")),
    ("octets behind the section's, without a section that has them", Image(rest=300).octets()),
]

# Each digest algorithm, over lengths around the blocks of 64 and 128 octets; 316 octets are bound at 88.
ALGORITHMS = ("MD5", "SHA-1", "SHA-224", "SHA-256", "SHA-384", "SHA-512")
LENGTHS = (0, 1, 88, 91, 92, 147, 148, 155, 156, 163, 164)


def rows():
    """Each row: the digest algorithm and the file."""
    for _, octets in ROWS:
        yield "SHA-256", octets
    for algorithm in ALGORITHMS:
        for rest in LENGTHS:
            yield algorithm, Image(rest=rest).octets()
