"""The headers and sections of a program of Windows that lie where nobody signed (PE Format, "Section Table").

A loader takes the headers and the sections out of a file.  What it takes from the certificate table, or from
octets that a digest leaves out, nobody signed.  Loaders of EFI copy what the section table says.  Windows rounds
the end of a section up to FileAlignment; a program whose SectionAlignment is below a page it maps as the file is,
up to SizeOfImage.
"""

from hashlib import new
from struct import error, unpack_from
from typing import NamedTuple

import signed_program

SECTION = 40
# Parts that may lie where nobody signed, beside sections.
HEADERS, IMAGE = "its headers", "its image"
# In the optional header.
SECTION_ALIGNMENT, FILE_ALIGNMENT, SIZE_OF_IMAGE, SIZE_OF_HEADERS, SUBSYSTEM = 32, 36, 56, 60, 68
EFI = range(10, 14)
PAGE = 4096
# Ahead of the optional header.
SECTION_COUNT, OPTIONAL_SIZE = -18, -4


class Section(NamedTuple):
    """Where the octets of a section are in the file."""

    begin: int
    end: int


class Layout(NamedTuple):
    """What the headers say of how a program lies in memory."""

    section_alignment: int
    file_alignment: int
    size: int
    subsystem: int

    @classmethod
    def of(cls, program: bytes, optional: int) -> "Layout":
        places = (SECTION_ALIGNMENT, "<I"), (FILE_ALIGNMENT, "<I"), (SIZE_OF_IMAGE, "<I"), (SUBSYSTEM, "<H")
        return cls(*(unpack_from(form, program, optional + place)[0] for place, form in places))

    def is_of_efi(self) -> bool:
        return self.subsystem in EFI

    def is_flat(self) -> bool:
        """Whether Windows maps the file as it is."""
        return not self.is_of_efi() and self.section_alignment < PAGE

    def step(self) -> int:
        """What Windows rounds the end of what it maps up to."""
        return 1 if self.is_of_efi() else PAGE if self.is_flat() else max(self.file_alignment, 1)


class Image(NamedTuple):
    """Where the headers and the sections of a signed program end, and where its certificate table is."""

    headers: int
    section_table_end: int
    sections: list
    table: int
    table_length: int
    layout: Layout

    @classmethod
    def of(cls, program: bytes) -> "Image | None":
        """None where the file ends before its headers do."""
        try:
            optional, _, at, length = signed_program.parts(program)
            count, = unpack_from("<H", program, optional + SECTION_COUNT)
            size, = unpack_from("<H", program, optional + OPTIONAL_SIZE)
            headers, = unpack_from("<I", program, optional + SIZE_OF_HEADERS)
            layout = Layout.of(program, optional)
            begin = optional + size
            places = [unpack_from("<II", program, begin + SECTION * number + 16) for number in range(count)]
        except (error, signed_program.NotSigned):
            return None
        sections = [Section(place, place + length) for length, place in places if length]
        return cls(headers, begin + SECTION * count, sections, at, length, layout)

    def unsigned_part(self) -> str | None:
        """What of the headers and sections reaches to where nobody signed, None where nothing does."""
        if self.section_table_end > self.headers or self.headers > self.table:
            return HEADERS
        outside = [one for one in self.sections if one.end > self.table]
        over = [one for one in self.sections if one.begin < self.headers]
        if outside or over:
            return f"{len(outside or over)} of its {len(self.sections)} sections"
        return IMAGE if self.layout.is_flat() and self.layout.size > self.table else None

    def is_rounded_into_the_table(self) -> bool:
        """Whether Windows takes octets of the table for its rounding alone."""
        step = self.layout.step()
        end = self.layout.size if self.layout.is_flat() else max((one.end for one in self.sections), default=0)
        return end <= self.table < -(-end // step) * step

    def has_gap(self) -> bool:
        """Whether sections that don't overlap, and are in the file, have a gap."""
        places = sorted(self.sections)
        apart = all(one.end <= other.begin for one, other in zip(places, places[1:]))
        return apart and self.unsigned_part() is None and self.gap() > 0

    def gap(self) -> int:
        """How many octets behind the headers lie between sections, in none."""
        at, found = self.headers, 0
        for one in sorted(self.sections):
            found += max(one.begin - at, 0)
            at = max(at, one.end)
        return found


def digest_by_sections(program: bytes, image: Image, digest: str) -> str:
    """The digest as Microsoft's text has it: headers, sections by their places, and what is left at the end.

    Where sections have a gap it is another one than that of all octets: the gap isn't digested, and octets at the end
    are digested twice.
    """
    optional, place, at, _ = signed_program.parts(program)
    hashed = new(digest)
    checksum = optional + signed_program.CHECKSUM
    held, done = memoryview(program), image.headers
    for begin, end in (0, checksum), (checksum + 4, optional + place), (optional + place + 8, image.headers):
        hashed.update(held[begin:end])
    for one in sorted(image.sections):
        hashed.update(held[one.begin:one.end])
        done += one.end - one.begin
    hashed.update(held[min(done, at):at])
    return hashed.hexdigest()
