"""Hostile octets for a reader of DER, and what it must answer.

`ROWS` has a row for each: octets in hexadecimal, what `read_first` and what
`read_exact` answers, and why the row is there.  An answer is ``ok`` and the
number of octets that are taken, or the fault and its place.

A cursor goes on after an element.  Rows with octets after the first element
say what it answers: how many octets each element takes, and then the fault
and its place, or ``end``.  On all other rows it has the answer of
`read_first`, and ends where no octets are left.

The answers were worked out by hand from the rules in `der_reader` and then
confirmed by that reader and by the definition in `der_starts`;
`test_tools.py` does so each time.
"""

from typing import NamedTuple


class Row(NamedTuple):
    octets: str
    first: str
    exact: str
    why: str
    following: str = ""

    @property
    def cursor(self):
        """What a cursor over the octets answers."""
        if self.following or not self.octets:
            return self.following or "end"
        word, number = self.first.split()
        return f"{number} end" if word == "ok" else self.first


def nest(levels, core="30 00"):
    """Octets in so many levels of SEQUENCE around a core, in hexadecimal."""
    octets = bytes.fromhex(core)
    for _ in range(levels):
        size = len(octets)
        if size < 0x80:
            length = bytes([size])
        elif size < 0x100:
            length = bytes([0x81, size])
        else:
            length = bytes([0x82, size >> 8, size & 0xFF])
        octets = b"\x30" + length + octets
    return octets.hex(" ").upper()


def filled(head, count):
    """A head and so many octets AA, in hexadecimal."""
    return head + " AA" * count


IDENTIFIERS = [
    Row("", "Truncated 0", "Truncated 0", "no octets"),
    Row("00", "ReservedTag 0", "ReservedTag 0", "tag 0, before the missing length"),
    Row("00 00", "ReservedTag 0", "ReservedTag 0", "end-of-contents octets are no element"),
    Row("00 80", "ReservedTag 0", "ReservedTag 0", "tag 0, before the indefinite length"),
    Row("00 05 00", "ReservedTag 0", "ReservedTag 0", "a zero before an element"),
    Row("1F", "HighTag 0", "HighTag 0", "high tag, before the missing length"),
    Row("1F 00", "HighTag 0", "HighTag 0", "high tag, universal and primitive"),
    Row("3F 00", "HighTag 0", "HighTag 0", "high tag, constructed"),
    Row("5F 21 00", "HighTag 0", "HighTag 0", "high tag of application class, number 33"),
    Row("9F 85 00", "HighTag 0", "HighTag 0", "high tag, before the wide length"),
    Row("BF 80", "HighTag 0", "HighTag 0", "high tag, before the indefinite length"),
    Row("FF FF FF FF", "HighTag 0", "HighTag 0", "all bits set"),
    Row("1E 00", "ok 2", "ok 2", "the highest low tag, primitive"),
    Row("3E 00", "ok 2", "ok 2", "the highest low tag, constructed"),
    Row("0F 00", "ok 2", "ok 2", "low four bits all set, the fifth not"),
    Row("AF 00", "ok 2", "ok 2", "the same, context class and constructed"),
    Row("20 00", "ok 2", "ok 2", "only the octet 00 is reserved"),
    Row("40 00", "ok 2", "ok 2", "application class, primitive"),
    Row("7E 00", "ok 2", "ok 2", "application class, constructed"),
    Row("80 01 FF", "ok 3", "ok 3", "context class, primitive"),
    Row("A0 00", "ok 2", "ok 2", "context class, constructed"),
    Row("DE 01 00", "ok 3", "ok 3", "private class, primitive"),
    Row("FE 02 05 00", "ok 4", "ok 4", "private class, constructed"),
    Row("02", "Truncated 0", "Truncated 0", "no length octet"),
    Row("30", "Truncated 0", "Truncated 0", "no length octet, constructed"),
]

LENGTHS = [
    Row("04 00", "ok 2", "ok 2", "the least length"),
    Row("04 01", "Truncated 0", "Truncated 0", "no contents"),
    Row("04 02 AA", "Truncated 0", "Truncated 0", "one octet of two"),
    Row(filled("04 7F", 126), "Truncated 0", "Truncated 0", "126 octets of 127"),
    Row(filled("04 7F", 127), "ok 129", "ok 129", "the longest short form"),
    Row("04 80", "Indefinite 0", "Indefinite 0", "indefinite length, primitive"),
    Row("30 80 00 00", "Indefinite 0", "Indefinite 0", "indefinite length with its end"),
    Row("04 81", "Truncated 0", "Truncated 0", "length octet 1 of 1 missing"),
    Row("04 81 00", "NotShortest 0", "NotShortest 0", "0 in a long form"),
    Row("04 81 01 AA", "NotShortest 0", "NotShortest 0", "1 in a long form, contents there"),
    Row("04 81 7F", "NotShortest 0", "NotShortest 0", "127 in a long form, before the contents"),
    Row("04 81 80", "Truncated 0", "Truncated 0", "128 needs the long form; no contents"),
    Row(filled("04 81 80", 127), "Truncated 0", "Truncated 0", "127 octets of 128"),
    Row(filled("04 81 80", 128), "ok 131", "ok 131", "the least of one length octet"),
    Row(filled("04 81 FF", 255), "ok 258", "ok 258", "the longest of one length octet"),
    Row("04 82 01", "Truncated 0", "Truncated 0", "length octet 2 of 2 missing"),
    Row("04 82 00", "Truncated 0", "Truncated 0", "missing length octet, before not shortest"),
    Row("04 82 00 80", "NotShortest 0", "NotShortest 0", "128 in two octets"),
    Row("04 82 00 FF", "NotShortest 0", "NotShortest 0", "255 in two octets"),
    Row(filled("04 82 01 00", 255), "Truncated 0", "Truncated 0", "255 octets of 256"),
    Row(filled("04 82 01 00", 256), "ok 260", "ok 260", "the least of two length octets"),
    Row("04 83 01 00", "Truncated 0", "Truncated 0", "length octet 3 of 3 missing"),
    Row("04 83 00 01 00", "NotShortest 0", "NotShortest 0", "256 in three octets"),
    Row("04 83 00 FF FF", "NotShortest 0", "NotShortest 0", "65535 in three octets"),
    Row("04 83 01 00 00", "Truncated 0", "Truncated 0", "65536 in three octets; no contents"),
    Row("04 84 01 00 00", "Truncated 0", "Truncated 0", "length octet 4 of 4 missing"),
    Row("04 84 00 00 00 00", "NotShortest 0", "NotShortest 0", "0 in four octets"),
    Row("04 84 00 FF FF FF", "NotShortest 0", "NotShortest 0", "2^24 - 1 in four octets"),
    Row("04 84 01 00 00 00", "Truncated 0", "Truncated 0", "2^24 in four octets; no contents"),
    Row("04 84 FF FF FF FF", "Truncated 0", "Truncated 0", "the longest length"),
    Row("04 84 FF FF FF FA", "Truncated 0", "Truncated 0", "its end is 2^32, 0 in 32 bits"),
    Row("04 84 FF FF FF FC", "Truncated 0", "Truncated 0", "its end is 2^32 + 2, 2 in 32 bits"),
    Row("30 84 FF FF FF FF 00 00", "Truncated 0", "Truncated 0", "a huge SEQUENCE, before its kid"),
    Row("04 85", "WideLength 0", "WideLength 0", "five length octets, none there"),
    Row("04 85 01", "WideLength 0", "WideLength 0", "five length octets, one there"),
    Row("04 85 00 00 00 00 01 AA", "WideLength 0", "WideLength 0", "1 in five octets, contents there"),
    Row("04 88 00 00 00 00 00 00 00 01", "WideLength 0", "WideLength 0", "1 in eight octets"),
    Row("30 FF", "WideLength 0", "WideLength 0", "the length octet that X.690 keeps free"),
]

FIRST_KIDS = [
    Row("30 01 00", "ReservedTag 2", "ReservedTag 2", "tag 0 in the last octet"),
    Row("30 02 00 00", "ReservedTag 2", "ReservedTag 2", "end-of-contents octets inside"),
    Row("30 01 1F", "HighTag 2", "HighTag 2", "high tag in the last octet"),
    Row("30 02 3F 00", "HighTag 2", "HighTag 2", "high tag, constructed, inside"),
    Row("A0 01 FF", "HighTag 2", "HighTag 2", "all bits set in a context element"),
    Row("30 01 02", "Overrun 2", "Overrun 2", "the parent ends after an identifier"),
    Row("30 01 02 01 05", "Overrun 2", "Overrun 2", "the same, though octets follow"),
    Row("30 01 02 80", "Overrun 2", "Overrun 2", "the length octet past the parent isn't looked at"),
    Row("30 01 02 85", "Overrun 2", "Overrun 2", "nor where it would be too wide"),
    Row("30 02 02 80", "Indefinite 2", "Indefinite 2", "indefinite length inside"),
    Row("30 02 02 85", "WideLength 2", "WideLength 2", "wide length inside"),
    Row("30 02 04 81", "Overrun 2", "Overrun 2", "the parent ends inside a length"),
    Row("30 02 04 82 01 00", "Overrun 2", "Overrun 2", "the same, though octets follow"),
    Row("30 02 04 81 05", "Overrun 2", "Overrun 2", "further length octets past the parent aren't either"),
    Row("30 03 04 82 00 05", "Overrun 2", "Overrun 2", "one of two past the parent"),
    Row("30 03 04 82 01 00", "Overrun 2", "Overrun 2", "the parent ends before the last length octet"),
    Row("30 04 04 82 01 00", "Overrun 2", "Overrun 2", "the parent ends after the last length octet"),
    Row("30 03 04 81 7F", "NotShortest 2", "NotShortest 2", "long form of 127 inside"),
    Row("30 04 04 82 00 80", "NotShortest 2", "NotShortest 2", "128 in two octets inside"),
    Row("30 02 02 01", "Overrun 2", "Overrun 2", "the parent ends before the contents"),
    Row("30 02 02 01 05", "Overrun 2", "Overrun 2", "the same, though the octet follows"),
    Row("30 03 02 05 01", "Overrun 2", "Overrun 2", "the parent ends inside the contents"),
    Row("30 02 30 02 05 00", "Overrun 2", "Overrun 2", "a constructed kid past its parent"),
    Row("30 06 04 84 FF FF FF F8", "Overrun 2", "Overrun 2", "a kid's end is 2^32, 0 in 32 bits"),
    Row("30 06 04 84 FF FF FF FF", "Overrun 2", "Overrun 2", "a kid of the longest length"),
    Row("24 02 04 05", "Overrun 2", "Overrun 2", "kids are read in an OCTET STRING in parts"),
    Row("20 02 30 80", "Indefinite 2", "Indefinite 2", "kids are read below the tag 20"),
    Row("61 01 00", "ReservedTag 2", "ReservedTag 2", "kids are read in application class"),
    Row("FE 03 05 01 AA 05", "ok 5", "Trailing 5", "kids are read in private class",
        "5 Truncated 5"),
    Row("FE 03 05 02 AA 05", "Overrun 2", "Overrun 2", "a kid past its parent in private class"),
    Row("30 80 1F", "Indefinite 0", "Indefinite 0", "the parent's length, before the kid"),
    Row("30 81 02 1F 00", "NotShortest 0", "NotShortest 0", "the parent's length form, before the kid"),
    Row("30 03 1F 00", "Truncated 0", "Truncated 0", "the parent's contents, before the kid"),
]

LATER_KIDS = [
    Row("30 03 05 00 00", "ReservedTag 4", "ReservedTag 4", "tag 0 behind a kid, last octet"),
    Row("30 03 05 00 1F", "HighTag 4", "HighTag 4", "high tag behind a kid, last octet"),
    Row("30 03 05 00 02", "Overrun 4", "Overrun 4", "an identifier alone behind a kid"),
    Row("30 04 05 00 02 01", "Overrun 4", "Overrun 4", "no contents behind a kid"),
    Row("30 05 05 00 04 81 01", "NotShortest 4", "NotShortest 4", "long form behind a kid"),
    Row("30 08 05 00 05 00 05 00 04 80", "Indefinite 8", "Indefinite 8", "behind three kids"),
    Row("30 06 30 02 05 00 1F 00", "HighTag 6", "HighTag 6", "behind a kid with a kid"),
    Row("30 06 30 02 05 01 1F 00", "Overrun 4", "Overrun 4", "the fault further left comes first"),
    Row("30 03 30 01 30", "Overrun 4", "Overrun 4", "a kid's kid in the last octet"),
    Row("31 03 A0 01 02 FF", "Overrun 4", "Overrun 4", "a kid's kid, before what follows"),
    Row("30 04 30 02 04 82 01 00", "Overrun 4", "Overrun 4", "both parents end inside a length"),
    Row("30 06 30 03 04 82 01 00", "Overrun 4", "Overrun 4", "only the nearer parent ends there"),
    Row("30 0A 30 02 05 00 30 04 02 01 00 00", "ReservedTag 11", "ReservedTag 11",
        "two levels down in the last octet"),
    Row(filled("30 81 80 04 7D", 126), "Overrun 130", "Overrun 130", "one octet left behind a kid"),
    Row(filled("30 81 80 04 7E", 126), "ok 131", "ok 131", "none left behind the kid"),
]

# Octets that are read though they are no value of any type: forms and
# contents are judged above the reader.
READ = [
    Row("30 00", "ok 2", "ok 2", "an empty constructed element"),
    Row("30 04 30 00 31 00", "ok 6", "ok 6", "empty constructed elements as kids"),
    Row("A0 04 A1 02 A2 00", "ok 6", "ok 6", "one kid each, the last one empty"),
    Row("30 04 04 02 30 80", "ok 6", "ok 6", "contents of a primitive element aren't read"),
    Row("80 01 00", "ok 3", "ok 3", "the same in context class"),
    Row("DE 02 30 80", "ok 4", "ok 4", "the same in private class"),
    Row("24 04 04 02 AA BB", "ok 6", "ok 6", "an OCTET STRING in parts"),
    Row("10 02 1F 80", "ok 4", "ok 4", "the number of SEQUENCE in a primitive element"),
    Row("05 01 FF", "ok 3", "ok 3", "a NULL with contents"),
    Row("02 00", "ok 2", "ok 2", "an INTEGER without contents"),
]

FOLLOWED = [
    Row("30 03 02 01 05 FF", "ok 5", "Trailing 5", "an octet after the element",
        "5 HighTag 5"),
    Row("05 00 00", "ok 2", "Trailing 2", "one zero after the element",
        "2 ReservedTag 2"),
    Row("05 00" + 7 * " 00", "ok 2", "Trailing 2", "seven zeros, as padding leaves",
        "2 ReservedTag 2"),
    Row("05 00" + 8 * " 00", "ok 2", "Trailing 2", "eight zeros",
        "2 ReservedTag 2"),
    Row("05 00" + 17 * " 00", "ok 2", "Trailing 2", "seventeen zeros",
        "2 ReservedTag 2"),
    Row("05 00 00 00 01", "ok 2", "Trailing 2", "zeros, then another octet",
        "2 ReservedTag 2"),
    Row("05 00 05 00", "ok 2", "Trailing 2", "a second element",
        "2 2 end"),
    Row("05 00 30 80", "ok 2", "Trailing 2", "what follows isn't read",
        "2 Indefinite 2"),
    Row("30 00 1F", "ok 2", "Trailing 2", "an empty element, and what follows isn't read",
        "2 HighTag 2"),
    Row("30 02 30 00 05 00", "ok 4", "Trailing 4", "a kid that the parent leaves out",
        "4 2 end"),
    Row("30 09 05 00" + 7 * " 00", "ReservedTag 4", "ReservedTag 4", "seven zeros inside the parent"),
    Row("30 0A 05 00" + 8 * " 00", "ReservedTag 4", "ReservedTag 4", "eight zeros inside the parent"),
]

# Up to 64 levels of two octets each have lengths of one octet; the 65th from
# the inside has three octets before its contents, the 108th four.
LEVELS = [
    Row(nest(62), "ok 126", "ok 126", "63 levels"),
    Row(nest(63), "ok 128", "ok 128", "64 levels"),
    Row(nest(63, "05 00"), "ok 128", "ok 128", "64 levels, the last one primitive"),
    Row(nest(63) + " FF", "ok 128", "Trailing 128", "64 levels and an octet",
        "128 HighTag 128"),
    Row(nest(64), "TooDeep 129", "TooDeep 129", "65 levels"),
    Row(nest(64, "05 00"), "TooDeep 129", "TooDeep 129", "65 levels, the last one primitive"),
    Row(nest(65), "TooDeep 130", "TooDeep 130", "66 levels, at the 65th"),
    Row(nest(127), "TooDeep 213", "TooDeep 213", "128 levels, at the 65th"),
    Row(nest(64, "00"), "ReservedTag 128", "ReservedTag 128", "tag 0 at level 65, before its depth"),
    Row(nest(64, "1F"), "HighTag 128", "HighTag 128", "high tag at level 65, before its depth"),
    Row(nest(64, "30"), "TooDeep 128", "TooDeep 128", "depth, before the missing length"),
    Row(nest(64, "30 80"), "TooDeep 129", "TooDeep 129", "depth, before the indefinite length"),
    Row(nest(64, "04 85"), "TooDeep 129", "TooDeep 129", "depth, before the wide length"),
    Row(nest(64, "04 05"), "TooDeep 129", "TooDeep 129", "depth, before the missing contents"),
    Row(nest(63, "30"), "Overrun 126", "Overrun 126", "no length at level 64"),
    Row(nest(63, "30 80"), "Indefinite 126", "Indefinite 126", "indefinite length at level 64"),
    Row(nest(63, "30 01"), "Overrun 126", "Overrun 126", "no contents at level 64"),
    Row("30 81 80 05 00 " + nest(62), "ok 131", "ok 131", "63 levels behind a kid"),
    Row("30 81 82 05 00 " + nest(63), "TooDeep 131", "TooDeep 131", "64 levels behind a kid"),
    Row("30 81 FE " + nest(62) + " " + nest(63), "TooDeep 255", "TooDeep 255",
        "63 levels, then 64, inside one parent"),
]

# What a cursor returns of several elements, one after another.
SEVERAL = [
    Row("02 01 05 04 00 30 80", "ok 3", "Trailing 3", "two elements, then an indefinite length",
        "3 2 Indefinite 5"),
    Row("05 00 30 02 05 00 02 01 05", "ok 2", "Trailing 2", "three elements", "2 4 3 end"),
    Row("05 00 30 03 05 00 02 05", "ok 2", "Trailing 2", "a fault inside the second element",
        "2 Overrun 6"),
    Row("30 02 05 00 04 02 05", "ok 4", "Trailing 4", "contents that end too soon, behind an element",
        "4 Truncated 4"),
    Row("05 00 04 81 7F", "ok 2", "Trailing 2", "long form of 127 behind an element",
        "2 NotShortest 2"),
    Row("05 00 05 00 04 85", "ok 2", "Trailing 2", "wide length behind two elements",
        "2 2 WideLength 4"),
    Row("05 00 " + nest(63), "ok 2", "Trailing 2", "64 levels behind an element", "2 128 end"),
    Row("05 00 " + nest(64), "ok 2", "Trailing 2", "65 levels behind an element",
        "2 TooDeep 131"),
]

# Rows beside the tables.
OTHERS = [
    Row("3F", "HighTag 0", "HighTag 0", "high tag, constructed, before the missing length"),
    Row("04", "Truncated 0", "Truncated 0", "an identifier alone, of an OCTET STRING"),
    Row("30 80", "Indefinite 0", "Indefinite 0", "indefinite length at the end"),
    Row("30 02 04 81 80", "Overrun 2", "Overrun 2", "the parent ends inside a length of 128"),
    Row("30 04 05 00 00 00", "ReservedTag 4", "ReservedTag 4", "end-of-contents octets behind a kid"),
    Row("30 08 30 02 05 00 30 02 05 80", "Indefinite 8", "Indefinite 8",
        "a fault in the second constructed kid"),
    Row("30 04 00 00", "Truncated 0", "Truncated 0", "cut off, before a fault inside"),
    Row("30 04 1F 00 00 00", "HighTag 2", "HighTag 2", "the first of two faults"),
    Row("30 02 30 01 05", "Overrun 2", "Overrun 2", "a constructed kid that is cut off"),
    Row("30 05 05 00 02 01 07", "ok 7", "ok 7", "two kids"),
    Row("C1 01 AA 00 00", "ok 3", "Trailing 3", "zeros behind an element of private class",
        "3 ReservedTag 3"),
]

ROWS = [
    *IDENTIFIERS,
    *LENGTHS,
    *FIRST_KIDS,
    *LATER_KIDS,
    *READ,
    *FOLLOWED,
    *LEVELS,
    *SEVERAL,
    *OTHERS,
]
