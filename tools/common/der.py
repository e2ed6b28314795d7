"""Elements of DER, as far as the users' scripts show or move them.

Nothing decides by what is read here: the proved programs read the same octets by themselves.
An element is a place in octets, and its parts are read when they are asked for, one level at a
time.  So reading never goes deeper than a caller does, and takes no octet from outside of the
element above.  What isn't in the form of X.690 10.1 has no elements: `NotRead`.

    >>> [kid.contents for kid in whole(bytes.fromhex("3006020105020107")).kids()]
    [b'\\x05', b'\\x07']
"""

from typing import Iterator, NamedTuple

# More parts of one element than any signature has.
MOST_KIDS = 10_000
# More octets than any object identifier has.
LONGEST_OID = 64
SEQUENCE, SET, INTEGER, OCTETS, OID = 0x30, 0x31, 0x02, 0x04, 0x06


class NotRead(Exception):
    """Why octets aren't the element that is looked for."""


# What reading raises where an element isn't there, or isn't what it is taken for.
NOT_READ = (NotRead, IndexError, ValueError)


class Element(NamedTuple):
    """An element in octets: where it begins, and where its contents begin and end."""

    octets: bytes
    at: int
    begin: int
    end: int

    @property
    def tag(self) -> int:
        return self.octets[self.at]

    @property
    def contents(self) -> bytes:
        return self.octets[self.begin:self.end]

    @property
    def encoding(self) -> bytes:
        return self.octets[self.at:self.end]

    def walk(self, most: int = MOST_KIDS) -> Iterator["Element"]:
        """The elements that its contents are, at most so many."""
        if not self.tag & 0x20:
            raise NotRead(f"the element of tag {self.tag:02X} has no parts")
        at = self.begin
        for _ in range(most):
            if at == self.end:
                return
            kid = element_at(self.octets, at, self.end)
            yield kid
            at = kid.end
        if at != self.end:
            raise NotRead(f"an element has more than {most} parts")

    def kids(self, most: int = MOST_KIDS) -> list:
        """The same as a list."""
        return list(self.walk(most))

    def expect(self, tag: int) -> "Element":
        """The element itself, which has this tag."""
        if self.tag != tag:
            raise NotRead(f"there is an element of tag {self.tag:02X} in place of one of {tag:02X}")
        return self


def element_at(octets: bytes, at: int, end: int) -> Element:
    """The element at a place, which ends at `end` or ahead of it."""
    if end - at < 2:
        raise NotRead("an element is cut off")
    tag, size, begin = octets[at], octets[at + 1], at + 2
    if tag == 0 or tag & 0x1F == 0x1F:
        raise NotRead(f"{tag:02X} is no tag that is read here")
    if size >= 0x80:
        width = size - 0x80
        if not 1 <= width <= 4 or end - begin < width:
            raise NotRead("a length isn't in a form of DER")
        size, begin = int.from_bytes(octets[begin:begin + width], "big"), begin + width
        if size < 0x80 or size >> 8 * (width - 1) == 0:
            raise NotRead("a length isn't the shortest")
    if end - begin < size:
        raise NotRead("an element is cut off")
    return Element(octets, at, begin, begin + size)


def first(octets: bytes) -> Element:
    """The element that octets begin with."""
    return element_at(octets, 0, len(octets))


def whole(octets: bytes) -> Element:
    """The element that octets are."""
    element = first(octets)
    if element.end != len(octets):
        raise NotRead("there are octets behind the element")
    return element


def inner(element: Element) -> Element:
    """The element that the contents of an OCTET STRING are."""
    found = element_at(element.expect(OCTETS).octets, element.begin, element.end)
    if found.end != element.end:
        raise NotRead("there are octets behind the element")
    return found


def bits(element: Element) -> bytes:
    """The octets of a BIT STRING without unused bits."""
    if element.expect(0x03).contents[:1] != b"\0":
        raise NotRead("a BIT STRING has unused bits")
    return element.contents[1:]


def oid(element: Element) -> str:
    """The text of an OBJECT IDENTIFIER (X.690 8.19)."""
    octets = element.expect(OID).contents
    if not 0 < len(octets) <= LONGEST_OID or octets[-1] >= 0x80:
        raise NotRead("an object identifier isn't in its form")
    numbers, number = [], 0
    for octet in octets:
        number = number << 7 | octet & 0x7F
        if octet < 0x80:
            numbers.append(number)
            number = 0
    top = min(numbers[0] // 40, 2)
    return ".".join(map(str, (top, numbers[0] - 40 * top, *numbers[1:])))


def wrapped(tag: int, *parts: bytes) -> bytes:
    """The encoding of an element of which these are the contents."""
    size = sum(map(len, parts))
    if size < 0x80:
        return bytes((tag, size)) + b"".join(parts)
    length = size.to_bytes((size.bit_length() + 7) // 8, "big")
    return bytes((tag, 0x80 | len(length))) + length + b"".join(parts)
