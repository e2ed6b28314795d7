"""Questions of `picky_ask` with each octet of key and signature changed, left out and doubled, and other names."""

from hashlib import sha256
from typing import NamedTuple

from verdict_table import NAMES

FLIPPED = 0x01, 0x80
PUT = 0x00, 0xFF


class Question(NamedTuple):
    """An algorithm, and the octets that a verdict is on."""

    name: str
    key: bytes
    message: bytes
    signature: bytes

    @classmethod
    def of(cls, line):
        name, *_, key, message, signature = line.split(" ")
        return cls(name, *map(bytes.fromhex, (key, message, signature)))

    def line(self):
        parts = self[1:]
        return " ".join([self.name, *(sha256(part).hexdigest() for part in parts), *(part.hex() for part in parts)])


def changes(octets):
    """The octets with one of them changed, left out or doubled, and cut at each."""
    for place, one in enumerate(octets):
        before, behind = octets[:place], octets[place + 1:]
        for other in *(one ^ bits for bits in FLIPPED), *PUT:
            if other != one:
                yield before + bytes([other]) + behind
        yield before + behind
        yield before + bytes([one, one]) + behind
        yield before
    yield octets + b"\0"


def of_names(question):
    """The same octets under each other name."""
    return (question._replace(name=name) for name in sorted(NAMES - {question.name}))


def of(question):
    """A question with one change each."""
    yield from of_names(question)
    for key in changes(question.key):
        yield question._replace(key=key)
    for signature in changes(question.signature):
        yield question._replace(signature=signature)
    for message in question.message + b"\0", question.message[:-1], b"":
        yield question._replace(message=message)


def shortest(questions):
    """Of each name the question with the shortest key and signature."""
    found = {}
    for one in questions:
        size = len(one.key) + len(one.signature), one
        found[one.name] = min(found.get(one.name, size), size)
    return [one for _, one in found.values()]
