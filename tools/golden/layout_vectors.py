"""Vectors of layouts and entries of programs, for `xgolden_run`.

They are those of `layout_rows` and the signed programs of `signed_images.txt`, which are whole, with what
`layout_judge` answers to them.
"""

from cases.layout_rows import rows
from common import command
from golden.stored_run import Vectors
from interop.signed_images import stored
from judges.layout_judge import WHOLE, answer


def all_rows():
    yield from rows()
    for image in stored():
        if not answer(image.octets).startswith(f"{WHOLE} "):
            raise command.Refusal(f"{image.label} isn't whole")
        yield image.octets


def vectors():
    return Vectors.of((octets.hex() or "-", answer(octets)) for octets in all_rows())
