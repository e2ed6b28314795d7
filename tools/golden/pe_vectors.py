"""Vectors of the parts of programs, for `xgolden_run`.

They are those of `pe_rows` and the signed programs of `signed_images.txt`, with what `pe_judge` answers to them.  The
digest of a signed program has to be the one that osslsigncode computed.
"""

from cases.pe_rows import rows
from common import command
from golden.stored_run import Vectors
from interop.signed_images import stored
from judges.pe_judge import answer


def all_rows():
    yield from rows()
    for image in stored():
        if not answer(image.algorithm, image.octets).endswith(f" {image.digest}"):
            raise command.Refusal(f"{image.label} has another digest by osslsigncode")
        yield image.algorithm, image.octets


def vectors():
    return Vectors.of((f"{algorithm} {octets.hex() or '-'}", answer(algorithm, octets)) for algorithm, octets in all_rows())
