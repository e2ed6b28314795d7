"""Vectors of checks of programs, for `xgolden_run`: programs with their verdict tables, each with its answer.

They are a program of zeros signed as `first_path` makes signatures, changed, and the programs of `signed_images.txt`.
"""

import sys
from hashlib import sha256
from pathlib import Path
from struct import pack

sys.path.insert(0, str(Path(__file__).resolve().parents[1]))

import signed_program
from cases.first_path import INDIRECT_DATA, SHA256, SignatureFile, identifier
from cases.pe_rows import Image, changed
from golden.stored_run import Vectors
from interop.signed_images import stored
from judges import asked_signatures
from judges.pe_judge import bound, places

MADE_AT, SIGNED_AT = "20250101000000Z", "20300101000000Z"
SHA3_384, OTHER_CONTENT = "2.16.840.1.101.3.4.2.9", "1.3.6.1.4.1.311.2.1.99"
GOOD = "accepted Some(0) [] None"


def made(**parts):
    """A program of zeros with a signature over its own digest, and the verdict table for it."""
    length = len(SignatureFile(**parts).octets())
    unsigned = Image(table=bytes(length)).octets()
    file = SignatureFile(file_hash=sha256(bound(unsigned)).digest(), **parts)
    return Image(table=file.octets()).octets(), file.verdict()


def made_cases():
    """Why the row is there, the program, its table, and the answer, for programs made here."""
    program, table = made()
    yield "63 zeros", bytes(63), table, "refused NotMz"
    yield "as it is made", program, table, GOOD
    yield "an octet of its first part changed", changed(program, 100, b"\1"), table, "refused FileHashMismatch"
    yield "an octet of its second part changed", changed(program, 200, b"\1"), table, "refused FileHashMismatch"
    yield "an octet of its third part changed", changed(program, 300, b"\1"), table, "refused FileHashMismatch"
    yield "an octet of the checksum changed", changed(program, 153, b"\1"), table, GOOD
    yield "the size 0", changed(program, 236, bytes(4)), table, "refused NoTable"
    yield "one octet appended", program + b"\0", table, "refused TableOutside"
    yield "a table of zeros", program[:328] + bytes(len(program) - 328), table, "refused CertificateDataIsEmpty"
    yield "a table that is no signed data", program[:328] + pack("<IHH", len(program) - 328, 0x200, 2) + bytes(len(program) - 336), table, "refused Asn1Deserialization"
    yield "no verdict", program, "", "refused SignatureError"
    yield "a digest algorithm that isn't known", program.replace(identifier(SHA256), identifier(SHA3_384)), table, "refused MissingExpectedFileHash"
    yield "a content of another type", program.replace(identifier(INDIRECT_DATA), identifier(OTHER_CONTENT)), table, "refused NoSpcIndirectDataContent"


def signed_cases():
    """The same for those that osslsigncode signed."""
    for image in stored():
        lines, _ = asked_signatures.table(signed_program.signature(image.octets))
        text = "".join(f"{line}\n" for line in lines)
        _, entry, address = places(image.octets)
        yield f"{image.label}, {image.algorithm}", image.octets, text, GOOD
        for at in (2, entry - 1, entry + 8, address - 1):
            yield f"{image.label}, {image.algorithm}, octet {at} changed", changed(image.octets, at, bytes([image.octets[at] ^ 1])), text, "refused FileHashMismatch"


def vectors():
    return Vectors.of(
        (f"{octets.hex() or '-'} {table.encode().hex() or '-'} {moment}", line)
        for moment, found in ((MADE_AT, made_cases()), (SIGNED_AT, signed_cases())) for _, octets, table, line in found
    )
