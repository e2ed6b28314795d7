#!/usr/bin/env python3
"""Take the signature out of a signed program of Windows, and print the digest that it is for.

    python3 tools/signed_program.py PROGRAM SIG [DIGEST]

writes to SIG the first entry of the program's certificate table, a WIN_CERTIFICATE,
and prints the digest of the program in hexadecimal digits, of all octets but the
checksum, the place of the certificate table and that table (Windows Authenticode
Portable Executable Signature Format, "Calculating the PE Image Hash").

The digest algorithm is the one that the signature names beside its digest of the
program (SpcIndirectDataContent, `messageDigest`), or DIGEST, a name of Python's
hashlib such as `sha256`, where it is given.
"""

from hashlib import new
from pathlib import Path
from struct import error, unpack_from

from common import command, der, signed_data
from common.der import NOT_READ
from common.shown import clean
from common.signed_data import DIGESTS, INDIRECT_DATA, NotASignatureFile

CHECKSUM = 64
# The place of the certificate table, by the magic number of the optional header: after its fixed fields, the fifth pair.
TABLE_PLACE = {0x10B: 96 + 4 * 8, 0x20B: 112 + 4 * 8}


class NotSigned(Exception):
    """The file is no signed program."""


def parts(program):
    """Where the optional header begins, where in it the table's offset is, and the table's offset and length."""
    try:
        header, = unpack_from("<I", program, 60)
        optional = header + 24
        place = TABLE_PLACE[unpack_from("<H", program, optional)[0]]
        at, length = unpack_from("<II", program, optional + place)
    except (error, KeyError) as refusal:
        raise NotSigned("it is no portable executable") from refusal
    if not program.startswith(b"MZ") or program[header:header + 4] != b"PE\0\0":
        raise NotSigned("it is no portable executable")
    return optional, place, at, length


def signature(program):
    """The first entry of the certificate table, with its padding."""
    _, _, at, length = parts(program)
    if length < 8 or at + length > len(program):
        raise NotSigned("it has no certificate table")
    stated, = unpack_from("<I", program, at)
    if not 8 <= stated <= length:
        raise NotSigned(f"its certificate table has {length} octets, and the first entry says {stated}")
    return program[at:at + stated]


def named_digest(entry):
    """The digest algorithm of the program that the signature in an entry names."""
    try:
        fields = signed_data.fields_in(entry)
        if der.oid(fields.content_type) != INDIRECT_DATA:
            raise NotSigned("its signature is of no program; give DIGEST")
        if fields.content is None:
            raise NotSigned("its signature names no digest algorithm; give DIGEST")
        algorithm, _ = fields.content.kids(2)[1].kids(2)
        named = der.oid(algorithm.kids(2)[0])
    except NotASignatureFile as refusal:
        raise NotSigned(f"its signature isn't read, {refusal}; give DIGEST") from refusal
    except NOT_READ as refusal:
        raise NotSigned("its signature names no digest algorithm; give DIGEST") from refusal
    if named not in DIGESTS:
        raise NotSigned(f"its signature names {named}, a digest algorithm that isn't known here; give DIGEST")
    return DIGESTS[named]


def image_digest(program, digest):
    """The digest of the program without its signature."""
    optional, place, at, length = parts(program)
    end = at if length else len(program)
    hashed = new(digest)
    if not hashed.digest_size:
        raise ValueError(f"{digest} has digests of any length")
    held = memoryview(program)
    hashed.update(held[:optional + CHECKSUM])
    hashed.update(held[optional + CHECKSUM + 4:optional + place])
    hashed.update(held[optional + place + 8:end])
    hashed.update(held[end + length:])
    return hashed.hexdigest()


@command.script(__doc__)
def main(arguments):
    parser = command.Parser()
    parser.add_argument("program", metavar="PROGRAM")
    parser.add_argument("sig", metavar="SIG")
    parser.add_argument("digest", metavar="DIGEST", nargs="?")
    words = parser.parse_args(arguments)
    try:
        program = command.read_file(words.program)
        entry = signature(program)
        digest = image_digest(program, words.digest or named_digest(entry))
        Path(words.sig).write_bytes(entry)
    except (OSError, command.Refusal) as refusal:
        command.say(f"signed_program.py: {command.sentence(refusal)}")
        return 1
    except NotSigned as refusal:
        command.say(f"signed_program.py: {clean(words.program)}: {refusal}")
        return 1
    except ValueError as refusal:
        command.say(f"signed_program.py: {clean(words.program)}: {clean(refusal)}")
        return 1
    print(digest)
    return 0


if __name__ == "__main__":
    command.run(main, __doc__)
