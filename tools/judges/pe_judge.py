"""The parts of a signed program of Windows, its digest, or the first rule that it breaks (PE Format;
Windows Authenticode Portable Executable Signature Format, "Calculating the PE Image Hash"), by Python's
integers, which don't wrap."""

from hashlib import new

HASHES = {"MD5": "md5", "SHA-1": "sha1", "SHA-224": "sha224", "SHA-256": "sha256", "SHA-384": "sha384", "SHA-512": "sha512"}

# By the magic number of the optional header: where in it the number of data directories is, and the first of them.
FORMATS = {0x10B: (92, 96), 0x20B: (108, 112)}
CHECKSUM, CHECKSUM_LENGTH = 64, 4
ENTRY, ENTRY_LENGTH = 4 * 8, 8


class NotSigned(Exception):
    """Why a file is no image with a certificate table at its end."""


def number(octets, at, length):
    """The number of so many octets, the low one first; None where the file ends before."""
    return int.from_bytes(octets[at:at + length], "little") if at + length <= len(octets) else None


def places(octets):
    """Where the checksum, the table's entry and the table begin."""
    if len(octets) < 64 or octets[:2] != b"MZ":
        raise NotSigned("the file has no MS-DOS header, so it is no program")
    mark = number(octets, 60, 4)
    if len(octets) < mark + 26 or octets[mark:mark + 4] != b"PE\0\0":
        raise NotSigned("the file has no PE signature, so it is no program")
    header = mark + 24
    magic = number(octets, header, 2)
    if magic not in FORMATS:
        raise NotSigned(f"unknown magic number 0x{magic:04x} of an optional header (known are 0x010b and 0x020b)")
    count_at, directories = FORMATS[magic]
    entry = header + directories + ENTRY
    behind = entry + ENTRY_LENGTH
    if number(octets, mark + 20, 2) < behind - header or len(octets) < behind or number(octets, header + count_at, 4) < 5:
        raise NotSigned("the optional header has no data directory of certificates")
    address, size = number(octets, entry, 4), number(octets, entry + 4, 4)
    if size == 0:
        raise NotSigned("the program has no signature")
    if address < behind or address + size != len(octets):
        raise NotSigned(f"the certificate table of {size} octets at offset {address} is not the end of the file of {len(octets)} octets")
    return header + CHECKSUM, entry, address


def bound(octets):
    """The octets that the signature is about, octet by octet."""
    checksum, entry, address = places(octets)
    left_out = {*range(checksum, checksum + CHECKSUM_LENGTH), *range(entry, entry + ENTRY_LENGTH), *range(address, len(octets))}
    return bytes(octet for at, octet in enumerate(octets) if at not in left_out)


def answer(algorithm, octets):
    """The lengths of the four parts and the digest, or why there are none."""
    try:
        checksum, entry, address = places(octets)
    except NotSigned as refusal:
        return str(refusal)
    lengths = checksum, entry - checksum - CHECKSUM_LENGTH, address - entry - ENTRY_LENGTH, len(octets) - address
    return " ".join([*map(str, lengths), new(HASHES[algorithm], bound(octets)).hexdigest()])
