#!/usr/bin/env python3
"""Programs of Windows that osslsigncode signed, and the digests that it computes of them.

    python3 tools/interop/signed_images.py --make
    python3 tools/interop/signed_images.py --check

`--make` has openssl (3.0 or later) make a certificate and osslsigncode (2.6 or
later) sign a program of each format with each digest algorithm, and writes
`tools/cases/signed_images.txt`: a line for each program with its label, the digest
algorithm, the octets in base64, and the digest that `osslsigncode verify` computes.
`--check` asks it again, of each stored program and of the same with an octet
changed before the checksum, behind it and before the table; exit status 1 says
that something differs.
"""

import re
import struct
import sys
from base64 import b64decode, b64encode
from pathlib import Path
from tempfile import TemporaryDirectory
from typing import NamedTuple

sys.path.insert(0, str(Path(__file__).resolve().parents[1]))

from common import command, folders
from common.calls import called
from common.openssl import openssl
from interop.signature_making import portable_executable
from judges.pe_judge import bound, places, HASHES
from hashlib import new

STORED = folders.CASES / "signed_images.txt"


def portable_executable_plus():
    """A program of 64 bits with one section, of no use."""
    dos = b"MZ" + bytes(58) + struct.pack("<I", 128) + bytes(64)
    coff = struct.pack("<HHIIIHH", 0x8664, 1, 0, 0, 0, 240, 0x22)
    optional = struct.pack("<HBBIIIII", 0x20B, 14, 0, 512, 0, 0, 0x1000, 0x1000)
    optional += struct.pack("<QIIHHHHHHIIIIHHQQQQII", 0x140000000, 0x1000, 512, 6, 0, 0, 0, 6, 0, 0, 0x2000, 512, 0, 3, 0, 0x100000, 0x1000, 0x100000, 0x1000, 0, 16)
    optional += bytes(16 * 8)
    section = b".text\0\0\0" + struct.pack("<IIIIIIHHI", 1, 0x1000, 512, 512, 0, 0, 0, 0, 0x60000020)
    head = dos + b"PE\0\0" + coff + optional + section
    return head + bytes(512 - len(head)) + b"\xc3" + bytes(511)


# The programs, and what is behind their sections.
PROGRAMS = {
    "PE32": portable_executable(),
    "PE32+": portable_executable_plus(),
    "PE32+ with data behind its section": portable_executable_plus() + b"data of the installer",
}
SIGNED = (
    ("PE32", "SHA-1"), ("PE32", "SHA-256"), ("PE32", "SHA-384"), ("PE32", "SHA-512"),
    ("PE32+", "SHA-1"), ("PE32+", "SHA-256"), ("PE32+", "SHA-384"), ("PE32+ with data behind its section", "SHA-256"),
)


class SignedImage(NamedTuple):
    label: str
    algorithm: str
    octets: bytes
    digest: str


def osslsigncode(*words):
    return called(["osslsigncode", *words])


def computed(file, folder):
    """The digest that osslsigncode computes of a signed program."""
    done = osslsigncode("verify", "-CAfile", folder / "root.pem", "-in", file)
    found = re.search(rb"Calculated message digest\s*: ([0-9A-F]+)", done.stdout)
    if not found:
        raise command.Refusal(f"osslsigncode computes no digest: {done.stdout.decode()}{done.stderr.decode()}")
    return found[1].decode().lower()


def certificate(folder):
    openssl("req", "-x509", "-newkey", "rsa:2048", "-nodes", "-keyout", folder / "key.pem", "-out", folder / "root.pem",
            "-subj", "/CN=signer", "-days", "10000", "-addext", "extendedKeyUsage=codeSigning")


def made():
    with TemporaryDirectory() as place:
        folder = Path(place)
        certificate(folder)
        for label, algorithm in SIGNED:
            (folder / "program.exe").write_bytes(PROGRAMS[label])
            (folder / "signed.exe").unlink(missing_ok=True)
            done = osslsigncode("sign", "-certs", folder / "root.pem", "-key", folder / "key.pem", "-h", HASHES[algorithm],
                                "-in", folder / "program.exe", "-out", folder / "signed.exe")
            if done.returncode != 0:
                raise command.Refusal(f"osslsigncode signs nothing: {done.stdout.decode()}{done.stderr.decode()}")
            yield SignedImage(label, algorithm, (folder / "signed.exe").read_bytes(), computed(folder / "signed.exe", folder))


def stored():
    for line in STORED.read_text(encoding="ascii").splitlines():
        label, algorithm, octets, digest = line.split("|")
        yield SignedImage(label, algorithm, b64decode(octets), digest)


def differences():
    """The stored programs whose digest is another, as they are or changed."""
    with TemporaryDirectory() as place:
        folder = Path(place)
        certificate(folder)
        for image in stored():
            checksum, _, address = places(image.octets)
            for at in None, checksum - 1, checksum, checksum + 4, address - 1:
                octets = bytearray(image.octets)
                if at is not None:
                    octets[at] ^= 1
                (folder / "changed.exe").write_bytes(octets)
                digest = new(HASHES[image.algorithm], bound(bytes(octets))).hexdigest()
                if computed(folder / "changed.exe", folder) != digest:
                    yield f"{image.label}, {image.algorithm}, octet {at} changed: another digest"


def main(arguments):
    if arguments == ["--make"]:
        lines = [f"{image.label}|{image.algorithm}|{b64encode(image.octets).decode()}|{image.digest}\n" for image in made()]
        STORED.write_text("".join(lines), encoding="ascii")
        return 0
    if arguments == ["--check"]:
        found = list(differences())
        print(*found or ["each digest is the one that osslsigncode computes"], sep="\n")
        return 1 if found else 0
    return command.usage(__doc__)


if __name__ == "__main__":
    command.run(main, __doc__)
