#!/usr/bin/env python3
"""Keys and signatures of the demonstration scheme.

Usage:

    python3 tools/cases/demo_signatures.py rows
    python3 tools/cases/demo_signatures.py check

`rows` prints the table of `crates/xtest_value/src/demo_rows.rt`, `check`
says whether that file has it.  Keys are made by the rules of
`docs/FORMATS.md`, digests by Python's hashlib.
"""

import hashlib
import sys
from pathlib import Path

sys.path.insert(0, str(Path(__file__).resolve().parents[1]))

from common import command, folders

FILE = folders.CRATES / "xtest_value/src/demo_rows.rt"

MESSAGE = b"message"

# Variant, name, kind of key.
ALGORITHMS = [
    ("RsaMd5", "rsa-md5", "Rsa"),
    ("RsaSha1", "rsa-sha1", "Rsa"),
    ("RsaSha224", "rsa-sha224", "Rsa"),
    ("RsaSha256", "rsa-sha256", "Rsa"),
    ("RsaSha384", "rsa-sha384", "Rsa"),
    ("RsaSha512", "rsa-sha512", "Rsa"),
    ("P256Sha256", "p256-sha256", "P256"),
    ("P384Sha384", "p384-sha384", "P384"),
    ("P521Sha512", "p521-sha512", "P521"),
    ("Ed25519", "ed25519", "Ed25519"),
]

# The octets of a secret of a curve.
FIELDS = {"P256": 32, "P384": 48, "P521": 66, "Ed25519": 32, "X25519": 32}


def element(tag, contents):
    """An element whose contents have at most 127 octets."""
    assert len(contents) < 128
    return bytes([tag, len(contents)]) + contents


def integers(numbers):
    """A SEQUENCE of INTEGERs of these contents octets."""
    return element(0x30, b"".join(element(2, bytes(number)) for number in numbers))


def secret_of(kind):
    """A secret: that of RSA has the modulus 17 and the exponent 3."""
    if kind == "Rsa":
        return integers([[0], [17], [3], [5], [7], [11], [1], [2], [4]])
    return bytes(range(FIELDS[kind]))


def key_of(kind):
    """The key of that secret."""
    if kind == "Rsa":
        return integers([[17], [3]])
    if kind in ("Ed25519", "X25519"):
        return hashlib.sha256(secret_of(kind)).digest()
    return b"\4" + 2 * secret_of(kind)


def signature_of(name, key, message=MESSAGE):
    """The signature of a message."""
    return hashlib.sha256(
        name.encode() + b"\0" + hashlib.sha256(key).digest() + message).digest()


def rows():
    """The lines of the table."""
    yield "#[rattlefmt::skip]"
    yield f"const SIGNED: [DemoRow; {len(ALGORITHMS)}] = ["
    for variant, name, kind in ALGORITHMS:
        key = key_of(kind)
        yield (f'    (SigAlg::{variant}, "{secret_of(kind).hex()}", "{key.hex()}", '
               f'"{signature_of(name, key).hex()}"),')
    yield "];"


def stands():
    """Whether the file has the table as it is here."""
    return "\n".join(rows()) in FILE.read_text(encoding="utf-8")


def main(words):
    match words:
        case ["rows"]:
            print("\n".join(rows()))
        case ["check"]:
            if not stands():
                sys.exit(f"{FILE} has other rows")
        case _:
            return command.usage(__doc__)
    return 0


if __name__ == "__main__":
    command.run(main, __doc__)
