#!/usr/bin/env python3
"""Private keys that openssl makes, and what it says of them.

Usage:

    python3 tools/interop/private_keys.py --make
    python3 tools/interop/private_keys.py --check

`--make` prints `tools/cases/private_key_rows.txt` anew: it has openssl (3.0 or later)
make a key for each of KEYS and CURVES.  The keys are fresh each time, and are
used for nothing.  Rows are

    private_key_info|label|element
    ec_private_key|label|element

in hexadecimal.  `--check` has openssl print each key of that file again, and
prints where its numbers differ from those of `value_reader`; a whole key it
has to write as it was read.
"""

import re
import sys
from pathlib import Path

sys.path.insert(0, str(Path(__file__).resolve().parents[1]))

from common import command
from common import folders
from common.openssl import openssl
from judges.der_reader import read_exact
from judges.value_reader import KINDS

STORED = folders.CASES / "private_key_rows.txt"

KEYS = [
    ("RSA of 2048 bits", "RSA", "rsa_keygen_bits:2048"),
    ("P-256", "EC", "ec_paramgen_curve:P-256"),
    ("P-384", "EC", "ec_paramgen_curve:P-384"),
    ("P-521", "EC", "ec_paramgen_curve:P-521"),
    ("Ed25519", "ED25519"),
    ("X25519", "X25519"),
    ("Ed448", "ED448"),
    ("X448", "X448"),
]

CURVES = ["prime256v1", "secp384r1", "secp521r1"]

# The numbers of an RSA key as openssl names them, in the order of RFC 8017 A.1.2.
NUMBERS = ["modulus", "publicExponent", "privateExponent", "prime1", "prime2", "exponent1",
           "exponent2", "coefficient"]


def whole(octets):
    """The PrivateKeyInfo of a key."""
    return openssl("pkcs8", "-topk8", "-nocrypt", "-inform", "DER", "-outform", "DER", given=octets)


def made_keys():
    for label, algorithm, *options in KEYS:
        options = (word for option in options for word in ("-pkeyopt", option))
        yield label, whole(openssl("genpkey", "-algorithm", algorithm, *options, "-outform", "DER"))


def made_curve_keys():
    for curve in CURVES:
        key = openssl("ecparam", "-genkey", "-name", curve, "-noout", "-outform", "DER")
        yield curve, key
        bare = openssl("ec", "-inform", "DER", "-no_public", "-outform", "DER", given=key)
        yield f"{curve}, without its public key", bare


def rows_of(text):
    """Kind, label and octets of each row."""
    for row in text.splitlines():
        kind, label, element = row.split("|")
        yield kind, label, bytes.fromhex(element)


def said_of(octets):
    """The numbers that openssl prints of a key, by their names."""
    text = openssl("pkey", "-inform", "DER", "-noout", "-text", given=octets).decode()
    found = dict(re.findall(r"^(\w+):\n((?:    [0-9a-f:]+\n?)+)", text, re.MULTILINE))
    numbers = {name: int(re.sub(r"[\s:]", "", number), 16) for name, number in found.items()}
    for name, number in re.findall(r"^(\w+): (\d+) ", text, re.MULTILINE):
        numbers[name] = int(number)
    return numbers


def read_of(kind, octets):
    """The same by the reader here."""
    line = KINDS[kind](read_exact(octets)).split()
    words = line[4:] if kind == "private_key_info" else line
    if kind == "private_key_info" and line[3] == "Rsa":
        return {name: int(word, 16) for name, word in zip(NUMBERS, words)}
    numbers = {"priv": int(words[0], 16)}
    if words[2:3] == ["0"]:
        numbers["pub"] = int(words[3], 16)
    return numbers


def differences():
    for kind, label, octets in rows_of(STORED.read_text(encoding="ascii")):
        said, read = said_of(octets), read_of(kind, octets)
        if any(said.get(name) != number for name, number in read.items()):
            yield f"{label}: openssl says other numbers"
        if kind == "private_key_info" and whole(octets) != octets:
            yield f"{label}: openssl writes other octets"


def main(words):
    if words == ["--make"]:
        for label, octets in made_keys():
            print(f"private_key_info|{label}|{octets.hex()}")
        for label, octets in made_curve_keys():
            print(f"ec_private_key|{label}|{octets.hex()}")
        return 0
    if words == ["--check"]:
        found = list(differences())
        print("\n".join(found) or "openssl says the same of each key")
        return bool(found)
    return command.usage(__doc__)


if __name__ == "__main__":
    command.run(main, __doc__)
