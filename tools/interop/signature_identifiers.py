#!/usr/bin/env python3
"""Identifiers of the algorithms of signatures, beside openssl.

Usage:

    python3 tools/interop/signature_identifiers.py --check

has openssl (3.0 or later) sign a certificate by each algorithm, and prints where
the AlgorithmIdentifier in it differs from that of
`signature_rows.py`.
"""

import sys
import tempfile
from pathlib import Path

sys.path.insert(0, str(Path(__file__).resolve().parents[1]))

from cases.signature_rows import IDENTIFIERS
from common import command
from common.openssl import openssl
from judges.der_reader import read_exact, write

KEYS = {
    "rsa": ["-algorithm", "RSA", "-pkeyopt", "rsa_keygen_bits:1024"],
    "ecdsa": ["-algorithm", "EC", "-pkeyopt", "ec_paramgen_curve:P-256"],
    "ed25519": ["-algorithm", "ED25519"],
}


def written(algorithm, key):
    """The AlgorithmIdentifier after the tbsCertificate, of a certificate that is signed by the key."""
    _, _, digest = algorithm.partition(":")
    asked = [f"-{digest.lower().replace('-', '')}"] if digest else []
    certificate = openssl("req", "-x509", "-new", "-key", key, "-subj", "/CN=a", "-outform", "DER", *asked)
    return write(read_exact(certificate).kids[1]).hex()


def differences():
    with tempfile.TemporaryDirectory() as folder:
        for kind, words in KEYS.items():
            openssl("genpkey", *words, "-out", f"{folder}/{kind}")
        for algorithm, octets in IDENTIFIERS:
            if written(algorithm, f"{folder}/{algorithm.partition(':')[0]}") != octets:
                yield f"openssl writes another identifier of {algorithm}"


def main(words):
    if words != ["--check"]:
        return command.usage(__doc__)
    found = list(differences())
    print("\n".join(found) or "openssl writes the same identifiers")
    return 1 if found else 0


if __name__ == "__main__":
    command.run(main, __doc__)
