#!/usr/bin/env python3
"""Requests of the world: what openssl makes of each kind of key, name and attribute.

Usage:

    python3 tools/interop/world_requests.py --make
    python3 tools/interop/world_requests.py --check

The first prints `tools/cases/world_requests.txt` anew: openssl (3.0 or later) makes
keys and requests, the keys fresh each time.  A row is a label and the request
in base64, a bar between.

The second compares what `value_reader` says of each stored request with what
`openssl req` and Python's package `cryptography` say of it, field by field, and
has openssl judge its signature.  The answers to rows of `issuing_rows` on requests
come from `value_reader`.
"""

import sys
from base64 import b64decode, b64encode
from pathlib import Path
from tempfile import TemporaryDirectory

sys.path.insert(0, str(Path(__file__).resolve().parents[1]))

from common import command
from common.calls import called
from common import folders
from common.openssl import OpensslError, openssl
from interop.world_certificates import ED25519, ec, rsa
from judges.der_reader import read_exact, write
from judges.value_reader import name_text, structure_line

STORED = folders.CASES / "world_requests.txt"

FORM = """\
[req]
prompt = no
distinguished_name = none
attributes = {attributes}
{extensions}
[none]
CN = unused
[no]
[password]
challengePassword = secret
[both]
challengePassword = secret
unstructuredName = a device
[ext]
basicConstraints = critical,CA:TRUE,pathlen:3
keyUsage = critical,digitalSignature,keyCertSign
extendedKeyUsage = codeSigning,timeStamping
subjectAltName = DNS:localhost,IP:192.0.2.1,email:a@b.example
1.2.3.4 = ASN1:UTF8String:other
"""

# The label, the key, the subject, the attributes, whether extensions are asked for, further words.
REQUESTS = [
    ("RSA", rsa(2048), "/CN=a", "no", False, ("-sha256",)),
    ("RSA, extensions", rsa(1024), "/CN=a", "no", True, ("-sha256",)),
    ("RSA, SHA-1", rsa(1024), "/C=SE/O=Example/CN=a", "no", False, ("-sha1",)),
    ("RSA, SHA-384", rsa(1024), "/CN=a", "password", False, ("-sha384",)),
    ("RSA, SHA-512, all attributes", rsa(1024), "/CN=a", "both", True, ("-sha512",)),
    ("RSA, SHA-224", rsa(1024), "/CN=a", "no", False, ("-sha224",)),
    ("RSA, MD5", rsa(1024), "/CN=a", "no", False, ("-md5",)),
    ("P-256", ec("P-256"), "/CN=a", "no", False, ("-sha256",)),
    ("P-256, extensions", ec("P-256"), "/CN=a", "no", True, ("-sha256",)),
    ("P-256, all attributes", ec("P-256"), "/CN=a", "both", True, ("-sha256",)),
    ("P-256, SHA-384", ec("P-256"), "/CN=a", "no", False, ("-sha384",)),
    ("P-384", ec("P-384"), "/CN=a", "no", False, ("-sha384",)),
    ("P-384, extensions", ec("P-384"), "/CN=a", "no", True, ("-sha384",)),
    ("P-521", ec("P-521"), "/CN=a", "password", False, ("-sha512",)),
    ("secp256k1", ec("secp256k1"), "/CN=a", "no", False, ("-sha256",)),
    ("Ed25519", ED25519, "/CN=a", "no", False, ()),
    ("Ed25519, extensions", ED25519, "/CN=a", "no", True, ()),
    ("Ed25519, all attributes", ED25519, "/CN=a", "both", True, ()),
    ("Ed448", ("ED448",), "/CN=a", "no", False, ()),
    ("no name", ED25519, "/", "no", False, ()),
    ("a long name", ED25519, "/C=SE/ST=S/L=L/O=Example/OU=One+OU=Two/CN=a/emailAddress=a@b.example", "no", False, ("-multivalue-rdn",)),
]


def request_of(folder, words, subject, attributes, extended, more):
    algorithm, *options = words
    key, form = folder / "key.pem", folder / "request.cnf"
    openssl("genpkey", "-algorithm", algorithm, *(word for option in options for word in ("-pkeyopt", option)), "-out", key)
    form.write_text(FORM.format(attributes=attributes, extensions="req_extensions = ext" if extended else ""), encoding="utf-8")
    return openssl("req", "-new", "-batch", "-config", form, "-key", key, "-subj", subject, "-outform", "DER", *more)


def made():
    """Labels, and the requests that openssl makes."""
    with TemporaryDirectory() as place:
        for label, *parts in REQUESTS:
            yield label, request_of(Path(place), *parts)


def stored():
    """Labels and requests of the file."""
    for line in STORED.read_text(encoding="ascii").splitlines():
        label, octets = line.split("|")
        yield label, b64decode(octets, validate=True)


def same(field, one, other):
    if one != other:
        raise ValueError(f"{field}: {one!r} here, {other!r} there")


class Fields:
    """What the reader here finds: the subject, the key, attributes, the algorithm, the signature."""

    def __init__(self, octets):
        same("whole", structure_line("request", octets).split()[-1], octets.hex())
        self.info, self.algorithm, signature = read_exact(octets).kids
        _, self.subject, self.key, self.attributes = self.info.kids
        self.signature = signature.contents[1:]
        self.listed = [tuple(write(kid) for kid in one.kids) for one in self.attributes.kids]


def openssl_check(octets, fields):
    said = openssl("req", "-inform", "DER", "-noout", "-subject", "-nameopt", "sep_comma_plus,sname", "-text", given=octets).decode()
    subject = next(line.removeprefix("subject=") for line in said.splitlines() if line.startswith("subject="))
    same("subject", name_text(fields.subject).replace("EMAIL=", "emailAddress="), subject)
    public = openssl("req", "-inform", "DER", "-noout", "-pubkey", given=octets)
    same("key", write(fields.key), openssl("pkey", "-pubin", "-outform", "DER", given=public))
    same("attributes", len(fields.listed), sum(map(said.count, ("X509v3 Basic Constraints", "challengePassword", "unstructuredName"))))
    run = called(["openssl", "req", "-inform", "DER", "-noout", "-verify"], octets)
    same("judged", True, b"verify OK" in run.stderr)


def cryptography_check(octets, fields):
    from cryptography import x509
    from cryptography.hazmat.primitives.serialization import Encoding, PublicFormat
    request = x509.load_der_x509_csr(octets)
    same("info", write(fields.info), request.tbs_certrequest_bytes)
    same("subject", write(fields.subject), request.subject.public_bytes())
    same("signature", fields.signature, request.signature)
    same("key", write(fields.key), request.public_key().public_bytes(Encoding.DER, PublicFormat.SubjectPublicKeyInfo))


def check():
    """Print what differs or isn't read; the status to end with."""
    count, status = 0, 0
    for label, octets in stored():
        fields = Fields(octets)
        for reader in (openssl_check, cryptography_check):
            try:
                reader(octets, fields)
            except (OpensslError, ValueError, TypeError) as error:
                print(f"{label}: {reader.__name__}: {error}")
                status = 1
        count += 1
    print(f"{count} requests")
    return status


def main(arguments):
    if arguments == ["--make"]:
        for label, octets in made():
            print(f"{label}|{b64encode(octets).decode()}")
        return 0
    if arguments == ["--check"]:
        return check()
    return command.usage(__doc__)


if __name__ == "__main__":
    command.run(main, __doc__)
