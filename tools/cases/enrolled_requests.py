"""Registers for `xgolden_run` that enrol requests of openssl, under RSA keys of openssl.

The CA's keys and the request of the intermediate are those of `enrolling_keys.txt`, the other requests those of
`world_requests.txt`.  `register_judge` says what each call returns and which certificates are accepted, `issuing_maker`
which octets they have; Python's `pow` signs them.
"""

from base64 import b64decode
from functools import lru_cache
from hashlib import sha256
from typing import NamedTuple

from cases.drawn_registers import Call
from cases.issuing_rows import name, own_row, value_word
from cases.signature_rows import RSA, Key
from common import folders
from interop import world_requests
from judges.der_reader import Constructed, read_exact, write
from judges.issuing_maker import Table, built, pkcs8, request_verdict
from judges.register_judge import answers, is_accepted

STORED = folders.CASES / "enrolling_keys.txt"
SHA256_INFO = bytes.fromhex("3031300d060960864801650304020105000420")
OF_ROOT, OF_CA = ("20200101000000", "20400101000000"), ("20210101000000", "20350101000000")
VALIDITIES = (
    ("20220101000000", "20300101000000"), ("20240601000000", "20260101000000"), ("20200101000000", "20240531235959"), ("20240601000001", "20380119031407"),
)
# Within most validities, at the ends of the CA's, and a second outside of them.
DATES = "20240601000000", "20210101000000", "20350101000000", "20350101000001", "20201231235959"


def stored():
    """The private keys of the root and of the intermediate, and the request of the intermediate."""
    rows = dict(line.split("|") for line in STORED.read_text(encoding="ascii").splitlines())
    root, ca, request = (b64decode(rows[label], validate=True) for label in ("root", "ca", "ca request"))
    return rsa_key(root), rsa_key(ca), request


def rsa_key(octets):
    """The key in a PrivateKeyInfo (RFC 5208 5)."""
    secret = read_exact(octets).kids[2].contents
    _, modulus, exponent, *_ = read_exact(secret).kids
    return Key("rsa", RSA, secret, write(Constructed(0x30, (modulus, exponent))))


def rsa_signature(secret, message):
    """RSASSA-PKCS1-v1_5 with SHA-256 (RFC 8017 8.2.1)."""
    modulus, _, exponent = (int.from_bytes(number.contents, "big") for number in read_exact(secret).kids[1:4])
    size = (modulus.bit_length() + 7) // 8
    info = SHA256_INFO + sha256(message).digest()
    padded = b"\0\1" + (size - 3 - len(info)) * b"\xff" + b"\0" + info
    return pow(int.from_bytes(padded, "big"), exponent, modulus).to_bytes(size, "big")


class Signing(Table):
    """A table of requests that are signed by their own keys, to which each signature is added that is made."""

    def __init__(self, requests):
        super().__init__(*map(own_row, requests))
        self.signatures = {}

    def sign(self, algorithm, key, message):
        made = rsa_signature(key.secret, message)
        self.signatures[sha256(message).hexdigest()] = made.hex()
        self.rows += Table(("rsa-sha256", key.public, message, made)).rows
        return made


class Enrolled(NamedTuple):
    """A call, its request, and with what the certificate is built."""

    call: Call
    request: bytes
    settings: list


class Certificate(NamedTuple):
    """A certificate of a register: its call, from 1, with what it was built, and its octets."""

    number: int
    made: Enrolled
    octets: bytes


class Ca:
    """A register that grows by calls, with its certificates."""

    def __init__(self, keys, requests):
        self.keys, self.scheme = keys, Signing(requests)
        self.made, self.certificates = [], []

    def issue(self, kind, issuer, signer, request, ca, length, validity):
        call = Call(kind, issuer, signer, ca, length, *validity)
        _, words = answers([*(one.call for one in self.made), call])
        settings = [("validity", validity), ("ca", ca), *([] if length is None else [("pathlen", length)])]
        if kind == "root":
            settings += [("self_signed", name(f"N{len(self.made) + 1}"))]
        elif issuer < len(self.certificates):
            settings += [("issuer_cert", self.certificates[issuer].octets), ("subject_from_csr", request), ("inherit", True)]
        one = Enrolled(call, request, settings)
        self.made.append(one)
        # One with a wrong key is signed, too.
        if words[-1][0] not in ("NoIssuer", "NotCa", "TooDeep", "Request", "Build"):
            octets = built(len(self.made), self.keys[signer], settings, self.scheme)
            if words[-1] != ["WrongKey"]:
                self.certificates.append(Certificate(len(self.made), one, octets))

    def row(self, date):
        table = "".join(f"{' '.join(row)}\n" for row in self.scheme.rows).encode().hex()
        signatures = ",".join(map(":".join, self.scheme.signatures.items()))
        keys = ",".join(pkcs8(key).hex() for key in self.keys)
        return " ".join(("stored", table, signatures, keys, f"{date}Z", *map(self.call_word, self.made)))

    def call_word(self, one):
        call = one.call
        kind = "root" if call.kind == "root" else "request"
        length = "-" if call.path_length is None else str(call.path_length)
        return ",".join((kind, str(call.issuer), str(call.signer), "ca" if call.ca else "end", length, f"{call.first}Z", f"{call.last}Z", one.request.hex() or "-"))

    def line(self, date):
        records, words = answers([one.call for one in self.made])
        marks = "".join("1" if is_accepted(records, index, date) else "0" for index in range(len(records)))
        return " ".join([*(word for answer in words for word in answer), marks, *(one.octets.hex() for one in self.certificates)])


def kind_of(request, scheme):
    """A request is enrolled where it is signed by its own key, by an algorithm that is supported."""
    return "request" if request_verdict(request, scheme) == "accepted" else "unsigned"


@lru_cache(maxsize=None)
def ca():
    """A root, a CA of path length 0, a certificate for each request, and calls that are refused."""
    root, own, request = stored()
    devices = [octets for _, octets in world_requests.stored()]
    made = Ca((root, own), [request, *devices])
    made.issue("root", 0, 0, b"", True, None, OF_ROOT)
    made.issue("request", 0, 0, request, True, 0, OF_CA)
    for index, octets in enumerate(devices):
        made.issue(kind_of(octets, made.scheme), 1, 1, octets, False, None, VALIDITIES[index % len(VALIDITIES)])
    grant = False, None, VALIDITIES[0]
    for octets in devices:
        made.issue("unsigned", 1, 1, octets[:-1] + bytes([octets[-1] ^ 1]), *grant)
    first = devices[0]
    made.issue("unread", 1, 1, first + b"\0", *grant)
    made.issue("unread", 1, 1, first[:-1], *grant)
    made.issue("request", 1, 0, first, *grant)
    made.issue("request", 2, 1, first, *grant)
    made.issue("request", 99, 1, first, *grant)
    made.issue("request", 1, 1, first, True, None, VALIDITIES[0])
    made.issue("request", len(made.certificates) - 1, 1, first, *grant)
    made.issue("request", 1, 1, first, *grant)
    return made


def rows():
    """Rows and their lines."""
    return [(ca().row(date), ca().line(date)) for date in DATES]


def settings_words(one):
    """The settings of a certificate, as `xgolden_issuing` has them in a row, without the key."""
    return [str(one.number), "-", *(f"{setter}={value_word(value)}" for setter, value in one.made.settings)]
