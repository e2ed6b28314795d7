"""What `picky demo N` reports: the issuing history, its certificates, and the line.

This maker exists to be compared with the project's own, so it shares nothing
with the program: it is written from RFC 5280 and the rules below alone, with
the writer of elements of `der_reader`.

The history has N steps. Its numbers are drawn by a linear congruential
generator that begins at N: each draw sets the state x to 1103515245 x + 12345
modulo 2^31 and is x divided by 65536, rounded down. Step k draws a, b, c and d.

  issuer       none where k is 0 or a is a multiple of 8, else step a modulo k;
  CA flag      b isn't a multiple of 4;
  path length  none where b/4 is a multiple of 3, else b/16 modulo 4;
  validity     from 1 January of 2000 + c modulo 10 to 1 January of
               2020 + d modulo 20.

A step is valid at a date where the root of its ancestors, itself where it has
no issuer, and every ancestor are CAs, the k-th ancestor, counted from the
nearest and from 0, allows k certificates below it (RFC 5280 4.2.1.9), and the
date is in the validity of the step and of each ancestor.

The certificate of step k has the serial number k + 1, the common name `N` and
k, and an RSA key with the modulus 01 and k in three octets and the exponent 3.
Its extensions are basic constraints, the subject key identifier, the SHA-256
of the SubjectPublicKeyInfo, and the authority key identifier. The algorithm is
RSA with SHA-256. The signature is that of the demonstration scheme: the
SHA-256 of the algorithm's name, 00, the SHA-256 of the issuer's RSAPublicKey,
and the TBSCertificate.

    >>> history(2)[1]
    Step(issuer=0, ca=True, path_length=1, first=2006, last=2025)
    >>> line(1).split(" sum=")[0]
    'demo steps=1 roots=1 accepted=1'
"""

from hashlib import sha256
from itertools import islice
from typing import NamedTuple, Optional

from judges.der_reader import Constructed, Primitive, write

MOST_STEPS = 200
CHECKED_YEAR = 2025
ALGORITHM_NAME = b"rsa-sha256"
RSA_ENCRYPTION = "2A 86 48 86 F7 0D 01 01 01"
SHA256_WITH_RSA = "2A 86 48 86 F7 0D 01 01 0B"
COMMON_NAME, KEY_ID, CONSTRAINTS, AUTHORITY = "55 04 03", "55 1D 0E", "55 1D 13", "55 1D 23"


class Step(NamedTuple):
    """An issuing: the step of the issuer, if it isn't a root, and what the certificate says."""

    issuer: Optional[int]
    ca: bool
    path_length: Optional[int]
    first: int
    last: int


def draws(state):
    """The numbers that are drawn from a state on."""
    while True:
        state = (1103515245 * state + 12345) % 2**31
        yield state // 65536


def step(k, a, b, c, d):
    """Step k by its four draws."""
    return Step(
        issuer=None if k == 0 or a % 8 == 0 else a % k,
        ca=b % 4 != 0,
        path_length=None if b // 4 % 3 == 0 else b // 16 % 4,
        first=2000 + c % 10,
        last=2020 + d % 20,
    )


def history(count):
    drawn = draws(count)
    return [step(k, *islice(drawn, 4)) for k in range(count)]


def ancestors(steps, k):
    """The issuer of step k, that one's issuer and so on, up to a root."""
    found = []
    while steps[k].issuer is not None:
        k = steps[k].issuer
        found.append(k)
    return found


def is_valid(steps, k, year=CHECKED_YEAR):
    """Whether step k is valid on 1 January of a year."""
    above = [steps[i] for i in ancestors(steps, k)]
    root = above[-1] if above else steps[k]
    return (
        root.ca
        and all(one.ca for one in above)
        and all(one.path_length is None or one.path_length >= below for below, one in enumerate(above))
        and all(one.first <= year <= one.last for one in (steps[k], *above))
    )


# ---- certificates

def sequence(*kids):
    return Constructed(0x30, kids)


def oid(contents):
    return Primitive(6, bytes.fromhex(contents))


def bits(octets):
    return Primitive(3, b"\0" + octets)


def integer(number):
    return Primitive(2, number.to_bytes(number.bit_length() // 8 + 1, "big"))


def with_null(contents):
    return sequence(oid(contents), Primitive(5, b""))


def name(k):
    """The common name of step k (RFC 5280 4.1.2.4)."""
    return sequence(Constructed(0x31, (sequence(oid(COMMON_NAME), Primitive(0x0C, f"N{k}".encode())),)))


def year(number):
    """The first second of a year from 1950 to 2049 (RFC 5280 4.1.2.5.1)."""
    return Primitive(0x17, b"%02d0101000000Z" % (number % 100))


def rsa_key(k):
    """The RSAPublicKey of step k (RFC 8017 A.1.1)."""
    return write(sequence(Primitive(2, b"\1" + k.to_bytes(3, "big")), integer(3)))


def key_info(k):
    """The SubjectPublicKeyInfo of step k (RFC 3279 2.3.1)."""
    return sequence(with_null(RSA_ENCRYPTION), bits(rsa_key(k)))


def key_identifier(k):
    return sha256(write(key_info(k))).digest()


def extension(contents, value):
    return sequence(oid(contents), Primitive(4, write(value)))


def constraints(one):
    """Basic constraints with the flag, whichever it is, and the path length if there is one."""
    limit = () if one.path_length is None else (integer(one.path_length),)
    return sequence(Primitive(1, b"\xff" if one.ca else b"\0"), *limit)


def tbs_certificate(k, one):
    """The TBSCertificate of step k (RFC 5280 4.1)."""
    issuer = k if one.issuer is None else one.issuer
    extensions = sequence(
        extension(CONSTRAINTS, constraints(one)),
        extension(KEY_ID, Primitive(4, key_identifier(k))),
        extension(AUTHORITY, sequence(Primitive(0x80, key_identifier(issuer)))),
    )
    return sequence(
        Constructed(0xA0, (integer(2),)), integer(k + 1), with_null(SHA256_WITH_RSA), name(issuer),
        sequence(year(one.first), year(one.last)), name(k), key_info(k), Constructed(0xA3, (extensions,)),
    )


def signature(key, message):
    """The signature of the demonstration scheme under a key."""
    return sha256(ALGORITHM_NAME + b"\0" + sha256(key).digest() + message).digest()


def certificate(k, one):
    """The octets of the certificate of step k."""
    tbs = tbs_certificate(k, one)
    key = rsa_key(k if one.issuer is None else one.issuer)
    return write(sequence(tbs, with_null(SHA256_WITH_RSA), bits(signature(key, write(tbs)))))


def certificates(steps):
    return [certificate(k, one) for k, one in enumerate(steps)]


# ---- the line

def line(count):
    """The line of a demonstration of so many steps."""
    steps = history(count)
    roots = sum(one.issuer is None for one in steps)
    accepted = sum(is_valid(steps, k) for k in range(count))
    digest = sha256(b"".join(certificates(steps))).hexdigest()
    return f"demo steps={count} roots={roots} accepted={accepted} sum={digest}"
