"""Which octets may be a key and which a signature, before any arithmetic.

Without the form of a key there is no row of a table (`NoForm`), and none for a key past the
limits (`NotJudged`); what a verdict table calls `malformed` is a signature without a form.
The reasons say nothing of what the octets hold.
"""

from typing import NamedTuple

# FIPS 186-4 D.1.2.3 to D.1.2.5: the prime, the coefficient b (a is -3), and the order of the group.
CURVES = {
    "p256": (
        2**256 - 2**224 + 2**192 + 2**96 - 1, 0x5ac635d8_aa3a93e7_b3ebbd55_769886bc_651d06b0_cc53b0f6_3bce3c3e_27d2604b,
        0xffffffff_00000000_ffffffff_ffffffff_bce6faad_a7179e84_f3b9cac2_fc632551),
    "p384": (
        2**384 - 2**128 - 2**96 + 2**32 - 1,
        0xb3312fa7_e23ee7e4_988e056b_e3f82d19_181d9c6e_fe814112_0314088f_5013875a_c656398d_8a2ed19d_2a85c8ed_d3ec2aef,
        0xffffffff_ffffffff_ffffffff_ffffffff_ffffffff_ffffffff_c7634d81_f4372ddf_581a0db2_48b0a77a_ecec196a_ccc52973),
    "p521": (
        2**521 - 1,
        int("51953eb9618e1c9a1f929a21a0b68540eea2da725b99b315f3b8b489918ef109e1"
            "56193951ec7e937b1652c0bd3bb1bf073573df883d2c34f1ef451fd46b503f00", 16),
        int("1fffffffffffffffffffffffffffffffffffffffffffffffffffffffffffffffffa"
            "51868783bf2f966b7fcc0148f709a5d03bb5c9b8899c47aebb6fb71e91386409", 16)),
}
# RFC 8032 5.1: the prime, the coefficient d, the order of the group.
ED25519_PRIME = 2**255 - 19
ED25519_D = -121665 * pow(121666, -1, ED25519_PRIME) % ED25519_PRIME
ED25519_ORDER = 2**252 + 27742317777372353535851937790883648493
ED25519_KEY, ED25519_SIGNATURE = 32, 64
# The second coordinates of the eight points of order 1, 2, 4 and 8: by each, anyone makes signatures.
ORDER_8 = 0x7a03ac92_77fdc74e_c6cc392c_fa53202a_0f67100d_760b3cba_4fd84d3d_706a17c7
OF_SMALL_ORDER = {0, 1, ED25519_PRIME - 1, ORDER_8, ED25519_PRIME - ORDER_8}
# What OpenSSL computes with: a longer modulus takes seconds, and an exponent of any length as long as a private one.
MOST_MODULUS_BITS, MOST_EXPONENT_BITS = 16_384, 64
# RFC 8017 9.2: the DigestInfo of each digest, and what EMSA-PKCS1-v1_5 puts around it at the least.
DIGEST_INFO = {"md5": 34, "sha1": 35, "sha224": 47, "sha256": 51, "sha384": 67, "sha512": 83}
LEAST_PADDING = 11


class NotJudged(Exception):
    """Why a table can't say whether a signature is true."""


class NoForm(NotJudged):
    """The same where the octets of the key are no key of the algorithm."""


class RsaKey(NamedTuple):
    modulus: int
    exponent: int


class Point(NamedTuple):
    """A point of a curve that isn't the one at infinity."""

    x: int
    y: int


def number(octets):
    """The number without a sign that octets are, the highest first."""
    return int.from_bytes(octets, "big")


# Two positive INTEGERs in DER.

def element(octets, tag):
    """The contents of the element that octets begin with, and the octets behind it.

    None where they begin with none of this tag in DER (X.690 8.1.3, 10.1).
    """
    if len(octets) < 2 or octets[0] != tag:
        return None
    length, begin = octets[1], 2
    if length >= 0x80:
        begin += length - 0x80
        length = number(octets[2:begin])
        if not 2 < begin <= min(6, len(octets)) or octets[2] == 0 or length < 0x80:
            return None
    end = begin + length
    return (octets[begin:end], octets[end:]) if end <= len(octets) else None


def positive(octets):
    """The positive number that octets begin with as an INTEGER (X.690 8.3), and the octets behind it; else None."""
    found = element(octets, 0x02)
    if found is None or not found[0] or found[0][0] >= 0x80 or found[0] == b"\0":
        return None
    contents, rest = found
    # In as few octets as the number has.
    return None if contents[0] == 0 and contents[1] < 0x80 else (number(contents), rest)


def pair(octets):
    """The two numbers of a SEQUENCE of two positive INTEGERs, in DER with nothing behind; else None."""
    found = element(octets, 0x30)
    first = positive(found[0]) if found is not None and not found[1] else None
    second = positive(first[1]) if first is not None else None
    return (first[0], second[0]) if second is not None and not second[1] else None


# Keys.

def key_of(kind, octets):
    """The key that octets are, in numbers; NoForm where they are none of this kind, NotJudged past the limits."""
    if kind == "rsa":
        return rsa_key(octets)
    if kind == "ed25519":
        return ed25519_key(octets)
    return point(kind, octets)


def rsa_key(octets):
    """RFC 8017 3.1, A.1.1: an odd modulus and an odd exponent, from 3 to one below the modulus."""
    found = pair(octets)
    if found is None:
        raise NoForm("its key isn't an RSAPublicKey in DER")
    modulus, exponent = found
    if modulus % 2 == 0:
        raise NoForm("the modulus of its key is even")
    if exponent % 2 == 0 or exponent < 3:
        raise NoForm("the exponent of its key isn't odd and 3 or more")
    if exponent >= modulus:
        raise NoForm("the exponent of its key isn't below the modulus")
    if modulus.bit_length() > MOST_MODULUS_BITS:
        raise NotJudged(f"the modulus of its key has more than {MOST_MODULUS_BITS} bits")
    if exponent.bit_length() > MOST_EXPONENT_BITS:
        raise NotJudged(f"the exponent of its key has more than {MOST_EXPONENT_BITS} bits")
    return RsaKey(modulus, exponent)


def point(curve, octets):
    """SEC 1 2.3.4: 04 and both coordinates, or 02 or 03, by the last bit of the second one, and the first."""
    prime, b, _ = CURVES[curve]
    length = (prime.bit_length() + 7) // 8
    x, rest = number(octets[1:1 + length]), octets[1 + length:]
    if len(octets) == 1 + 2 * length and octets[0] == 4:
        y = number(rest)
    elif len(octets) == 1 + length and octets[0] in (2, 3):
        # Each prime is 3 modulo 4, so this is the square root of a square.
        root = pow((x**3 - 3 * x + b) % prime, (prime + 1) // 4, prime)
        y = root if root % 2 == octets[0] % 2 else prime - root
    else:
        raise NoForm(f"its key isn't a point of {curve}")
    if x >= prime or y >= prime or (y * y - x**3 + 3 * x - b) % prime:
        raise NoForm(f"its key isn't a point of {curve}")
    return Point(x, y)


def ed25519_key(octets):
    """RFC 8032 5.1.3: the octets of a point; one that a secret has (5.1.5) isn't of small order."""
    if len(octets) != ED25519_KEY:
        raise NoForm("its key hasn't 32 octets")
    y = int.from_bytes(octets, "little") % 2**255
    # The square of the first coordinate, and by Euler's criterion whether it is one.
    square = (y * y - 1) * pow(ED25519_D * y * y + 1, -1, ED25519_PRIME) % ED25519_PRIME
    if y >= ED25519_PRIME or pow(square, (ED25519_PRIME - 1) // 2, ED25519_PRIME) not in (0, 1):
        raise NoForm("its key isn't a point of ed25519")
    if y in OF_SMALL_ORDER:
        raise NoForm("its key is a point of small order")
    return octets


# Signatures.

def has_form(kind, digest, key, signature):
    """Whether a signature by the key may be these octets; NotJudged where the key is too short for the digest."""
    if kind == "rsa":
        # RFC 8017 8.2.2 steps 1 and 3, 5.2.2 step 1.
        length = (key.modulus.bit_length() + 7) // 8
        if length < DIGEST_INFO[digest] + LEAST_PADDING:
            raise NotJudged(f"the modulus of its key is too short for {digest}")
        return len(signature) == length and number(signature) < key.modulus
    if kind == "ed25519":
        # RFC 8032 5.1.7, without decoding R.
        return len(signature) == ED25519_SIGNATURE and int.from_bytes(signature[32:], "little") < ED25519_ORDER
    # RFC 3279 2.2.3, SEC 1 4.1.4.
    found, order = pair(signature), CURVES[kind][2]
    return found is not None and max(found) < order
