"""Points of the curves that a table names, in Python's integers: keys and signatures that no library makes.

It is slow and keeps no secret: for tests alone.
"""

from hashlib import sha512
from typing import NamedTuple

from common.signature_forms import CURVES, ED25519_D, ED25519_ORDER, ED25519_PRIME, number

# FIPS 186-4 D.1.2.3 to D.1.2.5.
GENERATORS = {
    "p256": (
        0x6b17d1f2_e12c4247_f8bce6e5_63a440f2_77037d81_2deb33a0_f4a13945_d898c296,
        0x4fe342e2_fe1a7f9b_8ee7eb4a_7c0f9e16_2bce3357_6b315ece_cbb64068_37bf51f5),
    "p384": (
        0xaa87ca22_be8b0537_8eb1c71e_f320ad74_6e1d3b62_8ba79b98_59f741e0_82542a38_5502f25d_bf55296c_3a545e38_72760ab7,
        0x3617de4a_96262c6f_5d9e98bf_9292dc29_f8f41dbd_289a147c_e9da3113_b5f0b8c0_0a60b1ce_1d7e819d_7a431d7c_90ea0e5f),
    "p521": (
        int("c6858e06b70404e9cd9e3ecb662395b4429c648139053fb521f828af606b4d3dba"
            "a14b5e77efe75928fe1dc127a2ffa8de3348b3c1856a429bf97e7e31c2e5bd66", 16),
        int("11839296a789a3bc0045c8a5fb42c7d1bd998f54449579b446817afbd17273e662c"
            "97ee72995ef42640c550b9013fad0761353c7086a272c24088be94769fd16650", 16)),
}


class Curve(NamedTuple):
    """y y = x x x - 3 x + b over the prime; points are pairs, and None is the one at infinity."""

    prime: int
    b: int
    order: int
    generator: tuple

    @classmethod
    def named(cls, name):
        return cls(*CURVES[name], GENERATORS[name])

    def length(self):
        return (self.prime.bit_length() + 7) // 8

    def y_of(self, x):
        """The even second coordinate of a point with this first one; None where there is none."""
        square = (x**3 - 3 * x + self.b) % self.prime
        root = pow(square, (self.prime + 1) // 4, self.prime)
        if root * root % self.prime != square:
            return None
        return root if root % 2 == 0 else self.prime - root

    def least(self, x):
        """The point with the least first coordinate from x on that has one, and an even second one."""
        while self.y_of(x) is None:
            x += 1
        return x, self.y_of(x)

    def opposite(self, point):
        return point[0], self.prime - point[1]

    def sum(self, one, other):
        if one is None or other is None:
            return one or other
        (x, y), (u, v) = one, other
        if x == u and (y + v) % self.prime == 0:
            return None
        slope = (3 * x * x - 3, 2 * y) if one == other else (v - y, u - x)
        slope = slope[0] * pow(slope[1], -1, self.prime) % self.prime
        third = (slope * slope - x - u) % self.prime
        return third, (slope * (x - third) - y) % self.prime

    def times(self, factor, point):
        found = None
        for bit in f"{factor % self.order:b}":
            found = self.sum(found, found)
            if bit == "1":
                found = self.sum(found, point)
        return found

    def octets(self, point):
        """04 and both coordinates (SEC 1 2.3.3)."""
        return b"\4" + b"".join(one.to_bytes(self.length(), "big") for one in point)

    def compressed(self, point):
        return bytes([2 + point[1] % 2]) + point[0].to_bytes(self.length(), "big")

    def hashed(self, digest):
        """The leftmost bits of a digest as a number (SEC 1 4.1.3)."""
        return number(digest) >> max(0, 8 * len(digest) - self.order.bit_length())

    def signature(self, secret, digest, factor):
        """The numbers of a signature, with this factor for the random one (SEC 1 4.1.3)."""
        r = self.times(factor, self.generator)[0] % self.order
        return r, (self.hashed(digest) + r * secret) * pow(factor, -1, self.order) % self.order

    def key_for(self, random, s, digest):
        """The key by which r, of a random point, and s are a signature (SEC 1 4.1.6), and these two numbers."""
        r = random[0] % self.order
        key = self.sum(self.times(s, random), self.times(-self.hashed(digest), self.generator))
        return self.times(pow(r, -1, self.order), key), (r, s)


# Ed25519 (RFC 8032 5.1): points are pairs, and (0, 1) is the one of order 1.

BASE_Y = 4 * pow(5, -1, ED25519_PRIME) % ED25519_PRIME


def edwards_x(y):
    """The even first coordinate of a point with this second one; None where there is none."""
    square = (y * y - 1) * pow(ED25519_D * y * y + 1, -1, ED25519_PRIME) % ED25519_PRIME
    root = pow(square, (ED25519_PRIME + 3) // 8, ED25519_PRIME)
    if root * root % ED25519_PRIME != square:
        root = root * pow(2, (ED25519_PRIME - 1) // 4, ED25519_PRIME) % ED25519_PRIME
    if root * root % ED25519_PRIME != square:
        return None
    return root if root % 2 == 0 else ED25519_PRIME - root


BASE = edwards_x(BASE_Y), BASE_Y


def edwards_sum(one, other):
    (x, y), (u, v) = one, other
    product = ED25519_D * x * u * y * v % ED25519_PRIME
    return (
        (x * v + u * y) * pow(1 + product, -1, ED25519_PRIME) % ED25519_PRIME,
        (y * v + x * u) * pow(1 - product, -1, ED25519_PRIME) % ED25519_PRIME)


def edwards_times(factor, point):
    found = 0, 1
    for bit in f"{factor:b}":
        found = edwards_sum(found, found)
        if bit == "1":
            found = edwards_sum(found, point)
    return found


def edwards_octets(point):
    """RFC 8032 5.1.2."""
    return (point[1] | (point[0] % 2) << 255).to_bytes(32, "little")


def challenge(random, key, message):
    """The number that a signature over a message multiplies the key by (RFC 8032 5.1.7 step 2)."""
    return int.from_bytes(sha512(random + key + message).digest(), "little") % ED25519_ORDER


def points_of_small_order():
    """The eight points of order 1, 2, 4 and 8, as multiples of one of order 8."""
    y = 2
    while True:
        x = edwards_x(y)
        # A multiple by the order of the group has an order of 8 at the most.
        point = edwards_times(ED25519_ORDER, (x, y)) if x is not None else (0, 1)
        if edwards_times(4, point) != (0, 1):
            return [edwards_times(factor, point) for factor in range(8)]
        y += 1
