"""Questions about keys and signatures that somebody wrote to be accepted, each with its verdict by hand.

A verdict is `accept`, `reject`, `malformed`, or None where the table has no row.  They
are those of RFC 8017, SEC 1, RFC 3279, RFC 5480 and RFC 8032; `docs/FORMATS.md` has the
choices that those leave.  Keys and signatures are computed here, in integers.
"""

import random
from base64 import encodebytes
from functools import lru_cache
from hashlib import new as digest_by
from hashlib import sha256
from math import gcd, prod
from typing import NamedTuple

from cases import curve_points
from cases.curve_points import BASE, Curve, challenge, edwards_octets, edwards_sum, edwards_times
from common.signature_forms import ED25519_ORDER, ED25519_PRIME, MOST_MODULUS_BITS

MESSAGE = b"message"


class Hostile(NamedTuple):
    """A question, what it is about, and the verdict; None where there is no row."""

    label: str
    name: str
    key: bytes
    signature: bytes
    verdict: object
    message: bytes = MESSAGE

    def line(self):
        """The line of the question (docs/FORMATS.md)."""
        parts = self.key, self.message, self.signature
        return " ".join([self.name, *(sha256(part).hexdigest() for part in parts), *(part.hex() for part in parts)])


# DER and PEM.

def length_of(count, shortest=True):
    """The octets of a length in DER, or in one octet more than it needs."""
    if count < 0x80:
        return bytes([count]) if shortest else bytes([0x81, count])
    octets = count.to_bytes((count.bit_length() + 7) // 8 + (not shortest), "big")
    return bytes([0x80 + len(octets)]) + octets


def element(tag, contents, shortest=True):
    return bytes([tag]) + length_of(len(contents), shortest) + contents


def contents_of(one):
    """The contents of an INTEGER in DER."""
    return one.to_bytes((one.bit_length() if one >= 0 else (-one - 1).bit_length()) // 8 + 1, "big", signed=True)


def integer(one):
    return element(0x02, contents_of(one))


def sequence(*parts, tag=0x30):
    return element(tag, b"".join(parts))


def pair(first, second):
    return sequence(integer(first), integer(second))


def pem(what, der, headers=b""):
    name = what.encode()
    return b"-----BEGIN " + name + b"-----\n" + headers + encodebytes(der) + b"-----END " + name + b"-----\n"


ENCRYPTED = b"Proc-Type: 4,ENCRYPTED\nDEK-Info: AES-128-CBC,00112233445566778899AABBCCDDEEFF\n\n"
# The AlgorithmIdentifier of keys (RFC 3279 2.3.1, RFC 5480 2.1.1, RFC 8410 3), and of brainpoolP256r1 (RFC 5639 3.4).
RSA_KEY = bytes.fromhex("300d06092a864886f70d0101010500")
ED25519_KEY = bytes.fromhex("300506032b6570")
POINTS = {
    "p256": bytes.fromhex("301306072a8648ce3d020106082a8648ce3d030107"),
    "p384": bytes.fromhex("301006072a8648ce3d020106052b81040022"),
    "p521": bytes.fromhex("301006072a8648ce3d020106052b81040023"),
    "brainpool": bytes.fromhex("301406072a8648ce3d020106092b2403030208010107"),
}


def key_info(algorithm, octets):
    """A SubjectPublicKeyInfo."""
    return sequence(algorithm, element(0x03, b"\0" + octets))


def in_pem(algorithm, octets, whole):
    """Octets that are no key, in which a decoder may find one: SubjectPublicKeyInfo and PEM, encrypted too."""
    info = key_info(algorithm, octets)
    yield "SubjectPublicKeyInfo", info
    yield "PEM behind a newline", b"\n" + pem("PUBLIC KEY", info)
    yield "PEM", pem("PUBLIC KEY", info)
    yield "the key and PEM of another", whole + b"\n" + pem("PUBLIC KEY", info)
    yield "PEM of a certificate", pem("CERTIFICATE", info)
    for kind in "PUBLIC KEY", "RSA PRIVATE KEY", "EC PRIVATE KEY", "ENCRYPTED PRIVATE KEY":
        yield f"PEM, {kind}, with a pass phrase", b"\n" + pem(kind, info, ENCRYPTED)
    yield "a file", b"file:/dev/tty"
    yield "a reference to a key", b"pkcs11:object=key;type=public"


# RSA.

DIGEST_INFOS = {
    # RFC 8017 9.2, note 1.
    "md5": "3020300c06082a864886f70d020505000410", "sha1": "3021300906052b0e03021a05000414",
    "sha224": "302d300d06096086480165030402040500041c", "sha256": "3031300d060960864801650304020105000420",
    "sha384": "3041300d060960864801650304020205000430", "sha512": "3051300d060960864801650304020305000440",
}


# Most numbers that are no prime have a factor with this one.
SMALL_FACTORS = prod(range(3, 2000, 2))


def prime_of(chance, bits, exponent):
    """A number of so many bits, the two highest set, that Fermat's test takes for a prime, for this exponent."""
    while True:
        one = chance.getrandbits(bits) | 3 << (bits - 2) | 1
        if (one - 1) % exponent and gcd(one, SMALL_FACTORS) == 1 and pow(2, one - 1, one) == 1:
            return one


@lru_cache(maxsize=None)
class Rsa:
    """A key of RSA whose modulus has so many bits; the same one each time."""

    def __init__(self, bits, exponent=3):
        chance = random.Random(bits)
        p, q = prime_of(chance, bits - bits // 2, exponent), prime_of(chance, bits // 2, exponent)
        self.modulus, self.exponent, self.secret = p * q, exponent, pow(exponent, -1, (p - 1) * (q - 1))
        self.length = (self.modulus.bit_length() + 7) // 8
        self.octets = pair(self.modulus, exponent)

    def signed(self, encoded):
        """The signature whose encoded message is these octets, or 00 01, FF.., 00 and these."""
        if len(encoded) < self.length:
            encoded = b"\0\1" + b"\xff" * (self.length - len(encoded) - 3) + b"\0" + encoded
        return pow(int.from_bytes(encoded, "big"), self.secret, self.modulus).to_bytes(self.length, "big")

    def signature(self, digest="sha256"):
        return self.signed(info_of(digest))


def info_of(digest):
    """The DigestInfo of the message."""
    return bytes.fromhex(DIGEST_INFOS[digest]) + digest_by(digest, MESSAGE).digest()


def mask(seed, length):
    """MGF1 by SHA-256 (RFC 8017 B.2.1)."""
    return b"".join(sha256(seed + place.to_bytes(4, "big")).digest() for place in range(length // 32 + 1))[:length]


def by_pss(length):
    """EMSA-PSS by SHA-256 without a salt, of a modulus of eight times so many bits (RFC 8017 9.1.1)."""
    hashed = sha256(bytes(8) + sha256(MESSAGE).digest()).digest()
    block = bytes(length - 34) + b"\1"
    masked = bytes(one ^ other for one, other in zip(block, mask(hashed, len(block))))
    return bytes([masked[0] & 0x7F]) + masked[1:] + hashed + b"\xbc"


def cube_root(one):
    """The least number whose cube is no less (for Bleichenbacher's signatures, of which only the beginning counts)."""
    low, high = 0, 1 << (one.bit_length() // 3 + 1)
    while low < high:
        middle = (low + high) // 2
        low, high = (low, middle) if middle**3 >= one else (middle + 1, high)
    return low


def encoded_messages(length):
    """Encoded messages of which RFC 8017 8.2.2 takes none, by what is other than in its own."""
    hashed, info = sha256(MESSAGE).digest(), info_of("sha256")
    bare = bytes.fromhex("302f300b0609608648016503040201") + b"\4\x20" + hashed
    filled = b"\xff" * (length - len(info) - 3)
    yield "DigestInfo without NULL", bare
    yield "DigestInfo of another digest", info_of("sha1")
    yield "DigestInfo with other parameters", bytes.fromhex("3033300f06096086480165030402010502aabb0420") + hashed
    yield "DigestInfo in BER", bytes.fromhex("308131300d060960864801650304020105000420") + hashed
    yield "DigestInfo and an octet", info + b"\0"
    yield "DigestInfo with another tag", b"\x31" + info[1:]
    yield "DigestInfo cut", info[:-1]
    yield "DigestInfo of another message", info[:-32] + sha256(b"other").digest()
    yield "the digest alone", hashed
    behind = bytes(length - 11 - len(info))
    yield "eight octets of padding, and octets behind", b"\0\1" + b"\xff" * 8 + b"\0" + info + behind
    yield "no padding", b"\0\1\0" + info + bytes(length - 3 - len(info))
    yield "an octet of the padding", b"\0\1" + filled[:-1] + b"\xfe\0" + info
    yield "padding of zeros", bytes(length - len(info)) + info
    yield "padding for encryption", b"\0\2" + filled + b"\0" + info
    yield "another first octet", b"\1\1" + filled + b"\0" + info
    yield "padding without its end", b"\0\1" + filled + b"\xff" + info
    yield "PSS", by_pss(length)


def rsa_signatures():
    """By a key with the exponent 3."""
    one = Rsa(1024)
    for digest in DIGEST_INFOS:
        yield Hostile(f"{digest}", f"rsa-{digest}", one.octets, one.signature(digest), "accept")
    for other in "md5", "sha1", "sha224", "sha384", "sha512":
        yield Hostile(f"sha256 as {other}", f"rsa-{other}", one.octets, one.signature(), "reject")
    for label, encoded in encoded_messages(one.length):
        yield Hostile(label, "rsa-sha256", one.octets, one.signed(encoded), "reject")
    root = cube_root(int.from_bytes(b"\0\1" + b"\xff" * 8 + b"\0" + info_of("sha256") + bytes(one.length - 62), "big"))
    signed, least = one.signature(), int.from_bytes(one.signature(), "big")
    for label, signature, verdict in (
        ("the cube root of a message that begins rightly", root.to_bytes(128, "big"), "reject"),
        ("zeros", bytes(128), "reject"),
        ("one", bytes(127) + b"\1", "reject"),
        ("the modulus less one", (one.modulus - 1).to_bytes(128, "big"), "reject"),
        ("the modulus less the signature", (one.modulus - least).to_bytes(128, "big"), "reject"),
        ("the encoded message", b"\0\1" + b"\xff" * 74 + b"\0" + info_of("sha256"), "reject"),
        ("the modulus", one.modulus.to_bytes(128, "big"), "malformed"),
        ("the modulus and one", (one.modulus + 1).to_bytes(128, "big"), "malformed"),
        ("ones", b"\xff" * 128, "malformed"), ("none", b"", "malformed"),
        ("a zero in front", b"\0" + signed, "malformed"),
        ("a zero behind", signed + b"\0", "malformed"), ("cut", signed[:-1], "malformed"),
        ("without its first octet", signed[1:], "malformed"),
        ("twice", signed * 2, "malformed"), ("an OCTET STRING", element(4, signed), "malformed"),
        ("the signature and the modulus", (least + one.modulus).to_bytes(129, "big"), "malformed"),
    ):
        yield Hostile(label, "rsa-sha256", one.octets, signature, verdict)


def rsa_lengths():
    """Keys of other lengths, with their signatures."""
    for bits, digest, verdict in (
        # RFC 8017 9.2: 62 octets for SHA-256, 94 for SHA-512.
        (488, "sha256", None), (489, "sha256", "accept"), (496, "sha256", "accept"), (744, "sha512", None),
        (745, "sha512", "accept"), (512, "sha512", None),
        (1023, "sha256", "accept"), (1025, "sha256", "accept"), (1031, "sha384", "accept"), (2048, "sha512", "accept"),
    ):
        one = Rsa(bits)
        signature = one.signature(digest) if verdict else bytes(one.length)
        yield Hostile(f"{bits} bits", f"rsa-{digest}", one.octets, signature, verdict)
    large = Rsa(1024, 2**64 - 59)
    yield Hostile("an exponent of 64 bits", "rsa-sha256", large.octets, large.signature(), "accept")
    larger = Rsa(1024, 2**64 + 13)
    yield Hostile("an exponent of 65 bits", "rsa-sha256", larger.octets, larger.signature(), None)
    for bits, verdict in (
        (MOST_MODULUS_BITS, "reject"), (MOST_MODULUS_BITS + 1, None), (100_000, None), (10_000_000, None),
    ):
        yield Hostile(f"a modulus of {bits} bits", "rsa-sha256", pair(1 << (bits - 1) | 1, 65537),
            bytes(bits // 8 + (bits % 8 > 0)), verdict)
    yield Hostile("a modulus and an exponent of 100000 bits", "rsa-sha256", pair(1 << 99_999 | 3, 1 << 99_998 | 1),
        bytes(12_500), None)


def rsa_numbers():
    """Other numbers in the place of modulus and exponent, with signatures that the arithmetic would take."""
    one = Rsa(1024)
    encoded = b"\0\1" + b"\xff" * 74 + b"\0" + info_of("sha256")
    # By 1 whatever is encoded is its own signature, by 0 it is always one.
    for exponent in 0, 1, 2, 4, 65_536, -1, -3, one.modulus, one.modulus + 2, one.modulus - 1:
        yield Hostile(f"exponent {exponent if abs(exponent) < 1 << 20 else 'about the modulus'}", "rsa-sha256",
            pair(one.modulus, exponent), encoded, None)
    for modulus in 0, 1, 2, 3, -1, -one.modulus, one.modulus + 1, 1 << 1023:
        octets = encoded if abs(modulus) > 3 else bytes([0])
        yield Hostile("another modulus", "rsa-sha256", pair(modulus, 3), octets, None)
    yield Hostile("numbers exchanged", "rsa-sha256", pair(3, one.modulus), one.signature(), None)


def rsa_encodings():
    """Other encodings of a key, with its signature."""
    one = Rsa(1024)
    modulus, exponent, signature = integer(one.modulus), integer(3), one.signature()
    bare = one.modulus.to_bytes(128, "big")
    for label, octets in (
        ("an octet behind", one.octets + b"\0"), ("an element behind", one.octets + b"\5\0"), ("cut", one.octets[:-1]),
        ("nothing", b""), ("an octet", b"\x30"),
        ("no elements", b"\x30\0"), ("one number", sequence(modulus)),
        ("a third number", sequence(modulus, exponent, exponent)),
        ("a third element", sequence(modulus, exponent, b"\5\0")), ("a SET", sequence(modulus, exponent, tag=0x31)),
        ("no SEQUENCE", modulus + exponent), ("a SEQUENCE within", sequence(one.octets)), ("twice", one.octets * 2),
        ("a zero in front", b"\0" + one.octets),
        ("a length in BER", element(0x30, modulus + exponent, shortest=False)),
        ("no definite length", b"\x30\x80" + modulus + exponent + b"\0\0"),
        ("a length of five octets", b"\x30\x85\0\0\0\0" + one.octets[2:3] + modulus + exponent),
        ("a length past the end", one.octets[:2] + b"\xff" + one.octets[3:]),
        ("a length of the modulus in BER", sequence(element(2, contents_of(one.modulus), shortest=False), exponent)),
        ("a length of the exponent in BER", sequence(modulus, element(2, b"\3", shortest=False))),
        ("a zero in front of the modulus", sequence(element(2, b"\0\0" + bare), exponent)),
        ("a zero in front of the exponent", sequence(modulus, b"\2\2\0\3")),
        ("a modulus below zero", sequence(element(2, bare), exponent)),
        ("an exponent below zero", sequence(modulus, b"\2\1\x83")),
        ("no modulus", sequence(b"\2\0", exponent)), ("no exponent", sequence(modulus, b"\2\0")),
        ("an ENUMERATED", sequence(modulus, b"\x0a\1\3")),
        ("an OCTET STRING", sequence(element(4, contents_of(one.modulus)), exponent)),
        ("the modulus alone", bare), ("PKCS #8 in part", sequence(integer(0), modulus, exponent)),
        *in_pem(RSA_KEY, one.octets, one.octets), ("PEM of an RSAPublicKey", b"\n" + pem("RSA PUBLIC KEY", one.octets)),
    ):
        yield Hostile(label, "rsa-sha256", octets, signature, None)


# ECDSA.

# Generators of other curves: SEC 2 2.4.1 and RFC 5639 3.4.
SECP256K1 = bytes.fromhex(
    "0479be667ef9dcbbac55a06295ce870b07029bfcdb2dce28d959f2815b16f81798"
    "483ada7726a3c4655da4fbfc0e1108a8fd17b448a68554199c47d08ffb10d4b8")
BRAINPOOL = bytes.fromhex(
    "048bd2aeb9cb7e57cb2c4b482ffc81b7afb9de27e1e3bd23c23a4453bd9ace3262"
    "547ef835c3dac4fd97f8461a14611dc9c27745132ded8e545c1d54c72f046997")
DIGESTS = {"p256": "sha256", "p384": "sha384", "p521": "sha512"}


class Ecdsa:
    """A key on a curve, and its signature."""

    def __init__(self, kind):
        self.kind, self.name, self.curve = kind, f"{kind}-{DIGESTS[kind]}", Curve.named(kind)
        self.digest = digest_by(DIGESTS[kind], MESSAGE).digest()
        secret = self.curve.hashed(digest_by(DIGESTS[kind], b"secret").digest())
        self.point = self.curve.times(secret, self.curve.generator)
        self.octets = self.curve.octets(self.point)
        self.r, self.s = self.curve.signature(secret, self.digest, secret // 3)

    def question(self, label, signature, verdict, key=None):
        return Hostile(f"{self.kind}, {label}", self.name, self.octets if key is None else key, signature, verdict)


def ecdsa_signatures(one):
    """Other signatures by the key of one."""
    r, s, order = one.r, one.s, one.curve.order
    own, numbers = pair(r, s), (integer(r), integer(s))
    length = one.curve.length()
    for label, signature, verdict in (
        ("own", own, "accept"), ("the other s", pair(r, order - s), "accept"), ("exchanged", pair(s, r), "reject"),
        ("1, 1", pair(1, 1), "reject"),
        ("the highest", pair(order - 1, order - 1), "reject"), ("s is 1", pair(r, 1), "reject"),
        ("s one above", pair(r, s + 1), "reject"),
        ("r is 0", pair(0, s), "malformed"), ("s is 0", pair(r, 0), "malformed"), ("0, 0", pair(0, 0), "malformed"),
        ("r is the order", pair(order, s), "malformed"), ("s is the order", pair(r, order), "malformed"),
        ("both are the order", pair(order, order), "malformed"),
        ("s and the order", pair(r, s + order), "malformed"), ("r and the order", pair(r + order, s), "malformed"),
        ("r below 0", pair(r - order, s), "malformed"), ("s below 0", pair(r, -s), "malformed"),
        ("r is -1", pair(-1, s), "malformed"),
        ("an octet behind", own + b"\0", "malformed"), ("twice", own * 2, "malformed"),
        ("a third number", sequence(*numbers, integer(1)), "malformed"),
        ("one number", sequence(numbers[0]), "malformed"), ("no number", b"\x30\0", "malformed"),
        ("nothing", b"", "malformed"), ("cut", own[:-1], "malformed"),
        ("a SET", sequence(*numbers, tag=0x31), "malformed"),
        ("no definite length", b"\x30\x80" + b"".join(numbers) + b"\0\0", "malformed"),
        ("a length in BER", element(0x30, b"".join(numbers), shortest=False), "malformed"),
        ("the length of r in BER", sequence(element(2, contents_of(r), shortest=False), numbers[1]), "malformed"),
        ("the length of s in BER", sequence(numbers[0], element(2, contents_of(s), shortest=False)), "malformed"),
        ("a zero in front of r", sequence(element(2, b"\0" + contents_of(r)), numbers[1]), "malformed"),
        ("a zero in front of s", sequence(numbers[0], element(2, b"\0" + contents_of(s))), "malformed"),
        ("r is empty", sequence(b"\2\0", numbers[1]), "malformed"),
        ("s is empty", sequence(numbers[0], b"\2\0"), "malformed"),
        ("r is a BOOLEAN", sequence(element(1, contents_of(r)), numbers[1]), "malformed"),
        ("both as octets", r.to_bytes(length, "big") + s.to_bytes(length, "big"), "malformed"),
        ("a BIT STRING", element(3, b"\0" + own), "malformed"),
    ):
        yield one.question(label, signature, verdict)
    if one.kind == "p521":
        # Two numbers of 66 octets: 138 octets in all, whose length takes two, and one of three octets isn't DER.
        yield one.question("a length of two octets where one does", b"\x30\x82\0" + bytes([len(own) - 3]) + own[3:],
            "malformed")


def ecdsa_edges(one):
    """Signatures at the edges of the numbers, and the keys that they are of."""
    curve, generator = one.curve, one.curve.generator
    for label, point, s in (
        ("s is 1, and true", generator, 1), ("s is the highest, and true", generator, curve.order - 1),
        ("s is 2, and true", generator, 2),
        ("r is the least, and true", curve.least(1), 5), ("r is the least, and s 1", curve.least(1), 1),
        # Its first coordinate is above the order, and r is what is over.
        ("r is what is over, and true", curve.least(curve.order + 1), 7),
    ):
        key, numbers = curve.key_for(point, s, one.digest)
        yield one.question(label, pair(*numbers), "accept", curve.octets(key))
        yield one.question(f"{label}, one above", pair(numbers[0], s + 1),
            "malformed" if s + 1 == curve.order else "reject", curve.octets(key))


def ecdsa_keys(one):
    """Other octets in the place of the key, with its signature."""
    curve, (x, y), length = one.curve, one.point, one.curve.length()
    small = curve.least(5)

    def coordinates(first, second, head=4):
        return bytes([head]) + first.to_bytes(length, "big") + second.to_bytes(length, "big")

    off = next(candidate for candidate in range(1, 100) if curve.y_of(candidate) is None)
    rows = [
        ("compressed", curve.compressed(one.point), "accept"),
        ("compressed, the other y", bytes([2 + (y + 1) % 2]) + x.to_bytes(length, "big"), "reject"),
        ("the other y", curve.octets(curve.opposite(one.point)), "reject"),
        ("the generator", curve.octets(curve.generator), "reject"),
        ("a small x", curve.octets(small), "reject"), ("a small x, compressed", curve.compressed(small), "reject"),
        ("hybrid", coordinates(x, y, 6 + y % 2), None), ("hybrid, the other y", coordinates(x, y, 7 - y % 2), None),
        ("infinity", b"\0", None), ("infinity in full", bytes(1 + 2 * length), None), ("nothing", b"", None),
        ("04 alone", b"\4", None),
        ("zeros", coordinates(0, 0), None),
        ("a zero x, compressed", bytes([2]) + bytes(length), "reject" if curve.y_of(0) is not None else None),
        ("off the curve", coordinates(x, (y + 1) % curve.prime), None), ("exchanged", coordinates(y, x), None),
        ("no such x", bytes([2]) + off.to_bytes(length, "big"), None),
        ("no such x, the other head", bytes([3]) + off.to_bytes(length, "big"), None),
        ("x is the prime", coordinates(curve.prime, y), None), ("y is the prime", coordinates(x, curve.prime), None),
        ("ones", coordinates(256**length - 1, 256**length - 1), None),
        ("x is the prime, compressed", bytes([2]) + curve.prime.to_bytes(length, "big"), None),
        ("cut", one.octets[:-1], None), ("an octet behind", one.octets + b"\0", None),
        ("an octet behind, compressed", curve.compressed(one.point) + b"\0", None),
        ("without the head", one.octets[1:], None), ("another head", b"\5" + one.octets[1:], None),
        ("04 and x", b"\4" + x.to_bytes(length, "big"), None),
        ("02 and both", b"\2" + one.octets[1:], None), ("an OCTET STRING", element(4, one.octets), None),
        ("a BIT STRING", element(3, b"\0" + one.octets), None),
        ("secp256k1", SECP256K1, None), ("brainpoolP256r1", BRAINPOOL, None),
        ("brainpoolP256r1 in PEM", b"\n" + pem("PUBLIC KEY", key_info(POINTS["brainpool"], BRAINPOOL)), None),
        *((f"a point of {kind}", Curve.named(kind).octets(Curve.named(kind).generator),
        None) for kind in DIGESTS if kind != one.kind),
        *((label, octets, None) for label, octets in in_pem(POINTS[one.kind], one.octets, one.octets)),
    ]
    for label, first, second in ("x and the prime", small[0] + curve.prime, small[1]), ("y and the prime", x,
            y + curve.prime):
        if max(first, second) < 256**length:
            rows.append((label, coordinates(first, second), None))
    if small[0] + curve.prime < 256**length:
        rows.append(("x and the prime, compressed", bytes([2]) + (small[0] + curve.prime).to_bytes(length, "big"),
            None))
    for label, octets, verdict in rows:
        yield one.question(label, pair(one.r, one.s), verdict, octets)


# Ed25519.

# RFC 8032 7.1, TEST 2.
KNOWN_KEY = bytes.fromhex("3d4017c3e843895a92b70aa74d1b7ebc9c982ccf2ec4968cc0cd55f12af4660c")
KNOWN_SIGNATURE = bytes.fromhex(
    "92a009a9f0d4cab8720e820b5f642540a2b27b5416503f8fb3762223ebdb69da"
    "085ac1e43e15996e458f3613d0f11d8c387b2eaeb4302aeeb00d291612bb0c00")
KNOWN_MESSAGE = b"\x72"


def little(one):
    return one.to_bytes(32, "little")


def edwards_question(label, key, signature, verdict, message=KNOWN_MESSAGE):
    return Hostile(f"ed25519, {label}", "ed25519", key, signature, verdict, message)


def ed25519_signatures():
    first, s = KNOWN_SIGNATURE[:32], int.from_bytes(KNOWN_SIGNATURE[32:], "little")
    for label, signature, verdict in (
        ("RFC 8032, TEST 2", KNOWN_SIGNATURE, "accept"), ("S is 0", first + bytes(32), "reject"),
        ("S is the highest", first + little(ED25519_ORDER - 1), "reject"),
        ("S is the order", first + little(ED25519_ORDER), "malformed"),
        ("S and the order", first + little(s + ED25519_ORDER), "malformed"),
        ("S and seven times the order", first + little(s + 7 * ED25519_ORDER), "malformed"),
        ("S is high", first + b"\xff" * 32, "malformed"),
        ("the highest bit of S", first + little(s + (1 << 255)), "malformed"),
        ("cut", KNOWN_SIGNATURE[:-1], "malformed"),
        ("an octet behind", KNOWN_SIGNATURE + b"\0", "malformed"), ("nothing", b"", "malformed"),
        ("in DER", pair(1, s), "malformed"),
        ("the other sign of R", first[:31] + bytes([first[31] ^ 0x80]) + KNOWN_SIGNATURE[32:], "reject"),
        ("zeros", bytes(64), "reject"),
        ("exchanged", KNOWN_SIGNATURE[32:] + bytes(32), "reject"),
    ):
        yield edwards_question(label, KNOWN_KEY, signature, verdict)
    yield edwards_question("another message", KNOWN_KEY, KNOWN_SIGNATURE, "reject", b"\x73")


def ed25519_randoms():
    """Signatures by a known secret whose R is a point of small order, in its own octets and in others."""
    secret = 2**254 + 8 * 12_345
    key = edwards_octets(edwards_times(secret, BASE))
    for label, random_octets, verdict in (
        ("R is the point of order 1", little(1), "accept"),
        ("R is that point, its y not below the prime", little(ED25519_PRIME + 1), "reject"),
        ("R is that point, with a sign", little(1 | 1 << 255), "reject"),
    ):
        s = challenge(random_octets, key, MESSAGE) * secret % ED25519_ORDER
        yield edwards_question(label, key, random_octets + little(s), verdict, MESSAGE)
    # A key of which a part has order 8: RFC 8032 5.1.7 takes either equation; this is the one without the factor 8.
    mixed = edwards_sum(edwards_times(secret, BASE), curve_points.points_of_small_order()[1])
    for number in range(1, 40):
        random_octets = edwards_octets(edwards_times(number, BASE))
        found = challenge(random_octets, edwards_octets(mixed), MESSAGE)
        signature = random_octets + little((number + found * secret) % ED25519_ORDER)
        yield edwards_question(f"a key of which a part has order 8, {number}", edwards_octets(mixed), signature,
            "reject" if found % 8 else "accept", MESSAGE)


def forged(key, order):
    """A signature that anyone makes under a key of this order: one where the multiple of the key is none."""
    number = 1
    while challenge(edwards_octets(edwards_times(number, BASE)), key, MESSAGE) % order:
        number += 1
    return edwards_octets(edwards_times(number, BASE)) + little(number)


def ed25519_keys():
    one = int.from_bytes(KNOWN_KEY, "little")
    y = one % 2**255
    off = next(candidate for candidate in range(2, 100) if curve_points.edwards_x(candidate) is None)
    for place, point in enumerate(curve_points.points_of_small_order()):
        for head in 0, 1 << 255:
            octets = little(int.from_bytes(edwards_octets(point), "little") ^ head)
            yield edwards_question(f"{place} times a point of order 8, {'the other sign' if head else 'its sign'}",
                octets, forged(octets, 8), None, MESSAGE)
    for over in range(19):
        for sign in 0, 1 << 255:
            octets = little(ED25519_PRIME + over | sign)
            yield edwards_question(f"y is the prime and {over}", octets, forged(octets, 8), None, MESSAGE)
    for label, octets in (
        ("no point", little(off)), ("no point, with a sign", little(off | 1 << 255)), ("ones", b"\xff" * 32),
        ("nothing", b""), ("31 octets", KNOWN_KEY[:31]),
        ("33 octets", KNOWN_KEY + b"\0"), ("an OCTET STRING", element(4, KNOWN_KEY)), ("twice", KNOWN_KEY * 2),
        ("a point of P-256", Ecdsa("p256").octets),
        *in_pem(ED25519_KEY, KNOWN_KEY, KNOWN_KEY),
    ):
        yield edwards_question(label, octets, KNOWN_SIGNATURE, None)
    yield edwards_question("the other sign of the key", little(one ^ 1 << 255), KNOWN_SIGNATURE, "reject")
    yield edwards_question("the first octets of another point",
        little(next(each for each in range(y + 1, y + 100) if curve_points.edwards_x(each))), KNOWN_SIGNATURE, "reject")


def parts():
    for part in rsa_signatures, rsa_lengths, rsa_numbers, rsa_encodings:
        yield from part()
    for part in ed25519_signatures, ed25519_randoms, ed25519_keys:
        yield from part()
    for kind in DIGESTS:
        one = Ecdsa(kind)
        for part in ecdsa_signatures, ecdsa_edges, ecdsa_keys:
            yield from part(one)


@lru_cache(maxsize=None)
def questions():
    """All of them."""
    return tuple(parts())
