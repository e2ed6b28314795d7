"""Rows of signatures for `xgolden_value`, and their lines: algorithms by their identifiers, what
private keys sign, what is reported of signatures, identifiers of keys, and what is borrowed of keys.

The rules are those of `docs/FORMATS.md`, digests are made by Python's hashlib.
"""

import hashlib
from typing import NamedTuple

from cases import structure_rows as structures
from interop.oid_table import contents
from judges.der_reader import Constructed, Primitive, read_exact, write
from judges.value_reader import dotted, word

DIGESTS = {
    "MD5": "md5", "SHA-1": "sha1", "SHA-224": "sha224",
    "SHA-256": "sha256", "SHA-384": "sha384", "SHA-512": "sha512",
}

# Identifiers as openssl writes them in certificates that it signs by the algorithm.
IDENTIFIERS = [
    ("rsa:MD5", "300d06092a864886f70d0101040500"),
    ("rsa:SHA-1", "300d06092a864886f70d0101050500"),
    ("rsa:SHA-224", "300d06092a864886f70d01010e0500"),
    ("rsa:SHA-256", "300d06092a864886f70d01010b0500"),
    ("rsa:SHA-384", "300d06092a864886f70d01010c0500"),
    ("rsa:SHA-512", "300d06092a864886f70d01010d0500"),
    ("ecdsa:SHA-256", "300a06082a8648ce3d040302"),
    ("ecdsa:SHA-384", "300a06082a8648ce3d040303"),
    ("ecdsa:SHA-512", "300a06082a8648ce3d040304"),
    ("ed25519", "300506032b6570"),
]

# Parameters aren't looked at.
OTHER_PARAMETERS = [
    ("rsa:SHA-256", "300b06092a864886f70d01010b", "RSA without parameters"),
    ("ecdsa:SHA-384", "300c06082a8648ce3d0403030500", "ECDSA with NULL"),
    ("ed25519", "300806032b6570020101", "Ed25519 with an INTEGER"),
]

NO_ALGORITHMS = [
    ("1.2.840.113549.1.1.1", "keys of RSA"),
    ("1.2.840.10045.2.1", "keys of curves"),
    ("1.2.840.10045.4.1", "ECDSA with SHA-1"),
    ("1.2.840.10045.4.3.1", "ECDSA with SHA-224"),
    ("1.2.840.113549.1.1.16", "RSA with SHA-512/256"),
    ("1.2.840.113549.1.1.10", "RSASSA-PSS"),
    ("2.16.840.1.101.3.4.2.1", "a digest"),
    ("1.3.101.113", "Ed448"),
    ("1.3.101.110", "X25519"),
    ("2.16.840.1.101.3.4.3.17", "ML-DSA-44"),
]

RSA, EC = contents("1.2.840.113549.1.1.1"), contents("1.2.840.10045.2.1")
P256, P384, P521 = (contents(text) for _, text, _ in structures.CURVES)
NAMES = {contents(text): name for name, text, _ in structures.CURVES}
FIELDS = {contents(text): (bits + 7) // 8 for _, text, bits in structures.CURVES}
K256 = contents("1.3.132.0.10")
ED25519, X25519 = contents("1.3.101.112"), contents("1.3.101.110")
ED448, X448 = contents("1.3.101.113"), contents("1.3.101.111")
MLDSA = contents("2.16.840.1.101.3.4.3.17")

# Which curve signs which digest, and what a scheme calls it.
PAIRED = {"SHA-256": P256, "SHA-384": P384, "SHA-512": P521}
ON_CURVES = {P256: "p256-sha256", P384: "p384-sha384", P521: "p521-sha512"}

NOT_RSA = "Key error: RSA error: the key is of another kind than RSA"
NOT_EC = "Key error: EC error: the key is of another kind than one of an elliptic curve"
NOT_ED = "Key error: ED error: the key is of another kind than one of a curve 25519 or 448"
NO_CURVE = "Key error: EC error: the curve isn't supported"
NO_ED = "Key error: ED error: the algorithm on a curve 25519 or 448 isn't supported"
MISSING = "error: the private key has no public key"
SECRET_SIZE = "Key error: EC error: the secret hasn't as many octets as its curve or algorithm asks for"
KEY_SIZE = "ED error: the key hasn't 32 octets"
AGREEMENT = "ED error: the key isn't one for signatures"
BAD = "invalid signature"
TOO_DEEP = (
    "(ASN1) couldn't serialize subject public key info: "
    "the tree is nested deeper than 64 levels and cannot be written")


class Key(NamedTuple):
    """A private key: the identifier of its curve or algorithm, its secret, its public key if there is one."""
    kind: str
    oid: bytes
    secret: bytes
    public: bytes | None


class Told(Exception):
    """What is told in place of a signature."""


def element(octets):
    return read_exact(bytes.fromhex(octets))


def rsa(modulus):
    """A secret with which nothing is computed, and its public key."""
    secret = element(f"301b0201000201{modulus}02010302010502010702010b020101020102020104")
    _, number, exponent, *_ = secret.kids
    return Key("rsa", RSA, write(secret), write(Constructed(0x30, (number, exponent))))


def on(curve, size=None, point=True):
    secret = bytes(range(FIELDS.get(curve, 32) if size is None else size))
    return Key("ec", curve, secret, b"\4" + 2 * secret if point else None)


def ed(oid, secret=32, public=32):
    return Key("ed", oid, bytes(range(secret)), None if public is None else bytes(range(public)))


def ed_pair(oid):
    """With the public key that the demonstration scheme derives."""
    key = ed(oid)
    return key._replace(public=hashlib.sha256(key.secret).digest())


def key_call(key):
    """How the key is made."""
    if key.kind == "rsa":
        return f"pkcs1 {word(key.secret)}"
    public = "none" if key.public is None else word(key.public)
    return f"{key.kind}_encoded {word(key.oid)} {word(key.secret)} {public}"


def spki(kind, oid, octets, unused=0):
    """A public key as SubjectPublicKeyInfo, with so many unused bits."""
    parameters = {"rsa": (Primitive(5, b""),), "ec": (Primitive(6, oid),)}.get(kind, ())
    algorithm = Constructed(0x30, (Primitive(6, EC if kind == "ec" else oid), *parameters))
    return write(Constructed(0x30, (algorithm, Primitive(3, bytes([unused]) + octets))))


def parts(algorithm):
    """The kind of the keys of an algorithm, and its digest."""
    kind, _, digest = algorithm.partition(":")
    return {"rsa": "rsa", "ecdsa": "ec", "ed25519": "ed"}[kind], digest


def name_of(kind, digest):
    """What a scheme calls the algorithm."""
    if kind == "ed":
        return "ed25519"
    return ON_CURVES[PAIRED[digest]] if kind == "ec" else f"rsa-{DIGESTS[digest]}"


def demo_key(key):
    """The public key that the demonstration scheme derives from a secret."""
    if key.kind == "rsa":
        return key.public
    return b"\4" + 2 * key.secret if key.kind == "ec" else hashlib.sha256(key.secret).digest()


def demo_signature(name, public, message):
    return hashlib.sha256(name.encode() + b"\0" + hashlib.sha256(public).digest() + message).digest()


# ---- signing: the first of the refusals that applies

def fit_secret(algorithm, key):
    """Refuses a private key that isn't one for the algorithm."""
    kind, digest = parts(algorithm)
    if key.kind != kind:
        raise Told({"rsa": NOT_RSA, "ec": NOT_EC, "ed": NOT_ED}[kind])
    if kind == "ec":
        if key.oid not in FIELDS:
            raise Told(NO_CURVE)
        if PAIRED.get(digest) != key.oid:
            raise Told(f"unsupported algorithm: {NAMES[key.oid]} with {digest}")
        if len(key.secret) != FIELDS[key.oid]:
            raise Told(SECRET_SIZE)
    if kind == "ed":
        if key.public is None:
            raise Told(f"Key error: ED {MISSING}")
        fit_ed(key.oid, len(key.public) == len(key.secret) == 32)


def fit_ed(oid, sized):
    if oid == X25519:
        raise Told(AGREEMENT)
    if oid != ED25519:
        raise Told(NO_ED)
    if not sized:
        raise Told(KEY_SIZE)


def refused(kind):
    return f"{kind.upper()} error: the signature scheme refused"


def sign_line(algorithm, key, message):
    """Under the demonstration scheme, then under a table of no rows, which signs nothing."""
    kind, digest = parts(algorithm)
    try:
        fit_secret(algorithm, key)
    except Told as told:
        return f"{told}; {told}"
    signature = demo_signature(name_of(kind, digest), demo_key(key), message)
    if key.public is None:
        return f"{signature.hex()} {kind.upper()} {MISSING}; {refused(kind)}"
    told = verdict(algorithm, (kind, key.oid, key.public), message, signature)
    return f"{signature.hex()} {told}; {refused(kind)}"


# ---- verifying

def fit_key(algorithm, key):
    kind, digest = parts(algorithm)
    of, oid, octets = key
    if of != kind:
        raise Told({"rsa": f"Key error: unsupported algorithm: {called(of)}", "ec": NOT_EC, "ed": NOT_ED}[kind])
    if kind == "ec":
        if oid not in FIELDS:
            raise Told(NO_CURVE)
        if digest not in PAIRED:
            raise Told(f"unsupported algorithm: {digest}")
        if PAIRED[digest] != oid:
            raise Told(f"unsupported algorithm: {NAMES[oid]} with {digest}")
    if kind == "ed":
        fit_ed(oid, len(octets) == 32)


def called(kind):
    return "ML-DSA" if kind == "mldsa" else kind.upper()


def verdict(algorithm, key, message, signature):
    """Under the demonstration scheme."""
    kind, digest = parts(algorithm)
    try:
        fit_key(algorithm, key)
    except Told as told:
        return str(told)
    if len(signature) != 32:
        return f"{kind.upper()} error: the signature is malformed"
    name = name_of(kind, digest)
    return "accepted" if signature == demo_signature(name, key[2], message) else BAD


def verify_line(algorithm, key, message, signature):
    """A table of no rows rejects every signature."""
    try:
        fit_key(algorithm, key)
        table = BAD
    except Told as told:
        table = str(told)
    return f"{verdict(algorithm, key, message, signature)}; {table}"


# ---- rows

MESSAGE = b"message"

# Each algorithm, and a private key that is one for it.
FITTING = [(f"rsa:{digest}", rsa("11")) for digest in DIGESTS]
FITTING += [(f"ecdsa:{digest}", on(curve)) for digest, curve in PAIRED.items()]
FITTING += [("ed25519", ed_pair(ED25519))]

# Private keys, and why each is there: with each algorithm below.
PRIVATE = [
    (rsa("11"), "a small key"),
    (on(P256), "P-256"),
    (on(P384), "P-384"),
    (on(P521), "P-521"),
    (on(P256, point=False), "without a point"),
    (on(P256)._replace(public=b"\4\1\2"), "with another point"),
    (on(P256, 31), "an octet less than the field"),
    (on(P384, 2), "two octets"),
    (on(P521, 65), "an octet less than the field, as many as its bits divided by eight"),
    (on(K256), "secp256k1, which isn't known"),
    (ed_pair(ED25519), "Ed25519"),
    (ed(ED25519), "with another public key"),
    (ed(ED25519, public=None), "without a public key"),
    (ed(ED25519, 2, None), "without a public key, before the size"),
    (ed(ED25519, 33), "a secret with an octet more"),
    (ed(ED25519, 32, 31), "a public key with an octet less"),
    (ed(ED25519, 31, 33), "both, 64 together"),
    (ed_pair(X25519), "for agreement"),
    (ed(X25519, 2, None), "the public key before the algorithm"),
    (ed(X25519, 2, 2), "for agreement, before the size"),
    (ed(X448), "another algorithm, with 32 octets"),
    (ed(ED448, 2, 2), "another algorithm, before the size"),
    (ed(ED448, 2, None), "another algorithm, without a public key"),
]

ASKED = ["rsa:SHA-256", "rsa:MD5", "ecdsa:MD5", "ecdsa:SHA-224", "ecdsa:SHA-256", "ecdsa:SHA-384", "ecdsa:SHA-512", "ed25519"]

# Public keys: kind, identifier, octets, and why each is there.
PUBLIC = [
    ("rsa", RSA, rsa("11").public, "a small key"),
    ("ec", P256, on(P256).public, "P-256"),
    ("ec", P384, on(P384).public, "P-384"),
    ("ec", P521, b"\4\5\6", "P-521, which lies on no curve"),
    ("ec", K256, b"\4\1", "secp256k1, which isn't known"),
    ("ed", ED25519, bytes(range(32)), "Ed25519"),
    ("ed", ED25519, bytes(range(31)), "an octet less"),
    ("ed", ED25519, bytes(range(33)), "an octet more"),
    ("ed", X25519, bytes(range(32)), "for agreement"),
    ("ed", X25519, bytes(2), "for agreement, before the size"),
    ("ed", X448, bytes(range(32)), "another algorithm, with 32 octets"),
    ("ed", ED448, bytes(57), "another algorithm, before the size"),
    ("mldsa", MLDSA, bytes(range(4)), "ML-DSA-44"),
]


# Public keys whose bits have unused ones, and the algorithm of their signatures. What is digested, and
# what a scheme is handed, are the octets, with these bits (RFC 5280 4.2.1.2 leaves out their count alone).
UNUSED = [
    ("ecdsa:SHA-256", ("ec", P256, b"\4" + bytes(63) + b"\xf0"), 4, "a point, the unused bits 0"),
    ("ecdsa:SHA-384", ("ec", P384, b"\4\xff"), 7, "a point, the unused bits 1"),
    ("ed25519", ("ed", ED25519, bytes(31) + b"\xfe"), 1, "32 octets of Ed25519"),
    ("ed25519", ("ed", ED25519, bytes(31)), 3, "31 octets of Ed25519"),
]


def signatures_of(algorithm, key):
    """As the scheme makes it where the key is one for the algorithm, others, and some without its form."""
    kind, digest = parts(algorithm)
    try:
        fit_key(algorithm, key)
        good = demo_signature(name_of(kind, digest), key[2], MESSAGE)
    except Told:
        return [bytes(32), b""]
    return [good, good[:-1] + bytes([good[-1] ^ 1]), bytes(32), good[:31], good + b"\0", b""]


def variant(algorithm):
    """How `Debug` shows an algorithm."""
    kind, digest = parts(algorithm)
    hash_name = "MD5" if digest == "MD5" else "SHA1" if digest == "SHA-1" else digest.replace("-", "2_")
    return {"rsa": f"RsaPkcs1v15({hash_name})", "ec": f"Ecdsa({hash_name})", "ed": "Ed25519"}[kind]


def named_line(algorithm):
    written = dict(IDENTIFIERS)[algorithm]
    return f"{variant(algorithm)} {parts(algorithm)[1] or 'SHA-512'} {written}"


def identifier_rows():
    for algorithm, octets in IDENTIFIERS:
        yield f"signature named {octets}", named_line(algorithm)
        yield f"signature written {algorithm}", octets
    for algorithm, octets, _ in OTHER_PARAMETERS:
        yield f"signature named {octets}", named_line(algorithm)
    for text, _ in NO_ALGORITHMS:
        octets = write(Constructed(0x30, (Primitive(6, contents(text)),)))
        yield f"signature named {word(octets)}", f"unsupported algorithm: {text}"
    for digest in "MD5", "SHA-1", "SHA-224":
        yield f"signature written ecdsa:{digest}", "EC error: the digest algorithm isn't supported"


def signed_rows():
    for algorithm, key in FITTING:
        for message in MESSAGE, b"":
            yield f"signature sign {algorithm} {word(message)} {key_call(key)}", sign_line(algorithm, key, message)
    for algorithm in ASKED:
        for key, _ in PRIVATE:
            yield f"signature sign {algorithm} {word(MESSAGE)} {key_call(key)}", sign_line(algorithm, key, MESSAGE)


def read_key_rows():
    """Keys that are read: of RSA, and of Ed25519, whose public key is the one that is derived."""
    key = rsa("11")
    info = write(Constructed(0x30, (
        Primitive(2, b"\0"), Constructed(0x30, (Primitive(6, RSA), Primitive(5, b""))), Primitive(4, key.secret))))
    yield f"signature sign rsa:SHA-256 {word(MESSAGE)} pkcs8 {word(info)}", sign_line("rsa:SHA-256", key, MESSAGE)
    for octets in (octets for octets, why in structures.PRIVATE_KEY_INFOS if "RFC 8410" in why):
        _, _, inner, *_ = element(octets).kids
        secret = read_exact(inner.contents).contents
        key = Key("ed", ED25519, secret, hashlib.sha256(secret).digest())
        yield f"signature sign ed25519 {word(MESSAGE)} pkcs8 {octets}", sign_line("ed25519", key, MESSAGE)


def verified_rows():
    for algorithm, key in FITTING:
        public = (key.kind, key.oid, key.public)
        yield from verify_rows_of(algorithm, public)
    for algorithm in ASKED:
        for *public, _ in PUBLIC:
            yield from verify_rows_of(algorithm, public)
    # What one key signs isn't accepted under another, nor by another algorithm.
    good = demo_signature("rsa-sha256", rsa("11").public, MESSAGE)
    for algorithm, key in ("rsa:SHA-256", rsa("12")), ("rsa:SHA-1", rsa("11")):
        yield verify_row(algorithm, ("rsa", RSA, key.public), good)
    for algorithm, public, unused, _ in UNUSED:
        yield from verify_rows_of(algorithm, public, unused)


def verify_rows_of(algorithm, public, unused=0):
    for signature in signatures_of(algorithm, public):
        yield verify_row(algorithm, public, signature, unused)


def verify_row(algorithm, public, signature, unused=0):
    row = f"signature verify {algorithm} {word(spki(*public, unused))} {word(MESSAGE)} {word(signature)}"
    return row, verify_line(algorithm, public, MESSAGE, signature)


def key_id_rows():
    """Of the whole SubjectPublicKeyInfo, and the first 160 bits of the digest of the octets in its bits."""
    keys = [key for *key, _ in PUBLIC]
    rows = [(key, 0) for key in (keys[0], keys[1], keys[5], keys[12])]
    for (kind, oid, octets), unused in rows + [(key, unused) for _, key, unused, _ in UNUSED]:
        whole = spki(kind, oid, octets, unused)
        for digest, algorithm in DIGESTS.items():
            made = hashlib.new(algorithm, whole).hexdigest()
            yield f"signature key_id whole {digest} {word(whole)}", made
            made = hashlib.new(algorithm, octets).hexdigest()[:40]
            if digest == "MD5":
                made = f"invalid key: unsupported algorithm: {called(kind)}"
            yield f"signature key_id leftmost {digest} {word(whole)}", made
    yield from deep_key_rows()


def nested(levels):
    """An element of so many levels."""
    value = Primitive(5, b"")
    for _ in range(levels - 1):
        value = Constructed(0x30, (value,))
    return value


def deep_key_rows():
    """A key of Ed25519 whose algorithm has deep parameters: its SubjectPublicKeyInfo has a level more, 65 aren't written."""
    octets = bytes(range(32))
    for levels in 62, 63:
        algorithm = Constructed(0x30, (Primitive(6, ED25519), nested(levels)))
        key = f"{word(write(algorithm))} {word(octets)}"
        for digest, called_in_python in DIGESTS.items():
            whole = f"invalid key: {TOO_DEEP}"
            if levels == 62:
                info = write(Constructed(0x30, (algorithm, Primitive(3, b"\0" + octets))))
                whole = hashlib.new(called_in_python, info).hexdigest()
            yield f"signature key_id whole {digest} {key}", whole
            bits = hashlib.new(called_in_python, octets).hexdigest()[:40]
            if digest == "MD5":
                bits = f"invalid key: unsupported algorithm: {called('ed')}"
            yield f"signature key_id leftmost {digest} {key}", bits


# ---- what is lent

SHORT_NOT_EC, SHORT_NOT_ED = NOT_EC.removeprefix("Key error: "), NOT_ED.removeprefix("Key error: ")


def curve_text(oid):
    return f"{NAMES.get(oid, f'Unsupported(OID: {dotted(oid)})')} {dotted(oid)}"


def ed_text(oid):
    return {ED25519: "Ed25519", X25519: "X25519", ED448: "Ed448", X448: "X448"}[oid] + f" {dotted(oid)}"


def lent_public(kind, oid, octets):
    ec = f"{curve_text(oid)} {word(octets)}" if kind == "ec" else SHORT_NOT_EC
    ed_key = f"{ed_text(oid)} {word(octets)}" if kind == "ed" else SHORT_NOT_ED
    return f"{ec}; {ed_key}"


def lent_private(key):
    ec, ed_key = SHORT_NOT_EC, SHORT_NOT_ED
    if key.kind == "ec":
        public = f"EC {MISSING}" if key.public is None else f"{curve_text(key.oid)} {word(key.public)}"
        ec = f"{curve_text(key.oid)} {word(key.secret)} {public}"
    if key.kind == "ed":
        public = f"ED {MISSING}" if key.public is None else f"{ed_text(key.oid)} {word(key.public)}"
        ed_key = f"{ed_text(key.oid)} {word(key.secret)} {public}"
    return f"PrivateKey({key.kind.capitalize()}); {ec}; {ed_key}"


def view_rows():
    for *public, _ in PUBLIC:
        yield f"view public {word(spki(*public))}", lent_public(*public)
    for _, public, unused, _ in UNUSED:
        yield f"view public {word(spki(*public, unused))}", lent_public(*public)
    others = [on(contents("1.2.3"), 1, False), on(contents("1.2.3"), 0)]
    for key in [key for key, _ in PRIVATE] + others:
        yield f"view private {key_call(key)}", lent_private(key)


def signature_rows():
    yield from identifier_rows()
    yield from signed_rows()
    yield from read_key_rows()
    yield from verified_rows()
    yield from key_id_rows()
    yield from view_rows()
