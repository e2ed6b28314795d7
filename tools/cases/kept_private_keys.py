#!/usr/bin/env python3
"""What is kept of private keys that are read or put together, under the demonstration scheme.

Usage:

    python3 tools/cases/kept_private_keys.py --check

has openssl (3.0 or later) write the public key of each key of RSA and of each
point in `private_key_rows.txt`, and prints where it differs from that of a line
here; and has it read what is written of each key there, and prints where that
key is another.

The rows of `xgolden_value` on private keys and their lines, beside those of
`xgolden_value`.  A line has the kind, the octets in PKCS #8, whether a copy is
equal, whether what is read of these octets is, the octets in PKCS #1 and those
of the public key, or why there are none.
"""

import sys
from hashlib import sha256
from pathlib import Path

sys.path.insert(0, str(Path(__file__).resolve().parents[1]))

from cases import structure_rows as structures
from common import command
from common.openssl import openssl
from interop import private_keys
from interop.oid_table import contents
from judges.der_reader import Constructed, Primitive, read_exact, write
from judges.value_reader import KINDS, Shape, unread, word

RSA, EC = contents("1.2.840.113549.1.1.1"), contents("1.2.840.10045.2.1")
FIELDS = {contents(text): (bits + 7) // 8 for _, text, bits in structures.CURVES}
KNOWN_ED = [contents(text) for _, text, *_ in structures.ED_ALGORITHMS]
NULL = Primitive(5, b"")

NOT_RSA = "RSA error: the key is of another kind than RSA"
NO_CURVE = "EC error: the key names no curve"
NO_PARAMETERS = "EC error: the parameters name no curve"
NO_COORDINATE = "EC error: a coordinate hasn't as many octets as the field of the curve"
SIZE = "error: the secret hasn't as many octets as its curve or algorithm asks for"
MISSING = "error: the private key has no public key"


class Refused(Exception):
    """Why a key isn't kept."""


def sequence(*kids):
    return Constructed(0x30, kids)


def bits(octets):
    return Primitive(3, b"\0" + octets)


def key_line(kind, info, public, pkcs1=NOT_RSA, again=True):
    """`public` is the element of the public key, or why there is none."""
    half = public if isinstance(public, str) else write(public).hex()
    return f"{kind} {write(info).hex()} true {str(again).lower()} {pkcs1}; {half}"


def rsa_line(info, key):
    """The first two numbers after the version are those of the public key (RFC 8017 A.1.2)."""
    _, modulus, exponent, *_ = key.kids
    public = sequence(sequence(Primitive(6, RSA), NULL), bits(write(sequence(modulus, exponent))))
    return key_line("Rsa", info, public, write(key).hex())


def parts_of(key):
    """Secret, curve and point of an ECPrivateKey (RFC 5915 3); the point is a BIT STRING."""
    _, secret, *others = key.kids
    fields = {field.tag: field.kids[0] for field in others}
    return secret.contents, fields.get(0xA0), fields.get(0xA1)


def ec_key_line(curve, secret, named, point, again=True, derive=True):
    """A key that is written anew: `named` says whether the curve stands in its ECPrivateKey."""
    curve_element = Primitive(6, curve)
    algorithm = sequence(Primitive(6, EC), curve_element)
    fields = [Primitive(2, b"\1"), Primitive(4, secret)]
    fields += [Constructed(0xA0, (curve_element,))] if named else []
    fields += [Constructed(0xA1, (point,))] if point else []
    if derive and not point and curve in FIELDS:
        if len(secret) != FIELDS[curve]:
            raise Refused(f"EC {SIZE}")
        point = bits(b"\4" + secret + secret)
    public = sequence(algorithm, point) if point else f"EC {MISSING}"
    info = sequence(Primitive(2, b"\0"), algorithm, Primitive(4, write(sequence(*fields))))
    return key_line("Ec", info, public, again=again)


def read_ec_line(curve, key):
    secret, named, point = parts_of(key)
    return ec_key_line(curve, secret, named is not None, point)


def ed_line(info, oid, secret):
    if oid not in KNOWN_ED:
        return key_line("Ed", info, f"ED {MISSING}")
    if len(secret) != 32:
        raise Refused(f"ED {SIZE}")
    return key_line("Ed", info, sequence(sequence(Primitive(6, oid)), bits(sha256(secret).digest())))


def pkcs8_line(info):
    KINDS["private_key_info"](info)
    _, algorithm, key, *_ = info.kids
    oid, *parameters = algorithm.kids
    inner = read_exact(key.contents)
    if oid.contents == RSA:
        return rsa_line(info, inner)
    if oid.contents != EC:
        return ed_line(info, oid.contents, inner.contents)
    try:
        KINDS["identifier"](parameters[0])
    except (IndexError, Shape):
        raise Refused(NO_PARAMETERS) from None
    return read_ec_line(parameters[0].contents, inner)


def pkcs1_line(key):
    KINDS["rsa_private_key"](key)
    algorithm = sequence(Primitive(6, RSA), NULL)
    return rsa_line(sequence(Primitive(2, b"\0"), algorithm, Primitive(4, write(key))), key)


def sec1_line(key):
    KINDS["ec_private_key"](key)
    _, named, _ = parts_of(key)
    if named is None:
        raise Refused(NO_CURVE)
    return read_ec_line(named.contents, key)


def sec1_on_line(curve):
    def line(key):
        KINDS["ec_private_key"](key)
        return read_ec_line(curve, key)
    return line


def refused_line(curve):
    """The same under a scheme that derives nothing."""
    def line(key):
        secret, _, point = parts_of(key)
        if point is None and len(secret) == FIELDS[curve]:
            raise Refused("EC error: the signature scheme derives no public key")
        return sec1_on_line(curve)(key)
    return line


def read_line(element, octets, line):
    try:
        return unread(element, octets, line)
    except Refused as refusal:
        return str(refusal)


def stored(wanted):
    """What openssl made."""
    rows = private_keys.rows_of(private_keys.STORED.read_text(encoding="ascii"))
    return [octets for kind, _, octets in rows if kind == wanted]


def octets_of(*lists):
    return [bytes.fromhex(octets) for rows in lists for octets, _ in rows]


def bare(key):
    """An ECPrivateKey without its curve and point."""
    return write(sequence(*read_exact(key).kids[:2]))


def stored_rsa():
    """Keys of RSA that openssl made, without their algorithm."""
    kids = [read_exact(octets).kids for octets in stored("private_key_info")]
    return [key.contents for _, algorithm, key, *_ in kids if algorithm.kids[0].contents == RSA]


def read_rows():
    none = octets_of(structures.NO_ELEMENTS)
    infos = octets_of(structures.PRIVATE_KEY_INFOS, structures.NO_PRIVATE_KEY_INFOS, structures.ED_SECRETS)
    for octets in infos + stored("private_key_info") + none:
        yield f"private pkcs8 {word(octets)}", read_line("private key info (pkcs8)", octets, pkcs8_line)
    rsa = octets_of(structures.RSA_PRIVATE_KEYS, structures.NO_RSA_PRIVATE_KEYS) + stored_rsa()
    for octets in rsa + none:
        yield f"private pkcs1 {word(octets)}", read_line("rsa private key", octets, pkcs1_line)
    curves = stored("ec_private_key")
    keys = octets_of(structures.EC_PRIVATE_KEYS, structures.NO_EC_PRIVATE_KEYS) + curves
    keys += list(map(bare, curves)) + none
    for octets in keys:
        yield f"private sec1 {word(octets)}", read_line("ec private key", octets, sec1_line)
    readable = octets_of(structures.EC_PRIVATE_KEYS) + curves + list(map(bare, curves))
    for curve in [*FIELDS, contents("1.3.132.0.10")]:
        for octets in readable + none[:1]:
            line = read_line("ec private key", octets, sec1_on_line(curve))
            yield f"private sec1_on {word(curve)} {word(octets)}", line
            if curve in FIELDS:
                yield f"private sec1_on_known {word(curve)} {word(octets)}", line
    for curve in FIELDS:
        for octets in map(bare, curves):
            line = read_line("ec private key", octets, refused_line(curve))
            yield f"private refused {word(curve)} {word(octets)}", line


def made_line(curve, secret, point):
    again = bool(point) or curve not in FIELDS
    return ec_key_line(curve, secret, True, bits(point) if point is not None else None, again, False)


def made_rows():
    for curve, x, y, _ in structures.COORDINATES:
        curve, x, y = contents(curve), bytes.fromhex(x), bytes.fromhex(y)
        secret = x[:5]
        fits = len(x) == len(y) == FIELDS[curve]
        line = made_line(curve, secret, b"\4" + x + y) if fits else NO_COORDINATE
        yield f"private coordinates {word(curve)} {word(secret)} {word(x)} {word(y)}", line
    for curve in [*FIELDS, contents("1.2.3")]:
        for point in None, b"\4", b"\4\xaa\xbb":
            secret = bytes(range(32))
            asked = "none" if point is None else word(point)
            yield f"private ec_encoded {word(curve)} {word(secret)} {asked}", made_line(curve, secret, point)
    for text in "1.3.101.110", "1.3.101.111", "1.3.101.112", "1.3.101.113":
        for secret in bytes(range(32)), b"\xaa":
            for public in None, b"\xbb":
                yield made_ed_row(contents(text), secret, public)


def made_ed_row(oid, secret, public):
    """A given public key is beside the secret, and the version is 1 (RFC 5958 2)."""
    algorithm = sequence(Primitive(6, oid))
    beside = () if public is None else (Primitive(0x81, b"\0" + public),)
    version = b"\0" if public is None else b"\1"
    info = sequence(Primitive(2, version), algorithm, Primitive(4, write(Primitive(4, secret))), *beside)
    half = f"ED {MISSING}" if public is None else sequence(algorithm, bits(public))
    # What is read derives its public key, or has none.
    again = public is None and oid not in KNOWN_ED
    asked = "none" if public is None else word(public)
    return f"private ed_encoded {word(oid)} {word(secret)} {asked}", key_line("Ed", info, half, again=again)


def kept_rows():
    yield from read_rows()
    yield from made_rows()


def public_of(octets):
    """The public key of a private one, as openssl writes it."""
    return openssl("pkey", "-inform", "DER", "-pubout", "-outform", "DER", given=octets)


def differences():
    lines = [(octets, pkcs8_line) for octets in stored("private_key_info")]
    lines += [(octets, sec1_line) for octets in stored("ec_private_key")]
    lines += [(octets, pkcs1_line) for octets in stored_rsa()]
    for octets, line in lines:
        said = public_of(octets)
        kind, written, *_, half = line(read_exact(octets)).split()
        if public_of(bytes.fromhex(written)) != said:
            yield f"openssl reads another key in what is written of {octets.hex()[:40]}"
        # The scheme derives other keys than openssl does.
        if kind != "Ed" and (kind == "Rsa" or len(octets) > 100) and half != said.hex():
            yield f"openssl writes another public key of {octets.hex()[:40]}"


def main(words):
    if words != ["--check"]:
        return command.usage(__doc__)
    found = list(differences())
    print("\n".join(found) or "openssl writes the same public keys, and reads what is written")
    return 1 if found else 0


if __name__ == "__main__":
    command.run(main, __doc__)
