"""What an authority issues: a maker of certificates and requests of its own.

Certificates are put together by RFC 5280 4.1 and 4.2, requests by RFC 2986 4, signatures of the
demonstration scheme by the rules of docs/FORMATS.md, digests by Python's hashlib.  Nothing is shared
with the program.

What is set of a certificate is a list of setters and their values: names and general names are
elements, certificates, requests and public keys octets, a date is the digits of its moment, from the
year to the second.
"""

from hashlib import new as digest_of

from cases import signature_rows as signatures
from cases.kept_certificates import fields_of, first
from cases.signature_rows import DIGESTS, EC, RSA, parts
from interop.oid_table import contents
from judges.der_reader import Constructed, Primitive, nesting, read_exact, write
from judges.value_reader import dotted, extension as read_extension

TOO_DEEP = "the tree is nested deeper than 64 levels and cannot be written"
DEEPEST = 64
WRITTEN = {name: read_exact(bytes.fromhex(octets)) for name, octets in signatures.IDENTIFIERS}
CALLED = {element.kids[0]: name for name, element in WRITTEN.items()}
ED = signatures.ED25519, signatures.X25519, signatures.ED448, signatures.X448


class Refused(Exception):
    """The name of an error and its text."""

    def __init__(self, name, text):
        super().__init__(name, text)
        self.name, self.text = name, text

    def __str__(self):
        return f"{self.name}: {self.text}"


def sequence(*kids):
    return Constructed(0x30, kids)


def oid(text):
    return Primitive(6, contents(text))


def bits(octets):
    return Primitive(3, b"\0" + octets)


# ---- schemes

class Demo:
    """The demonstration scheme."""

    word = "demo"

    def verdict(self, algorithm, key, message, signature):
        return signatures.verdict(algorithm, key, message, signature)

    def sign(self, algorithm, key, message):
        signatures.fit_secret(algorithm, key)
        return signatures.demo_signature(signatures.name_of(*parts(algorithm)), signatures.demo_key(key), message)


class Table:
    """A verdict table of rows, each an algorithm, the octets of a key, a message and a signature."""

    def __init__(self, *rows):
        self.rows = [(name, *(digest_of("sha256", part).hexdigest() for part in row)) for name, *row in rows]
        self.word = "".join(f"{' '.join(row)}\n" for row in self.rows).encode().hex() or "-"

    def verdict(self, algorithm, key, message, signature):
        try:
            signatures.fit_key(algorithm, key)
        except signatures.Told as refusal:
            return str(refusal)
        digests = (digest_of("sha256", part).hexdigest() for part in (key[2], message, signature))
        return "accepted" if (signatures.name_of(*parts(algorithm)), *digests) in self.rows else signatures.BAD

    def sign(self, algorithm, key, message):
        signatures.fit_secret(algorithm, key)
        raise signatures.Told(signatures.refused(parts(algorithm)[0]))


# ---- keys

def pkcs8(key):
    """A private key with its algorithm (RFC 5208 5, RFC 5915 3, RFC 8410 7)."""
    if key.kind == "rsa":
        algorithm, octets = sequence(Primitive(6, RSA), Primitive(5, b"")), key.secret
    elif key.kind == "ec":
        point = () if key.public is None else (Constructed(0xA1, (bits(key.public),)),)
        algorithm = sequence(Primitive(6, EC), Primitive(6, key.oid))
        octets = write(sequence(Primitive(2, b"\1"), Primitive(4, key.secret), *point))
    else:
        algorithm, octets = sequence(Primitive(6, key.oid)), write(Primitive(4, key.secret))
    return write(sequence(Primitive(2, b"\0"), algorithm, Primitive(4, octets)))


def public_half(key):
    """The public key of a private one, as SubjectPublicKeyInfo."""
    if key.public is None:
        raise Refused("PrivateKeyToPublicKey", f"failed to get public key from private key: {key.kind.upper()} {signatures.MISSING}")
    return signatures.spki(key.kind, key.oid, key.public)


def key_in(octets):
    """The kind of a public key, the identifier of its curve or algorithm, and its octets."""
    algorithm, payload = read_exact(octets).kids
    identifier, *parameters = algorithm.kids
    named = {RSA: "rsa", EC: "ec", **dict.fromkeys(ED, "ed")}.get(identifier.contents, "mldsa")
    return named, parameters[0].contents if named == "ec" else identifier.contents, payload.contents[1:]


def key_identifier(method, key):
    """RFC 7093 2: of the whole SubjectPublicKeyInfo, or the first 160 bits of the digest of its bits."""
    form, digest = method.split(":")
    kind, _, octets = key_in(key)
    if form == "whole":
        return digest_of(DIGESTS[digest], key).digest()
    if digest == "MD5":
        text = f"key id generation error: invalid key: unsupported algorithm: {signatures.called(kind)}"
        raise Refused("CertGeneration", f"couldn't generate certificate: {text}")
    return digest_of(DIGESTS[digest], octets).digest()[:20]


def algorithm_identifier(algorithm):
    if algorithm not in WRITTEN:
        raise Refused("Signature", "signature error: EC error: the digest algorithm isn't supported")
    return WRITTEN[algorithm]


# ---- extensions

def extension(arc, value, critical=False):
    flag = (Primitive(1, b"\xff"),) if critical else ()
    return sequence(oid(f"2.5.29.{arc}"), *flag, Primitive(4, write(value)))


def constraints(ca, length):
    """The flag is written, whichever it is."""
    limit = () if length is None else (unsigned(bytes([length])),)
    return sequence(Primitive(1, b"\xff" if ca else b"\0"), *limit)


def usage(flags):
    """A BIT STRING to the last of nine flags that is set (RFC 5280 4.2.1.3)."""
    digits = "".join("1" if flags >> place & 1 else "0" for place in range(9)).rstrip("0")
    octets = bytes(int(digits[start:start + 8].ljust(8, "0"), 2) for start in range(0, len(digits), 8))
    return Primitive(3, bytes([-len(digits) % 8]) + octets)


def own_extensions(given, own, authority):
    """Those that a certificate has of its own, in their order."""
    flags = given.get("key_usage")
    yield 19, constraints(given.get("ca", False), given.get("pathlen")), flags is not None and bool(flags & 1)
    if flags is not None:
        yield 15, usage(flags), True
    if "extended_key_usage" in given:
        yield 37, sequence(*map(oid, given["extended_key_usage"])), False
    if "subject_alt_name" in given:
        yield 17, given["subject_alt_name"], False
    if "issuer_alt_name" in given:
        yield 18, given["issuer_alt_name"], False
    yield 14, Primitive(4, own), False
    yield 35, sequence(Primitive(0x80, authority)), False


def asked_by(octets):
    """The extensions of the first value of the first attribute for them that has a value (RFC 2985 5.4.2)."""
    attributes = [kid for kid in read_exact(octets).kids[0].kids if kid.tag == 0xA0]
    for attribute in attributes[0].kids if attributes else ():
        named, values = attribute.kids
        if dotted(named.contents) == "1.2.840.113549.1.9.14" and values.kids:
            return values.kids[0].kids
    return ()


def inherited(octets, there):
    """Those that a request asks for and whose identifier isn't there yet, as they are written."""
    for asked in asked_by(octets):
        if asked.kids[0] not in there:
            there.append(asked.kids[0])
            yield read_exact(bytes.fromhex(read_extension(asked).split()[-1]))


# ---- certificates

def unsigned(octets):
    """An INTEGER of the number that octets write, highest first."""
    number = int.from_bytes(octets, "big")
    return Primitive(2, number.to_bytes(number.bit_length() // 8 + 1, "big"))


def moment(digits):
    """A time in the form of its year (RFC 5280 4.1.2.5)."""
    if "1950" <= digits[:4] < "2050":
        return Primitive(0x17, digits[2:].encode() + b"Z")
    return Primitive(0x18, digits.encode() + b"Z")


def missing(argument):
    return Refused("MissingBuilderArgument", f"missing required builder argument `{argument}`")


def settled(settings):
    """What is set, the last of each kind."""
    given = {}
    for setter, value in settings:
        match setter:
            case "self_signed" | "issuer":
                given["issuer_infos"] = value, setter == "self_signed"
            case "issuer_cert":
                *_, subject, _, extensions = fields_of(read_exact(value))
                given["issuer_infos"] = subject, False
                if (named := first(extensions, "2.5.29.14")) is not None:
                    given["authority_key_identifier"] = named.contents
            case "subject" | "subject_from_csr":
                given["subject_infos"] = setter, value
            case "subject_alt_directory":
                given["subject_alt_name"] = sequence(Constructed(0xA4, (value,)))
            case _:
                given[setter] = value
    return given


def subject_of(given, key, scheme):
    """The name, the key, and how the issuer's is identified."""
    name, is_self_signed = given["issuer_infos"]
    if is_self_signed:
        half = public_half(key)
        return name, half, key_identifier(given.get("key_id_gen_method", "whole:SHA-256"), half)
    if "authority_key_identifier" not in given:
        raise missing("authority_key_identifier")
    if "subject_infos" not in given:
        raise missing("subject_infos")
    setter, value = given["subject_infos"]
    if setter == "subject_from_csr":
        if (told := request_verdict(value, scheme)) != "accepted":
            raise Refused("InvalidCsr", f"CSR error: {told}")
        _, name, subject_key, *_ = read_exact(value).kids[0].kids
        value = name, write(subject_key)
    return *value, given["authority_key_identifier"]


def extensions_of(given, own, authority):
    made = list(own_extensions(given, own, authority))
    if any(nesting(value) > DEEPEST for _, value, _ in made):
        raise unwritten_tbs()
    extensions = [extension(*one) for one in made]
    setter, value = given.get("subject_infos", ("", None))
    if given.get("inherit") and not given["issuer_infos"][1] and setter == "subject_from_csr":
        extensions += inherited(value, [one.kids[0] for one in extensions])
    return Constructed(0xA3, (sequence(*extensions),))


def unwritten_tbs():
    return Refused("CertGeneration", f"couldn't generate certificate: (ASN1) couldn't serialize tbs certificate: {TOO_DEEP}")


def built(number, key, settings, scheme):
    """The octets of a certificate; `number` is the random word."""
    given = settled(settings)
    for argument, setter in (("valid_from", "validity"), ("issuer_infos", "issuer_infos")):
        if setter not in given:
            raise missing(argument)
    subject, subject_key, authority = subject_of(given, key, scheme)
    own = key_identifier(given.get("key_id_gen_method", "whole:SHA-256"), subject_key)
    algorithm = given.get("signature_hash_type", "rsa:SHA-256")
    identified = algorithm_identifier(algorithm)
    tbs = sequence(
        Constructed(0xA0, (Primitive(2, b"\2"),)), unsigned(given.get("serial_number", (number or 1).to_bytes(4, "big"))), identified,
        given["issuer_infos"][0], sequence(*map(moment, given["validity"])), subject, read_exact(subject_key),
        extensions_of(given, own, authority),
    )
    if nesting(tbs) > DEEPEST:
        raise unwritten_tbs()
    try:
        signature = scheme.sign(algorithm, key, write(tbs))
    except signatures.Told as told:
        raise Refused("CertGeneration", f"couldn't generate certificate: signature error: {told}") from told
    return whole(sequence(tbs, identified, bits(signature)), Refused("Asn1Serialization", f"(ASN1) couldn't serialize x509 certificate: {TOO_DEEP}"))


def whole(element, refused):
    if nesting(element) > DEEPEST:
        raise refused
    return write(element)


# ---- requests

def request_verdict(octets, scheme):
    """What is reported of the signature of a request under its own key: first of its algorithm."""
    info, algorithm, signature = read_exact(octets).kids
    if algorithm.kids[0] not in CALLED:
        return f"signature error: unsupported algorithm: {dotted(algorithm.kids[0].contents)}"
    told = scheme.verdict(CALLED[algorithm.kids[0]], key_in(write(info.kids[2])), write(info), signature.contents[1:])
    return told if told == "accepted" else f"signature error: {told}"


def generated(algorithm, key, subject, attributes, scheme):
    """The octets of a request."""
    half = read_exact(public_half(key))
    info = sequence(Primitive(2, b"\0"), subject, half, Constructed(0xA0, tuple(attributes)))
    message = whole(info, Refused("Asn1Serialization", f"(ASN1) couldn't serialize certification request info: {TOO_DEEP}"))
    try:
        signature = scheme.sign(algorithm, key, message)
        identified = algorithm_identifier(algorithm)
    except signatures.Told as told:
        raise Refused("Signature", f"signature error: {told}") from told
    return whole(sequence(info, identified, bits(signature)), Refused("Asn1Serialization", f"(ASN1) couldn't serialize certification request: {TOO_DEEP}"))
