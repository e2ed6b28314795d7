"""A certificate as it is shown (RFC 5280 4.1)."""

from contextlib import suppress
from functools import cached_property
from hashlib import sha1, sha256
from itertools import islice

from common import der
from common.der import NOT_READ, Element
from program_check import text

BASIC_CONSTRAINTS, SUBJECT_KEY, AUTHORITY_KEY, EXTENDED_KEY_USAGE = "2.5.29.19", "2.5.29.14", "2.5.29.35", "2.5.29.37"
ANY_USAGE = "2.5.29.37.0"
CODE_SIGNING, TIME_STAMPING, LIFETIME_SIGNING = "1.3.6.1.5.5.7.3.3", "1.3.6.1.5.5.7.3.8", "1.3.6.1.4.1.311.10.3.13"
USAGES = {
    CODE_SIGNING: "code signing", TIME_STAMPING: "time stamping", LIFETIME_SIGNING: "lifetime signing",
    "1.3.6.1.5.5.7.3.1": "servers", "1.3.6.1.5.5.7.3.2": "clients", "1.3.6.1.5.5.7.3.4": "e-mail",
    ANY_USAGE: "any usage",
}
RSA, EC, ED25519 = "1.2.840.113549.1.1.1", "1.2.840.10045.2.1", "1.3.101.112"
# The curves that verdict tables have names for, and others that certificates are seen with.
CURVES = {"1.2.840.10045.3.1.7": "p256", "1.3.132.0.34": "p384", "1.3.132.0.35": "p521"}
CURVE_NAMES = {
    "1.2.840.10045.3.1.7": "P-256", "1.3.132.0.34": "P-384", "1.3.132.0.35": "P-521", "1.3.132.0.10": "secp256k1",
    "1.3.36.3.3.2.8.1.1.7": "brainpoolP256r1", "1.3.36.3.3.2.8.1.1.11": "brainpoolP384r1", "1.3.36.3.3.2.8.1.1.13": "brainpoolP512r1",
}
KEYS = {ED25519: "Ed25519", "1.3.101.113": "Ed448", "1.3.101.110": "X25519", "1.3.101.111": "X448", "1.2.840.113549.1.1.10": "RSA (PSS alone)"}
# The kind of key and the digest that the algorithm of a signature names (RFC 8017, RFC 5758, RFC 8410).
SIGNATURES = {
    "1.2.840.113549.1.1.4": (RSA, "md5"), "1.2.840.113549.1.1.5": (RSA, "sha1"),
    "1.2.840.113549.1.1.14": (RSA, "sha224"), "1.2.840.113549.1.1.11": (RSA, "sha256"),
    "1.2.840.113549.1.1.12": (RSA, "sha384"), "1.2.840.113549.1.1.13": (RSA, "sha512"),
    "1.2.840.10045.4.3.2": (EC, "sha256"), "1.2.840.10045.4.3.3": (EC, "sha384"), "1.2.840.10045.4.3.4": (EC, "sha512"),
    ED25519: (ED25519, None),
}
VERSION, EXTENSIONS = 0xA0, 0xA3
# RFC 5280 4.1.2.2: a serial number has 20 octets at most.
MOST_SERIAL = 20
MOST_EXTENSIONS, MOST_USAGES = 100, 20


def has_oid(element: Element, oids) -> bool:
    """Whether an element is one of these object identifiers; one that is too long to be read is none."""
    try:
        return der.oid(element) in oids
    except NOT_READ:
        return False


def shown_oid(element: Element) -> str:
    """An object identifier as it is shown."""
    try:
        return der.oid(element)
    except NOT_READ:
        return "an identifier that isn't read here"


class Certificate:
    """The octets of a certificate that is read here, with what is shown of it."""

    def __init__(self, octets: bytes | Element):
        """What NOT_READ has where the octets, or the element, aren't in the form of a certificate."""
        self._element = octets if isinstance(octets, Element) else der.whole(octets)
        tbs, algorithm, signature = self._element.expect(der.SEQUENCE).kids(3)
        fields = tbs.expect(der.SEQUENCE).kids(10)
        serial, _, issuer, validity, subject, key, *others = fields[1:] if fields[0].tag == VERSION else fields
        begins, ends = validity.expect(der.SEQUENCE).kids(2)
        self._tbs, self._signature, self._serial, self._key = tbs, signature, serial.expect(der.INTEGER), key
        self._extensions = next((one for one in others if one.tag == EXTENSIONS), None)
        self.issuer_name, self.subject_name = issuer.expect(der.SEQUENCE).encoding, subject.expect(der.SEQUENCE).encoding
        self.begins, self.ends = text.moment_of(begins), text.moment_of(ends)
        self.algorithm = der.oid(algorithm.expect(der.SEQUENCE).kids(2)[0])
        identifier, held = key.expect(der.SEQUENCE).kids(2)
        kind, *parameters = identifier.expect(der.SEQUENCE).kids(2)
        self.key_kind = der.oid(kind)
        self.curve = der.oid(parameters[0]) if parameters and parameters[0].tag == der.OID else None
        self._key_bits = held
        der.bits(held), der.bits(signature)

    @property
    def der(self) -> bytes:
        return self._element.encoding

    @cached_property
    def own(self) -> bytes:
        """What it is told from others by."""
        return sha256(self.der).digest()

    def __eq__(self, other):
        return isinstance(other, Certificate) and self.own == other.own

    def __hash__(self):
        return hash(self.own)

    def length(self) -> int:
        return self._element.end - self._element.at

    # What a signature on it is over, and by which key those that it makes are verified.

    @property
    def tbs(self) -> bytes:
        return self._tbs.encoding

    @property
    def signature(self) -> bytes:
        return der.bits(self._signature)

    @property
    def key_octets(self) -> bytes:
        return der.bits(self._key_bits)

    @property
    def serial(self) -> bytes:
        return self._serial.contents

    def is_named(self, issuer: bytes, serial: bytes) -> bool:
        """Whether it is the certificate of this issuer with this number."""
        return self.issuer_name == issuer and self._serial.end - self._serial.begin == len(serial) and self.serial == serial

    # What is in its extensions.

    @cached_property
    def extensions(self) -> dict:
        """The first value of each extension by its OID; those that are read."""
        found: dict = {}
        try:
            held, = self._extensions.kids(1) if self._extensions else ()
            for one in held.walk(MOST_EXTENSIONS):
                # One that isn't read hides none behind it.
                with suppress(*NOT_READ):
                    kind, *_, value = one.kids(3)
                    found.setdefault(der.oid(kind), der.inner(value))
        except NOT_READ:
            pass
        return found

    @cached_property
    def is_ca(self) -> bool:
        """Whether its basic constraints say that it is a CA's."""
        try:
            fields = self.extensions[BASIC_CONSTRAINTS].kids(2)
            return bool(fields) and fields[0].tag == 0x01 and fields[0].contents != b"\0"
        except (KeyError, *NOT_READ):
            return False

    @cached_property
    def subject_key(self) -> bytes | None:
        """The identifier of its key, None where it has none."""
        value = self.extensions.get(SUBJECT_KEY)
        return value.contents if value is not None and value.tag == der.OCTETS else None

    @cached_property
    def authority_key(self) -> bytes | None:
        """The identifier of its issuer's key, None where it names none."""
        try:
            return next((field.contents for field in self.extensions[AUTHORITY_KEY].walk(3) if field.tag == 0x80), None)
        except (KeyError, *NOT_READ):
            return None

    @cached_property
    def purposes(self) -> list | None:
        """The OIDs of the extended key usage, as many as are shown; None where there is none or it isn't read."""
        try:
            return [shown_oid(one) for one in islice(self.extensions[EXTENDED_KEY_USAGE].walk(), MOST_USAGES)]
        except (KeyError, *NOT_READ):
            return None

    def is_for(self, *purposes: str, unread: bool = False) -> bool:
        """Whether it names one of these purposes, among however many; `unread` where they are more than are read."""
        try:
            held, = self._extensions.kids(1) if self._extensions else (None,)
            found = (one.kids(3) for one in held.walk()) if held else ()
            usages = (der.inner(value) for kind, *_, value in found if has_oid(kind, [EXTENDED_KEY_USAGE]))
            return any(has_oid(one, purposes) for usage in usages for one in usage.walk())
        except NOT_READ:
            return unread

    # What is shown.

    @property
    def subject(self) -> str:
        return text.name(self.subject_name)

    @property
    def issuer(self) -> str:
        return text.name(self.issuer_name)

    def called(self) -> str:
        """A short name for sentences."""
        return text.common_name(self.subject_name)

    def is_self_issued(self) -> bool:
        return self.subject_name == self.issuer_name

    def fingerprint(self, digest=sha256) -> str:
        return digest(self.der).hexdigest()

    def usages(self) -> list:
        return [USAGES.get(oid, oid) for oid in self.purposes or ()]

    def shown_serial(self) -> str:
        octets = self._serial.octets[self._serial.begin:min(self._serial.end, self._serial.begin + MOST_SERIAL)]
        more = self._serial.end - self._serial.begin - len(octets)
        return octets.hex() + (f".. and {text.counted(more, 'octet')} more" if more else "")

    def rsa_numbers(self) -> tuple | None:
        """The modulus and the exponent of an RSA key, None where it has none."""
        try:
            modulus, exponent = der.whole(self.key_octets).expect(der.SEQUENCE).kids(2)
            return tuple(int.from_bytes(one.expect(der.INTEGER).contents, "big", signed=True) for one in (modulus, exponent)) if self.key_kind == RSA else None
        except NOT_READ:
            return None

    def key(self) -> str:
        """The kind of its key, in words."""
        if self.key_kind == RSA:
            numbers = self.rsa_numbers()
            return f"RSA, {numbers[0].bit_length()} bits" if numbers else "RSA, not in its form"
        if self.key_kind == EC:
            return f"elliptic curve {CURVE_NAMES.get(self.curve, self.curve) if self.curve else 'without a name'}"
        return KEYS.get(self.key_kind, self.key_kind)

    def has_rsa_key(self) -> bool:
        return self.key_kind == RSA

    def shown(self) -> dict:
        """What is printed of it."""
        return {
            "subject": self.subject, "issuer": self.issuer, "serial": self.shown_serial(),
            "sha256": self.fingerprint(), "sha1": self.fingerprint(sha1), "key": self.key(),
            "key_sha256": sha256(self.key_octets).hexdigest(),
            "valid_from": self.begins, "valid_to": self.ends, "usages": self.usages(),
        }


def certificate_in(element: Element) -> Certificate | None:
    """A member of signed data as a certificate, None where it isn't in the form of one."""
    try:
        return Certificate(element)
    except NOT_READ:
        return None


def row_of(child: Certificate, parent: Certificate) -> str | None:
    """What a verdict table has of the signature on one certificate by the key of another, None where it can have nothing (docs/FORMATS.md)."""
    kind, digest = SIGNATURES.get(child.algorithm, (None, None))
    if kind != parent.key_kind:
        return None
    name = {RSA: f"rsa-{digest}", EC: f"{CURVES.get(parent.curve)}-{digest}", ED25519: "ed25519"}[kind]
    return row(name, parent.key_octets, child.tbs, child.signature)


def row(name: str, *parts: bytes) -> str:
    """A row of a verdict table without its verdict: the algorithm, and the digests of key, message and signature."""
    return " ".join((name, *(sha256(part).hexdigest() for part in parts)))
