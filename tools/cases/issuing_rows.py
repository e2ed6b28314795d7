"""Rows of `xgolden_issuing` on certificates that are built and on requests, each with the reason why it is there.

The lines come from `issuing_maker` and `issuing_judge`.
"""

from itertools import combinations

from cases import signature_rows as signatures
from cases import structure_rows as structures
from cases.first_path import name as name_octets
from cases.kept_certificates import fields_of
from cases.signature_rows import DIGESTS, ED25519, K256, MLDSA, P256, P384, P521, X25519, X448
from interop import world_requests
from judges.der_reader import Constructed, Primitive, read_exact, write
from judges.issuing_judge import request_line
from judges.issuing_maker import CALLED, Demo, Refused, Table, bits, built, extension, generated, key_in, oid, pkcs8, public_half, request_verdict, sequence
from judges.value_reader import name_text, word


def name(text):
    return read_exact(name_octets(text.encode()))


def deep_name(levels):
    """A name that is nested so deep: one attribute, whose value has four levels less than the name."""
    return sequence(Constructed(0x31, (sequence(oid("1.2.3"), signatures.nested(levels - 3)),)))


DEMO, EMPTY = Demo(), Table()
K11, K12, K13 = (signatures.rsa(number) for number in ("11", "12", "13"))
ON_P256, ED = signatures.on(P256), signatures.ed_pair(ED25519)
NO_HALF = signatures.ed(X448, public=None)
SIGNER, AUTHORITY, OTHER = map(name, ("Signer", "Authority", "Other"))
DAYS = "validity", ("20200101000000", "20300101000000")
OWN = [DAYS, ("self_signed", SIGNER)]
KEY = "authority_key_identifier", b"\xaa\xbb"
ISSUED = [DAYS, ("issuer", AUTHORITY), KEY]
NAMED = [*ISSUED, ("subject", (SIGNER, public_half(K12)))]

LOCALHOST = Primitive(0x82, b"localhost")
HOST = sequence(LOCALHOST)
NAMES = sequence(Primitive(0x81, b"a@b"), LOCALHOST, Constructed(0xA4, (OTHER,)), Primitive(0x86, b"u"), Primitive(0x87, bytes([127, 0, 0, 1])), Primitive(0x88, b"\x2a\x03"))
CODE_SIGNING, TIME_STAMPING = "1.3.6.1.5.5.7.3.3", "1.3.6.1.5.5.7.3.8"
AUTHORITY_ASKED = extension(19, sequence(Primitive(1, b"\xff")))


def raw(text, octets, *flag):
    """An extension by its identifier and the octets of its value."""
    return sequence(oid(text), *flag, Primitive(4, octets))


def asking(*values):
    """An attribute that asks for extensions, a list a value."""
    return sequence(oid("1.2.840.113549.1.9.14"), Constructed(0x31, tuple(sequence(*one) for one in values)))


PASSWORD = sequence(oid("1.2.840.113549.1.9.7"), Constructed(0x31, (Primitive(0x0C, b"secret"),)))


def asked(*attributes, key=K13, algorithm="rsa:SHA-256", subject=SIGNER):
    return generated(algorithm, key, subject, attributes, DEMO)


def changed(octets, bit=1):
    """Another last octet, that of the signature."""
    return octets[:-1] + bytes([octets[-1] ^ bit])


# ---- certificates that are built

def plain_rows():
    """One thing that is set after another; of each the word, the key and the settings."""
    for number in (0, 1, 2, 127, 128, 255, 256, 0x7FFFFFFF, 0x80000000, 0xFFFFFFFF):
        yield number, K11, OWN
    for octets in ("15543a7a", "", "00", "0000", "01", "80", "0080", "001500", 20 * "ff", "7f" + 19 * "00"):
        yield 7, K11, [*OWN, ("serial_number", bytes.fromhex(octets))]
    for dates in (
        ("19491231235959", "19500101000000"), ("20491231235959", "20500101000000"), ("20500101000000", "20491231235959"),
        ("00000101000000", "99991231235959"), ("19991231235959", "20000229000000"),
    ):
        yield 1, K11, [("self_signed", SIGNER), ("validity", dates)]
    for ca, lengths in ((True, (None, 0, 1, 127, 128, 255)), (False, (None, 0, 255))):
        for length in lengths:
            yield 1, K11, [*OWN, ("ca", ca)] + ([] if length is None else [("pathlen", length)])
    for flags in (0, 1, 2, 4, 32, 33, 128, 256, 257, 511, 512, 513, 65535):
        yield 1, K11, [*OWN, ("key_usage", flags)]
    for purposes in ([], [CODE_SIGNING], [TIME_STAMPING, CODE_SIGNING, CODE_SIGNING, "2.25.329800735698586629295641978511506172918"]):
        yield 1, K11, [*OWN, ("extended_key_usage", purposes)]
    for names in (sequence(), HOST, NAMES):
        yield 1, K11, [*OWN, ("subject_alt_name", names)]
        yield 1, K11, [*OWN, ("issuer_alt_name", names)]
    yield 1, K11, [*OWN, ("subject_alt_directory", OTHER)]
    yield 1, K11, [DAYS, ("self_signed", sequence())]


def algorithm_rows():
    """Each algorithm by a key that is one for it, and how keys are identified."""
    for algorithm, key in signatures.FITTING:
        yield 1, key, [*OWN, ("signature_hash_type", algorithm)]
    for digest in DIGESTS:
        for form in ("whole", "leftmost"):
            for key, algorithm in ((K11, "rsa:SHA-256"), (ON_P256, "ecdsa:SHA-256"), (ED, "ed25519")):
                yield 1, key, [*OWN, ("signature_hash_type", algorithm), ("key_id_gen_method", f"{form}:{digest}")]
    for public in (("ec", K256, b"\4\1"), ("ed", X25519, bytes(32)), ("mldsa", MLDSA, bytes(4)), ("ec", P521, b"\4\5\6")):
        yield 1, K11, [*ISSUED, ("subject", (SIGNER, signatures.spki(*public)))]


EVERYTHING = [
    ("ca", True), ("pathlen", 3), ("key_usage", 33), ("extended_key_usage", [CODE_SIGNING]), ("subject_alt_name", NAMES),
    ("issuer_alt_name", HOST), ("serial_number", b"\x80\x01"), ("key_id_gen_method", "leftmost:SHA-1"), ("signature_hash_type", "rsa:SHA-512"),
]

ROOT = built(1, K11, [*OWN, ("ca", True)], DEMO)


def without_own_identifier():
    """The root without the identifier of its key."""
    tbs, algorithm, signature = read_exact(ROOT).kids
    *fields, listed = tbs.kids
    kept = tuple(one for one in listed.kids[0].kids if one.kids[0] != oid("2.5.29.14"))
    return write(sequence(sequence(*fields, Constructed(0xA3, (sequence(*kept),))), algorithm, signature))


def issuer_rows():
    """Who issues, and for whom: of what is set twice the last counts."""
    csr, bare = asked(), without_own_identifier()
    subject = "subject", (SIGNER, public_half(K12))
    yield 1, K11, [*EVERYTHING, *OWN]
    yield 1, K11, [*NAMED, *EVERYTHING]
    yield 1, K11, NAMED
    yield 1, K11, [DAYS, ("issuer_cert", ROOT), subject]
    yield 1, K12, [DAYS, ("issuer_cert", ROOT), subject]
    yield 1, K11, [DAYS, ("issuer_cert", bare), subject]
    yield 1, K11, [DAYS, KEY, ("issuer_cert", bare), subject]
    yield 1, K11, [DAYS, KEY, ("issuer_cert", ROOT), subject]
    yield 1, K11, [DAYS, ("issuer_cert", ROOT), KEY, subject]
    yield 1, K11, [*NAMED, ("self_signed", OTHER)]
    yield 1, K11, [*OWN, ("issuer", OTHER), KEY, subject]
    yield 1, K11, [*NAMED, ("subject_from_csr", csr)]
    yield 1, K11, [*ISSUED, ("subject_from_csr", csr), subject]
    yield 1, K11, [*NAMED, ("subject", (OTHER, public_half(K13)))]
    yield 1, K11, [*OWN, ("validity", ("20500101000000", "20510101000000")), ("ca", True), ("ca", False), ("pathlen", 1), ("pathlen", 2)]
    yield 1, K11, [*ISSUED, ("authority_key_identifier", b""), subject]
    yield 1, K11, [*OWN, KEY]


def inheriting_rows():
    """What a request asks for: each that isn't there yet, and never the constraints."""
    inherit, host = ("inherit", True), extension(17, HOST)
    false, one = Primitive(1, b"\0"), Primitive(1, b"\1")
    many = [
        extension(15, Primitive(3, bytes.fromhex("0780")), True), host, extension(37, sequence(oid(CODE_SIGNING))), raw("1.2.3.4", b"\x05\x00"),
        extension(17, NAMES), raw("1.2.3.4", b"\xff"), extension(14, Primitive(4, b"\1")), extension(35, sequence()),
    ]
    for attributes in (
        [asking([AUTHORITY_ASKED, host])], [asking([host, AUTHORITY_ASKED])], [asking(many)], [asking([])], [asking()], [PASSWORD], [],
        [asking(), asking([host])], [PASSWORD, asking([host], [AUTHORITY_ASKED])], [asking([host]), asking([extension(18, HOST)])],
        [asking([raw("1.2.3.4", b"", false), raw("1.2.3.5", b"\1", one)])], [asking([raw("2.5.29.17", b"\xff", one)])],
    ):
        for settings in ([], EVERYTHING[:6]):
            yield 1, K11, [*ISSUED, *settings, ("subject_from_csr", asked(*attributes)), inherit]
    csr = asked(asking(many))
    yield 1, K11, [*ISSUED, ("subject_from_csr", csr)]
    yield 1, K11, [*ISSUED, ("subject_from_csr", csr), inherit, ("inherit", False)]
    yield 1, K11, [*ISSUED, ("subject_from_csr", csr), inherit, ("subject", (OTHER, public_half(K12)))]
    yield 1, K11, [*ISSUED, ("subject_from_csr", csr), inherit, ("self_signed", OTHER)]
    yield 1, K11, [DAYS, ("issuer_cert", ROOT), ("subject_from_csr", csr), inherit]
    yield from ((1, K11, [*ISSUED, ("subject_from_csr", octets), inherit]) for octets in self_signed_requests())


def self_signed_requests():
    """Requests by keys of other kinds, without attributes, and as they were spelled."""
    yield asked(asking([AUTHORITY_ASKED]), key=ON_P256, algorithm="ecdsa:SHA-256")
    yield asked(key=ED, algorithm="ed25519")
    info = sequence(Primitive(2, b"\0"), SIGNER, read_exact(public_half(K13)))
    yield write(sequence(info, signatures_of(info), bits(DEMO.sign("rsa:SHA-256", K13, write(info)))))
    spelled = read_exact(write(sequence(*info.kids, Constructed(0xA0, (asking([raw("1.2.3.4", b"", Primitive(1, b"\0"))]),)))))
    yield write(sequence(spelled, signatures_of(spelled), bits(DEMO.sign("rsa:SHA-256", K13, write(spelled)))))


def signatures_of(_):
    return read_exact(bytes.fromhex(dict(signatures.IDENTIFIERS)["rsa:SHA-256"]))


# ---- refusals of `build`: each alone, and two at once, of which the earlier is answered

BAD_REQUEST = changed(asked())
LEFTMOST_MD5 = "key_id_gen_method", "leftmost:MD5"
UNNAMED = "signature_hash_type", "ecdsa:SHA-1"

# In their order: what keeps a certificate that its own key signs from being built.
OWN_FAULTS = ["valid_from", "issuer_infos", "no half", "no key identifier", "no algorithm", "deep tbs", "unsigned", "deep certificate"]
ISSUED_FAULTS = ["valid_from", "issuer_infos", "authority_key_identifier", "subject_infos", "bad request", "no key identifier", "no algorithm",
                 "deep tbs", "unsigned", "deep certificate"]


def faulty(order, faults):
    """The scheme, the key and the settings with these faults, None where they can't occur together."""
    own = order is OWN_FAULTS
    if {"deep tbs", "deep certificate"} <= set(faults) or {"subject_infos", "bad request"} <= set(faults) or {"no half", "unsigned"} <= set(faults):
        return None
    levels = 64 if "deep tbs" in faults else 63 if "deep certificate" in faults else None
    issuer = (SIGNER if own else AUTHORITY) if levels is None else deep_name(levels)
    settings = [] if "valid_from" in faults else [DAYS]
    settings += [] if "issuer_infos" in faults else [("self_signed" if own else "issuer", issuer)]
    if not own:
        settings += [] if "authority_key_identifier" in faults else [KEY]
        request = BAD_REQUEST if "bad request" in faults else asked()
        settings += [] if "subject_infos" in faults else [("subject_from_csr", request)]
    settings += [LEFTMOST_MD5] if "no key identifier" in faults else []
    settings += [UNNAMED] if "no algorithm" in faults else []
    # The empty table would refuse the signature of the request as well: another key of the issuer is used there.
    scheme = EMPTY if "unsigned" in faults and own else DEMO
    key = NO_HALF if "no half" in faults else ON_P256 if "unsigned" in faults and not own else K11
    return scheme, key, settings


def fault_cases(order):
    """One fault and two of these, and what they make."""
    for count in (1, 2):
        for faults in combinations(order, count):
            case = faulty(order, faults)
            if case is not None:
                yield faults, case


def refused_rows():
    """Other reasons of the same steps."""
    for key in (signatures.on(K256, point=False), NO_HALF):
        yield DEMO, 1, key, OWN
    for digest in ("MD5", "SHA-1", "SHA-224"):
        yield DEMO, 1, ON_P256, [*OWN, ("signature_hash_type", f"ecdsa:{digest}")]
    for algorithm, key in (
        ("rsa:SHA-256", ON_P256), ("ecdsa:SHA-256", K11), ("ed25519", K11), ("ecdsa:SHA-384", ON_P256), ("ecdsa:SHA-256", signatures.on(P384)),
        ("ed25519", signatures.ed_pair(X25519)), ("ed25519", ON_P256), ("rsa:MD5", ED),
    ):
        yield DEMO, 1, key, [*OWN, ("signature_hash_type", algorithm)]
    yield EMPTY, 1, ON_P256, [*OWN, ("signature_hash_type", "ecdsa:SHA-256")]
    yield EMPTY, 1, ED, [*OWN, ("signature_hash_type", "ed25519")]
    for levels in (62, 63, 64):
        yield DEMO, 1, K11, [DAYS, ("self_signed", deep_name(levels))]
        yield DEMO, 1, K11, [*OWN, ("subject_alt_directory", deep_name(levels))]
        yield DEMO, 1, K11, [*ISSUED, ("subject", (deep_name(levels), public_half(K12)))]
    for octets in bad_requests():
        yield DEMO, 1, K11, [*ISSUED, ("subject_from_csr", octets)]
    for key in (("ed", X448, bytes(56)), ("ec", P256, b"\4\5"), ("mldsa", MLDSA, bytes(4))):
        yield DEMO, 1, K11, [*ISSUED, ("subject", (SIGNER, signatures.spki(*key))), LEFTMOST_MD5]


def bad_requests():
    """Requests that aren't signed by their own keys, or by no known algorithm."""
    good = asked()
    info, _, signature = read_exact(good).kids
    yield changed(good)
    yield write(sequence(info, sequence(oid("1.2.3")), signature))
    yield write(sequence(info, sequence(oid("1.3.101.112")), signature))
    yield write(sequence(info, read_exact(bytes.fromhex("300a06082a8648ce3d040302")), signature))
    yield write(sequence(info, signatures_of(info), bits(signature.contents[1:-1])))
    yield bytes.fromhex(structures.REQUESTS[0][0])


def value_word(value):
    match value:
        case bool():
            return str(value).lower()
        case int() | str():
            return str(value)
        case bytes():
            return word(value)
        case Constructed():
            return write(value).hex()
        case list():
            return write(sequence(*map(oid, value))).hex()
        case (Constructed() as named, octets):
            return f"{write(named).hex()},{octets.hex()}"
        case _:
            return ",".join(f"{digits}Z" for digits in value)


def build_row(scheme, number, key, settings):
    words = (f"{setter}={value_word(value)}" for setter, value in settings)
    row = " ".join((scheme.word, "build", str(number), pkcs8(key).hex(), *words))
    try:
        return row, built_line(built(number, key, settings, scheme))
    except Refused as refusal:
        return row, str(refusal)


def built_line(octets):
    """The octets, that they come back, the subject and the issuer."""
    *_, issuer, _, subject, _, _ = fields_of(read_exact(octets))
    return " ".join((octets.hex(), "same", name_text(subject), name_text(issuer)))


def built_rows():
    for rows in (plain_rows, algorithm_rows, issuer_rows, inheriting_rows):
        yield from (build_row(DEMO, *row) for row in rows())
    for order in (OWN_FAULTS, ISSUED_FAULTS):
        yield from (build_row(scheme, 1, key, settings) for _, (scheme, key, settings) in fault_cases(order))
    yield from (build_row(*row) for row in refused_rows())


# ---- requests

def own_row(octets):
    """The row of a table for the signature of a request by its own key, of another algorithm some row."""
    info, algorithm, signature = read_exact(octets).kids
    named = signatures.name_of(*signatures.parts(CALLED.get(algorithm.kids[0], "ed25519")))
    return named, key_in(write(info.kids[2]))[2], write(info), signature.contents[1:]


def read_requests():
    yield from (octets for _, octets in world_requests.stored())
    yield from (bytes.fromhex(octets) for octets, _ in structures.REQUESTS)
    yield from (asked(), asked(PASSWORD, asking([AUTHORITY_ASKED])), *self_signed_requests(), *bad_requests())


def request_rows():
    """Requests under a table of their own row, under one of none, and under the demonstration scheme."""
    for octets in read_requests():
        for scheme in (Table(own_row(octets)), EMPTY, DEMO):
            yield f"{scheme.word} request {octets.hex()}", request_line(octets, scheme)
    row = own_row(asked())
    for place in (1, 2, 3):
        scheme = Table((*row[:place], row[place] + b"\0", *row[place + 1:]))
        yield f"{scheme.word} request {asked().hex()}", request_line(asked(), scheme)
    unreadable = [bytes.fromhex(octets) for octets, _ in structures.NO_REQUESTS] + [b"", asked()[:-1], asked() + b"\0", ROOT]
    for octets in unreadable:
        yield f"demo request {word(octets)}", request_line(octets, DEMO)


# In their order: what keeps a request from being generated.
REQUEST_FAULTS = ["no half", "deep info", "unsigned", "deep request"]


def faulty_request(faults):
    """The case with these faults, None where they can't occur together."""
    if {"deep info", "deep request"} <= set(faults):
        return None
    levels = 64 if "deep info" in faults else 63 if "deep request" in faults else None
    subject = SIGNER if levels is None else deep_name(levels)
    key = signatures.on(K256, point=False) if "no half" in faults else ON_P256
    return EMPTY if "unsigned" in faults else DEMO, "ecdsa:SHA-256", key, subject, None


def faulty_requests():
    """One fault and two of these, and what they make."""
    for count in (1, 2):
        for faults in combinations(REQUEST_FAULTS, count):
            case = faulty_request(faults)
            if case is not None:
                yield faults, case


def generated_cases():
    """The scheme, the algorithm, the key, the subject and the attributes, None by the call without."""
    yield from (case for _, case in faulty_requests())
    for algorithm, key in signatures.FITTING:
        yield DEMO, algorithm, key, SIGNER, None
    for attributes in ([asking([AUTHORITY_ASKED, extension(17, HOST)])], [PASSWORD, asking([])], [PASSWORD, PASSWORD], [asking()]):
        yield DEMO, "rsa:SHA-256", K13, SIGNER, attributes
    yield DEMO, "ed25519", ED, sequence(), None
    for key, algorithm in ((NO_HALF, "ed25519"), (signatures.on(K256, point=False), "ecdsa:SHA-256")):
        yield DEMO, algorithm, key, SIGNER, None
        yield DEMO, algorithm, key, deep_name(64), None
    for scheme in (DEMO, EMPTY):
        for levels in (62, 63, 64):
            yield scheme, "rsa:SHA-256", K13, deep_name(levels), None
            yield scheme, "ed25519", K13, deep_name(levels), [PASSWORD]
    for algorithm, key in (
        ("rsa:SHA-256", ON_P256), ("ecdsa:SHA-256", K13), ("ed25519", ON_P256), ("ecdsa:SHA-1", ON_P256), ("ecdsa:SHA-384", ON_P256),
        ("ed25519", signatures.ed_pair(X25519)),
    ):
        yield DEMO, algorithm, key, SIGNER, None
    for algorithm, key in (("ecdsa:SHA-256", ON_P256), ("ed25519", ED)):
        yield EMPTY, algorithm, key, SIGNER, None


def generated_row(scheme, algorithm, key, subject, attributes):
    words = () if attributes is None else (",".join(write(one).hex() for one in attributes),)
    row = " ".join((scheme.word, "generate", algorithm, pkcs8(key).hex(), write(subject).hex(), *words))
    try:
        octets = generated(algorithm, key, subject, attributes or (), scheme)
    except Refused as refusal:
        return row, refusal.text
    return row, f"{octets.hex()} same {request_verdict(octets, scheme)}"


def generated_rows():
    yield from (generated_row(*case) for case in generated_cases())
