"""What openssl says of the certificates and requests that the stored run of `xgolden_issuing` made, field by field,
beside what was asked for.

It rests on the rows, and on no reader here but that of names: of each certificate the serial number, the names, the
moments, the algorithm, the key, the identifiers of keys, the constraints, the usages and the purposes as openssl
prints them, and all extensions in their order with their critical flags and the octets that they hold, which
`openssl asn1parse` finds; of each request the subject, the key, the algorithm and the attributes.
"""

import re
from collections import Counter
from dataclasses import dataclass
from hashlib import new as digest_of

from common.openssl import OpensslError, openssl
from judges.der_reader import read_exact
from judges.value_reader import name_text

ALGORITHMS = {
    "rsa:MD5": "md5WithRSAEncryption", "rsa:SHA-1": "sha1WithRSAEncryption", "rsa:SHA-224": "sha224WithRSAEncryption",
    "rsa:SHA-256": "sha256WithRSAEncryption", "rsa:SHA-384": "sha384WithRSAEncryption", "rsa:SHA-512": "sha512WithRSAEncryption",
    "ecdsa:SHA-256": "ecdsa-with-SHA256", "ecdsa:SHA-384": "ecdsa-with-SHA384", "ecdsa:SHA-512": "ecdsa-with-SHA512", "ed25519": "ED25519",
}
USAGES = ("Digital Signature", "Non Repudiation", "Key Encipherment", "Data Encipherment", "Key Agreement", "Certificate Sign", "CRL Sign", "Encipher Only", "Decipher Only")
MONTHS = "Jan Feb Mar Apr May Jun Jul Aug Sep Oct Nov Dec".split()
NAMES = "sep_comma_plus,sname,utf8,-esc_msb,-esc_ctrl"


class Differs(Exception):
    """A field that openssl gives otherwise."""


def same(field, asked, said):
    if asked != said:
        raise Differs(f"{field}: {asked!r} was asked for, {said!r} is there")


def value_below(said, title):
    """The line below a title."""
    found = re.search(rf"{title}:(?: critical)?\s*\n\s*(.*)", said)
    return found and found.group(1).strip()


def printed_name(octets):
    return name_text(read_exact(octets)).replace("EMAIL=", "emailAddress=")


def public_key(said):
    return openssl("pkey", "-pubin", "-outform", "DER", given=said)


def moment(digits):
    month, day = MONTHS[int(digits[4:6]) - 1], int(digits[6:8])
    return f"{month} {day:2} {digits[8:10]}:{digits[10:12]}:{digits[12:14]} {int(digits[:4])} GMT"


# ---- certificates

class Asked:
    """The settings of a row, the last of each kind."""

    def __init__(self, words):
        self.word, self.key, *settings = words
        self.listed = [setting.split("=", 1) for setting in settings]
        self.settings = dict(self.listed)
        kinds = [setter for setter, _ in self.listed]
        of_issuer = [kind for kind in kinds if kind in ("self_signed", "issuer", "issuer_cert")]
        of_subject = [kind for kind in kinds if kind in ("subject", "subject_from_csr")]
        self.issuer, self.subject = of_issuer[-1], of_subject[-1] if of_subject else None
        self.identified = [kind for kind in kinds if kind in ("issuer_cert", "authority_key_identifier")]

    def get(self, setter, default=None):
        return self.settings.get(setter, default)

    def octets(self, setter):
        """Those of the first word that a setter has."""
        word = self.get(setter).split(",")[0]
        return b"" if word == "-" else bytes.fromhex(word)


def issuer_name(asked):
    if asked.issuer == "issuer_cert":
        return subject_of_certificate(asked.octets("issuer_cert"))
    return printed_name(asked.octets(asked.issuer))


def subject_of_certificate(octets):
    said = openssl("x509", "-inform", "DER", "-noout", "-subject", "-nameopt", NAMES, given=octets)
    return said.decode().removeprefix("subject=").strip("\n")


def subject_of_request(octets):
    said = openssl("req", "-inform", "DER", "-noout", "-subject", "-nameopt", NAMES, given=octets)
    return said.decode().removeprefix("subject=").strip("\n")


def subject_name(asked):
    if asked.issuer == "self_signed":
        return issuer_name(asked)
    if asked.subject == "subject":
        return printed_name(asked.octets("subject"))
    return subject_of_request(asked.octets("subject_from_csr"))


def serial(asked):
    """In hexadecimal digits, as openssl prints it: two for each octet."""
    number = int.from_bytes(asked.octets("serial_number"), "big") if "serial_number" in asked.settings else int(asked.word) or 1
    digits = f"{number:X}"
    return digits.rjust(len(digits) + len(digits) % 2, "0")


def names_check(asked, octets):
    said = openssl("x509", "-inform", "DER", "-noout", "-serial", "-subject", "-issuer", "-startdate", "-enddate", "-nameopt", NAMES, given=octets).decode()
    fields = dict(re.findall(r"(?m)^(serial|issuer|subject|notBefore|notAfter)=(.*)$", said))
    same("serial", serial(asked), fields["serial"])
    for field, wanted in (("issuer", issuer_name(asked)), ("subject", subject_name(asked))):
        # openssl prints the elements in a value that is no string.
        if "=#" not in wanted:
            same(field, wanted, fields[field])
    for field, digits in zip(("notBefore", "notAfter"), asked.get("validity").split(","), strict=True):
        same(field, moment(digits), fields[field])


def key_of(asked):
    """The octets of the public key that was asked for, None where openssl has no key of its kind."""
    if asked.issuer == "self_signed":
        return None
    if asked.subject == "subject":
        return bytes.fromhex(asked.get("subject").split(",")[1])
    return public_key(openssl("req", "-inform", "DER", "-noout", "-pubkey", given=asked.octets("subject_from_csr")))


def whole_check(asked, octets):
    """The version, the algorithms, the key, and the octets as openssl writes them anew."""
    said = openssl("x509", "-inform", "DER", "-noout", "-text", given=octets).decode("latin-1")
    same("version", ["3"], re.findall(r"Version: (\d)", said))
    algorithm = ALGORITHMS[asked.get("signature_hash_type", "rsa:SHA-256")]
    same("algorithms", [algorithm, algorithm], re.findall(r"Signature Algorithm: (\S+)", said))
    same("octets", octets, openssl("x509", "-inform", "DER", "-outform", "DER", given=octets))
    wanted = key_of(asked) if "Unable to load Public Key" not in said else None
    if wanted is not None:
        same("key", wanted, public_key(openssl("x509", "-inform", "DER", "-noout", "-pubkey", given=octets)))
    return said


def constraints_check(asked, said):
    flags = int(asked.get("key_usage", "0"))
    critical = " critical" if flags & 1 else ""
    length = f", pathlen:{asked.get('pathlen')}" if "pathlen" in asked.settings else ""
    wanted = f"CA:{asked.get('ca', 'false').upper()}{length}"
    same("constraints", [(critical, wanted)], re.findall(r"X509v3 Basic Constraints:( critical|) *\n\s*(CA:.*)", said))
    if "key_usage" in asked.settings:
        usages = ", ".join(usage for place, usage in enumerate(USAGES) if flags >> place & 1)
        same("usages", usages, value_below(said, "X509v3 Key Usage") if flags & 511 else "")


def identifiers_check(asked, said):
    authority = re.findall(r"X509v3 Authority Key Identifier: *\n\s*(?:keyid:)?([0-9A-F:]*)", said)
    own = re.findall(r"X509v3 Subject Key Identifier: *\n\s*([0-9A-F:]+)", said)
    same("one identifier of the key", 1, len(own))
    if asked.issuer == "self_signed":
        same("identifier of the issuer's key", own, authority)
    elif asked.identified and asked.identified[-1] == "authority_key_identifier":
        same("identifier of the issuer's key", asked.octets("authority_key_identifier").hex(":").upper(), authority[0] if authority else "")


def purposes_check(asked, said):
    if "extended_key_usage" in asked.settings:
        count = len(read_exact(asked.octets("extended_key_usage")).kids)
        shown = re.search(r"X509v3 Extended Key Usage: *\n(.*)", said)
        same("purposes", count, len([one for one in shown.group(1).split(",") if one.strip()]) if count else 0)
    for title in set(re.findall(r"X509v3 [A-Z][A-Za-z ]+(?=:)", said)):
        same(f"one {title}", 1, len(re.findall(rf"{title}:", said)))


# ---- extensions, by the places that `openssl asn1parse` prints

BASIC_CONSTRAINTS, KEY_USAGE, PURPOSES, SUBJECT_NAMES, ISSUER_NAMES, OWN_KEY, AUTHORITY_KEY = (f"551d{arc:02x}" for arc in (19, 15, 37, 17, 18, 14, 35))
ASKED_EXTENSIONS = "2a864886f70d01090e"


@dataclass(frozen=True)
class Part:
    """An element: its depth, its tag as openssl calls it, its octets and its contents."""

    depth: int
    tag: str
    octets: bytes
    contents: bytes


def parts(octets):
    said = openssl("asn1parse", "-inform", "DER", given=octets).decode("latin-1")
    for found in re.finditer(r"(?m)^ *(\d+):d=(\d+) +hl=(\d+) l= *(\d+) (?:cons|prim): +([A-Za-z]+(?: ?[A-Z]+)*)", said):
        at, depth, header, length = map(int, found.groups()[:4])
        yield Part(depth, found.group(5), octets[at:at + header + length], octets[at + header:at + header + length])


def extensions_below(found, at):
    """The identifier, the critical flag and what is held of each extension in the list at that place."""
    depth, fields = found[at].depth, []
    for part in found[at + 1:]:
        if part.depth <= depth:
            break
        if part.depth == depth + 1:
            fields.append([])
        elif part.depth == depth + 2:
            fields[-1].append(part)
    return [(one[0].contents.hex(), len(one) == 3 and one[1].contents != b"\0", one[-1].contents) for one in fields]


def extensions_of_certificate(octets):
    found = list(parts(octets))
    at = next(place for place, part in enumerate(found) if part.depth == 2 and part.octets[0] == 0xA3)
    return extensions_below(found, at + 1)


def extensions_of_request(octets):
    """Those of the first value of the first attribute for them that has one."""
    found = list(parts(octets))
    for place, part in enumerate(found):
        if part.tag == "OBJECT" and part.contents.hex() == ASKED_EXTENSIONS and found[place + 1].contents:
            return extensions_below(found, place + 2)
    return []


def key_in_certificate(octets):
    """The SubjectPublicKeyInfo: the fifth SEQUENCE of what is signed."""
    return [part for part in parts(octets) if part.depth == 2 and part.tag == "SEQUENCE"][4].octets


def identified(asked, key):
    """The identifier of a key."""
    form, digest = asked.get("key_id_gen_method", "whole:SHA-256").split(":")
    if form == "whole":
        return digest_of(digest.replace("-", ""), key).digest()
    bits = [part for part in parts(key) if part.tag == "BIT STRING"][0].contents[1:]
    return digest_of(digest.replace("-", ""), bits).digest()[:20]


def authority_of(asked, own):
    """The identifier of the issuer's key: its own, or the last that is given."""
    given = own
    for setter, word in asked.listed if asked.issuer != "self_signed" else ():
        if setter == "authority_key_identifier":
            given = b"" if word == "-" else bytes.fromhex(word)
        elif setter == "issuer_cert":
            found = [held for named, _, held in extensions_of_certificate(bytes.fromhex(word)) if named == OWN_KEY]
            given = found[0][2:] if found else given
    return given


def tagged(tag, octets):
    """An element, of up to 255 octets."""
    return bytes([tag, len(octets)] if len(octets) < 128 else [tag, 0x81, len(octets)]) + octets


def usage_octets(flags):
    """A BIT STRING with as many bits as are needed."""
    bits = "".join(str(flags >> place & 1) for place in range(9)).rstrip("0")
    octets = bytes(int(bits[place:place + 8].ljust(8, "0"), 2) for place in range(0, len(bits), 8))
    return tagged(3, bytes([-len(bits) % 8]) + octets)


def number_octets(number):
    return tagged(2, number.to_bytes(number.bit_length() // 8 + 1, "big"))


def own_extensions(asked, own):
    flag = tagged(1, b"\xff" if asked.get("ca") == "true" else b"\0")
    length = number_octets(int(asked.get("pathlen"))) if "pathlen" in asked.settings else b""
    usage = int(asked.get("key_usage", "0"))
    yield BASIC_CONSTRAINTS, usage & 1 == 1, tagged(0x30, flag + length)
    if "key_usage" in asked.settings:
        yield KEY_USAGE, True, usage_octets(usage)
    for setter, named in (("extended_key_usage", PURPOSES), ("subject_alt_name", SUBJECT_NAMES), ("subject_alt_directory", SUBJECT_NAMES), ("issuer_alt_name", ISSUER_NAMES)):
        if setter in asked.settings:
            held = asked.octets(setter)
            yield named, False, tagged(0x30, tagged(0xA4, held)) if setter == "subject_alt_directory" else held
    yield OWN_KEY, False, tagged(4, own)
    yield AUTHORITY_KEY, False, tagged(0x30, tagged(0x80, authority_of(asked, own)))


def extensions_check(asked, octets):
    wanted = list(own_extensions(asked, identified(asked, key_in_certificate(octets))))
    if asked.get("inherit") == "true" and asked.issuer != "self_signed" and asked.subject == "subject_from_csr":
        for one in extensions_of_request(asked.octets("subject_from_csr")):
            wanted += [one] if one[0] not in [named for named, *_ in wanted] else []
    same("extensions", wanted, extensions_of_certificate(octets))


def certificate_check(words, octets):
    asked = Asked(words)
    extensions_check(asked, octets)
    names_check(asked, octets)
    said = whole_check(asked, octets)
    constraints_check(asked, said)
    identifiers_check(asked, said)
    purposes_check(asked, said)


# ---- requests

def request_check(words, octets):
    algorithm, _, subject, *attributes = words
    said = openssl("req", "-inform", "DER", "-noout", "-text", given=octets).decode("latin-1")
    wanted = printed_name(bytes.fromhex(subject))
    same("subject", wanted, wanted if "=#" in wanted else subject_of_request(octets))
    same("algorithm", [ALGORITHMS[algorithm]], re.findall(r"Signature Algorithm: (\S+)", said))
    same("octets", octets, openssl("req", "-inform", "DER", "-outform", "DER", given=octets))
    asked = "".join(attributes)
    same("passwords", asked.count("2a864886f70d010907"), said.count("challengePassword"))
    same("extensions", asked.count("551d13") + asked.count("551d11"), said.count("X509v3 Basic Constraints") + said.count("X509v3 Subject Alternative Name"))


CHECKS = {"build": certificate_check, "generate": request_check}


def check(rows):
    """Print where openssl differs or doesn't read; 1 where it differs."""
    counts, status = Counter(), 0
    for row, line in rows:
        _, call, *words = row.split(" ")
        made = re.match("([0-9a-f]{2,}) same ", line)
        if call not in CHECKS or not made:
            continue
        counts[call] += 1
        try:
            CHECKS[call](words, bytes.fromhex(made.group(1)))
        except (Differs, OpensslError) as refusal:
            counts[type(refusal).__name__] += 1
            status = 1
            print(f"{row[:60]}.. {' '.join(words[2:])[:300]}: {refusal}")
    print(f"{counts['build']} certificates, {counts['generate']} requests; {counts['Differs']} differences, {counts['OpensslError']} not read")
    return status
