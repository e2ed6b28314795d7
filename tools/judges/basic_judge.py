"""What basic validation answers to a signature file, step by step, as `xgolden_check` prints it.

This judge exists to be compared with the project's own: it is written from RFC
5652, the Windows Authenticode Portable Executable Signature Format and the order
of the steps below, over the elements of `der_reader`; whether an element has the
structure that is asked for `cms_reader` and `value_reader` say.

The answer is the first refusal, in this order:

  header       `WrongLength`, `CertificateDataIsEmpty`, `WrongRevisionValue`,
               `WrongCertificateType`, `WrongLength`, `Io`;
  value        one element that is signed data, with at most seven zeros after
               it: `Asn1Deserialization`;
  1            its version is 1: `IncorrectVersion`;
  2            it has one signer: `MultipleSignerInfo`;
  3            it has one digest algorithm: `IncorrectDigestAlgorithmsCount`;
  4            its content is there, `NoEncapsulatedContentInfo`, and is indirect
               data, `NoSpcIndirectDataContent`;
  5, 6         the digest algorithm of the content, and that of the signer, are
               that one: `DigestAlgorithmMismatch`;
  7            a digest is asked for, `MissingExpectedFileHash`, and it is the one
               in the content: `FileHashMismatch`;
  8            the signer is named by issuer and serial number,
               `IncorrectSignerIdentifier`, and a certificate has both:
               `NoCertificatesAssociatedWithIssuerAndSerialNumber`;
  9            the digest algorithm is one of six: `UnsupportedAlgorithmError`;
  10           the table accepts the signature, by RSA with that digest, over the
               attributes as a SET: `SignatureError`;
  11           the first message digest among the attributes has a value:
               `NoMessageDigest`;
  12           the digest isn't SHA-224, `UnsupportedHashAlgorithmError`, and that
               first value is the digest of the contents of the indirect data:
               `HashMismatch`;
  13           where a certificate of the issuer walk has an extended key usage,
               the signer's names code signing: `NoEKUCodeSigning`.

An answer is printed as the name of the refusal and its fields, blanks between:
octets and serial numbers in hexadecimal digits, `-` for none, a name as it is
printed, and the text of an error within.
"""

from dataclasses import dataclass
from hashlib import new, sha256
from struct import unpack_from

from judges.cms_reader import pkcs7
from judges.der_reader import Constructed, Malformed, read_first, write
from judges.value_reader import OTHER, Shape, certificate as read_certificate, dotted, name_text, shown_fault, word
from judges.verdict_rows import verdicts

MOST_PADDING = 7
INDIRECT_DATA = "1.3.6.1.4.1.311.2.1.4"
MESSAGE_DIGEST = "1.2.840.113549.1.9.4"
EXTENDED_KEY_USAGE = "2.5.29.37"
CODE_SIGNING = "1.3.6.1.5.5.7.3.3"
RSA = "1.2.840.113549.1.1.1"
# What a key of another kind is called.
OTHER_KEYS = {"1.2.840.10045.2.1": "EC"}
OTHER_KEYS |= {f"1.3.101.{arc}": "ED" for arc in (110, 111, 112, 113)}
OTHER_KEYS |= {f"2.16.840.1.101.3.4.3.{arc}": "ML-DSA" for arc in (17, 18, 19)}
DIGESTS = {
    "1.2.840.113549.2.5": "md5", "1.3.14.3.2.26": "sha1",
    "2.16.840.1.101.3.4.2.1": "sha256", "2.16.840.1.101.3.4.2.2": "sha384",
    "2.16.840.1.101.3.4.2.3": "sha512", "2.16.840.1.101.3.4.2.4": "sha224",
}


class Refused(Exception):
    """Why the file is refused: the name and the fields."""

    def __init__(self, *words):
        self.words = tuple(map(str, words))
        super().__init__(" ".join(self.words))


def refuse_unless(holds, *words):
    if not holds:
        raise Refused(*words)


# The fields of signed data and of its certificates.

def taken(fields, tag):
    """The next field, which is taken off, where it has the tag."""
    return fields.pop(0) if fields and fields[0].tag == tag else None


@dataclass
class Certificate:
    """The fields of a certificate that basic validation looks at, and the element that has them."""

    element: Constructed
    serial: bytes
    issuer: Constructed
    subject: Constructed
    key: Constructed
    purposes: list

    @classmethod
    def of(cls, element):
        fields = list(element.kids[0].kids)
        taken(fields, 0xA0)
        serial, _, issuer, _, subject, key, *rest = fields
        extensions = rest[-1].kids[0].kids if rest and rest[-1].tag == 0xA3 else ()
        purposes = [
            [dotted(purpose.contents) for purpose in read_first(one.kids[-1].contents)[0].kids]
            for one in extensions
            if dotted(one.kids[0].contents) == EXTENDED_KEY_USAGE
        ]
        return cls(element, serial.contents, issuer, subject, key, purposes)

    def names(self, purpose):
        return any(purpose in usage for usage in self.purposes)

    def key_kind(self):
        return dotted(self.key.kids[0].kids[0].contents)

    def key_octets(self):
        return self.key.kids[1].contents[1:]


def bag_of(members):
    """The members that are certificates, in order."""
    bag = []
    for member in members:
        try:
            read_certificate(member)
        except Shape:
            continue
        bag.append(Certificate.of(member))
    return bag


class SignedData:
    """The fields of an element that is signed data."""

    def __init__(self, element):
        fields = list(element.kids[1].kids[0].kids)
        self.version = fields.pop(0).contents[0]
        self.digest_algorithms = fields.pop(0).kids
        content_type, *content = fields.pop(0).kids
        self.content_type = dotted(content_type.contents)
        self.content = content[0].kids[0] if content else None
        certificates = taken(fields, 0xA0)
        taken(fields, 0xA1)
        self.signers = fields.pop(0).kids
        self.bag = bag_of(certificates.kids if certificates else ())


class Signer:
    """The fields of a signer."""

    def __init__(self, element):
        fields = list(element.kids)
        _, self.identifier, self.digest_algorithm = (fields.pop(0) for _ in range(3))
        attributes = taken(fields, 0xA0)
        self.attributes = attributes.kids if attributes else ()
        self.signature = fields[1].contents
        unsigned = taken(fields[2:], 0xA1)
        self.unsigned = unsigned.kids if unsigned else ()

    def message(self):
        return write(Constructed(0x31, self.attributes))

    def first_message_digest(self):
        """The values of the first message digest, None where there is none."""
        for kind, values in (attribute.kids for attribute in self.attributes):
            if dotted(kind.contents) == MESSAGE_DIGEST:
                return values.kids
        return None


# The steps.

def certificate_in(octets):
    """The certificate of a WIN_CERTIFICATE."""
    refuse_unless(len(octets) >= 8, "WrongLength", f"a WIN_CERTIFICATE has at least 8 octets, and this one has {len(octets)}")
    length, revision, kind = unpack_from("<IHH", octets)
    refuse_unless(length > 0, "CertificateDataIsEmpty", "the WIN_CERTIFICATE states the length 0, so it holds no certificate")
    refuse_unless(revision in (0x0100, 0x0200), "WrongRevisionValue",
                  f"unknown revision {revision:#06x} of a WIN_CERTIFICATE (known are 0x0100 and 0x0200)")
    refuse_unless(kind in (1, 2, 3, 9), "WrongCertificateType",
                  f"unknown type {kind} of a WIN_CERTIFICATE (known are 1, 2, 3 and 9)")
    refuse_unless(length >= 8, "WrongLength", f"a WIN_CERTIFICATE has at least 8 octets, and this one has {length}")
    refuse_unless(length <= len(octets), "Io",
                  f"the WIN_CERTIFICATE states a length of {length} octets, and only {len(octets)} are there")
    return octets[8:length]


def unread(why):
    return Refused("Asn1Deserialization", f"(ASN1) couldn't deserialize pkcs7 certificate: {why}")


def signed_data_in(certificate):
    """The signed data that a certificate is."""
    try:
        element, length = read_first(certificate)
        rest = certificate[length:]
        if len(rest) > MOST_PADDING or any(rest):
            raise Malformed("Trailing", length)
        pkcs7(element)
    except Malformed as refusal:
        raise unread(f"malformed DER: {shown_fault(refusal)}") from refusal
    except Shape as refusal:
        raise unread(OTHER) from refusal
    return SignedData(element)


def one_of_each(signed):
    """Steps 1 to 3: the signer and the digest algorithm."""
    refuse_unless(signed.version == 1, "IncorrectVersion", 1, signed.version)
    refuse_unless(len(signed.signers) == 1, "MultipleSignerInfo", len(signed.signers))
    algorithms = signed.digest_algorithms
    refuse_unless(len(algorithms) == 1, "IncorrectDigestAlgorithmsCount", len(algorithms))
    return Signer(signed.signers[0]), algorithms[0]


def indirect_data_in(signed):
    """Step 4."""
    refuse_unless(signed.content is not None, "NoEncapsulatedContentInfo")
    refuse_unless(signed.content_type == INDIRECT_DATA, "NoSpcIndirectDataContent")
    return signed.content


def check_file(content, signer, digest_algorithm, file_hash):
    """Steps 5 to 7; None where no digest is asked for."""
    of_content, digest = content.kids[1].kids
    refuse_unless(of_content == digest_algorithm, "DigestAlgorithmMismatch")
    refuse_unless(signer.digest_algorithm == digest_algorithm, "DigestAlgorithmMismatch")
    refuse_unless(file_hash is not None, "MissingExpectedFileHash")
    refuse_unless(digest.contents == file_hash, "FileHashMismatch", word(digest.contents), word(file_hash))


def signers_certificate(signer, bag):
    """Step 8."""
    refuse_unless(isinstance(signer.identifier, Constructed), "IncorrectSignerIdentifier")
    issuer, serial = signer.identifier.kids
    fitting = [one for one in bag if one.issuer == issuer and one.serial == serial.contents]
    refuse_unless(fitting, "NoCertificatesAssociatedWithIssuerAndSerialNumber", word(serial.contents), name_text(issuer))
    return fitting[0]


def check_signature(signer, one, table):
    """Steps 9 and 10: the name of the digest."""
    digest = DIGESTS.get(dotted(signer.digest_algorithm.kids[0].contents))
    refuse_unless(digest, "UnsupportedAlgorithmError")
    kind = one.key_kind()
    refuse_unless(kind == RSA, "SignatureError", f"Key error: unsupported algorithm: {OTHER_KEYS.get(kind)}")
    parts = one.key_octets(), signer.message(), signer.signature
    row = " ".join((f"rsa-{digest}", *(sha256(part).hexdigest() for part in parts)))
    verdict = verdicts(table).get(row, "reject")
    refuse_unless(verdict != "malformed", "SignatureError", "RSA error: the signature is malformed")
    refuse_unless(verdict == "accept", "SignatureError", "invalid signature")
    return digest


def check_message_digest(signer, content, digest):
    """Steps 11 and 12."""
    values = signer.first_message_digest()
    refuse_unless(values, "NoMessageDigest")
    refuse_unless(digest != "sha224", "UnsupportedHashAlgorithmError", "SHA2_224")
    expected = new(digest, b"".join(map(write, content.kids))).digest()
    actual = values[0].contents
    refuse_unless(actual == expected, "HashMismatch", word(actual), word(expected))


def issuer_walk(bag, one):
    """From the first of the signer's subject on, each next later one that issued the one before."""
    walk, wanted = [], one.subject
    for member in bag:
        if member.subject == wanted:
            walk.append(member)
            wanted = member.issuer
    return walk


def check_usage(bag, one):
    """Step 13."""
    asked = any(member.purposes for member in issuer_walk(bag, one))
    refuse_unless(not asked or one.names(CODE_SIGNING), "NoEKUCodeSigning")


def check_basic(signed, file_hash, table):
    """Steps 1 to 13: the signer's certificate, or the first refusal."""
    signer, digest_algorithm = one_of_each(signed)
    content = indirect_data_in(signed)
    check_file(content, signer, digest_algorithm, file_hash)
    one = signers_certificate(signer, signed.bag)
    digest = check_signature(signer, one, table)
    check_message_digest(signer, content, digest)
    check_usage(signed.bag, one)
    return one


def place_of(one, bag):
    return next(place for place, member in enumerate(bag) if member is one)


def accepted(octets, file_hash, table):
    """The place of the signer's certificate, or the first refusal."""
    signed = signed_data_in(certificate_in(octets))
    return place_of(check_basic(signed, file_hash, table), signed.bag)


def answer(octets, file_hash, table):
    """The line that is printed of a signature file, the digest that is asked for and a table."""
    try:
        return f"accepted Some({accepted(octets, file_hash, table)}) [] None"
    except Refused as refusal:
        return str(refusal)
