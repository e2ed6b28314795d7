"""What a signature file is answered under a policy, step by step, as `xgolden_check` prints it.

This judge exists to be compared with the project's own.  It goes on where
`basic_judge` ends; whether one certificate may have issued another is what
`chain_reader` says, and both are written from the rules alone (RFC 5652, RFC 5280,
the Windows Authenticode Portable Executable Signature Format).

The header and the value are asked under every policy, the steps of `basic_judge`
where it has `basic`, and these where it has `signing`:

  certificate  there is a signer, `MultipleSignerInfo`; the first one is named by
               issuer and serial number, `IncorrectSignerIdentifier`; and a
               certificate has both: `NoCertificatesAssociatedWithIssuerAndSerialNumber`;
  chain        where one end of validities is looked at there is a date,
               `MissingBuilderArgument`; where there is one the signer's certificate
               is valid then, `CertificateNotYetValid`, `CertificateExpired`; and where
               the chain is asked for each certificate of the path may have issued
               the one before it.

The path is the certificates of the issuer walk that have another subject than the
signer's.  Where the signer's certificate is expired, an excuse is looked for; where
there is one, the path is asked for as without one:

  lifetime     it names lifetime signing: there is none;
  bag          a certificate of the signed data names time stamping;
  token        the first unsigned attribute of the signer is a countersignature of
               Microsoft's with a first value, some certificate of that token names
               time stamping, and those of it whose subject isn't that of its first
               one are a chain above that one, without dates: `InvalidTimestampCert`.
               Where the policy has a trust list, the CA of all certificates of the
               token is on it, by the refusals of step 17.

These are asked where it has `against_list`:

  16           those of step 14;
  17           where the policy has a trust list, the CA of the issuer walk is on it,
               or has one of the excluded names, where the policy has `exclude`.  The
               content of the list is there, `NoContent`, and is a trust list,
               `IncorrectContentValue`; the others are those of `listing_judge`.

The name of a CA of certificates is that of the last one behind the first that has the
flag of a CA, an intermediate's issuer and a root's subject.  Where there is none, it
is the issuer of the first.

A list that isn't signed data is refused before all this: `FailedToParseCtl`.

An answer is the line of a report, and behind the name of a refusal its text.
"""

from typing import NamedTuple

from judges import chain_reader, listing_judge
from judges.basic_judge import (
    OTHER_KEYS, Refused, SignedData, Signer, certificate_in, check_basic, issuer_walk, place_of, refuse_unless, signed_data_in, signers_certificate,
)
from judges.cms_reader import pkcs7
from judges.der_reader import Malformed, read_exact, write
from judges.value_reader import OTHER, Shape, dotted, name_text, shown_fault
from judges.verdict_rows import verdicts
from judges.asked_signatures import EC, ED25519, MICROSOFT_COUNTERSIGNATURE, RSA, SIGNATURES

TIME_STAMPING = "1.3.6.1.5.5.7.3.8"
LIFETIME_SIGNING = "1.3.6.1.4.1.311.10.3.13"
TRUST_LIST = "1.3.6.1.4.1.311.10.1"
X25519 = "1.3.101.110"
EXPIRED = "InvalidCertificate:CertificateExpired"


class Policy(NamedTuple):
    """What is asked: the digest of the file, None for none; moments in fourteen digits, the upper one None where the lower is the date.

    `trust_list` are the octets of a list, None for none, `now` is in seconds since 1601,
    and `excluded` are the octets of names.
    """

    basic: bool = False
    signing: bool = False
    not_before: bool = False
    not_after: bool = False
    chain: bool = False
    file_hash: bytes | None = None
    lower: str | None = None
    upper: str | None = None
    against_list: bool = False
    trust_list: bytes | None = None
    now: int = 0
    exclude: bool = False
    excluded: tuple = ()


# Texts of refusals.

TEXTS = {
    "IncorrectVersion": "the version of the signed data is {1}, and not {0}",
    "MultipleSignerInfo": "the signed data has {0} signers, and not one",
    "IncorrectDigestAlgorithmsCount": "the signed data has {0} digest algorithms, and not one",
    "NoEncapsulatedContentInfo": "the signed data has no content",
    "NoSpcIndirectDataContent": "what is signed is no SpcIndirectDataContent",
    "DigestAlgorithmMismatch": "the signed data names several digest algorithms",
    "MissingExpectedFileHash": "no digest of the file is given",
    "FileHashMismatch": "the signature is for a file with the digest {0}, but that of the file is {1}",
    "IncorrectSignerIdentifier": "the signer is named by the identifier of a key, and not by issuer and serial number",
    "NoCertificatesAssociatedWithIssuerAndSerialNumber": "the signed data has no certificate of the issuer '{1}' with the serial number {0}",
    "UnsupportedAlgorithmError": "the OID names no supported digest algorithm",
    "SignatureError": "signature error: {0}",
    "NoMessageDigest": "no message digest is among the signed attributes",
    "UnsupportedHashAlgorithmError": "digests by SHA-224 are not supported",
    "HashMismatch": "the signed message digest is {0}, but that of the content is {1}",
    "NoEKUCodeSigning": "the certificate of the signer is not one for code signing",
    "InvalidTimestampCert": "certificate of the time stamp: {0}",
    "FailedToParseCtl": "(ASN1) couldn't deserialize pkcs7 certificate: {0}",
    "NoContent": "the trust list has no content",
    "IncorrectContentValue": "the content of the trust list is another one",
    "MalformedEntry": "an entry of the trust list is malformed",
    "CAIsNotTrusted": "the CA is not on the trust list",
    "CaCertificateRevoked": "the trust list revokes the CA",
    "CaCertificateExpired": "the CA was on the trust list until {0}, and it is {1} (seconds since 1601)",
    "CaCertificateNotYetValid": "the CA is on the trust list from {0} on, and it is {1} (seconds since 1601)",
}


def shown(refusal):
    """The line of a refusal: its words are the name and the fields, or the name and a text."""
    name, *fields = refusal.words
    form = TEXTS.get(name, "{0}")
    return f"refused {name} {form.format(*(field.replace('-', '', field == '-') for field in fields))}"


def moment(digits):
    """A moment as it is printed."""
    return f"{digits[:4]}-{digits[4:6]}-{digits[6:8]} {digits[8:10]}:{digits[10:12]}:{digits[12:]}"


def invalid(read, cause):
    return f"invalid certificate '{read.name}': {cause}"


# Certificates as `chain_reader` has them, with their names and windows.

class Window(NamedTuple):
    """Which ends of a validity are looked at, and from when to when."""

    lower: str | None
    upper: str | None
    not_before: bool
    not_after: bool


class Dated(chain_reader.Read):
    """A certificate that is asked whether it is valid in a window, and told by its name."""

    @property
    def name(self):
        return name_text(read_exact(self.parts.subject))

    @property
    def issuer_name(self):
        return name_text(read_exact(self.parts.issuer))

    def expect_valid(self, window):
        if window.lower is None:
            return
        if window.not_before and self.begins > window.upper:
            raise Refused("InvalidCertificate:CertificateNotYetValid", invalid(
                self, f"certificate is not yet valid (not before: {moment(self.begins)}, now: {moment(window.upper)})"))
        if window.not_after and self.ends < window.lower:
            raise Refused(EXPIRED, invalid(self, f"certificate expired (not after: {moment(self.ends)}, now: {moment(window.lower)})"))


def dated(member):
    """A certificate of a bag."""
    return Dated.of(write(member.element))


# What `chain_reader` refuses, in words.

def signature_text(parent, child):
    """Why the signature of a child isn't accepted by the key of its parent."""
    algorithm, digest = SIGNATURES[child.algorithm]
    kind, curve = parent.key_names()
    if algorithm == RSA and kind != RSA:
        return f"Key error: unsupported algorithm: {OTHER_KEYS[kind]}"
    if algorithm == EC and kind != EC:
        return "Key error: EC error: the key is of another kind than one of an elliptic curve"
    if algorithm == EC and curve is None:
        return "Key error: EC error: the curve isn't supported"
    if algorithm == EC and (curve, digest) not in (("p256", "sha256"), ("p384", "sha384"), ("p521", "sha512")):
        return f"unsupported algorithm: NIST-{curve.upper()} with SHA-{digest.removeprefix('sha')}"
    if algorithm == ED25519:
        return edwards_text(kind, parent.key_octets())
    return "invalid signature"


def edwards_text(kind, octets):
    if OTHER_KEYS.get(kind) != "ED":
        return "Key error: ED error: the key is of another kind than one of a curve 25519 or 448"
    if kind == X25519:
        return "ED error: the key isn't one for signatures"
    if kind != ED25519:
        return "Key error: ED error: the algorithm on a curve 25519 or 448 isn't supported"
    return "invalid signature" if len(octets) == 32 else "ED error: the key hasn't 32 octets"


def link_text(name, parent, child, malformed):
    """The text of what one certificate over another is refused for."""
    match name.removeprefix("InvalidCertificate:"):
        case "InvalidChain:IssuerIsNotCA":
            return f"CA chain error: issuer certificate '{parent.name}' is not a CA"
        case "InvalidChain:TooDeep":
            return ("CA chain error: chain depth doesn't satisfy basic constraints extension: "
                    f"certificate '{parent.name}' has pathlen of {parent.limits.length}")
        case "ExtensionNotFound":
            return invalid(parent, "extension not found: subject key identifier")
        case "InvalidChain:AuthorityKeyIdMismatch":
            return invalid(child, "CA chain error: authority key id doesn't match "
                           f"(expected: {child.authority_key.hex()}, got: {parent.subject_key.hex()})")
        case "InvalidChain:IssuerNameMismatch":
            return invalid(child, f"CA chain error: issuer name doesn't match (expected: {child.issuer_name}, got: {parent.name})")
        case "Signature" if name == "Signature":
            return f"signature error: unsupported algorithm: {child.parts.algorithm}"
    kind = {RSA: "RSA", EC: "EC", ED25519: "ED"}.get(SIGNATURES[child.parts.algorithm][0])
    said = f"{kind} error: the signature is malformed" if malformed else signature_text(parent.parts, child.parts)
    return invalid(child, f"signature error: {said}")


def expect_chain(checked, parents, window, table):
    """Each of the parents may have issued the one before it."""
    child, rows = checked, verdicts(table)
    for number, parent in enumerate(parents):
        try:
            chain_reader.expect_link(parent, child, number, window, rows)
        except chain_reader.Refused as refusal:
            name = str(refusal)
            malformed = isinstance(refusal, chain_reader.MalformedSignature)
            raise Refused(name, link_text(name, parent, child, malformed)) from refusal
        child = parent


# Trust lists.

def list_in(octets):
    """The signed data that a list is."""
    try:
        element = read_exact(octets)
        pkcs7(element)
    except Malformed as refusal:
        raise Refused("FailedToParseCtl", f"malformed DER: {shown_fault(refusal)}") from refusal
    except Shape as refusal:
        raise Refused("FailedToParseCtl", OTHER) from refusal
    return SignedData(element)


def ca_name(members):
    """The octets of the name of the CA of certificates."""
    first, *others = members
    authorities = [one for one in others if dated(one).limits.ca]
    if not authorities:
        return write(first.issuer)
    last = authorities[-1]
    return write(last.subject if last.subject == last.issuer else last.issuer)


def expect_listed(members, policy, excluded=()):
    """Where the policy has a list, the name of the CA of these is on it, or one of these names."""
    if policy.trust_list is None:
        return
    name = ca_name(members)
    if name in excluded:
        return
    signed = list_in(policy.trust_list)
    refuse_unless(signed.content is not None, "NoContent")
    refuse_unless(signed.content_type == TRUST_LIST, "IncorrectContentValue")
    refusal = listing_judge.first_refusal(listing_judge.entries_of(signed.content), name, policy.now)
    if refusal:
        raise Refused(*refusal)


# The steps.

def signer_of(signed):
    """The first signer, and its certificate."""
    refuse_unless(signed.signers, "MultipleSignerInfo", 0)
    signer = Signer(signed.signers[0])
    return signer, signers_certificate(signer, signed.bag)


def path_of(bag, one):
    """The members of the issuer walk with another subject."""
    return [member for member in issuer_walk(bag, one) if member.subject != one.subject]


def check_signing(signed, policy, table):
    """The indexes of the path, and the excuse, of the signer's certificate."""
    signer, one = signer_of(signed)
    refuse_unless(policy.lower or not (policy.not_before or policy.not_after), "MissingBuilderArgument", "missing required builder argument `now`")
    window = Window(policy.lower, policy.upper or policy.lower, policy.not_before, policy.not_after)
    excuse = "none"
    try:
        dated(one).expect_valid(window)
    except Refused as refusal:
        if refusal.words[0] != EXPIRED:
            raise
        excuse = excuse_for(signed.bag, signer, one, refusal, policy, table)
    if not policy.chain:
        return [], excuse
    path = path_of(signed.bag, one)
    expect_chain(dated(one), map(dated, path), window, table)
    return [place_of(member, signed.bag) for member in path], excuse


def check_list(signed, policy):
    """Steps 16 and 17."""
    _, one = signer_of(signed)
    expect_listed(issuer_walk(signed.bag, one), policy, policy.excluded if policy.exclude else ())


# The excuse.

def token_of(signer):
    """The token in the first unsigned attribute, None where there is none."""
    if not signer.unsigned:
        return None
    kind, values = signer.unsigned[0].kids
    return values.kids[0] if dotted(kind.contents) == MICROSOFT_COUNTERSIGNATURE and values.kids else None


def excuse_for(bag, signer, one, refusal, policy, table):
    """Why an expired signer is accepted, else the refusal."""
    if one.names(LIFETIME_SIGNING):
        raise refusal
    if any(member.names(TIME_STAMPING) for member in bag):
        return "bag"
    token = token_of(signer)
    if token is None:
        raise refusal
    stamped = SignedData(token).bag
    if not any(member.names(TIME_STAMPING) for member in stamped):
        raise refusal
    first, *others = stamped
    above = [dated(member) for member in others if member.subject != first.subject]
    try:
        expect_chain(dated(first), above, Window(None, None, False, False), table)
    except Refused as bad:
        raise Refused("InvalidTimestampCert", bad.words[1]) from bad
    expect_listed(stamped, policy)
    return "token"


# The answer.

def accepted(octets, policy, table):
    """The place of the signer's certificate, those of the path and the excuse, or the first refusal."""
    if policy.trust_list is not None:
        list_in(policy.trust_list)
    signed = signed_data_in(certificate_in(octets))
    if policy.basic:
        check_basic(signed, policy.file_hash, table)
    path, excuse = check_signing(signed, policy, table) if policy.signing else ([], "none")
    if policy.against_list:
        check_list(signed, policy)
    is_told = policy.basic or policy.signing or policy.against_list
    return place_of(signer_of(signed)[1], signed.bag) if is_told else "", path, excuse


def answer(octets, policy, table):
    """The line that is printed of a signature file under a policy, and a table."""
    try:
        place, path, excuse = accepted(octets, policy, table)
    except Refused as refusal:
        return shown(refusal)
    return f"accepted signer={place} path={','.join(map(str, path))} excuse={excuse}"
