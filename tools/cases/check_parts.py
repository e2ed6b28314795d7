"""What is asked of signature files, what is answered, and the certificates in them, for `check_rows` and `excuse_rows`."""

from typing import NamedTuple

from cases.basic_making import CODE_SIGNING, TIME_STAMPING, usage
from cases.check_making import File, Made, Other, rsa
from cases.first_path import FILE_HASH, context, sequence
from judges.check_judge import LIFETIME_SIGNING, Policy


class Row(NamedTuple):
    """Why a row is there, the file, what is asked, and the line that is answered."""

    why: str
    file: File
    policy: Policy
    said: str


# What is asked.

def digits(date):
    """A date, or a moment, in fourteen digits."""
    return "".join(filter(str.isdigit, date)).ljust(14, "0")


ALL = Policy(True, True, True, True, True, FILE_HASH)
SIGNING = ALL._replace(basic=False, file_hash=None)
NOTHING = Policy()
BASIC = Policy(basic=True, file_hash=FILE_HASH)


def at(date, until=None, policy=ALL, **flags):
    """`check` at a date, or from one to another."""
    return policy._replace(lower=digits(date), upper=digits(until) if until else None, **flags)


DAY, LATER = "2025-01-01", "2031-01-01"
# The ends of the signer's window, and moments beside them.
FIRST, LAST = "2020-01-01", "2030-01-01"
PAST, EARLY, LATE = "2019-01-01", "2019-12-31T23:59:59", "2030-01-01T00:00:01"
IN, OVER = at(DAY), at(LATER)
NO_BEFORE, NO_AFTER, NO_CHAIN = {"not_before": False}, {"not_after": False}, {"chain": False}
NO_DATES = NO_BEFORE | NO_AFTER


# What is answered.

def accepted(signer=0, path="", excuse="none"):
    return f"accepted signer={signer} path={path} excuse={excuse}"


def refused(name, text):
    return f"refused {name} {text}"


def shown(date):
    """A date or a moment as it is printed."""
    return date.replace("T", " ") if "T" in date else f"{date} 00:00:00"


def not_yet(name, begins, now):
    return refused("InvalidCertificate:CertificateNotYetValid",
                   f"invalid certificate 'CN={name}': certificate is not yet valid (not before: {shown(begins)}, now: {shown(now)})")


def expired(name="S", ends="2030-01-01", now=LATER):
    return refused("InvalidCertificate:CertificateExpired",
                   f"invalid certificate 'CN={name}': certificate expired (not after: {shown(ends)}, now: {shown(now)})")


def no_authority(name):
    return refused("InvalidChain:IssuerIsNotCA", f"CA chain error: issuer certificate 'CN={name}' is not a CA")


def too_deep(name, length):
    return refused("InvalidChain:TooDeep", "CA chain error: chain depth doesn't satisfy basic constraints extension: "
                   f"certificate 'CN={name}' has pathlen of {length}")


def no_key_id(name):
    return refused("InvalidCertificate:ExtensionNotFound", f"invalid certificate 'CN={name}': extension not found: subject key identifier")


def other_key_id(name, expected, actual):
    return refused("InvalidCertificate:InvalidChain:AuthorityKeyIdMismatch",
                   f"invalid certificate 'CN={name}': CA chain error: authority key id doesn't match (expected: {expected}, got: {actual})")


def other_issuer(name, expected, actual):
    return refused("InvalidCertificate:InvalidChain:IssuerNameMismatch",
                   f"invalid certificate 'CN={name}': CA chain error: issuer name doesn't match (expected: CN={expected}, got: CN={actual})")


def unknown_algorithm(dotted):
    return refused("Signature", f"signature error: unsupported algorithm: {dotted}")


def bad_signature(name, cause="invalid signature"):
    return refused("InvalidCertificate:Signature", f"invalid certificate 'CN={name}': signature error: {cause}")


def bad_stamp(answer):
    """The refusal of a token by that of its chain."""
    return refused("InvalidTimestampCert", f"certificate of the time stamp: {answer.split(' ', 2)[2]}")


NO_DATE = refused("MissingBuilderArgument", "missing required builder argument `now`")
NO_SIGNER = refused("MultipleSignerInfo", "the signed data has 0 signers, and not one")
NAMED_BY_KEY = refused("IncorrectSignerIdentifier", "the signer is named by the identifier of a key, and not by issuer and serial number")
NO_SIGNED_DATA = refused("Asn1Deserialization",
                         "(ASN1) couldn't deserialize pkcs7 certificate: the element has another structure than the one that is read")


def no_certificate(serial, issuer):
    return refused("NoCertificatesAssociatedWithIssuerAndSerialNumber",
                   f"the signed data has no certificate of the issuer 'CN={issuer}' with the serial number {serial}")


# Certificates: a signer, its issuer, the root above that, and others.

CODE, STAMP, LIFETIME, BOTH = usage(CODE_SIGNING), usage(TIME_STAMPING), usage(CODE_SIGNING, LIFETIME_SIGNING), usage(CODE_SIGNING, TIME_STAMPING)
K_S, K_I, K_R, K_T, K_X = (rsa(number) for number in (0x11, 0x12, 0x13, 0x14, 0x15))


def s(**parts):
    """The signer, whom I issued."""
    return Made(**({"subject": b"S", "issuer": b"I", "key": K_S, "by": K_I} | parts))


def i(**parts):
    """The authority I, whom R issued, valid longer than the signer."""
    return Made(**({"subject": b"I", "issuer": b"R", "key": K_I, "by": K_R, "ca": True, "ends": "20400101000000"} | parts))


def r(**parts):
    """The root R."""
    return Made(**({"subject": b"R", "key": K_R, "ca": True, "ends": "20500101000000"} | parts))


def alone(**parts):
    """A signer that issued itself."""
    return Made(**parts)


def t(**parts):
    """A certificate outside of all of this, which stamps."""
    return Made(**({"subject": b"T", "key": K_T, "extensions": (STAMP,)} | parts))


S, I, R, T, ALONE = s(), i(), r(), t(), alone()
# Another one of the signer's subject.
ALIKE = s(serial=b"\x02", issuer=b"R", by=K_R)


def without(made, place):
    """A file whose table lacks a row."""
    lines = made.table.splitlines(keepends=True)
    return made._replace(table="".join(lines[:place] + lines[place + 1:]))


BARE = {"key_id": None, "authority": None}
OTHER_ID = b"\xAA\xBB"
UNREAD = Other(sequence())
ATTRIBUTES = Other(context(1, sequence()))
