#!/usr/bin/env python3
"""Whole certificates: some that openssl made, and others put together by hand.

Usage:

    python3 tools/cases/whole_certificates.py --make

prints `tools/cases/whole_certificates.txt` anew: it has openssl (3.0 or later) make
keys and certificates.  The keys are fresh each time.  Rows are a label and the
certificate in hexadecimal digits, a bar between.

Those by hand differ from one certificate in one field each; their signatures
are stand-ins, at which nothing looks.
"""

import sys
from pathlib import Path
from tempfile import TemporaryDirectory

sys.path.insert(0, str(Path(__file__).resolve().parents[1]))

from cases.first_path import (
    bit_string, context, context_primitive, element, identifier, integer, name, null, octet_string,
    sequence, utc_time,
)
from common import command
from common import folders
from common.openssl import openssl

STORED = folders.CASES / "whole_certificates.txt"

RSA = "-algorithm", "RSA", "-pkeyopt", "rsa_keygen_bits:1024"
EC = "-algorithm", "EC", "-pkeyopt", "ec_paramgen_curve:P-256"
ED25519 = "-algorithm", "ED25519"
RSA_PSS = "-algorithm", "RSA-PSS", "-pkeyopt", "rsa_keygen_bits:1024"
DSA_PARAMETERS = "-genparam", "-algorithm", "DSA", "-pkeyopt", "dsa_paramgen_bits:1024"

WITH_EXTENSIONS = (
    "-addext", "basicConstraints=critical,CA:true,pathlen:1", "-addext", "keyUsage=critical,keyCertSign",
    "-addext", "extendedKeyUsage=codeSigning", "-addext", "subjectAltName=DNS:a.example",
)

# The label, the key, further words for `openssl req -x509`, and whether the certificate reads here.
MADE = [
    ("version 3, RSA, extensions", RSA, WITH_EXTENSIONS, True),
    ("version 3, EC", EC, ("-set_serial", "1"), True),
    ("version 3, EC, a serial number of 20 octets", EC, ("-set_serial", "0x7f" + 19 * "5a"), True),
    ("version 3, Ed25519, a time of 2050 and later", ED25519, ("-days", "20000"), True),
    ("version 3, RSASSA-PSS", RSA_PSS, (), False),
    ("version 3, DSA", DSA_PARAMETERS, (), False),
]


def key_of(words, folder):
    """The file of a fresh key."""
    file = folder / "key.pem"
    if words == DSA_PARAMETERS:
        parameters = folder / "parameters.pem"
        openssl("genpkey", *words, "-out", parameters)
        words = ("-paramfile", parameters)
    openssl("genpkey", *words, "-out", file)
    return file


def made():
    """Labels, and the certificates that openssl makes for them."""
    with TemporaryDirectory() as place:
        folder = Path(place)
        for label, words, more, _ in MADE:
            key = key_of(words, folder)
            yield label, openssl("req", "-x509", "-new", "-key", key, "-subj", "/O=Made here/CN=" + label[:32].replace(",", ""),
                                 "-outform", "DER", *(() if "-days" in more else ("-days", "365")), *more)
        key = key_of(RSA, folder)
        request = folder / "request.pem"
        openssl("req", "-new", "-key", key, "-subj", "/CN=version 1", "-out", request)
        yield "version 1, RSA", openssl("x509", "-req", "-in", request, "-key", key, "-days", "30", "-outform", "DER")


READS = {label: reads for label, _, _, reads in MADE} | {"version 1, RSA": True}


# By hand.

ED_ALGORITHM = sequence(identifier("1.3.101.112"))
ECDSA = sequence(identifier("1.2.840.10045.4.3.2"))
KEY = sequence(ED_ALGORITHM, bit_string(bytes(32)))
VALIDITY = sequence(utc_time("200101000000Z"), utc_time("300101000000Z"))
CONSTRAINTS = sequence(identifier("2.5.29.19"), octet_string(sequence()))
OTHER = sequence(identifier("1.2.3"), octet_string(b""))
EXTENSIONS = context(3, sequence(CONSTRAINTS))
VERSION = context(0, integer(b"\2"))

FIELDS = {
    "version": VERSION, "serial": integer(b"\1"), "signature": ED_ALGORITHM, "issuer": name(b"Issuer"), "validity": VALIDITY,
    "subject": name(b"Subject"), "key": KEY, "issuer_id": b"", "subject_id": b"", "extensions": EXTENSIONS, "behind": b"",
}


def tbs(**fields):
    return sequence(*(FIELDS | fields).values())


def certificate(to_be_signed, algorithm=ED_ALGORITHM, value=bit_string(bytes(4)), *behind):
    return sequence(to_be_signed, algorithm, value, *behind)


def extended(*extensions):
    """A certificate with these extensions."""
    return certificate(tbs(extensions=context(3, sequence(*extensions))))


def extension(arc, value):
    return sequence(identifier(f"2.5.29.{arc}"), octet_string(value))


def constraints(*parts):
    return extension(19, sequence(*parts))


def subject_key(octets):
    return extension(14, octet_string(octets))


def authority_key(*parts):
    return extension(35, sequence(*parts))


def usage(*purposes):
    return extension(37, sequence(*map(identifier, purposes)))


TRUE = b"\1\1\xff"
CODE_SIGNING, TIME_STAMPING = "1.3.6.1.5.5.7.3.3", "1.3.6.1.5.5.7.3.8"
ISSUER_ID, SUBJECT_ID = context_primitive(1, b"\0\xaa"), context_primitive(2, b"\0\xbb\xcc")

WRITTEN = [
    (certificate(tbs()), "all but the unique identifiers"),
    (certificate(tbs(version=b"", extensions=b"")), "no version and no extensions"),
    (certificate(tbs(version=context(0, integer(b"\0")))), "version 1, given"),
    (certificate(tbs(version=context(0, integer(b"\1")))), "version 2"),
    (certificate(tbs(issuer_id=ISSUER_ID, subject_id=SUBJECT_ID)), "both unique identifiers"),
    (certificate(tbs(issuer_id=ISSUER_ID)), "the unique identifier of the issuer"),
    (certificate(tbs(subject_id=SUBJECT_ID, extensions=b"")), "the unique identifier of the subject, no extensions"),
    (certificate(tbs(issuer_id=context_primitive(1))), "a unique identifier of no octets"),
    (certificate(tbs(extensions=context(3, sequence()))), "no extension in the list"),
    (certificate(tbs(extensions=context(3, sequence(CONSTRAINTS, OTHER, OTHER)))), "an extension twice"),
    (certificate(tbs(extensions=context(3, sequence(sequence(identifier("1.2.3"), b"\1\1\1", octet_string(b"")))))), "critical in another octet of TRUE"),
    (certificate(tbs(extensions=context(3, sequence(sequence(identifier("1.2.3"), b"\1\1\0", octet_string(b"")))))), "critical given as FALSE"),
    (certificate(tbs(serial=integer(b"\0"))), "serial number 0"),
    (certificate(tbs(serial=integer(b"\xff"))), "serial number below zero"),
    (certificate(tbs(serial=integer(b"\0\0\1"))), "a serial number with zeros in front"),
    (certificate(tbs(), ECDSA), "another algorithm than the one in what is signed"),
    (certificate(tbs(issuer=sequence(), subject=sequence())), "empty names"),
    (certificate(tbs(validity=sequence(utc_time("300101000000Z"), element(0x18, b"20000101000000Z")))), "times the other way around, the last a GeneralizedTime"),
    (certificate(tbs(), value=element(3, b"\7\x80")), "a signature with unused bits"),
    (certificate(tbs(), value=element(3, b"\0")), "a signature of no octets"),
    (certificate(tbs(key=sequence(ED_ALGORITHM, element(3, b"\5\xaa\x20")))), "a key with unused bits"),
    (certificate(tbs(key=sequence(ED_ALGORITHM, bit_string(b"")))), "a key of no octets"),
    (extended(constraints(TRUE, integer(b"\3"))), "an authority with a path length"),
    (extended(constraints(b"\1\1\1")), "an authority by another octet of TRUE"),
    (extended(constraints(b"\1\1\0")), "no authority, given as FALSE"),
    (extended(constraints(integer(b"\0\x80"))), "a path length of two octets without a flag"),
    (extended(OTHER, constraints(TRUE), constraints(b"\1\1\0", integer(b"\1"))), "basic constraints twice, the first without a path length"),
    (extended(constraints(), constraints(TRUE)), "basic constraints twice, the first without a flag"),
    (extended(subject_key(b"\xaa\xbb"), authority_key(context_primitive(0, b"\xcc"))), "both key identifiers"),
    (extended(authority_key(context_primitive(0, b"\xcc")), subject_key(b"\xaa\xbb")), "both key identifiers the other way around"),
    (extended(subject_key(b""), subject_key(b"\xaa")), "the key identifier of the subject twice, the first of no octets"),
    (extended(authority_key(context(1), context_primitive(2, b"\1")), authority_key(context_primitive(0, b"\xcc"))), "the key of the authority twice, the first by issuer and number"),
    (extended(authority_key(context_primitive(0, b"\xcc"), context(1), context_primitive(2, b"\1"))), "the key of the authority by all three"),
    (extended(usage(CODE_SIGNING)), "code signing"),
    (extended(usage("1.2.3", TIME_STAMPING)), "time stamping behind another purpose"),
    (extended(usage()), "an extended key usage without purposes"),
    (extended(usage("1.2.3"), OTHER, usage(TIME_STAMPING, CODE_SIGNING)), "both purposes in the second extended key usage"),
    (extended(usage(CODE_SIGNING), usage()), "a purpose in the first extended key usage of two"),
]

REFUSED = [
    (element(0x31, tbs(), ED_ALGORITHM, bit_string(bytes(4))), "a SET"),
    (sequence(tbs(), ED_ALGORITHM), "no signature"),
    (certificate(tbs(), ED_ALGORITHM, bit_string(bytes(4)), null()), "an element behind the signature"),
    (sequence(ED_ALGORITHM, tbs(), bit_string(bytes(4))), "the algorithm first"),
    (certificate(tbs(version=context(0, integer(b"\3")))), "version 4"),
    (certificate(tbs(version=context(0, integer(b"\0\2")))), "a version of two octets"),
    (certificate(tbs(version=context(0, integer(b"")))), "a version of no octets"),
    (certificate(tbs(version=context(0))), "no version under its tag"),
    (certificate(tbs(version=context(0, integer(b"\2"), integer(b"\2")))), "two versions"),
    (certificate(tbs(version=integer(b"\2"))), "a version without its tag"),
    (certificate(tbs(version=context_primitive(0, integer(b"\2")))), "a version under a primitive tag"),
    (certificate(tbs(serial=integer(b""))), "a serial number of no octets"),
    (certificate(tbs(serial=b"")), "no serial number"),
    (certificate(tbs(serial=null())), "NULL as the serial number"),
    (certificate(tbs(signature=sequence())), "no identifier of the algorithm"),
    (certificate(tbs(issuer=null())), "NULL as the issuer"),
    (certificate(tbs(subject=sequence(sequence()))), "a SEQUENCE in the subject"),
    (certificate(tbs(validity=sequence(utc_time("200101000000Z")))), "one time"),
    (certificate(tbs(key=sequence(sequence(identifier("1.2.3")), bit_string(b"")))), "a key of no known kind"),
    (certificate(tbs(key=b"")), "no key"),
    (certificate(tbs(issuer_id=SUBJECT_ID, subject_id=ISSUER_ID)), "the unique identifiers the other way around"),
    (certificate(tbs(issuer_id=ISSUER_ID, subject_id=ISSUER_ID)), "the unique identifier of the issuer twice"),
    (certificate(tbs(issuer_id=context(1, null()))), "a constructed unique identifier"),
    (certificate(tbs(issuer_id=EXTENSIONS)), "extensions twice"),
    (certificate(tbs(issuer_id=EXTENSIONS, subject_id=SUBJECT_ID, extensions=b"")), "the unique identifier behind the extensions"),
    (certificate(tbs(extensions=context(3))), "no list of extensions under its tag"),
    (certificate(tbs(extensions=context(3, sequence(OTHER), sequence(OTHER)))), "two lists of extensions"),
    (certificate(tbs(extensions=context(3, OTHER))), "an extension without its list"),
    (certificate(tbs(extensions=sequence(OTHER))), "extensions without their tag"),
    (certificate(tbs(extensions=context(3, sequence(sequence(identifier("2.5.29.19"), octet_string(null())))))), "NULL as basic constraints"),
    (certificate(tbs(behind=null())), "an element behind the extensions"),
    (certificate(tbs(extensions=b"", behind=null())), "an element behind the key"),
    (certificate(tbs(), sequence()), "no identifier of the outer algorithm"),
    (certificate(tbs(), value=element(3, b"")), "a signature without its count of unused bits"),
    (certificate(tbs(), value=octet_string(bytes(4))), "an OCTET STRING as the signature"),
    (sequence(bit_string(tbs()), ED_ALGORITHM, bit_string(bytes(4))), "what is signed in a BIT STRING"),
]

# Two certificates that are unlike one another, and in what.
UNLIKE = [
    (certificate(tbs(version=b"")), certificate(tbs(version=context(0, integer(b"\0")))), "a version that is left out and version 1"),
    (certificate(tbs()), certificate(tbs(version=context(0, integer(b"\1")))), "the versions"),
    (certificate(tbs()), certificate(tbs(serial=integer(b"\2"))), "the serial numbers"),
    (certificate(tbs()), certificate(tbs(serial=integer(b"\0\1"))), "two contents of one serial number"),
    (certificate(tbs()), certificate(tbs(signature=ECDSA)), "the inner algorithms"),
    (certificate(tbs()), certificate(tbs(issuer=name(b"Other"))), "the issuers"),
    (certificate(tbs()), certificate(tbs(validity=sequence(utc_time("200101000000Z"), utc_time("310101000000Z")))), "the last times"),
    (certificate(tbs()), certificate(tbs(subject=name(b"Other"))), "the subjects"),
    (certificate(tbs()), certificate(tbs(key=sequence(ED_ALGORITHM, bit_string(bytes(31))))), "the keys"),
    (certificate(tbs(issuer_id=context_primitive(1))), certificate(tbs()), "a unique identifier of no octets and none"),
    (certificate(tbs(subject_id=SUBJECT_ID)), certificate(tbs(subject_id=context_primitive(2))), "the unique identifiers of the subject"),
    (certificate(tbs(extensions=b"")), certificate(tbs(extensions=context(3, sequence()))), "no extensions and an empty list of them"),
    (certificate(tbs(extensions=context(3, sequence(OTHER)))), certificate(tbs(extensions=context(3, sequence(OTHER, OTHER)))), "an extension once and twice"),
    (certificate(tbs()), certificate(tbs(), ECDSA), "the outer algorithms"),
    (certificate(tbs()), certificate(tbs(), value=bit_string(bytes(5))), "the signatures"),
]

FLAGS = [sequence(identifier("1.2.3"), flag, octet_string(b"")) for flag in (b"\1\1\xff", b"\1\1\1")]

# Two spellings of one certificate.
LIKE = [
    (certificate(tbs(extensions=context(3, sequence(FLAGS[0])))), certificate(tbs(extensions=context(3, sequence(FLAGS[1])))), "critical in two octets"),
    (certificate(tbs(extensions=context(3, sequence(OTHER)))), certificate(tbs(extensions=context(3, sequence(sequence(identifier("1.2.3"), b"\1\1\0", octet_string(b"")))))), "critical left out and given as FALSE"),
]


def stored():
    """Labels and certificates of the file."""
    for line in STORED.read_text(encoding="ascii").splitlines():
        label, octets = line.split("|")
        yield label, bytes.fromhex(octets)


def main(arguments):
    if arguments != ["--make"]:
        return command.usage(__doc__)
    for label, octets in made():
        print(f"{label}|{octets.hex()}")
    return 0


if __name__ == "__main__":
    command.run(main, __doc__)
