#!/usr/bin/env python3
"""Certificates as a caller asks for them, and which may be the parent of which.

Usage:

    python3 tools/cases/kept_certificates.py --make

prints `tools/cases/kept_certificates.txt` anew: it has openssl (3.0 or later) make a
root, an authority below it, another of the same name with another key, and a
certificate of no authority.  The keys are fresh each time.  Rows are a label
and the certificate in hexadecimal digits, a bar between.

The lines are made with the readers of `value_reader`, from RFC 5280 and the
texts of errors, and not from what the program printed.  `test_tools.py` has
openssl say which of the stored certificates is the issuer of which.
"""

import sys
from pathlib import Path
from tempfile import TemporaryDirectory

sys.path.insert(0, str(Path(__file__).resolve().parents[1]))

from cases import hostile_certificates as hostile
from cases import whole_certificates as whole
from cases.first_path import SignatureFile, context_primitive, name
from common import command
from common import folders
from common.openssl import openssl
from judges.der_reader import Malformed, read_exact, write
from judges.value_reader import (
    Shape, authority_key, basic_constraints, certificate, dotted, given, inner, name_text, shown_fault, subject_key, time, word,
)

STORED = folders.CASES / "kept_certificates.txt"

# What is reported of octets that are no certificate.
UNREAD = "(ASN1) couldn't deserialize x509 certificate: "
SHAPE = "the element has another structure than the one that is read"
UNWRITTEN = "(ASN1) couldn't serialize x509 certificate: "
TOO_DEEP = "the tree is nested deeper than 64 levels and cannot be written"


# By openssl.

ROOT, AUTHORITY, OTHER, END = "root", "authority", "authority of another key", "no authority"
SUBJECTS = {ROOT: "/CN=Root", AUTHORITY: "/O=Made here/CN=Authority", OTHER: "/O=Made here/CN=Authority", END: "/CN=End"}
ISSUERS = {ROOT: ROOT, AUTHORITY: ROOT, OTHER: ROOT, END: AUTHORITY}
KEY_IDS = "subjectKeyIdentifier=hash\nauthorityKeyIdentifier=keyid\n"
FORMS = {
    ROOT: "basicConstraints=critical,CA:true\n" + KEY_IDS,
    AUTHORITY: "basicConstraints=critical,CA:true,pathlen:0\n" + KEY_IDS,
    OTHER: "basicConstraints=critical,CA:true,pathlen:0\n" + KEY_IDS,
    END: "basicConstraints=critical,CA:false\n" + KEY_IDS,
}


def made():
    """Labels, and the certificates that openssl makes for them."""
    with TemporaryDirectory() as place:
        folder = Path(place)
        for label, subject in SUBJECTS.items():
            key, request, form = (folder / f"{label}.{end}" for end in ("key", "csr", "cnf"))
            issuer = ISSUERS[label]
            openssl("genpkey", *whole.EC, "-out", key)
            openssl("req", "-new", "-key", key, "-subj", subject, "-out", request)
            form.write_text(FORMS[label], encoding="ascii")
            signer = ("-key", key) if issuer == label else ("-CA", folder / f"{issuer}.pem", "-CAkey", folder / f"{issuer}.key")
            openssl("x509", "-req", "-in", request, *signer, "-days", "365", "-extfile", form, "-out", folder / f"{label}.pem")
            yield label, openssl("x509", "-in", folder / f"{label}.pem", "-outform", "DER")


def stored():
    """Labels and certificates of the file."""
    for line in STORED.read_text(encoding="ascii").splitlines():
        label, octets = line.split("|")
        yield label, bytes.fromhex(octets)


# What is printed.

def fields_of(element):
    """The fields of what is signed that a caller asks for, and the extensions."""
    fields = list(element.kids[0].kids)
    given(fields, 0xA0)
    serial, algorithm, issuer, dates, subject, key, *rest = fields
    given(rest, 0x81), given(rest, 0x82)
    listed = given(rest, 0xA3)
    return serial, algorithm, issuer, dates, subject, key, listed.kids[0].kids if listed else ()


def first(extensions, oid):
    """The element in the first extension of this identifier."""
    found = (inner(one.kids[-1].contents) for one in extensions if dotted(one.kids[0].contents) == oid)
    return next(found, None)


def kind(extensions, subject, issuer):
    """What kind of certificate it is (RFC 5280 3.2, 4.2.1.9)."""
    constraints = first(extensions, "2.5.29.19")
    flag = "none" if constraints is None else basic_constraints(constraints)[0].split()[0]
    authority = "Root" if subject == issuer else "Intermediate"
    return {"true": authority, "false": "Leaf", "none": "Unknown"}[flag]


def asked(extensions, oid, printed, called):
    """What the first extension of this identifier says, or that there is none."""
    element = first(extensions, oid)
    return f"extension not found: {called}" if element is None else printed(element)[0]


def refusal(octets):
    """What is reported of octets that are no certificate, None of those that are one."""
    try:
        certificate(read_exact(octets))
    except Malformed as malformed:
        return f"{UNREAD}malformed DER: {shown_fault(malformed)}"
    except Shape:
        return UNREAD + SHAPE
    return None


def moment(element):
    """A time without its form."""
    return time(element).split(maxsplit=1)[1]


def kept_line(octets):
    """Whether the octets come back, kept and written anew; the kind, the dates, the names, number, algorithm and key, what the
    first extensions say, and how many there are.
    """
    refused = refusal(octets)
    if refused is not None:
        return refused
    element = read_exact(octets)
    serial, algorithm, issuer, dates, subject, key, extensions = fields_of(element)
    written = certificate(element).split()[-1]
    return " ".join((
        "same", "same" if written == octets.hex() else "changed", kind(extensions, subject, issuer), *map(moment, dates.kids), name_text(subject), name_text(issuer),
        word(serial.contents), dotted(algorithm.kids[0].contents), write(key).hex(),
        asked(extensions, "2.5.29.14", subject_key, "subject key identifier"),
        asked(extensions, "2.5.29.35", authority_key, "authority key identifier"),
        asked(extensions, "2.5.29.19", basic_constraints, "basic constraints"), str(len(extensions)),
    ))


def parent_line(parent, child):
    """Whether one is the parent of the other, by names and key identifiers; else why not, and of which it is told."""
    *_, own_subject, _, own_extensions = fields_of(read_exact(parent))
    *_, issuer, _, subject, _, extensions = fields_of(read_exact(child))
    named, had = first(extensions, "2.5.29.35"), first(own_extensions, "2.5.29.14")
    expected = "none" if named is None else authority_key(named)[0].split()[0]
    if expected != "none":
        if had is None:
            return f"invalid certificate '{name_text(own_subject)}': extension not found: subject key identifier"
        actual = had.contents.hex()
        expected = expected.strip("-")
        if expected != actual:
            return invalid(subject, f"authority key id doesn't match (expected: {expected}, got: {actual})")
    if issuer != own_subject:
        return invalid(subject, f"issuer name doesn't match (expected: {name_text(issuer)}, got: {name_text(own_subject)})")
    return "parent"


def invalid(subject, cause):
    return f"invalid certificate '{name_text(subject)}': CA chain error: {cause}"


# By hand.

def named(subject, issuer, *extensions):
    """A certificate of these names and extensions."""
    return whole.certificate(whole.tbs(subject=name(subject), issuer=name(issuer), extensions=whole.context(3, whole.sequence(*extensions))))


def key_id(octets):
    return whole.authority_key(context_primitive(0, octets))


# A parent and a child.
PAIRS = [
    (named(b"A", b"R"), named(b"B", b"A"), "names alone"),
    (named(b"A", b"R"), named(b"A", b"B"), "the subject of the child is that of the parent"),
    (named(b"A", b"B"), named(b"B", b"R"), "the other way around"),
    (named(b"A", b"R", whole.subject_key(b"\xaa")), named(b"B", b"A", key_id(b"\xaa")), "names and keys"),
    (named(b"A", b"R", whole.subject_key(b"\xaa\xbb")), named(b"B", b"A", key_id(b"\xaa")), "another key"),
    (named(b"A", b"R", whole.subject_key(b"\xaa")), named(b"B", b"C", key_id(b"\xaa")), "another name"),
    (named(b"A", b"R", whole.subject_key(b"\xaa")), named(b"B", b"C", key_id(b"\xab")), "another key and another name"),
    (named(b"A", b"R"), named(b"B", b"A", key_id(b"\xaa")), "no identifier of the parent's key"),
    (named(b"A", b"R"), named(b"B", b"C", key_id(b"\xaa")), "no identifier of the parent's key, and another name"),
    (named(b"A", b"R", key_id(b"\xaa")), named(b"B", b"A", key_id(b"\xaa")), "the parent's own authority has the key"),
    (named(b"A", b"R", whole.subject_key(b"\xaa")), named(b"B", b"A", whole.subject_key(b"\xbb")), "the child names no key"),
    (named(b"A", b"R", whole.subject_key(b"\xaa")), named(b"B", b"A", whole.authority_key(context_primitive(2, b"\1"))), "the child names the number alone"),
    (named(b"A", b"R", whole.subject_key(b"\xaa"), whole.subject_key(b"\xbb")), named(b"B", b"A", key_id(b"\xbb")), "the parent's second identifier"),
    (named(b"A", b"R", whole.subject_key(b"\xaa")), named(b"B", b"A", key_id(b"\xbb"), key_id(b"\xaa")), "the child's second identifier"),
    (named(b"A", b"R", whole.subject_key(b"")), named(b"B", b"A", key_id(b"")), "identifiers of no octets"),
    (named(b"A", b"R", whole.subject_key(b"\xaa")), named(b"A", b"A", whole.subject_key(b"\xaa"), key_id(b"\xaa")), "a root of the parent's name"),
]

ONE = whole.certificate(whole.tbs())

# That of the signature file of the stored run of `picky`.
STORED_RUN = SignatureFile().certificate()

# Octets that are no certificate, beside those of `whole_certificates`.
UNREADABLE = [
    (STORED_RUN[:-1], "the last octet of that of the stored run is missing"),
    (ONE[:-1], "the last octet is missing"),
    (ONE + b"\0", "an octet after it"),
    (ONE + ONE, "a certificate after it"),
    (b"", "no octets"),
    (b"\0" + ONE, "a zero before it"),
]

# Certificates by hand: of these kinds there are none among those of `whole_certificates`.
KINDS = [
    (STORED_RUN, "no extensions, that of the stored run"),
    (named(b"A", b"A", whole.constraints(whole.TRUE)), "a root"),
    (named(b"A", b"B", whole.constraints(whole.TRUE)), "an authority of another issuer"),
    (named(b"A", b"A", whole.constraints(b"\1\1\0")), "no authority, issued by itself"),
    (named(b"A", b"A", whole.constraints()), "constraints without a flag, issued by itself"),
    (named(b"A", b"A", whole.extension(17, bytes.fromhex("3008a2061604612e6578"))), "alternative names that aren't read"),
]


# Algorithms that are put in the place of that of a signature.
ALGORITHMS = [
    (hostile.ED, "without parameters"),
    (hostile.sequence(hostile.OID, hostile.levels(62)), "64 levels down to the last of the parameters"),
    (hostile.sequence(hostile.OID, hostile.levels(63)), "65 levels"),
]


def written_line(algorithm):
    """What is written of a certificate with this algorithm of its signature, or that it is too deep."""
    octets = hostile.certificate(algorithm=algorithm)
    return f"{UNWRITTEN}{TOO_DEEP}" if refusal(octets) else octets.hex()


def certificates():
    """All certificates, and octets that are none."""
    yield from (octets for _, octets in whole.stored())
    yield from (octets for octets, _ in whole.WRITTEN + whole.REFUSED + UNREADABLE + KINDS)
    yield from (octets for _, octets in stored())


def rows():
    """The rows of `xgolden_certificate` on certificates that are kept."""
    for octets in certificates():
        yield f"kept certificate {word(octets)}", kept_line(octets)
    for algorithm, _ in ALGORITHMS:
        yield f"written certificate {hostile.PLAIN.hex()} {algorithm.hex()}", written_line(algorithm)
    for parent, child, _ in PAIRS:
        yield f"parent certificate {parent.hex()} {child.hex()}", parent_line(parent, child)
    for _, parent in stored():
        for _, child in stored():
            yield f"parent certificate {parent.hex()} {child.hex()}", parent_line(parent, child)


def main(arguments):
    if arguments != ["--make"]:
        return command.usage(__doc__)
    for label, octets in made():
        print(f"{label}|{octets.hex()}")
    return 0


if __name__ == "__main__":
    command.run(main, __doc__)
