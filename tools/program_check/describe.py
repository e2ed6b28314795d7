"""What is shown of a program, whatever is answered of it."""

import signed_program
from program_check import notes, text
from program_check.image import Image
from program_check.signature import further_entries

# Lines on signatures that aren't looked at, and certificates that are listed.
MOST_OTHERS, MOST_CERTIFICATES = 100, 100
# The octets of the longest digest (FIPS 180-4).
MOST_DIGEST = 64
SIGNTOOL = "`signtool verify /all` checks it"
OTHERS = {"in an attribute": f"`osslsigncode verify` or {SIGNTOOL}", "as a further entry": f"{SIGNTOOL}, and osslsigncode refuses a program of two entries"}


def describe(report, subject, alone):
    """Fills in the part of a report that is read of the file; `alone` where it is a signature without its program."""
    signature, certificate = subject.signature, subject.certificate()
    stated = signature.stated_digest()
    if subject.digest is not None:
        report.digest = {"algorithm": stated[0] if stated else "of --digest", "value": subject.digest.hex(), "signed": stated[1][:MOST_DIGEST].hex() if stated else None}
    if certificate is not None:
        report.signer = certificate.shown()
    report.certificates = [one.shown() for one in signature.certificates[:MOST_CERTIFICATES]]
    if len(signature.certificates) > MOST_CERTIFICATES:
        report.notes.append(notes.CERTIFICATES.format(len(signature.certificates), MOST_CERTIFICATES))
    report.description = dict(zip(("name", "link"), signature.description()))
    report.stated_time = signature.stated_time()
    report.notes += notes.weaknesses(stated[0] if stated else None, certificate)
    report.notes += [notes.UNSIGNED.format(text.counted(many, "octet"), where) for many, where in unsigned(subject, alone)]
    image = None if alone else Image.of(subject.octets)
    if image is not None and image.is_rounded_into_the_table():
        report.notes.append(notes.ROUNDED.format(f"{image.layout.step():,}"))
    describe_others(report, subject, alone)


def further_of(subject, most):
    """The signatures behind the first entry of a program's table."""
    _, _, at, length = signed_program.parts(subject.octets)
    return further_entries(subject.octets, at, at + length, len(subject.entry), most)


def unsigned(subject, alone):
    """Where the table holds octets that nobody signed: how many, and where."""
    yield from subject.signature.unsigned()
    behind = subject.signature.behind()
    if behind:
        yield behind, "behind the signature, within the length that its header states"
    if not alone:
        left = further_of(subject, 0).left
        if left:
            yield left, "behind its entries"


def describe_others(report, subject, alone):
    """Signatures that aren't looked at: so many of them in words, and how many there are."""
    found, count = subject.signature.nested(MOST_OTHERS)
    lines = [("in an attribute", one) for one in found]
    if not alone:
        further = further_of(subject, MOST_OTHERS - len(lines))
        lines += [("as a further entry", one) for one in further.described]
        count += further.count
        report.notes += [notes.TWO_ENTRIES] if further.count else []
    report.other_signatures = [f"{where}: {one}; not checked here: {OTHERS[where]}" for where, one in lines]
    if count > len(lines):
        report.other_signatures.append(f"and {count - len(lines):,} more, which aren't listed")
