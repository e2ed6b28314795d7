"""The signatures of `world_signatures.txt` and `signed_programs.txt` under policies, for `xgolden_check`.

The answers are those of `check_judge`; the tables are what openssl's arithmetic
gives for the signatures.  Each signature file is asked at a date within the window
of its signer, a date before and one after, and some also with its certificates in
order, with each option, and with one octet changed.
"""

from cases import basic_world
from cases.check_making import File
from interop import signed_programs, world_signatures
from common.signed_data import NotASignatureFile
from judges.basic_judge import Refused, certificate_in, signed_data_in
from judges.check_judge import Policy, answer, dated, signer_of
from order_bag import with_ordered_bag

ALL = Policy(True, True, True, True, True)
# Those that are asked in many ways, and the one of which every octet is changed.
MANY = ("program, RSA, sha256", "program, two certificates", "program, a token, five certificates", "cabinet, a counter-signature, five certificates")
EVERY = "program, RSA, sha1"


def written():
    """Labels and signature files, each with its table and the digest in it."""
    known = basic_world.tables()
    for label, kind, octets in world_signatures.stored():
        if kind == "pkcs7":
            file = basic_world.signature_file(octets)
            yield label, File(file, "".join(f"{line}\n" for line in known[label]), basic_world.asked_hash(file))
    for label, one in signed_programs.stored().items():
        yield label, one.file()


def in_order(file):
    """A file with its certificates in order, None where it has none of DER."""
    try:
        return file._replace(octets=with_ordered_bag(file.octets))
    except (NotASignatureFile, AttributeError, IndexError):
        return None


def years(file):
    """The first and the last year of the signer's certificate, those of no one in particular where there is none."""
    try:
        one = dated(signer_of(signed_data_in(certificate_in(file.octets)))[1])
    except Refused:
        return 2020, 2030
    return int(one.begins[:4]), int(one.ends[:4])


def new_year(year):
    return f"{year:04}0101000000"


def dates(file):
    """A date in the window of the signer, one before, and one after."""
    first, last = years(file)
    return [new_year(year) for year in (first + 1, first - 1, last + 1)]


def at(file, lower, upper=None, **flags):
    return ALL._replace(file_hash=file.file_hash, lower=lower, upper=upper, **flags)


def three_dates(file):
    for date in dates(file):
        yield at(file, date)


def many_ways(file):
    """Each option at each date, intervals, and steps left out."""
    within, before, after = dates(file)
    for date in within, before, after:
        yield at(file, date)
        yield at(file, date, not_before=False)
        yield at(file, date, not_after=False)
        yield at(file, date, chain=False)
        yield at(file, date, not_before=False, not_after=False)
        yield at(file, date, not_before=False, not_after=False, chain=False)
        yield at(file, date, basic=False)
    for lower, upper in (before, within), (before, after), (within, after), (after, before), (after, within):
        yield at(file, lower, upper)
    yield at(file, within, within)
    yield at(file, None)
    yield ALL._replace(lower=within)
    yield Policy()


def changed():
    """What is changed of the files that are asked in many ways, within and after, and of one file every octet."""
    for label, file in written():
        if label in MANY:
            for _, place, octet in basic_world.changes_of(file.octets):
                for date in dates(file)[::2]:
                    yield file, at(file, date), (place, octet)
        if label == EVERY:
            for place, octet in enumerate(file.octets):
                yield file, at(file, dates(file)[0]), (place, octet ^ 1)


def plain():
    """Files as they are, and in order."""
    for label, file in written():
        ways = many_ways if label in MANY or label in signed_programs.LABELS else three_dates
        for policy in ways(file):
            yield file, policy, None
        other = in_order(file)
        if other and other.octets != file.octets:
            for policy in ways(file):
                yield other, policy, None


def asked():
    """Each file, what is asked, the octet that is changed, and the answer."""
    for file, policy, change in (*plain(), *changed()):
        octets = basic_world.with_octet(file.octets, *change) if change else file.octets
        yield file, policy, change, answer(octets, policy, file.table)
