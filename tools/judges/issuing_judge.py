"""What is answered of requests, and of certificates over their parents (RFC 5280 6.1): a judge of its own.

The rules are those of RFC 2986 4.2 and RFC 5280, signatures are judged by the schemes of
`issuing_maker`.  Nothing is shared with the program.
"""

from cases.kept_certificates import fields_of, first, kind, parent_line, refusal
from judges.der_reader import read_exact, write
from judges.issuing_maker import CALLED, Refused, key_in, request_verdict
from judges.value_reader import basic_constraints, dotted, name_text, request, unread


# What is reported of two certificates that name one another otherwise, and what it is called.
UNLIKE = {
    "extension not found: ": "ExtensionNotFound",
    "authority key id doesn't match": "InvalidChain:AuthorityKeyIdMismatch",
    "issuer name doesn't match": "InvalidChain:IssuerNameMismatch",
}


# ---- requests

def request_line(octets, scheme):
    """Whether the octets come back, as they were kept and as they are written; the key, the subject and the verdict."""
    return unread("certification request", octets, lambda element: kept_line(octets, request(element), scheme))


def kept_line(octets, line, scheme):
    _, subject, key, *_ = read_exact(octets).kids[0].kids
    same = "same" if line.split()[-1] == octets.hex() else "changed"
    return f"{same} {write(key).hex()} {name_text(subject)} {request_verdict(octets, scheme)}"


# ---- certificates over their parents

def printed(digits):
    """A date as it prints."""
    year, month, day, hour, minute, second = digits[:4], *(digits[place:place + 2] for place in range(4, 14, 2))
    return f"{year}-{month}-{day} {hour}:{minute}:{second}"


def digits_of(time):
    """The fourteen digits of a time; of a UTCTime 50 to 99 are years of the last century (RFC 5280 4.1.2.5.1)."""
    digits = time.contents[:-1].decode("ascii")
    if time.tag == 0x18:
        return digits
    return ("19" if digits >= "50" else "20") + digits


class Read:
    """A certificate, as the rules see it."""

    def __init__(self, octets):
        self.octets = octets
        tbs, self.algorithm, signature = read_exact(octets).kids
        self.signed, self.signature = write(tbs), signature.contents[1:]
        *_, self.issuer, dates, self.subject, key, self.extensions = fields_of(read_exact(octets))
        self.begins, self.ends = map(digits_of, dates.kids)
        self.key = key_in(write(key))
        constraints = first(self.extensions, "2.5.29.19")
        self.ca, length = ("none", "none") if constraints is None else basic_constraints(constraints)[0].split()
        self.length = None if length == "none" else int(length)

    def name(self):
        return name_text(self.subject)

    def invalid(self, cause, text):
        return Refused(f"InvalidCertificate:{cause}", f"invalid certificate '{self.name()}': {text}")

    def is_root(self):
        return kind(self.extensions, self.subject, self.issuer) == "Root"


class Checks:
    """What is asked, after setters in their order: all checks at first, without a date and parents."""

    def __init__(self, lower, upper, setters):
        self.date, self.given, self.root = None, False, True
        self.not_before = self.not_after = self.chain = True
        for setter in setters:
            self.set(lower, upper, setter)

    def set(self, lower, upper, setter):
        match setter.split("_"):
            case ["exact", "date"]:
                self.date = lower, lower
            case ["interval", "date"]:
                self.date = lower, upper
            case ["chain"]:
                self.given = True
            case ["root"] | ["any", "end"]:
                self.root = setter == "root"
            case [word, *check, "check"]:
                setattr(self, "_".join(check), word == "require")

    def expect_window(self, certificate):
        """Not before the upper end, and not after the lower."""
        if self.date is None:
            return
        lower, upper = self.date
        if self.not_before and upper < certificate.begins:
            dates = f"(not before: {printed(certificate.begins)}, now: {printed(upper)})"
            raise certificate.invalid("CertificateNotYetValid", f"certificate is not yet valid {dates}")
        if self.not_after and certificate.ends < lower:
            dates = f"(not after: {printed(certificate.ends)}, now: {printed(lower)})"
            raise certificate.invalid("CertificateExpired", f"certificate expired {dates}")


def broken(name, text):
    return Refused(f"InvalidChain:{name}", f"CA chain error: {text}")


def expect_authority(parent, number):
    if parent.ca != "true":
        raise broken("IssuerIsNotCA", f"issuer certificate '{parent.name()}' is not a CA")
    if parent.length is not None and parent.length < number:
        text = f"chain depth doesn't satisfy basic constraints extension: certificate '{parent.name()}' has pathlen of {parent.length}"
        raise broken("TooDeep", text)


def expect_parent(parent, child):
    told = parent_line(parent.octets, child.octets)
    for text, cause in UNLIKE.items():
        if text in told:
            raise Refused(f"InvalidCertificate:{cause}", told)


def parent_line_by_name(parent, child):
    """Whether one is the parent of the other by names and key identifiers; of octets that are no certificate, that."""
    unreadable = refusal(parent)
    if unreadable is not None:
        return f"Asn1Deserialization: {unreadable}"
    try:
        expect_parent(Read(parent), Read(child))
    except Refused as refused:
        return str(refused)
    return "parent"


def expect_signed(parent, child, scheme):
    named = child.algorithm.kids[0]
    if named not in CALLED:
        raise Refused("Signature", f"signature error: unsupported algorithm: {dotted(named.contents)}")
    told = scheme.verdict(CALLED[named], parent.key, child.signed, child.signature)
    if told != "accepted":
        raise child.invalid("Signature", f"signature error: {told}")


def expect_linked(checks, checked, parents, scheme):
    """The rules of each parent, in their order, then of the last certificate."""
    child = checked
    for number, parent in enumerate(parents):
        expect_authority(parent, number)
        checks.expect_window(parent)
        expect_parent(parent, child)
        expect_signed(parent, child, scheme)
        child = parent
    if checks.root and not child.is_root():
        raise broken("NoRoot", "chain is missing a root certificate")


def expect_accepted(checks, checked, parents, scheme):
    if checks.date is None and (checks.not_before or checks.not_after):
        raise Refused("MissingBuilderArgument", "missing required builder argument `now`")
    checks.expect_window(checked)
    if not checks.chain:
        return
    if not checks.given:
        raise Refused("MissingBuilderArgument", "missing required builder argument `chain`")
    expect_linked(checks, checked, parents, scheme)


def chain_line(certificates, lower, upper, setters, scheme):
    """What is answered of the first certificate over the others."""
    try:
        checked, *parents = map(Read, certificates)
        expect_accepted(Checks(lower, upper, setters), checked, parents, scheme)
    except Refused as refusal:
        return str(refusal)
    return "accepted"
