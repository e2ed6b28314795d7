#!/usr/bin/env python3
"""Chains of certificates that openssl made.

Usage:

    python3 tools/interop/chains.py --make FOLDER
    python3 tools/interop/chains.py --check

The first writes FOLDER/chain_certificates.txt and FOLDER/chain_table.txt anew:
openssl (3.0 or later) makes the certificates of `KINDS` below, the keys fresh
each time, and `verdict_table` says which signatures of
the cases are good.  A row of the first file is a label and a certificate in
base64, a bar between.

The second compares the answer to each case, by the reader in `chain_reader`,
with that of `openssl verify -attime`, and prints where they differ and why.
The cases are rows of `run_program.py`.
"""

import sys
from base64 import b64decode, b64encode
from calendar import timegm
from dataclasses import dataclass
from pathlib import Path
from tempfile import TemporaryDirectory
from time import strptime

sys.path.insert(0, str(Path(__file__).resolve().parents[1]))

from common import command
from common import folders
from common.openssl import OpensslError, openssl
from judges import asked_signatures
from judges.chain_reader import line
from judges.verdict_rows import verdicts


RSA = ("RSA", "rsa_keygen_bits:2048")
P256, P384, P521 = (("EC", f"ec_paramgen_curve:P-{size}") for size in (256, 384, 521))
ED25519 = ("ED25519",)
ED448 = ("ED448",)

FROM, TO = "20200101000000", "20391231235959"

IDENTIFIERS = "subjectKeyIdentifier=hash\nauthorityKeyIdentifier=keyid:always\n"
OWN_IDENTIFIER = "subjectKeyIdentifier=hash\nauthorityKeyIdentifier=none\n"
NO_IDENTIFIERS = "subjectKeyIdentifier=none\nauthorityKeyIdentifier=none\n"
CA = "basicConstraints=critical,CA:true\n"
END = "basicConstraints=CA:false\n"


def limited(length):
    return f"basicConstraints=critical,CA:true,pathlen:{length}\n"


@dataclass(frozen=True)
class Kind:
    """How a certificate is made: of whose key and name, by whom, and what it says."""

    subject: str
    issuer: str
    key: tuple
    extensions: str
    begins: str = FROM
    ends: str = TO
    # The label of the certificate whose key signs, where the issuer's doesn't.
    signer: object = None
    digest: str = "sha256"
    options: tuple = ()


# A root is its own issuer.  Those without an identifier of the authority are for rules that come later.
KINDS = {
    "root": Kind("Root", "root", RSA, CA + OWN_IDENTIFIER),
    "first": Kind("First", "root", P256, limited(3) + IDENTIFIERS, digest="sha512"),
    "second": Kind("Second", "first", P384, limited(2) + IDENTIFIERS),
    "third": Kind("Third", "second", P521, limited(1) + IDENTIFIERS, digest="sha384"),
    "fourth": Kind("Fourth", "third", RSA, limited(0) + IDENTIFIERS, digest="sha512"),
    "by root": Kind("End", "root", ED25519, END + IDENTIFIERS, digest="sha1"),
    "by first": Kind("End", "first", RSA, END + IDENTIFIERS),
    "by second": Kind("End", "second", P256, END + IDENTIFIERS, digest="sha384"),
    "by third": Kind("End", "third", RSA, END + IDENTIFIERS, digest="sha512"),
    "by fourth": Kind("End", "fourth", ED25519, END + IDENTIFIERS, digest="sha384"),
    # Ed25519
    "edwards": Kind("Edwards", "edwards", ED25519, CA + OWN_IDENTIFIER),
    "by edwards": Kind("End", "edwards", P256, END + IDENTIFIERS),
    # path lengths: none may be between the root and the end
    "short": Kind("Short", "short", P256, limited(0) + OWN_IDENTIFIER),
    "below short": Kind("Below", "short", P256, CA + IDENTIFIERS),
    "by short": Kind("End", "short", P256, END + IDENTIFIERS),
    "below below short": Kind("End", "below short", P256, END + IDENTIFIERS),
    "one": Kind("One", "one", P256, limited(1) + OWN_IDENTIFIER),
    "below one": Kind("Below one", "one", P256, limited(0) + IDENTIFIERS),
    "below below one": Kind("End", "below one", P256, END + IDENTIFIERS),
    "limit of the middle": Kind("Middle", "root", P256, limited(0) + IDENTIFIERS),
    "below the middle": Kind("Lower", "limit of the middle", P256, CA + IDENTIFIERS),
    "end below the middle": Kind("End", "below the middle", P256, END + IDENTIFIERS),
    "self-issued": Kind("Short", "short", P256, CA + IDENTIFIERS),
    "by self-issued": Kind("End", "self-issued", P256, END + IDENTIFIERS),
    # windows
    "late": Kind("End", "root", P256, END + IDENTIFIERS, begins="20300601120000"),
    "early": Kind("End", "root", P256, END + IDENTIFIERS, ends="20240229235959"),
    "late parent": Kind("Late", "root", P256, CA + IDENTIFIERS, begins="20300601120000"),
    "by late parent": Kind("End", "late parent", P256, END + IDENTIFIERS),
    "early parent": Kind("Early", "root", P256, CA + IDENTIFIERS, ends="20240229235959"),
    "by early parent": Kind("End", "early parent", P256, END + IDENTIFIERS),
    "early root": Kind("Early root", "early root", P256, CA + OWN_IDENTIFIER, ends="20240229235959"),
    "by early root": Kind("End", "early root", P256, END + IDENTIFIERS),
    # names and keys
    "other": Kind("Other", "other", RSA, CA + OWN_IDENTIFIER),
    "namesake": Kind("Root", "namesake", RSA, CA + OWN_IDENTIFIER),
    "no identifier": Kind("End", "root", P256, END + NO_IDENTIFIERS),
    "nameless key": Kind("No key", "nameless key", P256, CA + NO_IDENTIFIERS),
    "by nameless key": Kind("End", "nameless key", P256, END + NO_IDENTIFIERS),
    "twin": Kind("Twin", "twin", P256, CA + NO_IDENTIFIERS),
    "twin's namesake": Kind("Twin", "twin's namesake", P256, CA + NO_IDENTIFIERS),
    "by twin": Kind("End", "twin", P256, END + NO_IDENTIFIERS),
    "names a missing key": Kind("End", "nameless key", P256, END + "authorityKeyIdentifier=DER:30:06:80:04:01:02:03:04\n"),
    "names another key": Kind("End", "root", P256, END + "authorityKeyIdentifier=DER:30:06:80:04:01:02:03:04\n"),
    "names a serial number": Kind("End", "root", P256, END + "authorityKeyIdentifier=issuer:always\n"),
    "signed by another": Kind("End", "root", P256, END + NO_IDENTIFIERS, signer="other"),
    # authorities
    "no authority": Kind("No authority", "root", P256, END + IDENTIFIERS),
    "by no authority": Kind("End", "no authority", P256, END + IDENTIFIERS),
    "unsaid": Kind("Unsaid", "root", P256, IDENTIFIERS),
    "by unsaid": Kind("End", "unsaid", P256, END + IDENTIFIERS),
    "unsaid root": Kind("Unsaid root", "unsaid root", P256, OWN_IDENTIFIER),
    # algorithms that have no name in a table
    "pss": Kind("End", "root", P256, END + IDENTIFIERS, options=("-sigopt", "rsa_padding_mode:pss")),
    "448": Kind("448", "448", ED448, CA + OWN_IDENTIFIER),
    "by 448": Kind("End", "448", P256, END + IDENTIFIERS),
    "small digest": Kind("End", "first", P256, END + IDENTIFIERS, digest="sha256"),
    "unpaired digest": Kind("End", "second", P256, END + IDENTIFIERS, digest="sha256"),
    # what isn't asked
    "no signing": Kind("No signing", "root", P256, CA + "keyUsage=critical,digitalSignature\n" + IDENTIFIERS),
    "by no signing": Kind("End", "no signing", P256, END + IDENTIFIERS),
    "unknown": Kind("End", "root", P256, END + "1.2.3.4=critical,ASN1:NULL\n" + IDENTIFIERS),
    "unknown parent": Kind("Unknown", "root", P256, CA + "1.2.3.4=critical,ASN1:NULL\n" + IDENTIFIERS),
    "by unknown parent": Kind("End", "unknown parent", P256, END + IDENTIFIERS),
    "constrained": Kind("Constrained", "root", P256, CA + "nameConstraints=critical,permitted;DNS:a.test\n" + IDENTIFIERS),
    "outside": Kind("End", "constrained", P256, END + "subjectAltName=DNS:b.test\n" + IDENTIFIERS),
}


@dataclass(frozen=True)
class Case:
    """Certificates at a date, the checked one first."""

    date: str
    labels: tuple
    # Why openssl judges another way, where it does.
    otherwise: str = ""

    def digits(self):
        """The date in fourteen digits."""
        return "".join(filter(str.isdigit, self.date)).ljust(14, "0")


DAY, LEAP_DAY = "2025-01-31", "2024-02-29"
COUNTED = "a self-issued certificate is counted by path lengths here, as any other"
LAST_SECOND = "the last second of a validity is within it here (RFC 5280 4.1.2.5), and past it there"
ALGORITHM = "an algorithm without a name in a table isn't read here"
USAGE = "key usage isn't asked here"
CRITICAL = "critical extensions that aren't known aren't refused here"
CONSTRAINTS = "name constraints aren't asked here"
ORDER = "openssl looks for a path among the parents, in any order and with none left over"

CASES = [
    # roots and ends
    Case(DAY, ("root",)), Case(DAY, ("edwards",)), Case(DAY, ("nameless key",)),
    Case(DAY, ("unsaid root",), "openssl takes a certificate of its own as a root, whatever it says of itself"),
    Case(DAY, ("by root",)), Case(DAY, ("by root", "root")),
    Case(DAY, ("by first", "first", "root")),
    Case(DAY, ("by second", "second", "first", "root")),
    Case(DAY, ("by third", "third", "second", "first", "root")),
    Case(DAY, ("by fourth", "fourth", "third", "second", "first", "root")),
    Case(DAY, ("fourth", "third", "second", "first", "root")),
    Case(DAY, ("by edwards", "edwards")),
    Case(DAY, ("by nameless key", "nameless key")),
    Case(DAY, ("by twin", "twin")),
    # no root
    Case(DAY, ("by first", "first")), Case(DAY, ("first",)), Case(DAY, ("by third", "third", "second", "first")),
    # path lengths
    Case(DAY, ("by short", "short")),
    Case(DAY, ("below short", "short")),
    Case(DAY, ("below below short", "below short", "short")),
    Case(DAY, ("below one", "one")),
    Case(DAY, ("below below one", "below one", "one")),
    Case(DAY, ("end below the middle", "below the middle", "limit of the middle", "root")),
    Case(DAY, ("below the middle", "limit of the middle", "root")),
    Case(DAY, ("by self-issued", "self-issued", "short"), COUNTED),
    Case(DAY, ("by self-issued", "self-issued"), "a self-issued certificate is a root here, and has no key of its own there"),
    # windows
    Case("2030-06-01", ("late", "root")),
    Case("2030-06-01T11:59:59", ("late", "root")),
    Case("2030-06-01T12:00:00", ("late", "root")),
    Case("2030-06-02", ("late", "root")),
    Case(LEAP_DAY, ("early", "root")),
    Case("2024-02-29T23:59:58", ("early", "root")),
    Case("2024-02-29T23:59:59", ("early", "root"), LAST_SECOND),
    Case("2024-03-01", ("early", "root")),
    Case("2019-12-31T23:59:59", ("by root", "root")),
    Case("2020-01-01", ("by root", "root")),
    Case("2039-12-31T23:59:58", ("by root", "root")),
    Case("2039-12-31T23:59:59", ("by root", "root"), LAST_SECOND),
    Case("2040-01-01", ("by root", "root")),
    Case("2030-06-01T11:59:59", ("by late parent", "late parent", "root")),
    Case("2030-06-01T12:00:00", ("by late parent", "late parent", "root")),
    Case("2024-02-29T23:59:58", ("by early parent", "early parent", "root")),
    Case("2024-03-01", ("by early parent", "early parent", "root")),
    Case(LEAP_DAY, ("by early root", "early root")),
    Case("2024-03-01", ("by early root", "early root")),
    # names and keys
    Case(DAY, ("by root", "other")), Case(DAY, ("by root", "namesake")),
    Case(DAY, ("no identifier", "root")), Case(DAY, ("no identifier", "other")), Case(DAY, ("no identifier", "namesake")),
    Case(DAY, ("by nameless key", "twin")), Case(DAY, ("by twin", "twin's namesake")),
    Case(DAY, ("names a missing key", "nameless key"), "openssl compares key identifiers only where both have one"),
    Case(DAY, ("names another key", "root")),
    Case(DAY, ("names a serial number", "root")),
    Case(DAY, ("signed by another", "root")), Case(DAY, ("signed by another", "other")),
    Case(DAY, ("by second", "first", "second", "root"), ORDER),
    Case(DAY, ("by first", "root", "first")),
    Case(DAY, ("by root", "root", "other")),
    Case(DAY, ("by root", "root", "root")),
    # authorities
    Case(DAY, ("by no authority", "no authority", "root")),
    Case(DAY, ("by unsaid", "unsaid", "root")),
    Case(DAY, ("by no authority", "no authority")),
    # algorithms
    Case(DAY, ("pss", "root"), ALGORITHM),
    Case(DAY, ("by 448", "448"), ALGORITHM),
    Case(DAY, ("small digest", "first", "root")),
    Case(DAY, ("unpaired digest", "second", "first", "root"), "a curve goes with one digest here"),
    # what isn't asked
    Case(DAY, ("by no signing", "no signing", "root"), USAGE),
    Case(DAY, ("unknown", "root"), CRITICAL),
    Case(DAY, ("by unknown parent", "unknown parent", "root"), CRITICAL),
    Case(DAY, ("outside", "constrained", "root"), CONSTRAINTS),
]


# Making.

AUTHORITY_FORM = """\
[ca]
default_ca = here
[here]
database = {folder}/index.txt
new_certs_dir = {folder}
default_md = {digest}
policy = any
unique_subject = no
rand_serial = yes
[any]
commonName = supplied
"""


def make(label, kind, folder, kinds=None):
    """The certificate of a kind among others, in a file of its label."""
    kinds = kinds or KINDS
    request, form, extensions, key = (folder / f"{label}.{end}" for end in ("csr", "cnf", "ext", "key"))
    options = (word for option in kind.key[1:] for word in ("-pkeyopt", option))
    openssl("genpkey", "-algorithm", kind.key[0], *options, "-out", key)
    openssl("req", "-new", "-key", key, "-subj", f"/CN={kind.subject}", "-out", request)
    signer = kind.signer or kind.issuer
    digest = "null" if kinds[signer].key in (ED25519, ED448) else kind.digest
    form.write_text(AUTHORITY_FORM.format(folder=folder, digest="default" if digest == "null" else digest), encoding="ascii")
    (folder / "index.txt").write_text("")
    extensions.write_text(kind.extensions, encoding="ascii")
    by = ("-selfsign", "-keyfile", key)
    if kind.issuer != label:
        by = ("-cert", folder / f"{kind.issuer}.pem", "-keyfile", folder / f"{signer}.key")
    if kind.signer:
        # openssl asks that certificate and key go together: the name is the issuer's, and the key another's.
        by = ("-cert", stand_in(kind, folder, kinds), "-keyfile", folder / f"{signer}.key")
    openssl("ca", "-batch", "-notext", "-config", form, *by, "-in", request, "-extfile", extensions, *kind.options,
            "-startdate", kind.begins + "Z", "-enddate", kind.ends + "Z", "-out", folder / f"{label}.pem")
    return openssl("x509", "-in", folder / f"{label}.pem", "-outform", "DER")


def stand_in(kind, folder, kinds):
    """A certificate with the name of the issuer and the key of the signer."""
    file = folder / "stand-in.pem"
    openssl("req", "-x509", "-new", "-key", folder / f"{kind.signer}.key", "-subj", f"/CN={kinds[kind.issuer].subject}",
            "-days", "3650", "-out", file)
    return file


def made():
    """Labels and certificates, made anew."""
    with TemporaryDirectory() as place:
        return {label: make(label, kind, Path(place)) for label, kind in KINDS.items()}


def table_of(certificates):
    """The rows of the signatures of all cases that openssl accepts."""
    rows = []
    for case in CASES:
        lines, _ = asked_signatures.chain_table([certificates[label] for label in case.labels])
        rows += (row for row in lines if row not in rows)
    return "".join(f"{row}\n" for row in rows)


def write_files(folder):
    certificates = made()
    rows = "".join(f"{label}|{b64encode(octets).decode()}\n" for label, octets in certificates.items())
    (folder / "chain_certificates.txt").write_text(rows, encoding="ascii")
    (folder / "chain_table.txt").write_text(table_of(certificates), encoding="ascii")


# What is stored.

def stored():
    """Labels and certificates of the file."""
    rows = (folders.CASES / "chain_certificates.txt").read_text(encoding="ascii").splitlines()
    return {label: b64decode(octets) for label, octets in (row.split("|") for row in rows)}


def stored_table():
    return (folders.CASES / "chain_table.txt").read_text(encoding="ascii")


def answer(case, certificates, table):
    """The status and the line for a case, by the reader here."""
    return line([certificates[label] for label in case.labels], case.digits(), verdicts(table))


# Beside openssl.

def openssl_answer(case, certificates):
    """Whether openssl accepts the first certificate, with the last as the one that is trusted."""
    with TemporaryDirectory() as place:
        files = [Path(place) / f"{number}.pem" for number in range(len(case.labels))]
        for file, label in zip(files, case.labels):
            file.write_bytes(openssl("x509", "-inform", "DER", given=certificates[label]))
        between = (word for file in files[1:-1] for word in ("-untrusted", file))
        moment = timegm(strptime(case.digits(), "%Y%m%d%H%M%S"))
        try:
            openssl("verify", "-attime", moment, "-no-CApath", "-no-CAstore", "-CAfile", files[-1], *between, files[0])
        except OpensslError:
            return False
    return True


def check():
    """Where the reader and openssl judge another way: those with a reason, and those without."""
    certificates, table = stored(), stored_table()
    explained, unexplained = [], []
    for case in CASES:
        status, said = answer(case, certificates, table)
        differs = (status == 0) != openssl_answer(case, certificates)
        if differs or case.otherwise:
            (explained if differs and case.otherwise else unexplained).append((case, said))
    for case, said in explained:
        print(f"{case.date} {', '.join(case.labels)}: {said.strip()}: {case.otherwise}")
    for case, said in unexplained:
        print(f"{case.date} {', '.join(case.labels)}: {said.strip()}, and openssl has it otherwise than is said here")
    print(f"chains: {len(CASES) - len(explained) - len(unexplained)} alike, {len(explained)} otherwise for a reason, {len(unexplained)} not")
    return 1 if unexplained else 0


def main(arguments):
    if len(arguments) == 2 and arguments[0] == "--make":
        write_files(Path(arguments[1]))
        return 0
    if arguments == ["--check"]:
        return check()
    return command.usage(__doc__)


if __name__ == "__main__":
    command.run(main, __doc__)
