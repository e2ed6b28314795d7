"""The certificates that are trusted: those of files that a user names, else those of the system."""

import os
from functools import cached_property
from pathlib import Path
from typing import NamedTuple

from common import command, pem
from common.der import NOT_READ
from common.shown import clean
from program_check import text
from program_check.certificate import Certificate

# Where systems keep the roots that they trust, in PEM: Debian, Fedora, openSUSE, Alpine and others.
SYSTEM = (
    "/etc/ssl/certs/ca-certificates.crt", "/etc/pki/tls/certs/ca-bundle.crt", "/etc/ssl/ca-bundle.pem", "/etc/ssl/cert.pem",
)
# More octets than any file with roots has.
MOST_OCTETS = 16_777_216
SEQUENCE = b"\x30"


class Unreadable(command.Refusal):
    """A file with roots has none."""


class Root:
    """The octets of a certificate that is trusted, the file that it is from, and its number there."""

    def __init__(self, der: bytes, file: str, number: int = 1):
        self.der = der
        self.file = file
        self.number = number

    @cached_property
    def certificate(self) -> Certificate:
        """The certificate; what NOT_READ has where it isn't one that is read here."""
        return Certificate(self.der)

    def is_read(self) -> bool:
        try:
            return self.certificate is not None
        except NOT_READ:
            return False


class Roots(NamedTuple):
    """All that are trusted, and where they are from, in words."""

    all: list
    words: str

    def named(self, issuers) -> list:
        """Those that are read and have one of these names: no other may have issued a certificate of these issuers."""
        return [root for root in self.all if any(issuer in root.der for issuer in issuers) and root.is_read() and root.certificate.subject_name in issuers]

    def some(self, many: int) -> list:
        """As many as that which are read, to ask about where none has the right name."""
        return [root for root in self.all[:many] if root.is_read()]

    def ders(self) -> list:
        return [root.der for root in self.all]

    def holds(self, certificate: Certificate) -> bool:
        """Whether a certificate is one of them, octet by octet."""
        return any(root.der == certificate.der for root in self.all)


def certificates_in(octets: bytes, file: str) -> list:
    """The certificates of a file: one in DER, or any number in PEM (RFC 7468 5).

    A file that begins as DER is DER, whatever stands in it.
    """
    if octets.startswith(SEQUENCE):
        return [octets]
    try:
        found = pem.certificates_in(octets)
    except pem.NotPem as refusal:
        raise Unreadable(f"{clean(file)}: {refusal}") from refusal
    if not found:
        raise Unreadable(f"{clean(file)}: it isn't a certificate in DER, nor a text with certificates in PEM")
    return found


def roots_in(file: str) -> list:
    """The roots in a file."""
    octets = command.read_file(file, MOST_OCTETS)
    return [Root(der, file, number) for number, der in enumerate(certificates_in(octets, file), 1)]


def from_files(files) -> Roots:
    """The roots in files; each has to be a certificate that is read here."""
    found = []
    for file in map(str, files):
        held = roots_in(file)
        unread = next((root for root in held if not root.is_read()), None)
        if unread is not None:
            which = f"certificate {unread.number} of {text.counted(len(held), 'certificate')} in it" if len(held) > 1 else "it"
            raise Unreadable(f"{clean(file)}: {which} isn't a certificate of a shape that is read here")
        found += held
    if not found:
        raise Unreadable("no root is named")
    return Roots(found, ", ".join(clean(file) for file in map(str, files)))


def system_file() -> str | None:
    """The file with the system's roots, None where there is none."""
    named = os.environ.get("SSL_CERT_FILE")
    return next((file for file in ([named] if named else SYSTEM) if Path(file).is_file()), None)


def of_system() -> Roots:
    """The roots that the system trusts; none where it has no file of them."""
    file = system_file()
    if file is None:
        return Roots([], "no file with the roots of this system is found")
    return Roots(roots_in(file), f"{clean(file)}, the roots of this system")
