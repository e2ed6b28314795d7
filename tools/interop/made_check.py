#!/usr/bin/env python3
"""Have osslsigncode and openssl judge signatures that the built program makes.

Usage:

    python3 tools/interop/made_check.py PROGRAM

PROGRAM is the executable of the crate `xgolden_kept`.  openssl (3.0 or later) makes
keys of RSA and certificates, and signs for each case what is to be signed, which
`made_signatures` puts together; a row of the program has the message and its
signature, and so the scheme that hands it out when the program makes the signature.
What it makes has to be what `made_signatures` expects, octet by octet.

A signature of a program is put into the program, and `osslsigncode verify` (2.6 or
later) is asked whether it is good, and of the same with one octet of the program
changed.  Where a signature has a field of revocation lists, though an empty one, it
asks for a list of the signer's issuer, which is given.  A signature of octets is judged by `openssl cms -verify`.  Of each the fields
that `openssl pkcs7 -print` prints are compared with what `cms_reader` reads, and of
signed octets those of `openssl cms -cmsout -print`, which reads no other content.  Exit status 1 says that something differs.
"""

import subprocess
import sys
from dataclasses import replace
from hashlib import new as digest_of
from pathlib import Path
from struct import pack
from tempfile import TemporaryDirectory
from typing import NamedTuple

sys.path.insert(0, str(Path(__file__).resolve().parents[1]))

import signed_program
from cases.first_path import CONTENT_TYPE, MESSAGE_DIGEST, attribute, context, identifier, integer, octet_string, sequence, utc_time
from cases.made_signatures import DATA, Built, Program, named_by, padded
from cases.signature_rows import DIGESTS, RSA, Key
from common import command
from common.openssl import OpensslError, openssl
from interop import signature_check
from interop.signature_making import AUTHORITY_FORM, portable_executable
from interop.signed_programs import osslsigncode

SIGNING_TIME = "1.2.840.113549.1.9.5"
OCTETS = b"what is signed"


class Signers:
    """A root, an authority under it, and a signer under that, each with its key, in a folder."""

    def __init__(self, folder):
        self.folder = folder
        self.made("root", None, "CA:TRUE")
        self.made("authority", "root", "CA:TRUE")
        self.made("signer", "authority", "CA:FALSE", "-addext", "extendedKeyUsage=codeSigning")
        (folder / "database").write_text("")
        (folder / "ca.cnf").write_text(AUTHORITY_FORM.format(folder=folder))
        openssl("ca", "-config", self.at("ca.cnf"), "-gencrl", "-keyfile", self.at("authority.key"), "-cert", self.at("authority.pem"), "-out", self.at("list.pem"))
        self.key = Key("rsa", RSA, openssl("pkey", "-in", self.at("signer.key"), "-outform", "DER", "-traditional"), None)

    def at(self, name):
        return self.folder / name

    def made(self, name, issuer, constraints, *words):
        openssl("genpkey", "-algorithm", "RSA", "-pkeyopt", "rsa_keygen_bits:2048", "-out", self.at(f"{name}.key"))
        by = ("-CA", self.at(f"{issuer}.pem"), "-CAkey", self.at(f"{issuer}.key")) if issuer else ()
        openssl("req", "-x509", "-new", "-key", self.at(f"{name}.key"), *by, "-days", 3650, "-subj", f"/O=Ninebark/CN={name}",
                "-addext", f"basicConstraints=critical,{constraints}", *words, "-out", self.at(f"{name}.pem"))

    def certificate(self, name):
        return openssl("x509", "-in", self.at(f"{name}.pem"), "-outform", "DER")

    def sign(self, digest, message):
        return openssl("dgst", f"-{DIGESTS[digest]}", "-sign", self.at("signer.key"), given=message)


# ---- cases

def programs(signers):
    """Signatures of a program: a label, and what is signed."""
    signer, authority, root = map(signers.certificate, ("signer", "authority", "root"))
    whole = Program(members=(signer, authority, root), carried=(signer, authority), key=signers.key)
    for digest in "SHA-256", "SHA-1", "SHA-384", "SHA-512":
        file_hash = bytes.fromhex(signed_program.image_digest(portable_executable(), DIGESTS[digest]))
        yield f"a program, {digest}", replace(whole, digest=digest, file_hash=file_hash)
        yield f"a program with a name, {digest}", replace(whole, digest=digest, file_hash=file_hash, name="Ninebarkbit \u20ac")


def contents(signers):
    """Signatures of octets: a label, what is set of a builder, and the certificates that are carried."""
    signer, authority, root = map(signers.certificate, ("signer", "authority", "root"))
    content = sequence(identifier(DATA), context(0, octet_string(OCTETS)))
    for digest in "SHA-256", "SHA-512":
        attributes = (
            attribute(CONTENT_TYPE, identifier(DATA)), attribute(SIGNING_TIME, utc_time("260101000000Z")),
            attribute(MESSAGE_DIGEST, octet_string(digest_of(DIGESTS[digest], OCTETS).digest())),
        )
        given = Built(certs=(root, signer, authority), digest=digest, content=content, attributes=attributes, named=named_by(signer), signer=signers.key)
        yield f"octets, {digest}", given, (signer, authority)
        yield f"octets, {digest}, an unsigned attribute", replace(given, unsigned=(attribute("1.2.3.4", integer(b"\x01")),)), (signer, authority)


class Case(NamedTuple):
    """What it is, a row for the program, the octets that have to be made, and whether a program is signed."""
    label: str
    row: str
    value: bytes
    signs_program: bool

    def line(self):
        return f"{'made' if self.signs_program else 'built'} {self.value.hex()}"


def cases(signers):
    for label, asked in programs(signers):
        message = asked.message()
        signature = signers.sign(asked.digest, message)
        yield Case(label, f"new {message.hex()}:{signature.hex()} {asked.words()}", asked.signed(signature), True)
    for label, asked, carried in contents(signers):
        message = asked.message()
        signature = signers.sign(asked.digest, message)
        yield Case(label, f"build {message.hex()}:{signature.hex()} {asked.words()}", asked.signed(carried, signature), False)


# ---- what others say

def with_signature(program, value):
    """A program with the signature as its certificate table."""
    entry, signed = padded(value), bytearray(program)
    optional, place, _, _ = signed_program.parts(program)
    signed[optional + place:optional + place + 8] = pack("<II", len(program), len(entry))
    return bytes(signed) + entry


def is_good_program(octets, signers):
    """Whether osslsigncode takes the program as signed under the root."""
    signers.at("signed.exe").write_bytes(octets)
    words = "-CAfile", signers.at("root.pem"), "-CRLfile", signers.at("list.pem"), "-in", signers.at("signed.exe")
    return osslsigncode("verify", *words).returncode == 0


def is_good_message(value, signers):
    """Whether openssl takes the signed octets as signed under the root."""
    words = "-CAfile", signers.at("root.pem"), "-purpose", "any", "-binary"
    try:
        openssl("cms", "-verify", "-inform", "DER", *words, given=value)
        return True
    except OpensslError:
        return False


def complaints_of_program(value, signers):
    """What osslsigncode says against a signature of a program."""
    signed = with_signature(portable_executable(), value)
    if not is_good_program(signed, signers):
        yield "osslsigncode refuses it"
    other = bytearray(signed)
    other[600] ^= 1
    if is_good_program(bytes(other), signers):
        yield "osslsigncode takes it for another program"


def complaints_of_message(value, signers):
    """What openssl says against a signature of octets."""
    if not is_good_message(value, signers):
        yield "openssl refuses it"
    if is_good_message(value.replace(OCTETS, OCTETS[::-1]), signers):
        yield "openssl takes it for other octets"
    if not signature_check.is_said("pkcs7", value, *signature_check.said_by(signature_check.CMS, value)):
        yield "openssl cms prints other fields"


def complaints(case, signers):
    return (complaints_of_program if case.signs_program else complaints_of_message)(case.value, signers)


def check(answers):
    """What is complained of is printed; 1 where something is.  `answers` gives the lines of the program for a file of rows."""
    told, taken = [], []
    with TemporaryDirectory() as place:
        folder = Path(place)
        signers = Signers(folder)
        asked = list(cases(signers))
        (folder / "rows").write_text("".join(f"{case.row}\n" for case in asked), encoding="ascii")
        for case, line in zip(asked, answers(folder / "rows", asked), strict=True):
            if line != case.line():
                told.append(f"{case.label}: something else is made: {line[:100]}")
                continue
            taken.append((case.label, "pkcs7", case.value))
            told += (f"{case.label}: {what}" for what in complaints(case, signers))
        differing = signature_check.check(taken)
    for line in told:
        print(line)
    print(f"{len(asked)} signatures, {len(told)} complaints")
    return 1 if told or differing else 0


def main(arguments):
    if len(arguments) != 1:
        return command.usage(__doc__)
    program = Path(arguments[0]).resolve()
    return check(lambda rows, _: subprocess.run([program, "kept", rows], capture_output=True, check=True, text=True).stdout.splitlines())


if __name__ == "__main__":
    command.run(main, __doc__)
