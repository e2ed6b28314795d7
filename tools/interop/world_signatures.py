#!/usr/bin/env python3
"""Signatures of the world: what `openssl cms`, `openssl smime`, `openssl ts` and osslsigncode write.

Usage:

    python3 tools/interop/world_signatures.py --make
    python3 tools/interop/world_signatures.py --check

The first prints `tools/cases/world_signatures.txt` anew: openssl (3.0) and
osslsigncode (2.6 or later) make keys, certificates and signatures, the keys
fresh each time.  A row is a label, what it is, and the octets in base64, bars
between.  What their commands can't make (revocation lists beside signers, a
certificate of attributes, a list of signers without certificates) is put
together here of signatures that they made.

The second compares what `cms_reader` says of each stored signature with what
`openssl pkcs7 -print` or `openssl cms -cmsout -print` says of it, field by field, and
prints which ones aren't read.
"""

import sys
from base64 import b64decode, b64encode
from pathlib import Path
from tempfile import TemporaryDirectory

sys.path.insert(0, str(Path(__file__).resolve().parents[1]))

from cases.first_path import identifier, octet_string, sequence, utc_time
from common import command, folders
from interop.signature_making import (
    Signers, cabinet, entry_attribute, list_entry, portable_executable, trust_list, unsigned_catalogue,
)
from judges.der_reader import Constructed, Primitive, read_exact, write

STORED = folders.CASES / "world_signatures.txt"

# `openssl cms -sign` of three octets: the label, the signer, and further words.
CMS = [
    *((f"cms, RSA, {digest}", "rsa", ("-nodetach", "-md", digest)) for digest in ("md5", "sha1", "sha224", "sha256", "sha384", "sha512")),
    ("cms, P-256, sha256", "p256", ("-nodetach", "-md", "sha256")),
    ("cms, P-384, sha384", "p384", ("-nodetach", "-md", "sha384")),
    ("cms, P-521, sha512", "p521", ("-nodetach", "-md", "sha512")),
    ("cms, the content left out", "p256", ()),
    ("cms, signed attributes left out", "rsa", ("-nodetach", "-noattr")),
    ("cms, certificates left out", "p256", ("-nodetach", "-nocerts")),
    ("cms, neither certificates nor attributes nor the content", "p256", ("-nocerts", "-noattr")),
    ("cms, the signer by its key's identifier", "rsa", ("-nodetach", "-keyid")),
    ("cms, the signer by its key's identifier, P-256, no attributes", "p256", ("-nodetach", "-keyid", "-noattr")),
    ("cms, RSASSA-PSS", "rsa", ("-nodetach", "-keyopt", "rsa_padding_mode:pss", "-keyopt", "rsa_pss_saltlen:digest")),
    ("cms, its certificate among the attributes", "p256", ("-nodetach", "-cades")),
    ("cms, without the list of ciphers", "rsa", ("-nodetach", "-nosmimecap")),
    ("cms, a content of another type", "p256", ("-nodetach", "-econtent_type", "1.2.3.4")),
]

# `openssl smime -sign` likewise.
SMIME = [
    ("smime, RSA, sha256", "rsa", ("-nodetach", "-md", "sha256")),
    ("smime, RSA, md5, no attributes", "rsa", ("-nodetach", "-md", "md5", "-noattr")),
    ("smime, the content left out", "rsa", ("-md", "sha512",)),
    ("smime, P-384", "p384", ("-nodetach", "-md", "sha384", "-nosmimecap")),
]

# What these write in pieces, with lengths that aren't definite (X.690 8.1.3.6).
IN_PIECES = [
    ("cms, written in pieces", "cms", "p256", ("-nodetach", "-stream")),
    ("cms, written in pieces, the content left out", "cms", "p256", ("-stream",)),
    ("smime, written in pieces", "smime", "p256", ("-nodetach", "-stream")),
]

# osslsigncode: the label, the file, the signer's certificate and key, and further words.
RSA, EC, LEAF = ("rsa", "rsa"), ("p256", "p256"), ("leaf", "rsa")
PROGRAMS = [
    *((f"program, RSA, {digest}", "program.exe", RSA, ("-h", digest)) for digest in ("md5", "sha1", "sha256", "sha384", "sha512")),
    ("program, P-256, sha256", "program.exe", EC, ("-h", "sha256")),
    ("program, P-384, sha384", "program.exe", ("p384", "p384"), ("-h", "sha384")),
    ("program, a name and a link", "program.exe", EC, ("-h", "sha256", "-n", "abc", "-i", "https://a.example/x")),
    ("program, a name past ASCII", "program.exe", EC, ("-h", "sha256", "-n", "caf\u00e9 \u2603")),
    ("program, commercial", "program.exe", EC, ("-h", "sha256", "-comm")),
    ("program, page hashes by sha1", "program.exe", EC, ("-h", "sha1", "-ph")),
    ("program, page hashes by sha256", "program.exe", EC, ("-h", "sha256", "-ph")),
    ("program, two certificates", "program.exe", LEAF, ("-h", "sha256", "-ac", "{first.pem}")),
    ("program, five certificates", "program.exe", LEAF, ("-h", "sha256", "-ac", "{above.pem}")),
    ("program, a token of RFC 3161", "program.exe", EC, ("-h", "sha256", "-TSA-certs", "{stamp.pem}", "-TSA-key", "{stamp.key}")),
    ("program, a token, five certificates", "program.exe", LEAF, ("-h", "sha256", "-ac", "{above.pem}", "-TSA-certs", "{rsa_stamp.pem}", "-TSA-key", "{rsa_stamp.key}")),
    ("program, a blob behind", "program.exe", EC, ("-h", "sha256", "-addUnauthenticatedBlob")),
    ("cabinet", "program.cab", EC, ("-h", "sha1")),
    ("cabinet, permissions, sha256", "program.cab", EC, ("-h", "sha256", "-jp", "low")),
    ("script", "program.ps1", EC, ("-h", "sha256",)),
    ("catalogue, sha256", "list.cat", EC, ("-h", "sha256")),
    ("catalogue, sha1, RSA", "list.cat", RSA, ("-h", "sha1")),
    ("list of the untrusted", "untrusted.cat", EC, ("-h", "sha256")),
]


def catalogues():
    """What catalogues list, and a list of authorities with the attributes that Windows gives them, by file."""
    member = list_entry("{0123}".encode("utf-16-le"), entry_attribute("1.3.6.1.4.1.311.12.2.1", sequence(octet_string(b"File"))))
    purposes = sequence(identifier("1.3.6.1.5.5.7.3.3"), identifier("1.3.6.1.5.5.7.3.8"))
    time = bytes.fromhex("00803ed5deb19d01")
    authority = list_entry(
        bytes(range(20)),
        entry_attribute("1.3.6.1.4.1.311.10.11.29", octet_string(bytes(16))),
        entry_attribute("1.3.6.1.4.1.311.10.11.104", octet_string(time)),
        entry_attribute("1.3.6.1.4.1.311.10.11.126", octet_string(time)),
        entry_attribute("1.3.6.1.4.1.311.10.11.127", octet_string(purposes)),
        entry_attribute("1.3.6.1.4.1.311.10.11.11", octet_string("a\0".encode("utf-16-le"))),
    )
    return {
        "list.cat": trust_list(member),
        "untrusted.cat": trust_list(authority, list_entry(b"\xaa"), usage="1.3.6.1.4.1.311.10.3.9", number=b"\x02\x01\x05",
                                    after=utc_time("270101000000Z"), algorithm=sequence(identifier("1.3.14.3.2.26"))),
    }


def named(signers, words):
    """The words, files of the folder in the place of their names in braces."""
    return [signers.at(word[1:-1]) if word.startswith("{") else word for word in words]


# Put together here.

def with_field(octets, place, *more, version=None):
    """Signed data with more fields at a place, and another version."""
    oid, held = read_exact(octets).kids
    fields = list(held.kids[0].kids)
    fields[place:place] = more
    if version is not None:
        fields[0] = Primitive(2, bytes([version]))
    inner = Constructed(0x30, tuple(fields))
    return write(Constructed(0x30, (oid, Constructed(held.tag, (inner,)))))


def put_together(signers):
    listed = read_exact(signers.at("list.der").read_bytes())
    signed = signers.cms("p256", "-nodetach")
    yield "cms, a revocation list put in", with_field(signed, 4, Constructed(0xA1, (listed,)))
    attributes = Constructed(0xA2, listed.kids[0].kids[:1])
    bare = signers.cms("p256", "-nodetach", "-nocerts")
    yield "cms, version 4, a certificate of attributes put in", with_field(bare, 3, Constructed(0xA0, (attributes,)), version=4)
    yield "smime, two revocation lists put in", with_field(signers.cms("p256", "-nodetach", command="smime"), 4, Constructed(0xA1, (listed, listed)))


def several(signers):
    """Two signers; one that signs again; certificates and lists that no one signs; tokens by themselves."""
    more = ("-signer", signers.at("rsa.pem"), "-inkey", signers.at("rsa.key"))
    two = signers.cms("p256", "-nodetach", *more)
    yield "cms, two signers", two
    yield "cms, three signers, one by its key's identifier", signers.again(two, "p384", "-keyid")
    yield "cms, five certificates", signers.cms("leaf", "-nodetach", "-certfile", signers.at("above.pem"), key="rsa")
    yield "certificates alone", signers.alone("tower.pem")
    yield "certificates and a revocation list alone", signers.alone("above.pem", "list.pem")
    yield "a revocation list alone", signers.alone(listed="list.pem")
    yield "token", signers.stamp(b"abc", "-sha256")
    yield "token, RSA, sha512, the certificate by its sha1", signers.stamp(b"abc", "-sha512", signer="rsa_stamp", ess="sha1")
    yield "token, no number", signers.stamp(b"abc", "-sha384", "-no_nonce")


def nested(signers):
    """A signature inside another one, and inside that one again."""
    signers.program("-h", "sha1", signer=EC)
    for label, digest in ("program, a signature nested in it", "sha256"), ("program, two signatures nested in it", "sha384"):
        signers.at("program_signed.exe").write_bytes(signers.at("signed_" + ("program.exe" if digest == "sha256" else "program_signed.exe")).read_bytes())
        yield label, signers.program("-h", digest, "-nest", given="program_signed.exe", signer=EC)


def counter_signed(signers):
    """A signature that is counter-signed as Authenticode has it, and the request for it."""
    with signers.stamping() as (address, requests):
        yield "program, a counter-signature", "pkcs7", signers.program("-h", "sha256", "-t", address)
        yield "cabinet, a counter-signature, five certificates", "pkcs7", signers.program("-h", "sha1", "-ac", signers.at("above.pem"), "-t", address, given="program.cab", signer=LEAF)
        yield "request for a counter-signature", "timestamp_request", requests[0]


def made():
    """Labels, what each is, and the octets that these programs write."""
    with TemporaryDirectory() as place:
        signers = Signers(Path(place))
        signers.at("program.exe").write_bytes(portable_executable())
        signers.at("program.cab").write_bytes(cabinet())
        signers.at("program.ps1").write_bytes(b'"abc"\r\n')
        for file, content in catalogues().items():
            signers.at(file).write_bytes(unsigned_catalogue(content))
        for label, signer, words in CMS:
            yield label, "pkcs7", signers.cms(signer, *words)
        for label, signer, words in SMIME:
            yield label, "pkcs7", signers.cms(signer, *words, command="smime")
        for label, subcommand, signer, words in IN_PIECES:
            yield label, "pkcs7", signers.cms(signer, *words, command=subcommand)
        for label, given, signer, words in PROGRAMS:
            yield label, "pkcs7", signers.program(*named(signers, words), given=given, signer=signer)
        for rows in several, nested, put_together:
            for label, octets in rows(signers):
                yield label, "pkcs7", octets
        yield from counter_signed(signers)


def stored():
    """Labels, kinds and octets of the file."""
    for line in STORED.read_text(encoding="ascii").splitlines():
        label, kind, octets = line.split("|")
        yield label, kind, b64decode(octets, validate=True)


def main(arguments):
    if arguments == ["--make"]:
        for label, kind, octets in made():
            print(f"{label}|{kind}|{b64encode(octets).decode()}")
        return 0
    if arguments == ["--check"]:
        from interop.signature_check import check
        return check(stored())
    return command.usage(__doc__)


if __name__ == "__main__":
    command.run(main, __doc__)
