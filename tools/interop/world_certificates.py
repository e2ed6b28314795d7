#!/usr/bin/env python3
"""Certificates of the world: what openssl makes of each kind of key, extension, name and time.

Usage:

    python3 tools/interop/world_certificates.py --make
    python3 tools/interop/world_certificates.py --check

The first prints `tools/cases/world_certificates.txt` anew: openssl (3.0 or later)
makes keys and certificates, the keys fresh each time.  A row is a label and
the certificate in base64, a bar between.  Where openssl's commands can't make
one (unique identifiers, no extensions in version 3), the fields are put together
here and openssl signs them.

The second compares what `value_reader` says of each stored certificate with
what `openssl x509` and Python's package `cryptography` say of it, field by
field, and prints what each of them doesn't read.  The answers of the stored
run of `xgolden_certificate` come from `value_reader`.
"""

import sys
from base64 import b64decode, b64encode
from pathlib import Path
from tempfile import TemporaryDirectory

sys.path.insert(0, str(Path(__file__).resolve().parents[1]))

from cases.first_path import (
    bit_string, context, context_primitive, element, identifier, integer, name, octet_string, sequence, utc_time,
)
from common import command
from common import folders
from common.openssl import openssl

STORED = folders.CASES / "world_certificates.txt"

# Keys.

def rsa(bits, *more):
    return ("RSA", f"rsa_keygen_bits:{bits}", *more)


def ec(curve):
    return ("EC", f"ec_paramgen_curve:{curve}")


ED25519 = ("ED25519",)

# Sections of extensions that are not one line.
SECTIONS = """
[edi]
party = EXPLICIT:1,UTF8:p
[edi_both]
assigner = EXPLICIT:0,UTF8:a
party = EXPLICIT:1,PRINTABLE:p
[directory]
C = XX
CN = d
[edi_names]
edi = IMPLICIT:5,SEQUENCE:edi
[edi_both_names]
edi = IMPLICIT:5,SEQUENCE:edi_both
[x400_names]
x400 = IMPLICIT:3,SEQUENCE:nothing
[nothing]
[all_names]
otherName = 1.2.3.4;UTF8:o
email = a@b.example
DNS = a.example
dirName = directory
URI = http://a.example/
IP = 192.0.2.1
RID = 1.2.3
[notice]
policyIdentifier = 1.3.6.1.4.1.99999.1
CPS.1 = "http://a.example/"
userNotice.1 = @text
[text]
explicitText = "UTF8:text"
[permitted]
permitted;DNS.0 = a.example
excluded;IP.0 = 192.0.2.0/255.255.255.0
excluded;dirName.0 = directory
"""

CA = "basicConstraints=critical,CA:TRUE"
KEY_IDS = "subjectKeyIdentifier=hash", "authorityKeyIdentifier=keyid"

# The label, the key of the subject, the subject, and lines of extensions; further words of openssl.
SIGNED = [
    ("RSA of 2048 bits", rsa(2048), "/CN=r", KEY_IDS, ()),
    ("RSA of 1030 bits, exponent 3", rsa(1030, "rsa_keygen_pubexp:3"), "/CN=r", (CA,), ()),
    ("P-256", ec("P-256"), "/CN=e", KEY_IDS, ()),
    ("secp256k1", ec("secp256k1"), "/CN=e", (CA,), ()),
    ("brainpoolP256r1", ec("brainpoolP256r1"), "/CN=e", (CA,), ()),
    ("a compressed point", (*ec("P-256"), "compressed"), "/CN=e", (CA,), ()),
    ("Ed25519", ED25519, "/CN=d", KEY_IDS, ()),
    ("X25519", ("X25519",), "/CN=x", ("keyUsage=critical,keyAgreement",), ()),
    ("X448", ("X448",), "/CN=x", ("keyUsage=keyAgreement",), ()),
    ("version 1, RSA", rsa(1024), "/CN=1", (), ()),
    ("version 1, P-256", ec("P-256"), "/CN=1", (), ()),
    ("version 1, Ed25519", ED25519, "/CN=1", (), ()),
    ("no authority", ED25519, "/CN=c", ("basicConstraints=critical,CA:FALSE",), ()),
    *((f"path length {length}", ED25519, "/CN=c", (f"{CA},pathlen:{length}", "keyUsage=critical,keyCertSign,cRLSign"), ())
      for length in (0, 127, 128, 255)),
    ("all nine usages", ED25519, "/CN=u", (
        "keyUsage=digitalSignature,nonRepudiation,keyEncipherment,dataEncipherment,keyAgreement,"
        "keyCertSign,cRLSign,encipherOnly,decipherOnly",), ()),
    ("the ninth usage", ED25519, "/CN=u", ("keyUsage=critical,decipherOnly",), ()),
    ("code signing, critical", ED25519, "/CN=p", ("extendedKeyUsage=critical,codeSigning",), ()),
    ("time stamping alone", ED25519, "/CN=p", ("extendedKeyUsage=critical,timeStamping",), ()),
    ("any purpose, mail, OCSP", ED25519, "/CN=p", ("extendedKeyUsage=anyExtendedKeyUsage,emailProtection,OCSPSigning",), ()),
    ("private purposes, one with a long arc", ED25519, "/CN=p", ("extendedKeyUsage=1.3.6.1.4.1.311.10.3.12,2.25.329800735698586629295641978511506172918",), ()),
    ("an other name", ED25519, "/CN=n", ("subjectAltName=otherName:1.2.3.4;UTF8:o",), ()),
    ("a mail address", ED25519, "/CN=n", ("subjectAltName=email:a@b.example",), ()),
    ("hosts", ED25519, "/CN=n", ("subjectAltName=DNS:a.example,DNS:*.b.example",), ()),
    ("a name of the directory", ED25519, "/CN=n", ("subjectAltName=dirName:directory",), ()),
    ("an EDI party", ED25519, "/CN=n", ("subjectAltName=ASN1:SEQUENCE:edi_names",), ()),
    ("an EDI party with an assigner", ED25519, "/CN=n", ("subjectAltName=ASN1:SEQUENCE:edi_both_names",), ()),
    ("a URI", ED25519, "/CN=n", ("subjectAltName=URI:http://a.example/",), ()),
    ("addresses", ED25519, "/CN=n", ("subjectAltName=IP:192.0.2.1,IP:2001:db8::1",), ()),
    ("a registered identifier", ED25519, "/CN=n", ("subjectAltName=RID:1.2.3",), ()),
    ("an X.400 address", ED25519, "/CN=n", ("subjectAltName=ASN1:SEQUENCE:x400_names",), ()),
    ("names of all forms that openssl has", ED25519, "/CN=n", ("subjectAltName=@all_names",), ()),
    ("names of the issuer", ED25519, "/CN=n", ("issuerAltName=DNS:i.example,URI:http://i.example/",), ()),
    ("no subject", ED25519, "/", ("subjectAltName=critical,DNS:a.example",), ()),
    ("a serial number of 20 octets", ED25519, "/CN=s", (CA,), ("-set_serial", "0x7f" + 19 * "5a")),
    ("a serial number of 20 octets and a zero", ED25519, "/CN=s", (CA,), ("-set_serial", "0x" + 20 * "ff")),
    ("serial number 0", ED25519, "/CN=s", (CA,), ("-set_serial", "0")),
    ("serial number 128", ED25519, "/CN=s", (CA,), ("-set_serial", "128")),
    ("a serial number below zero", ED25519, "/CN=s", (CA,), ("-set_serial", "-129")),
    ("an unknown critical extension", ED25519, "/CN=k", ("1.2.3.4=critical,ASN1:UTF8String:k",), ()),
    ("unknown extensions, one with a long arc", ED25519, "/CN=k", ("1.2.3.4=DER:ff", "2.25.329800735698586629295641978511506172918=DER:05:00"), ()),
    ("policies", ED25519, "/CN=k", ("certificatePolicies=2.5.29.32.0,@notice", "policyConstraints=requireExplicitPolicy:0,inhibitPolicyMapping:1",
                                    "inhibitAnyPolicy=2", "policyMappings=1.2.3:1.2.4"), ()),
    ("where to find more", ED25519, "/CN=k", ("crlDistributionPoints=URI:http://a.example/c", "authorityInfoAccess=OCSP;URI:http://a.example/o,caIssuers;URI:http://a.example/i"), ()),
    ("constraints of names", ED25519, "/CN=k", (CA, "nameConstraints=critical,@permitted"), ()),
    ("the key of the authority by issuer and number", ED25519, "/CN=k", ("subjectKeyIdentifier=01:02", "authorityKeyIdentifier=keyid,issuer:always"), ()),
    ("old extensions, and of TLS", ED25519, "/CN=k", ("nsCertType=sslCA", "nsComment=c", "tlsfeature=status_request", "noCheck=ignored"), ()),
    ("two attributes in a set", ED25519, "/C=XX/O=o+CN=two", (CA,), ()),
    ("many attributes", ED25519, "/DC=example/C=XX/ST=s/L=l/street=t/O=o/OU=u/GN=g/SN=n/serialNumber=1/emailAddress=a@b.example/CN=m", (CA,), ()),
]

# The key signs itself: the label, the key, and words of openssl on the digest.
SELF = [
    ("itself, RSA, SHA-256", rsa(1024), ("-sha256",)),
    ("itself, RSA, SHA-1", rsa(1024), ("-sha1",)),
    ("itself, RSA, a signature of RSASSA-PSS", rsa(1024), ("-sha256", "-sigopt", "rsa_padding_mode:pss", "-sigopt", "rsa_pss_saltlen:digest")),
    ("itself, P-256, SHA-256", ec("P-256"), ("-sha256",)),
    ("itself, P-384, SHA-384", ec("P-384"), ("-sha384",)),
    ("itself, P-521, SHA-512", ec("P-521"), ("-sha512",)),
    ("itself, Ed448", ("ED448",), ()),
]

# First and last moments.
TIMES = [
    ("1900 to 1949", "19000101000000Z", "19491231235959Z"),
    ("1949 to 1950", "19491231235959Z", "19500101000000Z"),
    ("1999 to 2000", "19991231235959Z", "20000229000000Z"),
    ("2049 to 2050", "20491231235959Z", "20500101000000Z"),
    ("2050 to no end", "20500101000000Z", "99991231235959Z"),
]

AUTHORITY_FORM = """
[ca]
default_ca = here
[here]
database = {folder}/database
new_certs_dir = {folder}
rand_serial = yes
policy = any
default_md = default
unique_subject = no
[any]
commonName = supplied
[ext]
basicConstraints = CA:FALSE
"""


class Authority:
    """A key of Ed25519 that signs the others, in a folder."""

    def __init__(self, folder):
        self.folder = folder
        self.key = self.new_key(ED25519)
        (folder / "database").write_text("")
        form = self.form("authority", (CA, "subjectKeyIdentifier=hash"))
        self.certificate = folder / "authority.pem"
        self.certificate.write_bytes(openssl("x509", "-new", "-key", self.key, "-subj", "/CN=W", "-set_serial", 1, "-extfile", form))

    def new_key(self, words):
        algorithm, *options = words
        file = self.folder / "key.pem" if hasattr(self, "key") else self.folder / "authority_key.pem"
        compressed = "compressed" in options
        options = (word for option in options if option != "compressed" for word in ("-pkeyopt", option))
        openssl("genpkey", "-algorithm", algorithm, *options, "-out", file)
        if compressed:
            openssl("ec", "-in", file, "-conv_form", "compressed", "-out", file)
        return file

    def form(self, stem, lines):
        """The file of some extensions."""
        file = self.folder / f"{stem}.cnf"
        file.write_text("\n".join(lines) + "\n" + SECTIONS, encoding="utf-8")
        return file

    def signed(self, words, subject, lines, more):
        key, public = self.new_key(words), self.folder / "public.pem"
        openssl("pkey", "-in", key, "-pubout", "-out", public)
        serial = () if "-set_serial" in more else ("-set_serial", 77)
        extensions = ("-extfile", self.form("extensions", lines)) if lines else ()
        return openssl("x509", "-new", "-force_pubkey", public, "-CA", self.certificate, "-CAkey", self.key, "-subj", subject,
                       "-days", 3650, "-outform", "DER", *serial, *more, *extensions)

    def by_itself(self, words, more):
        key = self.new_key(words)
        return openssl("x509", "-new", "-key", key, "-subj", "/CN=i", "-set_serial", 77, "-days", 3650, "-outform", "DER",
                       "-extfile", self.form("extensions", (CA,)), *more)

    def between(self, first, last):
        key, request, made = self.new_key(ED25519), self.folder / "request.pem", self.folder / "made.pem"
        form = self.folder / "ca.cnf"
        form.write_text(AUTHORITY_FORM.format(folder=self.folder), encoding="utf-8")
        openssl("req", "-new", "-key", key, "-subj", "/CN=t", "-out", request)
        openssl("ca", "-batch", "-notext", "-config", form, "-in", request, "-cert", self.certificate, "-keyfile", self.key,
                "-startdate", first, "-enddate", last, "-extensions", "ext", "-out", made)
        return openssl("x509", "-in", made, "-outform", "DER")

    def signature(self, octets):
        file = self.folder / "signed"
        file.write_bytes(octets)
        return openssl("pkeyutl", "-sign", "-rawin", "-inkey", self.key, "-in", file)


# Put together here, and signed by openssl.

ED = sequence(identifier("1.3.101.112"))
VERSIONS = {1: b"", 2: context(0, integer(b"\1")), 3: context(0, integer(b"\2"))}
CONSTRAINTS = context(3, sequence(sequence(identifier("2.5.29.19"), octet_string(sequence()))))
ISSUER_ID, SUBJECT_ID = context_primitive(1, b"\0\xaa"), context_primitive(2, b"\4\xbb\xc0")


ED_KEY = sequence(ED, bit_string(bytes(range(32))))

# The label, the version, the key, and what comes behind it.
PUT_TOGETHER = [
    ("version 3, no extensions", 3, ED_KEY, b""),
    ("version 2, both unique identifiers", 2, ED_KEY, ISSUER_ID + SUBJECT_ID),
    ("version 2, the unique identifier of the issuer", 2, ED_KEY, ISSUER_ID),
    ("version 3, the unique identifier of the subject", 3, ED_KEY, SUBJECT_ID + CONSTRAINTS),
    ("version 3, both unique identifiers", 3, ED_KEY, ISSUER_ID + SUBJECT_ID + CONSTRAINTS),
]


def put_together(authority, version, key, behind):
    validity = sequence(utc_time("200101000000Z"), element(0x18, b"20500101000000Z"))
    signed = sequence(VERSIONS[version], integer(b"\x4d"), ED, name(b"W"), validity, name(b"h"), key, behind)
    return sequence(signed, ED, bit_string(authority.signature(signed)))


def made():
    """Labels, and the certificates that openssl makes or signs."""
    with TemporaryDirectory() as place:
        authority = Authority(Path(place))
        for label, *parts in SIGNED:
            yield label, authority.signed(*parts)
        for label, *parts in SELF:
            yield label, authority.by_itself(*parts)
        for label, *times in TIMES:
            yield label, authority.between(*times)
        for label, *parts in PUT_TOGETHER:
            yield label, put_together(authority, *parts)


def stored():
    """Labels and certificates of the file."""
    for line in STORED.read_text(encoding="ascii").splitlines():
        label, octets = line.split("|")
        yield label, b64decode(octets, validate=True)


def main(arguments):
    if arguments == ["--make"]:
        for label, octets in made():
            print(f"{label}|{b64encode(octets).decode()}")
        return 0
    if arguments == ["--check"]:
        from interop.certificate_fields import check
        return check(stored())
    return command.usage(__doc__)


if __name__ == "__main__":
    command.run(main, __doc__)
