"""What openssl and Python's package `cryptography` say of certificates, beside `value_reader`.

For `world_certificates.py --check` and `system_roots.py`.
"""

import re
import warnings
from datetime import datetime, timezone

from common.openssl import openssl
from judges.der_reader import read_exact
from judges.value_reader import algorithm, extension, key_usage, view_line

TEXTS = ("version", "serial", "inner", "issuer", "validity", "from_form", "from_day", "from_time", "to_form", "to_day", "to_time",
         "subject", "key_info", "key_algorithm", "key", "issuer_id", "subject_id", "extensions", "outer", "signature", "tbs",
         "ca", "path_length", "subject_key", "authority_key", "has_purposes", "code", "stamps")


class Differs(Exception):
    """A field that two readers give differently."""


def same(field, one, other):
    if one != other:
        raise Differs(f"{field}: {one!r} here, {other!r} there")


def octets_of(text):
    return b"" if text == "-" else bytes.fromhex(text)


class Fields:
    """What `value_reader` says."""

    def __init__(self, octets):
        for field, text in zip(TEXTS, view_line(octets).split(" "), strict=True):
            setattr(self, field, text)
        self.serial = int.from_bytes(octets_of(self.serial), "big", signed=True)
        self.version = 1 + (octets_of(self.version)[-1] if self.version != "none" else 0)
        self.moments = [
            datetime.strptime(f"{day} {time}", "%Y-%m-%d %H:%M:%S").replace(tzinfo=timezone.utc)
            for day, time in ((self.from_day, self.from_time), (self.to_day, self.to_time))
        ]
        self.oid = algorithm(read_exact(octets_of(self.outer))).split()[0]
        self.listed = [] if self.extensions == "none" else list(read_exact(octets_of(self.extensions)).kids)

    def extensions_in_words(self):
        """Each extension: its identifier, whether it is critical, and the octets in it."""
        return [(*extension(one).split()[:2], one.kids[-1].contents) for one in self.listed]


# openssl.

def openssl_check(fields, octets):
    said = openssl("x509", "-inform", "DER", "-noout", "-serial", "-startdate", "-enddate", "-text", given=octets).decode("latin-1")

    def found(pattern):
        return [match.group(1) for match in re.finditer(pattern, said)]

    same("serial", f"{'-' * (fields.serial < 0)}{abs(fields.serial):X}", found(r"(?m)^serial=(-?)0*")[0] + found(r"(?m)^serial=-?0*(\w+)$")[0])
    same("version", [str(fields.version)], found(r"Version: (\d)"))
    for moment, word in zip(fields.moments, ("Before", "After"), strict=True):
        month = "Jan Feb Mar Apr May Jun Jul Aug Sep Oct Nov Dec".split()[moment.month - 1]
        same(word, [f"{month} {moment.day:2} {moment:%H:%M:%S} {moment.year} GMT"], found(rf"(?m)^not{word}=(.*)$"))
    same("issuer's identifier", fields.issuer_id != "none", "Issuer Unique ID" in said)
    same("subject's identifier", fields.subject_id != "none", "Subject Unique ID" in said)
    constraints = found(r"CA:(TRUE|FALSE)")
    same("authority", {"true": ["TRUE"], "false": ["FALSE"]}.get(fields.ca, constraints and ["FALSE"]), constraints)
    same("path length", [] if fields.path_length == "none" else [fields.path_length], found(r"pathlen:(\d+)"))
    same("critical", [one[1] for one in fields.extensions_in_words()].count("true"), said.count(": critical"))
    purposes = "X509v3 Extended Key Usage" in said
    same("purposes", fields.has_purposes, str(purposes).lower())
    same("code signing", fields.code, str("Code Signing" in said).lower())
    same("time stamping", fields.stamps, str("Time Stamping" in said).lower())
    if "Unable to load Public Key" not in said:
        key = openssl("x509", "-inform", "DER", "-noout", "-pubkey", given=octets)
        same("key", octets_of(fields.key_info), openssl("pkey", "-pubin", "-outform", "DER", given=key))


# The package `cryptography`.  It writes key usages and policies anew, so their octets aren't compared.

def cryptography_check(fields, octets):
    from cryptography import x509
    from cryptography.hazmat.primitives.serialization import load_der_public_key

    read = x509.load_der_x509_certificate(octets)
    same("version", fields.version, read.version.value + 1)
    same("serial", fields.serial, read.serial_number)
    same("algorithm", fields.oid, read.signature_algorithm_oid.dotted_string)
    same("issuer", octets_of(fields.issuer), read.issuer.public_bytes())
    same("subject", octets_of(fields.subject), read.subject.public_bytes())
    same("times", fields.moments, [read.not_valid_before_utc, read.not_valid_after_utc])
    same("tbs", octets_of(fields.tbs), read.tbs_certificate_bytes)
    same("signature", octets_of(fields.signature), read.signature)
    same("key", load_der_public_key(octets_of(fields.key_info)), read.public_key())
    cryptography_extensions(x509, fields, read)


USAGES = ("digital_signature", "content_commitment", "key_encipherment", "data_encipherment", "key_agreement", "key_cert_sign", "crl_sign")


def usages(value):
    """The nine flags of a key usage; the last two are asked for beside key agreement alone."""
    last = (value.encipher_only, value.decipher_only) if value.key_agreement else (False, False)
    return "".join(str(int(flag)) for flag in (*(getattr(value, usage) for usage in USAGES), *last))


def cryptography_extensions(x509, fields, read):
    found = list(read.extensions)
    anew = x509.KeyUsage, x509.CertificatePolicies
    for here, there in zip(fields.extensions_in_words(), found, strict=True):
        same("extension", here[:2], (there.oid.dotted_string, str(there.critical).lower()))
        if not isinstance(there.value, anew):
            same("value", here[2], there.value.public_bytes())
        elif isinstance(there.value, x509.KeyUsage):
            same("usages", key_usage(read_exact(here[2]))[0].split()[-1], usages(there.value))
    values = {type(one.value): one.value for one in found}
    if constraints := values.get(x509.BasicConstraints):
        same("authority", fields.ca == "true", constraints.ca)
        same("path length", fields.path_length, "none" if constraints.path_length is None else str(constraints.path_length))
    if key := values.get(x509.SubjectKeyIdentifier):
        same("subject's key", octets_of(fields.subject_key), key.digest)
    if key := values.get(x509.AuthorityKeyIdentifier):
        same("authority's key", fields.authority_key, "none" if key.key_identifier is None else key.key_identifier.hex())
    if usage := values.get(x509.ExtendedKeyUsage):
        purposes = [purpose.dotted_string for purpose in usage]
        same("code signing", fields.code, str("1.3.6.1.5.5.7.3.3" in purposes).lower())
        same("time stamping", fields.stamps, str("1.3.6.1.5.5.7.3.8" in purposes).lower())


READERS = {"openssl": openssl_check, "cryptography": cryptography_check}


def check(certificates):
    """Print where a reader differs or doesn't read; 1 where one differs."""
    warnings.simplefilter("ignore")
    count, differing, unread = 0, 0, dict.fromkeys(READERS, 0)
    for label, octets in certificates:
        count += 1
        fields = Fields(octets)
        for reader, compare in READERS.items():
            try:
                compare(fields, octets)
            except Differs as difference:
                differing += 1
                print(f"{label}: {reader} differs: {difference}")
            except Exception as refusal:
                unread[reader] += 1
                print(f"{label}: {reader} doesn't read it: {type(refusal).__name__}: {refusal}")
    print(f"{count} certificates, {differing} differences; not read, or in part: {unread}")
    return int(differing > 0)
