"""What openssl says of signed data, beside `cms_reader`.

For `world_signatures.py --check`.  `openssl pkcs7 -print` reads a content of any
type, `openssl cms -cmsout -print` a signer named by a key's identifier; the lines of
both are known by their indentation.
"""

import re

from common.openssl import OpensslError, openssl
from judges.cms_reader import both_line, cms_line

# What the two call a field.
TOP = {"md_algs": "digests", "digestAlgorithms": "digests", "contents": "content", "encapContentInfo": "content", "cert": "certificates",
       "certificates": "certificates", "crl": "lists", "crls": "lists", "signer_info": "signers", "signerInfos": "signers", "version": "version"}
SIGNER = {"issuer_and_serial": "named", "d.issuerAndSerialNumber": "named", "d.subjectKeyIdentifier": "key", "digest_alg": "digest",
          "digestAlgorithm": "digest", "auth_attr": "signed", "signedAttrs": "signed", "digest_enc_alg": "algorithm", "signatureAlgorithm": "algorithm",
          "enc_digest": "signature", "signature": "signature", "unauth_attr": "unsigned", "unsignedAttrs": "unsigned", "version": "version"}
COUNTERS = {"1.2.840.113549.1.9.6": "signers", "1.3.6.1.4.1.311.3.3.1": "tokens"}


def sections(lines, indent, names):
    """The lines below each name that is indented so far."""
    found, name = {}, None
    for line in lines:
        match = re.match(rf" {{{indent}}}([\w.]+):(.*)$", line)
        if match and match.group(1) in names:
            name = names[match.group(1)]
            found[name] = [match.group(2).strip()]
        elif name is not None:
            found[name].append(line)
    return found


def oids(lines, indent, word):
    pattern = rf" {{{indent}}}{word}: .*\((\d+(?:\.\d+)+)\)$"
    return [match.group(1) for match in map(lambda line: re.match(pattern, line), lines) if match]


def is_absent(lines):
    return "<ABSENT>" in " ".join(lines[:2])


def dump(lines):
    """The octets of a dump in hexadecimal."""
    rows = (re.match(r" +[0-9a-f]{4,} - ((?:[0-9a-f]{2}[ -]?)+)", line) for line in lines)
    return "".join(re.sub("[ -]", "", row.group(1)) for row in rows if row) or "-"


def serial_word(text):
    number = int(text, 16) if "0x" in text else int(text)
    return number.to_bytes(number.bit_length() // 8 + 1, "big", signed=True).hex()


def value_of(lines, word):
    return next(line.split(":", 1)[1].strip() for line in lines if re.match(rf" {{10}}{word}: ", line))


def count(lines):
    return "none" if is_absent(lines) else str(len(oids(lines, 12, "object")))


def unsigned_words(lines):
    """The identifier of each unsigned attribute, and how many values it has."""
    if is_absent(lines):
        return "none"
    words, values = [], 0
    for line in lines:
        found = oids([line], 12, "object")
        if found:
            words.append([COUNTERS.get(found[0], found[0]), 0])
        elif re.match(r" {14}[A-Z][A-Z0-9 ]*:", line):
            words[-1][1] += 1
    return " ".join(("[", *(f"{word} {values}" for word, values in words), "]"))


def signer_words(lines):
    fields = sections(lines, 8, SIGNER)
    if "named" in fields:
        serial = "serial" if any(re.match(" {10}serial: ", line) for line in fields["named"]) else "serialNumber"
        named = f"{value_of(fields['named'], 'issuer').replace(', ', ',')} {serial_word(value_of(fields['named'], serial))}"
    else:
        named = f"key {dump(fields['key'])}"
    [digest], [algorithm] = (oids(fields[name], 10, "algorithm")[:1] for name in ("digest", "algorithm"))
    return (f"{fields['version'][0]} {named} {digest} {count(fields['signed'])} {algorithm} "
            f"{dump(fields['signature'])} {unsigned_words(fields['unsigned'])}")


def each_signer(lines):
    """The lines of each signer: a version begins one."""
    signers = []
    for line in lines:
        if re.match(r" {8}version: ", line):
            signers.append([])
        if signers:
            signers[-1].append(line)
    return signers


def members(lines, pattern):
    return "none" if is_absent(lines) else str(sum(1 for line in lines if re.match(pattern, line)))


# The words of a command that prints fields, and how a certificate and a revocation list begin there.
PKCS7 = ("pkcs7",), r" {8}cert_info:", r" {8}crl:"
CMS = ("cms", "-cmsout"), r" {6}d\.", r" {6}d\."


def said(octets):
    """How the line of `cms_reader` begins and ends, by what openssl says."""
    try:
        return said_by(PKCS7, octets)
    except OpensslError:
        return said_by(CMS, octets)


def said_by(command, octets):
    """The same by one of its commands."""
    words, certificate, revoked = command
    text = openssl(*words, "-inform", "DER", "-noout", "-print", given=octets)
    fields = sections(text.decode("latin-1").splitlines(), 4, TOP)
    [ty] = oids(fields["content"], 6, "(?:type|eContentType)")
    begins = f"same {fields['version'][0]} {len(oids(fields['digests'], 8, 'algorithm'))} {ty} "
    if any(line.startswith(("      d.data:", "      eContent:")) for line in fields["content"]) and not is_absent(fields["content"][2:]):
        begins += f"data {dump(fields['content'])} " if ty == "1.2.840.113549.1.7.1" else ""
    signers = " ".join(("[", *map(signer_words, each_signer(fields["signers"])), "]"))
    return begins, f" {members(fields['certificates'], certificate)} {members(fields['lists'], revoked)} {signers}"


def is_said(kind, octets, begins, ends):
    """Whether the line of `cms_reader` begins and ends so."""
    here = cms_line(kind, octets)
    return here.startswith(begins) and here.endswith(ends)


def check(rows):
    """What differs, and what isn't read, is printed."""
    compared, differing = 0, 0
    for label, kind, octets in rows:
        line = both_line(octets) if kind == "pkcs7" else cms_line(kind, octets)
        if not line.startswith("same "):
            print(f"not read: {label}: {line}")
            continue
        if kind != "pkcs7":
            continue
        compared += 1
        begins, ends = said(octets)
        if not is_said(kind, octets, begins, ends):
            differing += 1
            print(f"{label}:\n  here    {cms_line(kind, octets)}\n  openssl {begins}..{ends}")
    print(f"{compared} compared with openssl, {differing} differing")
    return 1 if differing else 0
