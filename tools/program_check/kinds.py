"""What a file is that isn't a signed program, and what checks it."""

from common import der, pem
from common.der import NOT_READ

OSSLSIGNCODE = "`osslsigncode verify -in FILE`"
SIGNED_DATA = "1.2.840.113549.1.7.2"
CONTENTS = {
    "1.3.6.1.4.1.311.10.1": (
        "a catalogue: it has the digests of other files",
        "`osslsigncode verify -catalog CATALOGUE -in FILE` or `signtool verify /c CATALOGUE FILE` checks a file by it"),
    "1.3.6.1.4.1.311.2.1.4": (
        "the signature of a program without the program and without the header of a WIN_CERTIFICATE",
        "pass the signed program itself"),
    "1.2.840.113549.1.7.1": (
        "signed data of PKCS #7, which is no signature of a program", "`openssl cms -verify -inform DER` checks it"),
    "1.2.840.113549.1.9.16.1.4": ("a time stamp (RFC 3161)", "`openssl ts -verify -token_in` checks it"),
}
MAGIC = [
    (b"\xd0\xcf\x11\xe0\xa1\xb1\x1a\xe1", "a compound file, as an installer package (.msi) is", OSSLSIGNCODE + " or `signtool verify /pa` checks it"),
    (b"MSCF", "a cabinet (.cab)", OSSLSIGNCODE + " or `signtool verify /pa` checks it"),
    (b"PK\x03\x04", "a zip archive, as .msix, .appx, .jar, .nupkg and .vsix files are",
     "`osslsigncode verify` checks .appx and .msix, `jarsigner -verify` .jar, `dotnet nuget verify` .nupkg"),
    (b"\x7fELF", "a program of Linux (ELF), which has no such signature", "its package's signature is what vouches for it"),
    (b"\xcf\xfa\xed\xfe", "a program of macOS (Mach-O)", "`codesign --verify --verbose` checks it"),
    (b"\xca\xfe\xba\xbe", "a program of macOS (Mach-O) or a class of Java", "`codesign --verify --verbose` checks the former"),
    (b"ZM", "an executable of MS-DOS", "it can't be signed"),
]
SCRIPT_MARKS = b"# SIG # Begin signature block", b"'' SIG '' Begin signature block", b"// SIG // Begin signature block"


def of(octets):
    """What a file is, and what to use; both None where it is a program or isn't known."""
    if octets.startswith(b"MZ"):
        return None, None
    if not octets:
        return "an empty file", "pass the signed program"
    for magic, what, instead in MAGIC:
        if octets.startswith(magic):
            return what, instead
    if pem.begins(octets[:4096]):
        return "a text in PEM", "pass the signed program itself; `openssl pkcs7 -print_certs` shows what is in a signature in PEM"
    if any(mark in octets or mark.decode().encode("utf-16-le") in octets for mark in SCRIPT_MARKS):
        return "a signed script", "`Get-AuthenticodeSignature` of PowerShell or `osslsigncode verify` (2.8 or later) checks it"
    if octets[4:8] in (b"\0\2\2\0", b"\0\1\2\0"):
        return "a signature that was taken out of its program (WIN_CERTIFICATE)", "pass the program, or the digest of the program by --digest"
    if octets.startswith(b"\x30"):
        return of_der(octets)
    return None, None


def of_der(octets):
    """The same of a file that begins as an element of DER."""
    try:
        kind, held = der.first(octets).kids(2)
        if der.oid(kind) != SIGNED_DATA:
            return "some structure in DER", "pass the signed program"
        content = der.oid(held.kids(1)[0].kids()[2].kids()[0])
        return CONTENTS.get(content, (f"signed data over content of the type {content}", "`openssl cms -cmsout -print -inform DER` shows what is in it"))
    except NOT_READ:
        return "some structure in DER, perhaps a certificate", "`openssl x509 -inform DER -text -noout` shows a certificate"
