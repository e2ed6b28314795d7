"""The signature files of `basic.py` and `check.py`: long ones by `tools/cases/basic_making.py`, and those that osslsigncode wrote."""

import subprocess
import sys
from pathlib import Path
from typing import NamedTuple

sys.path.insert(0, str(Path(__file__).resolve().parents[2] / "tools"))

import signed_program
from cases.basic_making import Signed, certificate, extension, named, rsa_key
from cases.first_path import FILE_HASH, attribute, bit_string, integer, octet_string, sequence
from interop.signature_making import portable_executable
from judges import asked_signatures
from order_bag import with_ordered_bag

HERE = Path(__file__).resolve().parent
MIB = 1 << 20
SIZES = (1, 4, 16)


class Case(NamedTuple):
    """A file: where its bulk is, its size in MiB, the paths of it and its table, the digest that is asked for, and the answer."""

    bulk: str
    size: int
    signature: Path
    table: Path
    file_hash: str
    answer: bytes


def accepted(place):
    return f"accepted signer={place} path= excuse=none\n".encode()


# Long files. Each function makes signed data of about so many octets, and returns the signer's place.

def in_name(total):
    """The bulk in the subject of the signer's certificate."""
    return Signed(members=(certificate(subject=b"A" * total),)), 0


def in_modulus(total):
    """In the modulus of the signer's key."""
    numbers = sequence(integer(b"A" * total), integer(b"\x03"))
    key = sequence(*kids_of_key(numbers))
    return Signed(key=key, accepted=numbers), 0


def kids_of_key(numbers):
    head = rsa_key()
    kind = head[2:2 + 2 + head[3]]
    return kind, bit_string(numbers)


def in_attribute(total):
    """In an unsigned attribute, whose value is one string."""
    return Signed(unsigned=(attribute("1.2.3", octet_string(b"A" * total)),)), 0


def in_extension(total):
    """In an extension of the signer's certificate."""
    return Signed(extensions=(extension("1.2.3", b"A" * total),)), 0


def members(total):
    """Certificates of short names, each of whose issuer is the next one's subject."""
    form = certificate(subject=b"subject", issuer=b"issuer_", serial=b"\x05", key=rsa_key())
    count = total // len(form)
    return [form.replace(b"subject", b"%07d" % n).replace(b"issuer_", b"%07d" % (n + 1)) for n in range(count)]


def in_walk(total):
    """In a bag of certificates, the signer's first and each the issuer of the one before."""
    return Signed(named=named(issuer=b"0000001", serial=b"\x05"), members=tuple(members(total))), 0


def in_bag(total):
    """In a bag of certificates, the signer's last."""
    others = members(total)
    return Signed(members=(*others, certificate())), len(others)


BULKS = {
    "name": in_name, "modulus": in_modulus, "unsigned attribute": in_attribute, "extension": in_extension,
    "certificates, a walk": in_walk, "certificates, the signer last": in_bag,
}


def long_cases(folder):
    """Writes the long files."""
    for bulk, made in BULKS.items():
        for size in SIZES:
            signed, place = made(size * MIB - 2048)
            files = folder / f"{bulk}-{size}.bin", folder / f"{bulk}-{size}.txt"
            files[0].write_bytes(signed.file())
            files[1].write_text(signed.table(), encoding="ascii", newline="\n")
            yield Case(bulk, size, *files, FILE_HASH.hex(), accepted(place))


# A program that osslsigncode signs: four certificates, and a token with three.

KEY = "rsa:3072"
CONFIG = """\
[req]
distinguished_name = name
[name]
[above]
basicConstraints = critical, CA:TRUE
keyUsage = critical, keyCertSign, cRLSign
subjectKeyIdentifier = hash
[leaf]
keyUsage = critical, digitalSignature
extendedKeyUsage = codeSigning
subjectKeyIdentifier = hash
authorityKeyIdentifier = keyid
certificatePolicies = 1.3.6.1.4.1.311.10.3.13
authorityInfoAccess = caIssuers;URI:http://certificates.example/code-signing-authority.cer
[stamp]
keyUsage = critical, digitalSignature
extendedKeyUsage = critical, timeStamping
subjectKeyIdentifier = hash
authorityKeyIdentifier = keyid
"""
# Each with its section and who issues it.
CERTIFICATES = [
    ("root", "above", None), ("policy", "above", "root"), ("authority", "above", "policy"), ("leaf", "leaf", "authority"),
    ("stamps", "above", "root"), ("stamp", "stamp", "stamps"),
]
# For `check.py`: a signer below its authority, and a stamp below three.
CHECKED = [
    ("root", "above", None), ("authority", "above", "root"), ("leaf", "leaf", "authority"),
    ("policy", "above", "root"), ("stamps", "above", "policy"), ("stamp", "stamp", "stamps"),
]


def run(folder, *words):
    subprocess.run(words, cwd=folder, check=True, stdout=subprocess.DEVNULL, stderr=subprocess.DEVNULL)


def certified(folder, name, section, by):
    """A key and its certificate, by itself or by another one."""
    subject = f"/C=DE/L=Stadt/O=Ninebark Example Organisation/OU=Signing of programs/CN={name} of the benchmark"
    signed = ("-CA", f"{by}.pem", "-CAkey", f"{by}.key") if by else ()
    run(folder, "openssl", "req", "-x509", "-newkey", KEY, "-nodes", "-sha256", "-days", "3650", "-subj", subject,
        "-keyout", f"{name}.key", "-out", f"{name}.pem", "-config", "config", "-extensions", section, *signed)


def joined(folder, name, *names):
    folder.joinpath(f"{name}.pem").write_text("".join(folder.joinpath(f"{one}.pem").read_text() for one in names))


def signed_by_leaf(folder, certificates, above, stamps):
    """A program that osslsigncode signed, with these certificates beside the signer's, and those of the token."""
    folder.joinpath("config").write_text(CONFIG)
    for one in certificates:
        certified(folder, *one)
    joined(folder, "above", *above)
    joined(folder, "stamp_chain", *stamps)
    folder.joinpath("program.exe").write_bytes(portable_executable())
    run(folder, "osslsigncode", "sign", "-certs", "leaf.pem", "-key", "leaf.key", "-ac", "above.pem", "-h", "sha256",
        "-TSA-certs", "stamp_chain.pem", "-TSA-key", "stamp.key", "-in", "program.exe", "-out", "signed.exe")
    return folder.joinpath("signed.exe").read_bytes()


def signed_case(folder):
    """The signature of a program that osslsigncode signed, as a case; the program and its root stay in the folder."""
    program = signed_by_leaf(folder, CERTIFICATES, ("authority", "policy", "root"), ("stamp", "stamps", "root"))
    return case_of(folder, program)


def checked_case(folder):
    """A program with three certificates, signer, authority and one of another subject, in this order, and a token with four."""
    program = signed_by_leaf(folder, CHECKED, ("authority", "policy"), ("stamp", "stamps", "policy", "root"))
    entry = signed_program.signature(program)
    program = program.replace(entry, with_ordered_bag(entry))
    folder.joinpath("signed.exe").write_bytes(program)
    return case_of(folder, program)._replace(answer=b"accepted signer=0 path=1 excuse=none\n")


def case_of(folder, program):
    """The signature of a program as a case."""
    entry = signed_program.signature(program)
    lines, _ = asked_signatures.table(entry)
    files = folder / "signature.bin", folder / "table.txt"
    files[0].write_bytes(entry)
    files[1].write_text("".join(f"{line}\n" for line in lines), encoding="ascii", newline="\n")
    certificates, signers = asked_signatures.signed_data_in(entry)
    place = next(n for n, one in enumerate(certificates) if one.serial == signers[0].kids[1].kids[1].contents)
    return Case("signature", 0, *files, signed_program.image_digest(program, "sha256"), accepted(place))


# The other programs on the signed program.
OTHERS = {
    "osslsigncode": ("osslsigncode", "verify", "-CAfile", "root.pem", "-TSA-CAfile", "root.pem", "-in", "signed.exe"),
    "sbverify": ("sbverify", "--cert", "root.pem", "signed.exe"),
}
