#!/usr/bin/env python3
"""How long signed data takes to be read, beside OpenSSL and GnuTLS.

Usage:

    python3 bench/signed_data/signed_data.py [--rounds N] [--times N] PROGRAM

PROGRAM is the path of `xgolden_certificate`.  The script builds the other program from
`signed_data.c`, with Debian's packages libssl-dev and libgnutls28-dev, and has
openssl make a signature of some 12 KB: RSA of 4,096 bits, four certificates,
and a token with its own, as an unsigned attribute.  Each program reads it so
many times, and counts the time that processors worked; the programs run in
turn, and a figure is the median of the rounds.

A markdown table is printed, and the status is 1 where a limit is passed, else 0:

  view     where its octets lie: below a tenth of GnuTLS's time;
  owned    as a value of its own: at most GnuTLS's time.

This is no part of the gate: the figures depend on the machine.
"""

import argparse
import subprocess
import sys
import tempfile
from pathlib import Path
from statistics import median

sys.path.insert(0, str(Path(__file__).resolve().parents[2] / "tools"))

from cases.first_path import identifier
from common import command
from judges.der_reader import Constructed, read_exact, write

HERE = Path(__file__).resolve().parent
WAYS = ("view", "owned", "openssl", "gnutls")
PART_OF_GNUTLS = 0.1
TOKEN = read_exact(identifier("1.3.6.1.4.1.311.3.3.1"))

CONFIG = """\
[above]
basicConstraints = critical, CA:TRUE
keyUsage = critical, keyCertSign, cRLSign
subjectKeyIdentifier = hash
[leaf]
keyUsage = critical, digitalSignature
extendedKeyUsage = codeSigning
subjectKeyIdentifier = hash
authorityKeyIdentifier = keyid
crlDistributionPoints = URI:http://crl.example/code-signing-authority.crl
authorityInfoAccess = caIssuers;URI:http://certificates.example/code-signing-authority.cer
[stamp]
keyUsage = critical, digitalSignature
extendedKeyUsage = critical, timeStamping
subjectKeyIdentifier = hash
authorityKeyIdentifier = keyid
[tsa]
default_tsa = here
[here]
serial = serial
signer_digest = sha256
default_policy = 1.2.3
digests = sha256
ess_cert_id_alg = sha256
"""


# The signature.

def asked(folder, *words):
    subprocess.run(["openssl", *words], cwd=folder, check=True, stdout=subprocess.DEVNULL, stderr=subprocess.DEVNULL)


def certified(folder, name, section, by=None):
    """A key and its certificate, by itself or by another one."""
    subject = f"/C=DE/L=Stadt/O=Ninebark Example Organisation/OU=Signing of programs/CN={name} of the benchmark"
    signed = ("-CA", f"{by}.pem", "-CAkey", f"{by}.key") if by else ()
    asked(folder, "req", "-x509", "-newkey", "rsa:4096", "-nodes", "-sha256", "-days", "3650", "-subj", subject,
          "-keyout", f"{name}.key", "-out", f"{name}.pem", "-config", "config", "-extensions", section, *signed)


def token(folder, signature):
    """A token on the octets of a signature, with two certificates."""
    folder.joinpath("imprint").write_bytes(signature)
    folder.joinpath("serial").write_text("01\n")
    asked(folder, "ts", "-query", "-data", "imprint", "-sha256", "-cert", "-out", "query")
    asked(folder, "ts", "-reply", "-config", "config", "-queryfile", "query", "-signer", "stamp.pem", "-inkey", "stamp.key",
          "-chain", "stamps.pem", "-token_out", "-out", "token")
    return read_exact(folder.joinpath("token").read_bytes())


def stamped(folder):
    """Signed data with four certificates, whose signer has a token."""
    oid, held = read_exact(folder.joinpath("signature").read_bytes()).kids
    *fields, signers = held.kids[0].kids
    signer, = signers.kids
    made = token(folder, signer.kids[-1].contents)
    attribute = Constructed(0x30, (TOKEN, Constructed(0x31, (made,))))
    signer = Constructed(0x30, (*signer.kids, Constructed(0xA1, (attribute,))))
    inner = Constructed(0x30, (*fields, Constructed(0x31, (signer,))))
    return write(Constructed(0x30, (oid, Constructed(0xA0, (inner,)))))


def signature(folder):
    """The octets of the signature."""
    folder.joinpath("config").write_text("[req]\ndistinguished_name = name\n[name]\n" + CONFIG)
    certified(folder, "root", "above")
    certified(folder, "policy", "above", by="root")
    certified(folder, "authority", "above", by="policy")
    certified(folder, "leaf", "leaf", by="authority")
    certified(folder, "stamps", "above", by="root")
    certified(folder, "stamp", "stamp", by="stamps")
    above = [folder.joinpath(f"{name}.pem").read_text() for name in ("authority", "policy", "root")]
    folder.joinpath("above.pem").write_text("".join(above))
    folder.joinpath("content").write_bytes(bytes(range(256)) * 2)
    asked(folder, "cms", "-sign", "-binary", "-nodetach", "-md", "sha256", "-in", "content", "-signer", "leaf.pem", "-inkey", "leaf.key",
          "-certfile", "above.pem", "-outform", "DER", "-out", "signature")
    return stamped(folder)


# The programs.

def built(folder):
    """The path of the other program."""
    program = folder / "others"
    subprocess.run(["cc", "-O2", "-Wno-deprecated-declarations", "-o", program, HERE / "signed_data.c", "-lcrypto", "-lgnutls"], check=True)
    return program


def times_of(programs, file, times):
    """What the programs print: by its way, whether the file is read, and the nanoseconds."""
    answers = {}
    for program in programs:
        printed = subprocess.run([*program, file, str(times)], check=True, stdout=subprocess.PIPE, text=True).stdout
        for line in printed.splitlines():
            way, is_read, nanos, _ = line.split()
            assert is_read == "1", way
            answers[way] = int(nanos)
    return answers


def main(words):
    parser = argparse.ArgumentParser(description="Time to read signed data.")
    parser.add_argument("--rounds", type=int, default=7)
    parser.add_argument("--times", type=int, default=2000)
    parser.add_argument("program", type=command.executable, help="path of xgolden_certificate")
    options = parser.parse_args(words)
    with tempfile.TemporaryDirectory() as name:
        folder = Path(name)
        octets = signature(folder)
        file = folder / "stamped"
        file.write_bytes(octets)
        programs = [[options.program.resolve(), "time", "cms"], [built(folder)]]
        times_of(programs, file, options.times)
        rounds = [times_of(programs, file, options.times) for _ in range(options.rounds)]
    nanos = {way: median(answers[way] for answers in rounds) / options.times for way in WAYS}
    view, owned = nanos["view"] / nanos["gnutls"], nanos["owned"] / nanos["gnutls"]
    print(f"| octets | {' | '.join(f'{way} ns' for way in WAYS)} | view / gnutls, below {PART_OF_GNUTLS} | owned / gnutls, at most 1 |")
    print(f"|---:|{len(WAYS) * '---:|'}---:|---:|")
    print(f"| {len(octets)} | {' | '.join(f'{nanos[way]:,.0f}' for way in WAYS)} | {view:.2f} | {owned:.2f} |")
    return 0 if view < PART_OF_GNUTLS and owned <= 1 else 1


if __name__ == "__main__":
    command.run(main, __doc__)
