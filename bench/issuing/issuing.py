#!/usr/bin/env python3
"""How long a chain of three takes to be judged, and a certificate to be built, beside OpenSSL, Go and webpki.

Usage:

    python3 bench/issuing/issuing.py [--rounds N] [--times N] PROGRAM

PROGRAM is the path of `xgolden_issuing`.  The script builds the three others from `issuing.c`,
`issuing.go` and `issuing.rs`, with Debian's packages libssl-dev, golang-go and librust-webpki-dev (and
a Rust toolchain), and has openssl make a root, an authority and a certificate, each with a key of RSA
of 2,048 bits.  No program does arithmetic: the one accepts and signs by a scheme that answers at once,
in OpenSSL's the signatures are left out, and webpki has `issuing_ring.rs` in the place of ring,
which accepts every signature.  Of Go the arithmetic can't be left out: it is measured apart, and printed
below the table.  Each job is done so many times, and the time that processors worked is counted; the programs run
in turn, and a figure is the median of the rounds.

A markdown table is printed, and the status is 1 where a limit is passed, else 0:

  judged   of certificates that were read (of webpki's the issuer between is read each time): below 5
           times webpki's time, at most a tenth of Go's;
  read     from their octets, and judged: no limit is set;
  built    with constraints, a usage and the identifiers of both keys: at most OpenSSL's time.

This is no part of the gate: the figures depend on the machine.
"""

import argparse
import os
import subprocess
import sys
import tempfile
from datetime import datetime, timezone
from pathlib import Path
from statistics import median

sys.path.insert(0, str(Path(__file__).resolve().parents[2] / "tools"))

from common import command

HERE = Path(__file__).resolve().parent
REGISTRY = "/usr/share/cargo/registry"
MOST_OF_WEBPKI, MOST_OF_GO, MOST_OF_OPENSSL = 5, 0.1, 1
BESIDE = {"webpki": MOST_OF_WEBPKI, "go": MOST_OF_GO}
# Of each job the programs beside which it is done, and the most of their time that it may take.
LIMITS = {"judged": BESIDE, "read": {}, "built": {"openssl": MOST_OF_OPENSSL}}
OTHERS = ("webpki", "openssl", "go")

CARGO = """\
[package]
name = "issuing"
version = "0.0.0"
edition = "2021"
[[bin]]
name = "issuing"
path = "{source}"
[dependencies]
webpki = {{ version = "0.22", features = ["alloc"] }}
libc = "0.2"
[patch.crates-io]
ring = {{ path = "ring" }}
"""

# What is in the place of ring, and hands on what webpki takes of it beside signatures.
RING_CARGO = """\
[package]
name = "ring"
version = "0.16.99"
edition = "2021"
[lib]
path = "{source}"
[features]
default = ["alloc"]
alloc = ["real/alloc"]
std = ["real/std"]
[dependencies]
real = {{ package = "ring", path = "{real}", default-features = false }}
"""

CARGO_CONFIG = f"""\
[source.crates-io]
replace-with = "debian"
[source.debian]
directory = "{REGISTRY}"
[build]
rustflags = ["--cap-lints", "allow"]
"""

CONFIG = """\
[req]
distinguished_name = name
[name]
[above]
basicConstraints = critical, CA:TRUE
keyUsage = critical, keyCertSign, cRLSign
subjectKeyIdentifier = hash
authorityKeyIdentifier = keyid
[leaf]
basicConstraints = CA:FALSE
keyUsage = critical, digitalSignature
subjectKeyIdentifier = hash
authorityKeyIdentifier = keyid
"""


def asked(folder, *words):
    return subprocess.run(["openssl", *words], cwd=folder, check=True, stdout=subprocess.PIPE, stderr=subprocess.DEVNULL).stdout


def certified(folder, name, section, by=None):
    """The octets of a certificate, by its own key or by another one."""
    subject = f"/C=DE/O=Ninebark Example Organisation/CN={name} of the benchmark"
    signed = ("-CA", f"{by}.pem", "-CAkey", f"{by}.key") if by else ()
    asked(folder, "req", "-x509", "-newkey", "rsa:2048", "-nodes", "-sha256", "-days", "3650", "-subj", subject,
          "-keyout", f"{name}.key", "-out", f"{name}.pem", "-config", "config", "-extensions", section, *signed)
    return asked(folder, "x509", "-in", f"{name}.pem", "-outform", "DER")


def files(folder):
    """For both programs the certificates, the nearest first, and a moment; for ours also the key of the authority."""
    folder.joinpath("config").write_text(CONFIG)
    root = certified(folder, "root", "above")
    authority = certified(folder, "authority", "above", by="root")
    leaf = certified(folder, "leaf", "leaf", by="authority")
    key = asked(folder, "pkcs8", "-topk8", "-nocrypt", "-in", "authority.key", "-outform", "DER")
    now = int(datetime.now(timezone.utc).timestamp()) + 3600
    chain = leaf, authority, root
    folder.joinpath("octets").write_bytes(b"".join(chain))
    date = f"{datetime.fromtimestamp(now, timezone.utc):%Y%m%d%H%M%SZ}"
    folder.joinpath("row").write_text(f"{','.join(octets.hex() for octets in chain)} {date} {key.hex()}\n")
    return now, sum(map(len, chain))


def ring_sources():
    """The folder of Debian's sources of ring."""
    for folder in Path(REGISTRY).glob("ring-0.16.*"):
        return folder
    raise command.Refusal(f"{REGISTRY} has no sources of ring 0.16")


def built(folder):
    """The paths of the other programs."""
    rust = folder / "rust"
    (rust / ".cargo").mkdir(parents=True)
    (rust / "ring").mkdir()
    (rust / "Cargo.toml").write_text(CARGO.format(source=HERE / "issuing.rs"))
    (rust / "ring/Cargo.toml").write_text(RING_CARGO.format(source=HERE / "issuing_ring.rs", real=ring_sources()))
    (rust / ".cargo/config.toml").write_text(CARGO_CONFIG)
    for words, place in (
        (["cargo", "build", "--quiet", "--release", "--offline"], rust),
        (["cc", "-O2", "-o", folder / "openssl", HERE / "issuing.c", "-lcrypto"], folder),
        (["go", "build", "-o", folder / "go", HERE / "issuing.go"], folder),
    ):
        subprocess.run(words, check=True, cwd=place, stderr=subprocess.DEVNULL if words[0] == "cargo" else None)
    return {"webpki": rust / "target/release/issuing", "openssl": folder / "openssl", "go": folder / "go"}


def figures(words):
    """The nanoseconds of each job, all of which have to be done."""
    printed = subprocess.run(list(map(str, words)), check=True, stdout=subprocess.PIPE, text=True).stdout
    found = {}
    for line in printed.splitlines():
        job, done, nanos, _ = line.split()
        assert done == "1", f"{words[0]}: {line}"
        found[job] = int(nanos)
    return found


def medians(programs, options):
    """Nanoseconds of each job, by its program."""
    rounds = [{name: figures(words) for name, words in programs.items()} for _ in range(options.rounds + 1)][1:]
    return {name: {job: median(one[name][job] for one in rounds) / options.times for job in jobs} for name, jobs in rounds[0].items()}


def row_of(job, nanos):
    """The figures of a job, and whether its limits are kept."""
    ours, kept = nanos["ours"][job], True
    figures = [f"{ours:,.0f}"] + [f"{nanos[name][job]:,.0f}" if job in nanos[name] else "" for name in OTHERS]
    for name in OTHERS:
        most = LIMITS[job].get(name)
        ratio = ours / nanos[name][job] if job in nanos[name] else 0
        within = most is None or ratio <= most
        kept &= within
        figures.append("" if not ratio else f"{ratio:.2f}" if within else f"**{ratio:.2f}**")
    return f"| {job} | {' | '.join(figures)} |", kept


def main(words):
    parser = argparse.ArgumentParser(description="Time to judge a chain and to build a certificate.")
    parser.add_argument("--rounds", type=int, default=7)
    parser.add_argument("--times", type=int, default=2000)
    parser.add_argument("program", type=command.executable, help="path of xgolden_issuing")
    options = parser.parse_args(words)
    with tempfile.TemporaryDirectory() as name:
        folder = Path(name)
        others = built(folder)
        now, octets = files(folder)
        programs = {"ours": [options.program.resolve(), "time", "issuing", folder / "row", options.times]}
        programs |= {name: [path, folder / "octets", options.times, now] for name, path in others.items()}
        nanos = medians(programs, options)
    print(f"{octets} octets of certificates; {options.rounds} rounds of {options.times}; load {os.getloadavg()[0]:.0f}\n")
    limits = (f"ours / webpki, below {MOST_OF_WEBPKI} where it is judged", f"ours / openssl, at most {MOST_OF_OPENSSL} where it is built", f"ours / go, at most {MOST_OF_GO} where it is judged")
    print(f"| job | ours ns | {' | '.join(f'{name} ns' for name in OTHERS)} | {' | '.join(limits)} |\n|---|{7 * '---:|'}")
    all_kept = True
    for job in LIMITS:
        line, kept = row_of(job, nanos)
        all_kept &= kept
        print(line)
    print(f"\nOf Go's time {nanos['go']['arithmetic']:,.0f} ns are the arithmetic of both signatures, measured apart.")
    return 0 if all_kept else 1


if __name__ == "__main__":
    command.run(main, __doc__)
