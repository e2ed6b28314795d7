#!/usr/bin/env python3
"""How long a certificate takes to be read, beside webpki, Mbed TLS and Go.

Usage:

    python3 bench/certificates/certificates.py [--rounds N] [--times N] PROGRAM

PROGRAM is the path of `xgolden_certificate`.  The script builds the three
others from `certificates.rs`, `certificates.c` and `certificates.go`, with
Debian's packages librust-webpki-dev (and a Rust toolchain), libmbedtls-dev and
golang-go, and makes two files: the certificates of
`tools/cases/world_certificates.txt`, and the roots of Debian's package ca-certificates.  Of
each it takes those that all four read, so that each does the same work.  A program
reads the file once, and each certificate in it so many times, and counts the
time that processors worked; the programs run in turn, and a figure is the median
of the rounds, of long certificates the least.

Two markdown tables are printed, and the status is 1 where a limit is passed,
else 0:

  view     where its octets lie, with every field: at most 2 times webpki's
           time, and below half of Mbed TLS's;
  owned    as a `Cert`, which is kept with its octets: below Mbed TLS's time;
  growth   of either from a size to its double: at most 2.5 times.

This is no part of the gate: the figures depend on the machine.
"""

import argparse
import subprocess
import sys
import tempfile
from pathlib import Path
from statistics import median

sys.path.insert(0, str(Path(__file__).resolve().parents[2] / "tools"))

from cases.first_path import identifier, octet_string, sequence
from cases.hostile_certificates import ATTRIBUTE_SET, certificate, extended, holding
from common import command
from interop import system_roots, world_certificates

HERE = Path(__file__).resolve().parent
MIB = 1 << 20
REGISTRY = "/usr/share/cargo/registry"
WAYS = ("view", "owned", "webpki", "mbedtls", "mbedtls_nocopy", "go")
LONG_TIMES = 5
MOST_OF_WEBPKI, MOST_OF_MBEDTLS, MOST_GROWTH = 2, 0.5, 2.5
PURPOSE = identifier("1.2.3")
EXTENSION = sequence(PURPOSE, octet_string(b""))

LONG = {
    "an extension of 8 and 16 MiB": lambda times: holding(99, bytes(8 * MIB * times)),
    "an extension of 64 and 128 MiB": lambda times: holding(99, bytes(64 * MIB * times)),
    "a name of 10,000 and 20,000 sets": lambda times: certificate(subject=sequence(10000 * times * ATTRIBUTE_SET)),
    "10,000 and 20,000 extensions": lambda times: extended(*10000 * times * (EXTENSION,)),
    "10,000 and 20,000 purposes": lambda times: holding(37, sequence(10000 * times * PURPOSE)),
}

CARGO = """\
[package]
name = "certificates"
version = "0.0.0"
edition = "2021"
[[bin]]
name = "certificates"
path = "{source}"
[dependencies]
webpki = "0.22"
libc = "0.2"
"""

CARGO_CONFIG = f"""\
[source.crates-io]
replace-with = "debian"
[source.debian]
directory = "{REGISTRY}"
"""


# The programs.

def built(folder):
    """The words that call the three other programs."""
    rust = folder / "rust"
    (rust / ".cargo").mkdir(parents=True)
    (rust / "Cargo.toml").write_text(CARGO.format(source=HERE / "certificates.rs"))
    (rust / ".cargo/config.toml").write_text(CARGO_CONFIG)
    commands = [
        (["cargo", "build", "--quiet", "--release", "--offline"], rust),
        (["cc", "-O2", "-o", folder / "c", HERE / "certificates.c", "-lmbedx509", "-lmbedcrypto"], folder),
        (["go", "build", "-o", folder / "go", HERE / "certificates.go"], folder),
    ]
    for words, place in commands:
        subprocess.run(words, check=True, cwd=place, stderr=subprocess.DEVNULL if words[0] == "cargo" else None)
    return [[rust / "target/release/certificates"], [folder / "c"], [folder / "go"]]


def asked(programs, file, times):
    """What the programs print: by its way, which certificates are read, and the nanoseconds."""
    answers = {}
    for program in programs:
        printed = subprocess.run([*program, file, str(times)], check=True, stdout=subprocess.PIPE, text=True).stdout
        for line in printed.splitlines():
            way, which, nanos, _ = line.split()
            answers[way] = which, int(nanos)
    return answers


# The files.

def made():
    return [octets for _, octets in world_certificates.stored()]


# What the certificates are, and the ways that are asked for them: Mbed TLS reads no key of Ed25519.
OTHERS = tuple(way for way in WAYS if not way.startswith("mbedtls"))
FILES = [
    ("roots of the system", lambda: list(system_roots.certificates()), WAYS),
    ("made by openssl", made, WAYS),
    ("made by openssl, without Mbed TLS", made, OTHERS),
]


def common(programs, certificates, ways, file):
    """How many each way reads; the file has those that all of the ways read, and they are given."""
    file.write_bytes(b"".join(certificates))
    answers = {way: which for way, (which, _) in asked(programs, file, 1).items()}
    flags = zip(*(answers[way] for way in ways), strict=True)
    read = [octets for octets, each in zip(certificates, flags, strict=True) if set(each) == {"1"}]
    file.write_bytes(b"".join(read))
    return {way: which.count("1") for way, which in answers.items()}, read


# The tables.

def medians(programs, file, options, count):
    """Nanoseconds for a certificate, by the way that it is read."""
    asked(programs, file, options.times)
    rounds = [asked(programs, file, options.times) for _ in range(options.rounds)]
    return {way: median(answers[way][1] for answers in rounds) / options.times / count for way in rounds[0]}


def ratios(nanos):
    """What is limited, and whether each limit is kept."""
    view = nanos["view"] / nanos["webpki"]
    yield view, view <= MOST_OF_WEBPKI
    if "mbedtls" in nanos:
        yield nanos["view"] / nanos["mbedtls"], nanos["view"] < MOST_OF_MBEDTLS * nanos["mbedtls"]
        yield nanos["owned"] / nanos["mbedtls"], nanos["owned"] < nanos["mbedtls"]


def speeds(programs, folder, options):
    """Print the first table; whether its limits are kept."""
    all_kept = True
    print(f"| certificates | read by all | octets each | {' | '.join(f'{way} ns' for way in WAYS)} "
          f"| view / webpki, at most {MOST_OF_WEBPKI} | view / mbedtls, below {MOST_OF_MBEDTLS} | owned / mbedtls, below 1 |")
    print(f"|---|---:|---:|{len(WAYS) * '---:|'}---:|---:|---:|")
    counts = {}
    for name, certificates, ways in FILES:
        file, found = folder / "certificates", certificates()
        counts[name], read = common(programs, found, ways, file)
        nanos = {way: time for way, time in medians(programs, file, options, len(read)).items() if way in ways}
        limited, kept = zip(*ratios(nanos), strict=True)
        all_kept &= all(kept)
        figures = [f"{nanos[way]:,.0f}" if way in nanos else "" for way in WAYS]
        figures += [f"{ratio:.2f}" for ratio in limited] + (3 - len(limited)) * [""]
        print(f"| {name} | {len(read)} of {len(found)} | {sum(map(len, read)) / len(read):.0f} | {' | '.join(figures)} |", flush=True)
    for name, _, ways in FILES[:2]:
        print(f"\nOf those {name}: {', '.join(f'{way} {counts[name][way]}' for way in ways)} read.")
    return all_kept


def growth(program, folder, options):
    """Print the second table; whether its limits are kept."""
    kept = True
    print(f"\n| what doubles | view ms | growth, at most {MOST_GROWTH} | owned ms | growth, at most {MOST_GROWTH} |")
    print("|---|---:|---:|---:|---:|")
    files = folder / "once", folder / "twice"
    for name, make in LONG.items():
        for size, file in enumerate(files, 1):
            file.write_bytes(make(size))
        rounds = [[asked([program], file, LONG_TIMES) for file in files] for _ in range(options.rounds)]
        times = {}
        for way in "view", "owned":
            assert all(answers[way][0] == "1" for both in rounds for answers in both), name
            times[way] = [min(both[size][way][1] for both in rounds) / LONG_TIMES / 1e6 for size in (0, 1)]
        kept &= all(two / one <= MOST_GROWTH for one, two in times.values())
        print("| " + " | ".join((name, *(f"{one:.2f}, {two:.2f} | {two / one:.2f}" for one, two in times.values()))) + " |", flush=True)
    return kept


def main(words):
    parser = argparse.ArgumentParser(description="Time to read a certificate.")
    parser.add_argument("--rounds", type=int, default=7)
    parser.add_argument("--times", type=int, default=200)
    parser.add_argument("program", type=command.executable, help="path of xgolden_certificate")
    options = parser.parse_args(words)
    with tempfile.TemporaryDirectory() as name:
        folder = Path(name)
        program = [options.program.resolve(), "time", "certificate"]
        kept = speeds([program, *built(folder)], folder, options)
        kept &= growth(program, folder, options)
    return 0 if kept else 1


if __name__ == "__main__":
    command.run(main, __doc__)
