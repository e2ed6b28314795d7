#!/usr/bin/env python3
"""Programs that osslsigncode and sbsign sign, checked by `xgolden_run`, by `osslsigncode verify` and by `sbverify`.

    python3 tools/interop/signed_files.py PROGRAM [FILE ..]
    python3 tools/interop/signed_files.py --octets PROGRAM

PROGRAM is the executable of the crate `xgolden_run`.  The first signs the programs
of `signed_images.py` and each FILE, as `SIGNINGS` says, and has all three check what
comes out, and some of it with an octet changed and with one appended.  It compares the
digests that Python and `osslsigncode verify` compute and who accepts, and prints each
difference with its reason, if one is known.  The second changes each octet of one
signed program in turn, and compares the result with the rules of the PE format and
`check_judge`.  Exit status 1 says that something differs for no known reason.

It takes openssl (3.0 or later), osslsigncode (2.6 or later) and sbsigntool.
"""

import re
import sys
from collections import Counter
from datetime import datetime, timezone
from pathlib import Path
from tempfile import TemporaryDirectory
from typing import NamedTuple

sys.path.insert(0, str(Path(__file__).resolve().parents[1]))

import signed_program
from common import command
from common.calls import called
from golden.compare_basic import printed
from interop import chains
from interop.signed_images import PROGRAMS, stored
from interop.signed_programs import KINDS, osslsigncode, stamping
from judges import asked_signatures
from judges import pe_judge
from judges.check_judge import Policy, answer

LABELS = "root", "authority", "long", "stamp authority", "stamp"
# Text that the refusals of `pe_judge` have, and how they are called.
NAMES = {
    "no MS-DOS header": "NotMz", "no PE signature": "NotPe", "unknown magic number": "WrongMagic", "no data directory": "NoDirectory",
    "has no signature": "NoTable", "is not the end": "TableOutside",
}
AS_IT_IS, CHANGED, APPENDED = "as it is", "an octet changed", "an octet appended"

# How a program is signed, step by step: by these words of osslsigncode, or of sbsign.
ABOVE = "-ac", "above.pem"
SBSIGN = "sbsign", "--addcert", "above.pem"
SIGNINGS = {
    "SHA-1": (("-h", "sha1", *ABOVE),),
    "SHA-256": (("-h", "sha256", *ABOVE),),
    "SHA-384": (("-h", "sha384", *ABOVE),),
    "without issuers": (("-h", "sha256"),),
    "a token": (("-h", "sha256", *ABOVE, "-ts"),),
    "a signature in an attribute": (("-h", "sha256", *ABOVE), ("-h", "sha384", *ABOVE, "-nest")),
    "sbsign": (SBSIGN,),
    "sbsign, two entries": (SBSIGN, SBSIGN),
}
# Those of which a program is checked with an octet changed, and one appended, too: `signed_images` changes more octets.
ALSO_CHANGED = "SHA-256", "sbsign"

# Which of osslsigncode and sbverify accepts what is accepted here, if not both do, and why.
REASONS = {
    "SHA-1": ((True, False), "sbverify knows SHA-256 alone"),
    "SHA-384": ((True, False), "sbverify knows SHA-256 alone"),
    "without issuers": ((False, False), "both require a path up to a trusted root"),
    "sbsign, two entries": ((False, True), "osslsigncode refuses a table of two entries"),
}


class Signed(NamedTuple):
    """What was signed and how, the octets, and what is done to them."""

    program: str
    signing: str
    change: str
    octets: bytes


class Results(NamedTuple):
    """The digests by Python and by osslsigncode, whether that and sbverify accept, and the line here."""

    digest: str
    computed: str
    osslsigncode: bool
    sbverify: bool
    line: str

    def is_same_digest(self):
        return self.digest is not None and self.digest == self.computed

    def accept(self):
        """Who accepts: here, osslsigncode, sbverify."""
        return self.line.startswith("accepted"), self.osslsigncode, self.sbverify


# Signing.

def prepare(folder):
    """Keys and certificates in a folder."""
    for label in LABELS:
        chains.make(label, KINDS[label], folder, KINDS)
    (folder / "above.pem").write_bytes(b"".join((folder / f"{label}.pem").read_bytes() for label in ("authority", "root")))


def step(how, address, folder):
    """The words of one step of signing, from `program` to `signed`."""
    key, certificate = folder / "long.key", folder / "long.pem"
    options = [word for one in how for word in ((one, address) if one == "-ts" else (folder / one,) if one.endswith(".pem") else (one,))]
    if how[0] == "sbsign":
        return [*options, "--key", key, "--cert", certificate, "--output", folder / "signed", folder / "program"]
    return ["osslsigncode", "sign", "-certs", certificate, "-key", key, *options, "-in", folder / "program", "-out", folder / "signed"]


def signed(program, steps, address, folder):
    """The signed program; None if it can't be signed so."""
    (folder / "program").write_bytes(program)
    for how in steps:
        (folder / "signed").unlink(missing_ok=True)
        done = called(step(how, address, folder))
        if done.returncode != 0 or not (folder / "signed").is_file():
            return None
        (folder / "program").write_bytes((folder / "signed").read_bytes())
    return (folder / "program").read_bytes()


def changed(octets, at):
    return octets[:at] + bytes([octets[at] ^ 1]) + octets[at + 1:]


def cases(files, folder):
    """Each file signed in each way, and changed; where one can't be signed so, that is printed."""
    programs = PROGRAMS | {file.name: file.read_bytes() for file in files}
    with stamping(folder) as address:
        for name, program in programs.items():
            for signing, steps in SIGNINGS.items():
                octets = signed(program, steps, address, folder)
                if octets is None:
                    print(f"{name}: not signed: {signing}")
                    continue
                yield Signed(name, signing, AS_IT_IS, octets)
                if signing in ALSO_CHANGED:
                    _, _, at, _ = signed_program.parts(octets)
                    yield Signed(name, signing, CHANGED, changed(octets, at - 1))
                    yield Signed(name, signing, APPENDED, octets + b"\0")


# Checking.

def table_of(octets):
    """The verdict table for the signature of a program."""
    lines, _ = asked_signatures.table(signed_program.signature(octets))
    return "".join(f"{line}\n" for line in lines)


def lines_of(program, cases, tables, moment):
    """What the program here prints."""
    lines = printed(program, "image", [(octets.hex(), table.encode().hex() or "-", f"{moment}Z") for octets, table in zip(cases, tables)])
    if len(lines) != len(cases):
        raise command.Refusal(f"{program} prints {len(lines)} lines of {len(cases)} rows")
    return lines


def by_osslsigncode(file, folder):
    """The digest that osslsigncode computes, and whether it accepts."""
    root = folder / "root.pem"
    done = osslsigncode("verify", "-CAfile", root, "-TSA-CAfile", root, "-in", file)
    found = re.search(rb"Calculated message digest\s*: ([0-9A-F]+)", done.stdout)
    return found and found[1].decode().lower(), done.returncode == 0


def by_sbverify(file, folder):
    """Whether sbverify accepts."""
    return called(["sbverify", "--cert", folder / "root.pem", file]).returncode == 0


def digest_of(octets):
    """The digest of a program by the algorithm that its signature names; None if there is none."""
    try:
        return signed_program.image_digest(octets, signed_program.named_digest(signed_program.signature(octets)))
    except (signed_program.NotSigned, ValueError):
        return None


def results(case, line, folder):
    """What all say of a case."""
    file = folder / "checked"
    file.write_bytes(case.octets)
    return Results(digest_of(case.octets), *by_osslsigncode(file, folder), by_sbverify(file, folder), line)


def expected_results(case):
    """Who accepts, and why not all do."""
    if case.change != AS_IT_IS:
        return (False, False, False), None
    others, why = REASONS.get(case.signing, ((True, True), None))
    return (True, *others), why


def compared(known, lines, folder):
    """How many cases are alike, differ for a reason, or not; each difference without a reason is printed."""
    counts = Counter()
    for case, line in zip(known, lines):
        found = results(case, line, folder)
        accept, why = expected_results(case)
        # osslsigncode computes no digest of a table that it can't read.
        good = found.accept() == accept and (found.is_same_digest() or found.computed is None)
        counts["digests alike"] += found.is_same_digest()
        counts["not" if not good else why or "alike"] += 1
        if not good:
            _, there, other = ("accepts" if one else "refuses" for one in found.accept())
            print(f"{case.program}, {case.signing}, {case.change}: {line}; osslsigncode {there}, sbverify {other}, digests {found.digest}, {found.computed}", flush=True)
    return counts


def compare(program, files):
    """Compare what all say: 0 if each difference has a reason."""
    moment = datetime.now(timezone.utc).strftime("%Y%m%d%H%M%S")
    with TemporaryDirectory() as place:
        folder = Path(place)
        prepare(folder)
        known, tables = list(cases(files, folder)), {}
        for case in known:
            tables.setdefault(case[:2], table_of(case.octets))
        lines = lines_of(program, [case.octets for case in known], [tables[case[:2]] for case in known], moment)
        counts = compared(known, lines, folder)
    print(f"{len(known)} programs", *(f"{many:7} {what}" for what, many in sorted(counts.items())), sep="\n")
    return 1 if counts["not"] else 0


# Each octet.

def expected(octets, table, moment):
    """How the line begins by the rules."""
    try:
        _, _, at = pe_judge.places(octets)
    except pe_judge.NotSigned as refusal:
        return next(f"refused {name}" for text, name in NAMES.items() if text in str(refusal))
    digest = digest_of(octets)
    policy = Policy(True, True, True, True, True, digest and bytes.fromhex(digest), moment)
    return re.match(r"refused \w+|accepted", answer(octets[at:], policy, table))[0]


def each_octet(program):
    """Change each octet of a program in turn, and compare: 0 if nothing differs."""
    moment = "20300101000000"
    image = min(stored(), key=lambda image: len(image.octets))
    table = table_of(image.octets)
    variants = [changed(image.octets, at) for at in range(len(image.octets))]
    lines = lines_of(program, variants, [table] * len(variants), moment)
    checksum, entry, address = pe_judge.places(image.octets)
    unlike, accepted = 0, []
    for at, (octets, line) in enumerate(zip(variants, lines)):
        said = expected(octets, table, moment)
        if not line.startswith(said):
            unlike += 1
            print(f"octet {at}: {line}, not {said}")
        if line.startswith("accepted"):
            accepted.append(at)
    parts = Counter("checksum" if checksum <= at < checksum + 4 else "table" if at >= address else "other" for at in accepted)
    print(f"{image.label}, {image.algorithm}: {len(variants)} octets, table from {address} on; accepted: "
          + (", ".join(f"{many} in the {part}" for part, many in parts.items()) or "none"))
    print("accepted in the table at " + " ".join(str(at - address) for at in accepted if at >= address))
    print(f"octets changed: {len(variants) - unlike} alike, {unlike} not")
    return 1 if unlike or parts["other"] else 0


def main(arguments):
    words = [word for word in arguments if word != "--octets"]
    if not words or any(word.startswith("-") for word in words) or (len(words) != 1 and "--octets" in arguments):
        return command.usage(__doc__)
    program = Path(words[0]).resolve()
    if "--octets" in arguments:
        return each_octet(program)
    return compare(program, [Path(word) for word in words[1:]])


if __name__ == "__main__":
    command.run(main, __doc__)
