#!/usr/bin/env python3
"""Programs that osslsigncode signed with chains of certificates and stamps of time.

Usage:

    python3 tools/interop/signed_programs.py --make
    python3 tools/interop/signed_programs.py --check
    python3 tools/interop/signed_programs.py --write LABEL FILE
    python3 tools/interop/signed_programs.py --sample FOLDER
    python3 tools/interop/signed_programs.py --program FOLDER

The first prints `tools/cases/signed_programs.txt` anew: openssl (3.0 or later) makes the
certificates of `KINDS`, and osslsigncode (2.6 or later) signs a program with each
set of words in `PROGRAMS`; the stamps are its own, at a given time, or those
of a server here that asks `openssl ts`, at the time when it is run.  A row is a
label, the signed program in base64, and the rows of the table that `asked_signatures`
has openssl find for its signature, bars between; the first row is the root.

The second compares the answer to each of `CASES`, by `check_judge`, with that of
`osslsigncode verify`, which is asked at the same time with the same root, and
prints where they differ and why.

The third writes to FILE the signed program of a label, or for the label `root` the
root in PEM.  `--sample` writes the signature of one of them, its certificates in order,
and its table: the files beside the stored run of `picky`, for which `check` is asked first;
`--program` that program and the table, for the stored run of `picky_pe`.
"""

import sys
from base64 import b64decode, b64encode
from calendar import timegm
from contextlib import contextmanager
from dataclasses import dataclass
from http.server import BaseHTTPRequestHandler, HTTPServer
from pathlib import Path
from tempfile import TemporaryDirectory
from threading import Thread
from time import strptime
from typing import NamedTuple

sys.path.insert(0, str(Path(__file__).resolve().parents[1]))

import signed_program
from cases.check_making import File
from common import command
from common.calls import called
from common import folders
from common.openssl import openssl
from golden.stored_run import write_stored_run
from interop import chains
from interop.chains import CA, END, IDENTIFIERS, OWN_IDENTIFIER, RSA, Kind, limited
from interop.signature_making import STAMP_FORM, portable_executable
from judges import asked_signatures
from judges.check_judge import Policy, answer
from judges.verdict_rows import FIRST_LINE
from order_bag import with_ordered_bag

STORED = folders.CASES / "signed_programs.txt"

FROM, TO = "20220101000000", "20250101000000"
SIGNING = END + "keyUsage=critical,digitalSignature\nextendedKeyUsage={}\n" + IDENTIFIERS
CODE, STAMPS, LIFETIME = (SIGNING.format(purposes) for purposes in ("codeSigning", "critical,timeStamping", "codeSigning,1.3.6.1.4.1.311.10.3.13"))

# `other` is another root of the same name.
KINDS = {
    "root": Kind("Root", "root", RSA, CA + OWN_IDENTIFIER),
    "authority": Kind("Authority", "root", RSA, limited(0) + IDENTIFIERS),
    "publisher": Kind("Publisher", "authority", RSA, CODE, FROM, TO),
    "lifetime": Kind("Lifetime", "authority", RSA, LIFETIME, FROM, TO),
    "long": Kind("Long", "authority", RSA, CODE, FROM, "20350101000000"),
    "server": Kind("Server", "authority", RSA, SIGNING.format("serverAuth"), FROM, TO),
    "stamp authority": Kind("Stamp Authority", "root", RSA, limited(0) + IDENTIFIERS),
    "stamp": Kind("Stamp", "stamp authority", RSA, STAMPS),
    "other": Kind("Root", "other", RSA, CA + OWN_IDENTIFIER),
    "by other": Kind("Authority", "other", RSA, limited(0) + IDENTIFIERS),
    "publisher by other": Kind("Publisher", "by other", RSA, CODE, FROM, TO),
}
# What is in files of several certificates.
LISTS = {
    "above": ("authority", "root"),
    "above other": ("by other", "root"),
    "stamps": ("stamp", "stamp authority"),
    "stamps alone": ("stamp",),
    "stamps, root": ("stamp", "stamp authority", "root"),
}


@dataclass(frozen=True)
class Signing:
    """How a program is signed: by whom, with which certificates beside, and stamped by which, at which date."""

    signer: str = "publisher"
    beside: str = "above"
    stamps: str = ""
    stamped: str = ""


PROGRAMS = {
    "three": Signing(),
    "alone": Signing(beside=""),
    "stamped": Signing(stamps="stamps", stamped="2023-06-01"),
    "stamped, three": Signing(stamps="stamps, root", stamped="2023-06-01"),
    "stamped, the authority left out": Signing(stamps="stamps alone", stamped="2023-06-01"),
    "stamped late": Signing(stamps="stamps", stamped="2027-06-01"),
    "stamped by openssl": Signing(signer="long", stamps="openssl"),
    "lifetime": Signing(signer="lifetime"),
    "lifetime, stamped": Signing(signer="lifetime", stamps="stamps", stamped="2023-06-01"),
    "server": Signing(signer="server"),
    "by other": Signing(signer="publisher by other", beside="above other"),
}
LABELS = tuple(PROGRAMS)


class Case(NamedTuple):
    """A program at a date, its certificates in order; why osslsigncode answers otherwise, where it does."""

    label: str
    date: str
    otherwise: str = ""
    in_order: bool = True


EARLIER = "a stamp counts there for its own time, whatever the date; here it is looked at where the signer is expired"
LATER = "a stamp from after the end excuses here, and doesn't there"
FOREIGN = "a signer without its issuers is accepted here with an empty path, and a root is asked for there"
LIFELONG = "a signer for lifetime signing isn't excused here, and there it isn't looked at"

CASES = [
    *(Case("three", date) for date in ("2021-06-01", "2022-01-01", "2023-06-01", "2025-01-02", "2031-01-01")),
    Case("three", "2023-06-01", in_order=False),
    Case("three", "2031-01-01", in_order=False),
    Case("alone", "2023-06-01", FOREIGN), Case("alone", "2031-01-01"),
    Case("stamped", "2021-06-01", EARLIER), Case("stamped", "2023-06-01"), Case("stamped", "2031-01-01"),
    Case("stamped, three", "2023-06-01"), Case("stamped, three", "2031-01-01"),
    Case("stamped, the authority left out", "2031-01-01", FOREIGN),
    Case("stamped late", "2023-06-01", EARLIER), Case("stamped late", "2031-01-01", LATER),
    Case("stamped by openssl", "2023-06-01"), Case("stamped by openssl", "2034-01-01"), Case("stamped by openssl", "2036-01-01"),
    Case("lifetime", "2023-06-01"), Case("lifetime", "2031-01-01"),
    Case("lifetime, stamped", "2023-06-01"), Case("lifetime, stamped", "2031-01-01", LIFELONG),
    Case("server", "2023-06-01"),
    Case("by other", "2023-06-01"),
]


# Making.

def unix(date):
    return timegm(strptime(date, "%Y-%m-%d"))


def osslsigncode(*words):
    return called(["osslsigncode", *words])


@contextmanager
def stamping(folder):
    """The address of a server that stamps (RFC 3161) by `openssl ts`."""

    class Stamper(BaseHTTPRequestHandler):
        def do_POST(self):
            (folder / "query").write_bytes(self.rfile.read(int(self.headers["Content-Length"])))
            (folder / "serial").write_text("01\n")
            (folder / "stamps.cnf").write_text(STAMP_FORM.format(folder=folder, ess="sha256"))
            answered = openssl("ts", "-reply", "-config", folder / "stamps.cnf", "-section", "here", "-queryfile", folder / "query",
                               "-signer", folder / "stamp.pem", "-inkey", folder / "stamp.key", "-chain", folder / "stamp authority.pem")
            self.send_response(200)
            self.send_header("Content-Type", "application/timestamp-reply")
            self.send_header("Content-Length", str(len(answered)))
            self.end_headers()
            self.wfile.write(answered)

        def log_message(self, *words):
            pass

    server = HTTPServer(("127.0.0.1", 0), Stamper)
    Thread(target=server.serve_forever, daemon=True).start()
    try:
        yield f"http://127.0.0.1:{server.server_port}/"
    finally:
        server.shutdown()


def signed(signing, folder):
    """The program, signed."""
    words = ["-certs", folder / f"{signing.signer}.pem", "-key", folder / f"{signing.signer}.key", "-h", "sha256"]
    if signing.beside:
        words += ["-ac", folder / f"{signing.beside}.pem"]
    if signing.stamped:
        words += ["-TSA-certs", folder / f"{signing.stamps}.pem", "-TSA-key", folder / "stamp.key", "-TSA-time", unix(signing.stamped)]
    out = folder / "signed.exe"
    out.unlink(missing_ok=True)
    with stamping(folder) as address:
        if signing.stamps == "openssl":
            words += ["-ts", address]
        done = osslsigncode("sign", *words, "-in", folder / "program.exe", "-out", out)
    if done.returncode != 0:
        raise RuntimeError(f"osslsigncode {words}: {done.stdout.decode()}{done.stderr.decode()}")
    return out.read_bytes()


def made():
    """The root, and the signed programs by their labels."""
    with TemporaryDirectory() as place:
        folder = Path(place)
        certificates = {label: chains.make(label, kind, folder, KINDS) for label, kind in KINDS.items()}
        for name, labels in LISTS.items():
            (folder / f"{name}.pem").write_bytes(b"".join((folder / f"{label}.pem").read_bytes() for label in labels))
        (folder / "program.exe").write_bytes(portable_executable())
        yield "root", certificates["root"], ()
        for label, signing in PROGRAMS.items():
            program = signed(signing, folder)
            lines, _ = asked_signatures.table(signed_program.signature(program))
            yield label, program, lines


# What is stored.

class Program(NamedTuple):
    octets: bytes
    table: str

    def file(self):
        """Its signature file, its table and its digest."""
        return File(signed_program.signature(self.octets), self.table, bytes.fromhex(signed_program.image_digest(self.octets, "sha256")))

    def in_order(self):
        """The same program, the certificates of its signature in order."""
        signature = signed_program.signature(self.octets)
        return self._replace(octets=self.octets.replace(signature, with_ordered_bag(signature)))


def rows():
    for line in STORED.read_text(encoding="ascii").splitlines():
        label, octets, *lines = line.split("|")
        yield label, Program(b64decode(octets), "".join(f"{one}\n" for one in lines))


def root():
    return next(rows())[1].octets


def stored():
    """The signed programs by their labels."""
    _, *programs = rows()
    return dict(programs)


# Beside osslsigncode.

def judged(case, program):
    """The line that is answered here."""
    file = program.file()
    date = case.date.replace("-", "") + "000000"
    return answer(file.octets, Policy(True, True, True, True, True, file.file_hash, date), file.table)


def accepted_there(case, program, folder):
    """Whether osslsigncode accepts the program."""
    (folder / "signed.exe").write_bytes(program.octets)
    write_one("root", folder / "root.pem")
    done = osslsigncode("verify", "-CAfile", folder / "root.pem", "-TSA-CAfile", folder / "root.pem", "-time", unix(case.date), "-in", folder / "signed.exe")
    return done.returncode == 0


def check():
    """Where they answer otherwise: with a reason, and without."""
    known, counts = stored(), {"alike": 0, "otherwise for a reason": 0, "not": 0}
    with TemporaryDirectory() as place:
        for case in CASES:
            program = known[case.label].in_order() if case.in_order else known[case.label]
            line = judged(case, program)
            differs = line.startswith("accepted") != accepted_there(case, program, Path(place))
            what = "alike" if not differs and not case.otherwise else "otherwise for a reason" if differs and case.otherwise else "not"
            counts[what] += 1
            if what != "alike":
                print(f"{case.label} at {case.date}: {line}: {case.otherwise if differs else 'and osslsigncode answers alike'}")
    print("signed programs: " + ", ".join(f"{many} {what}" for what, many in counts.items()))
    return 1 if counts["not"] else 0


def write_one(label, file):
    """Write a program, or the root."""
    program = stored().get(label)
    if label != "root" and program is None:
        print(f"signed_programs.py: the labels are root, {', '.join(LABELS)}", file=sys.stderr)
        return 2
    Path(file).write_bytes(openssl("x509", "-inform", "DER", given=root()) if label == "root" else program.octets)
    return 0


def sample():
    """The program whose signature and table lie beside the stored run of `picky`."""
    return stored()["stamped"].in_order()


def sample_files():
    """The files of the sample by their paths in the crate `picky`, the table in version 2."""
    return {"data/signed.bin": sample().file().octets, "data/signed_table.txt": sample_table()}


def program_files():
    """The files of the stored run of `picky_pe` by their paths in that crate."""
    return {"data/signed.exe": sample().octets, "data/signed_table.txt": sample_table()}


def sample_table():
    """The table of the sample, in version 2."""
    rows = [FIRST_LINE, *(f"accept {row}" for row in sample().table.splitlines())]
    return "".join(f"{row}\n" for row in rows).encode("ascii")


def main(arguments):
    if arguments[:1] in (["--help"], ["-h"]):
        print(__doc__.strip())
        return 0
    if arguments[:1] == ["--sample"]:
        return write_stored_run("signed_programs.py --sample", sample_files, arguments[1:])
    if arguments[:1] == ["--program"]:
        return write_stored_run("signed_programs.py --program", program_files, arguments[1:])
    if len(arguments) == 3 and arguments[0] == "--write":
        return write_one(*arguments[1:])
    if arguments == ["--make"]:
        for label, octets, lines in made():
            print("|".join((label, b64encode(octets).decode(), *lines)))
        return 0
    if arguments == ["--check"]:
        return check()
    return command.usage(__doc__)


if __name__ == "__main__":
    command.run(main, __doc__)
