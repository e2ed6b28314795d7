"""How tests call `check_program`: programs that osslsigncode signed, changed ones, and programs that answer otherwise."""

from pathlib import Path
from tempfile import TemporaryDirectory

import check_program
from gate.programs_stand_in import StandIn
from interop import signed_programs
from judges.der_reader import Primitive
from program_check import stamps
from program_check.programs import Answer
from program_check.roots import Root, Roots
from program_check.signature import Stamp

NOW, LATER = "2023-06-15T12:00:00", "2031-01-01T00:00:00"
STORED = signed_programs.stored()
ROOTS = Roots([Root(signed_programs.root(), "root.der")], "root.der")


class Stub(StandIn):
    """The programs, of which one answers otherwise."""

    def __init__(self, program, status, output):
        super().__init__()
        self.stubbed = program, status, output

    def run(self, program, words, shown):
        name, status, output = self.stubbed
        if program == name:
            return Answer(program, shown, status, output)
        return super().run(program, words, shown)


def checked(octets, roots=ROOTS, programs=None, at=None, now=NOW, digest=None, stamp_roots=None):
    """The report on the octets of a file."""
    with TemporaryDirectory() as folder:
        file = Path(folder, "file.exe")
        file.write_bytes(octets)
        question = check_program.Question(file, roots, stamp_roots or roots, programs or StandIn(), at, digest, now)
        return check_program.check(question)


def changed(octets, at):
    return octets[:at] + bytes([octets[at] ^ 1]) + octets[at + 1:]


def numbered(certificate, serial):
    """A certificate with another serial number, so that its signature is a false one."""
    tbs, *rest = certificate.kids
    version, _, *fields = tbs.kids
    return certificate._replace(kids=(tbs._replace(kids=(version, Primitive(2, serial), *fields)), *rest))


def namesakes(certificate, many):
    """So many certificates of one name."""
    return [numbered(certificate, b"\1" + number.to_bytes(2, "big")) for number in range(many)]


def stamp(time):
    return Stamp(stamps.TOKEN, time, None, [], b"")
