#!/usr/bin/env python3
"""Print the questions about certificates in any order, as `picky_ask` prints those of a chain.

    python3 tools/pool_questions.py CERT .. | python3 tools/verdict_table.py > TABLE

Each CERT is a file with one certificate in DER.  `picky_ask --chain` is asked about each
one and each whose subject is its issuer, octet by octet, itself among them; of a
certificate that isn't read here, with every other.  The program is looked for in the
folder that PICKY_PROGRAMS names, in crates/picky_ask/out, and on the PATH.

A file that is no certificate has a line on standard error, and the status is 1; it is 2
where the words are wrong, or the program is missing or gives no answer.
"""

from common import command
from common.der import NOT_READ
from common.shown import clean
from program_check.certificate import Certificate
from program_check.programs import VARIABLE, Disagreement, NotChecked, NotThere, Programs

NOT_BUILT = (
    "the program picky_ask isn't built: `rt run` in crates/picky_ask builds it; or name the folder that has it in "
    f"{VARIABLE}")


class NoCertificate(command.Refusal):
    """A file is no certificate."""


def certificate_in(file):
    """The certificate in a file; None where it isn't read here."""
    try:
        return Certificate(command.read_file(file))
    except NOT_READ:
        return None


def may_issue(parent, child):
    return parent is None or child is None or parent.subject_name == child.issuer_name


def questions(programs, files):
    """The lines of the questions about these files, once each."""
    held, lines = {file: certificate_in(file) for file in files}, {}
    for child in held:
        for parent in held:
            if may_issue(held[parent], held[child]):
                answer = programs.run("picky_ask", ["--chain", child, parent], "picky_ask")
                if answer.accepted() is None:
                    either = " or ".join(dict.fromkeys(map(clean, (child, parent))))
                    raise NoCertificate(f"{either} is no certificate: {answer.line()}")
                lines |= dict.fromkeys(answer.output.splitlines())
    return lines


@command.script(__doc__)
def main(arguments):
    parser = command.Parser()
    parser.add_argument("files", metavar="CERT", nargs="+")
    words = parser.parse_args(arguments)
    try:
        for line in questions(Programs(), words.files):
            print(line)
    except NotThere:
        why, status = NOT_BUILT, command.CANT
    except (Disagreement, NotChecked) as refusal:
        why, status = command.sentence(refusal), command.CANT
    except (NoCertificate, OSError, command.Refusal) as refusal:
        why, status = command.sentence(refusal), 1
    else:
        return 0
    command.say(f"pool_questions.py: {why}")
    return status


if __name__ == "__main__":
    command.run(main, __doc__)
