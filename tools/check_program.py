#!/usr/bin/env python3
"""Say who signed a program of Windows, and whether a root that you trust vouches for that.

    python3 tools/check_program.py [--root FILE ..] [--at DATE] [--json] [--] PROGRAM

PROGRAM is a signed program, as .exe, .dll, .sys and .efi files are.  Printed are its
digest, its signer, the path of certificates from the signer to a root, its time stamps,
what the proved programs answer, and the verdict in one sentence.

  --root FILE           a file with certificates in DER or PEM that are trusted, in place of
                        the system's; the option may be there several times
  --stamp-root FILE     those that are trusted for time stamps, in place of the roots above;
                        likewise
  --at DATE             the moment at which certificates have to be valid, in UTC, as
                        2025-01-31 or 2025-01-31T23:59:59Z, or without the Z; without the
                        option the time of a stamp that openssl verifies, else now
  --json                one JSON object on one line in place of the text
  --digest HASH         PROGRAM is the signature of a program with this digest
  --programs FOLDER     where picky, picky_pe, picky_ask and picky_anchor are; else in crates/NAME/out,
                        else on the PATH
  --try                 run them from their sources by `rt try`, where they aren't built: it
                        takes some minutes, and nothing is proved
  --                    what follows is PROGRAM, whatever it begins with
  --help                as the sole word: this text

Two proved programs decide: `picky_pe` whether the signature is one over this file by this
signer, `picky_anchor` whether a path leads from its certificate to a root.  Python's package
cryptography verifies the signatures, and openssl (3.0 or later) the stamps.  docs/MANUAL.md
says what is proved.

The exit status is 0 if both accept, 1 if one refuses, or if they disagree; 2 if the words
are wrong, a program is missing, can't start or is ended before it answers; 3 if one takes a
line of the table for a bad one, 4 if a file can't be read or isn't a regular file, 5 if the
answer can't be written, 6 if PROGRAM is longer than 16 MiB, 7 if there isn't enough memory.
"""

import json
import re
import sys
from argparse import ArgumentTypeError
from datetime import datetime
from time import monotonic

from common import command
from program_check import roots, text
from program_check.check import Question, check
from program_check.programs import Programs, Tried
from program_check.report import Report

DATE = re.compile(r"[0-9]{4}-[0-9]{2}-[0-9]{2}(T[0-9]{2}:[0-9]{2}:[0-9]{2}Z?)?")
DIGEST = re.compile(r"(?:[0-9A-Fa-f]{2}){1,64}")
CANT_READ, CANT_WRITE, NO_MEMORY = 4, 5, 7
PATIENCE = 1.0
TRIED = "--try runs the programs from their sources by `rt try`: it takes some minutes, and nothing is proved"


def date(word):
    """A day or a second that exists, as the programs take it; of the year 0000 they say."""
    found = word.removesuffix("Z")
    try:
        if not DATE.fullmatch(word):
            raise ValueError
        datetime.fromisoformat(found.replace("0000-", "0400-", 1) if found.startswith("0000-") else found)
    except ValueError as refusal:
        raise ArgumentTypeError("it isn't a date as 2025-01-31 or 2025-01-31T23:59:59") from refusal
    return found


def digest(word):
    """A digest in hexadecimal."""
    if not DIGEST.fullmatch(word):
        raise ArgumentTypeError("it isn't a digest in hexadecimal")
    return word


# The options, and how argparse takes them.
OPTIONS = {
    "--root": {"action": "append", "metavar": "FILE"}, "--stamp-root": {"action": "append", "metavar": "FILE"},
    "--at": {"action": command.Once, "type": date}, "--json": {"action": "store_true"}, "--digest": {"action": command.Once, "type": digest},
    "--programs": {"action": command.Once}, "--try": {"action": "store_true", "dest": "tried"},
}


def words_of(arguments):
    """What the words of the command line ask for."""
    parser = command.Parser()
    for option, how in OPTIONS.items():
        parser.add_argument(option, **how)
    parser.add_argument("program", metavar="PROGRAM")
    return parser.parse_args(arguments)


class Progress:
    """What is being done, on standard error, once the call has lasted longer than a second."""

    def __init__(self):
        self.began = monotonic()

    def __call__(self, words):
        if monotonic() - self.began > PATIENCE:
            command.say(f"check_program.py: {words} ..")


def question_of(words):
    """What is asked; OSError and roots.Unreadable where a file of roots can't be read."""
    trusted = roots.from_files(words.root) if words.root else roots.of_system()
    stamp_roots = roots.from_files(words.stamp_root) if words.stamp_root else trusted
    programs = Tried() if words.tried else Programs(words.programs)
    return Question(words.program, trusted, stamp_roots, programs, words.at, words.digest, None, Progress())


def reported(words):
    """The report on what the words ask for."""
    try:
        return check(question_of(words))
    except (OSError, roots.Unreadable, command.NotAFile) as refusal:
        status, why = CANT_READ, command.sentence(refusal)
    except command.Refusal as refusal:
        status, why = command.CANT, command.sentence(refusal)
    except MemoryError:
        status, why = NO_MEMORY, "there isn't enough memory"
    return Report(text.clean(words.program)).not_checked(status, why)


def write(report, as_json):
    """Prints a report; a report without a verdict is a sentence on standard error."""
    if as_json:
        print(json.dumps(report.json(), ensure_ascii=True))
    elif report.verdict == "not checked":
        # What can't be read is named by the sentence itself.
        named = "" if report.status == CANT_READ else f"{report.file}: "
        command.say(text.visible(f"check_program.py: {named}{report.sentence}"))
    else:
        print("\n".join(report.lines()))
    sys.stdout.flush()


@command.script(__doc__)
def main(arguments):
    words = words_of(arguments)
    if words.tried:
        command.say(f"check_program.py: {TRIED} ..")
    report = reported(words)
    try:
        write(report, words.json)
    except BrokenPipeError:
        raise
    except OSError as refusal:
        command.say(f"check_program.py: {command.sentence(refusal)}")
        return CANT_WRITE
    return report.status


if __name__ == "__main__":
    command.run(main, __doc__, CANT_WRITE)
