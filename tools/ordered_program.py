#!/usr/bin/env python3
"""Put the certificates of a signed program of Windows in the order in which a check looks for a path.

    python3 tools/ordered_program.py PROGRAM OUT SIG

writes to OUT the program with the certificates of the first entry of its certificate
table in the order of `order_bag.py`, and that entry, a WIN_CERTIFICATE, to SIG.

The digest of a program is over no octet of its certificate table, and the entry keeps
its length, so its signatures are as good as before; a table for SIG is one for OUT.
"""

from pathlib import Path

from common import command
from common.shown import clean
from common.signed_data import NotASignatureFile
from order_bag import with_ordered_bag
from signed_program import NotSigned, parts, signature


def with_entry(program, entry):
    """The program with another first entry of the same length."""
    _, _, at, _ = parts(program)
    return program[:at] + entry + program[at + len(entry):]


@command.script(__doc__)
def main(arguments):
    parser = command.Parser()
    for name in "program", "out", "sig":
        parser.add_argument(name, metavar=name.upper())
    words = parser.parse_args(arguments)
    try:
        program = command.read_file(words.program)
        entry = with_ordered_bag(signature(program))
        Path(words.out).write_bytes(with_entry(program, entry))
        Path(words.sig).write_bytes(entry)
    except (OSError, command.Refusal) as refusal:
        command.say(f"ordered_program.py: {command.sentence(refusal)}")
        return 1
    except (NotSigned, NotASignatureFile) as refusal:
        command.say(f"ordered_program.py: {clean(words.program)}: {refusal}")
        return 1
    return 0


if __name__ == "__main__":
    command.run(main, __doc__)
