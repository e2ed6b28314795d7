#!/usr/bin/env python3
"""A program that answers `compare_readers`, by the definition in `der_starts`.

    python3 tools/golden/reader_stand_in.py cases FILE
    python3 tools/golden/reader_stand_in.py digests PREFIX COUNT

It replaces the program under test when the comparison itself is tested.
It reads each input by itself and shares no shortcut with the comparison.
"""

import sys
from hashlib import sha256
from pathlib import Path

sys.path.insert(0, str(Path(__file__).resolve().parents[1]))

from common import command
from golden.compare_readers import blocks, cases_of, inputs, spelled
from judges.der_starts import Start, encoding_at, first_fault


def answer_line(octets):
    fault = first_fault(octets)
    if fault:
        first = exact = "%s %d" % fault
    else:
        taken = encoding_at(octets, Start(0, len(octets), 1))
        first = f"ok {taken}"
        exact = first if taken == len(octets) else f"Trailing {taken}"
    return f"{first} {exact} {cursor_answer(octets)}\n"


def cursor_answer(octets):
    """How many octets each element takes, then the first fault of those left, or ``end``."""
    words, place = [], 0
    while rest := octets[place:]:
        if fault := first_fault(rest):
            return " ".join([*words, fault[0], str(place + fault[1])])
        taken = encoding_at(rest, Start(0, len(rest), 1))
        words.append(str(taken))
        place += taken
    return " ".join([*words, "end"])


def answer_cases(path):
    for case in cases_of(Path(path).read_bytes()):
        yield answer_line(case)


def answer_digests(prefix, count):
    octets = b"" if prefix == "-" else bytes.fromhex(prefix)
    for block in blocks(octets, int(count)):
        lines = "".join(map(answer_line, inputs(*block)))
        yield f"{spelled(block[0])} {sha256(lines.encode()).hexdigest()}\n"


def main(arguments):
    match arguments:
        case ["cases", path]:
            sys.stdout.writelines(answer_cases(path))
        case ["digests", prefix, count]:
            sys.stdout.writelines(answer_digests(prefix, count))
        case _:
            return command.usage(__doc__)
    return 0


if __name__ == "__main__":
    command.run(main, __doc__)
