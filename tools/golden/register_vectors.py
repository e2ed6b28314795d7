#!/usr/bin/env python3
"""Vectors of registers of a CA, for `xgolden_run`.

Usage:

    python3 tools/golden/register_vectors.py --count

prints how often each answer comes in `drawn_registers`, how many certificates there are, and how many of them are
accepted, by the number of their ancestors.

The calls are those of `drawn_registers` and of `enrolled_requests`, and `register_judge` says what each returns and
which certificates are accepted.  `tools/interop/enrolled_requests.py --check` has openssl read what is issued for
requests of openssl.
"""

import sys
from collections import Counter
from pathlib import Path

sys.path.insert(0, str(Path(__file__).resolve().parents[1]))

from cases import enrolled_requests
from cases.drawn_registers import registers
from common import command
from golden.stored_run import Vectors
from judges.register_judge import answers, is_accepted, with_ancestors


def shown(value):
    return "-" if value is None else str(value)


def call_word(call):
    flag = "ca" if call.ca else "end"
    return ",".join((call.kind, str(call.issuer), str(call.signer), flag, shown(call.path_length), f"{call.first}Z", f"{call.last}Z"))


def row(date, calls):
    return " ".join((f"{date}Z", *map(call_word, calls)))


def line(date, calls):
    records, words = answers(calls)
    marks = "".join("1" if is_accepted(records, index, date) else "0" for index in range(len(records)))
    return " ".join([*(word for answer in words for word in answer), marks])


def vectors():
    drawn = [(row(*register), line(*register)) for register in registers()]
    return Vectors.of([*drawn, *enrolled_requests.rows()])


def counted():
    """Print the answers, and the certificates and the accepted ones by the number of their ancestors."""
    returned, issued, accepted = Counter(), Counter(), Counter()
    for date, calls in registers():
        records, words = answers(calls)
        returned.update("issued" if answer[0].isdigit() else answer[0] for answer in words)
        for place in range(len(records)):
            depth = len(with_ancestors(records, place)) - 1
            issued[depth] += 1
            accepted[depth] += is_accepted(records, place, date)
    for answer, count in returned.most_common():
        print(answer, count)
    for depth in sorted(issued):
        print(depth, issued[depth], accepted[depth])
    print("all", sum(issued.values()), sum(accepted.values()))
    return 0


def main(arguments):
    if arguments == ["--count"]:
        return counted()
    print("usage: register_vectors.py --count", file=sys.stderr)
    return 2


if __name__ == "__main__":
    command.run(main, __doc__)
