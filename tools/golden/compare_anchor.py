#!/usr/bin/env python3
"""Compare what `xgolden_run` finds with two searches in Python, on pools of certificates drawn at random.

Usage:

    python3 tools/golden/compare_anchor.py [--seed N] [--count N] PROGRAM
    python3 tools/golden/compare_anchor.py --searches [--seed N] [--count N]

PROGRAM is the executable of the crate `xgolden_run`.  The pools are those of
`drawn_anchors.py`: COUNT of 2 to 256 certificates in a drawn order, and small ones in
every order.  The expected path is that of `anchor_search.py`, on pools of up to 12
certificates also that of `anchor_judge.py`, which tries lists of indices.  `--searches`
compares these two alone.  What is printed last counts the differences; exit status 1
says that there is one.
"""

import argparse
import sys
from collections import Counter
from pathlib import Path

sys.path.insert(0, str(Path(__file__).resolve().parents[1]))

from cases.anchor_rows import NOW, words
from cases.drawn_anchors import every_order, large
from cases.issuing_rows import DEMO
from common import command
from golden.compare_basic import printed
from judges import anchor_search
from judges.anchor_judge import Search

# So many pools are handed to the program at a time.
PART = 20
SMALL = 12


def row(checked, pool, anchors, purpose):
    listed = ",".join(map(words, anchors)) or "-"
    return purpose, f"{NOW}Z", listed, checked.hex(), ",".join(octets.hex() for octets in pool) or "-"


def expected(links, checked, pool, anchors, purpose):
    """The path by the first search, and on small pools by the second, which has to find the same."""
    said = anchor_search.line(links, checked, pool, anchors, purpose)
    if len(pool) <= SMALL:
        other = Search(checked, pool, anchors, purpose, NOW, DEMO).line()
        if other != said:
            return f"{said} or {other}"
    return said


def kind(case, said):
    """The kind of the world, and how many certificates are between."""
    if not said.startswith("anchored"):
        return f"{case[0]}: {said.split(':')[0]}"
    indices = said.split()[1].partition("=")[2]
    return f"{case[0]}: {len(indices.split(',')) if indices else 0} between"


def has_parents(said):
    """Whether certificates of the pool are between the checked one and an anchor."""
    return said.startswith("anchored pool=") and "pool= " not in said


def unlike_of(program, cases, answers):
    """Where the program prints another line; without a program, where the searches differ."""
    lines = [said.split(" or ")[0] for said in answers]
    if program is not None:
        lines = printed(program, "anchor", [row(*case) for _, *case in cases])
        if len(lines) != len(cases):
            raise command.Refusal(f"{program} prints {len(lines)} lines of {len(cases)} rows")
    return [(case, said, line) for case, said, line in zip(cases, answers, lines) if said != line]


def compared(program, links, cases):
    """The cases that differ, and how often each kind is there."""
    kinds, unlike = Counter(), []
    for start in range(0, len(cases), PART):
        part = cases[start:start + PART]
        answers = [expected(links, *case) for _, *case in part]
        kinds.update(map(kind, part, answers))
        unlike += unlike_of(program, part, answers)
        print(f"{start + len(part)} of {len(cases)}, {len(unlike)} differ", file=sys.stderr, flush=True)
    return unlike, kinds


def options(arguments):
    parser = argparse.ArgumentParser(description="Paths to trust anchors beside searches in Python.")
    parser.add_argument("--seed", type=int, default=1)
    parser.add_argument("--count", type=int, default=1000)
    parser.add_argument("--searches", action="store_true", help="compare the searches in Python alone")
    parser.add_argument("program", type=command.executable, nargs="?", help="path of xgolden_run")
    chosen = parser.parse_args(arguments)
    if chosen.searches == (chosen.program is not None):
        parser.error("it takes a program, or --searches")
    return chosen


def main(arguments):
    chosen = options(arguments)
    program = None if chosen.program is None else chosen.program.resolve()
    links = anchor_search.Links(NOW, DEMO)
    small = every_order(chosen.seed, lambda *case: has_parents(anchor_search.line(links, *case)))
    cases = [*large(chosen.count, chosen.seed), *small]
    unlike, kinds = compared(program, links, cases)
    for case, said, line in unlike[:10]:
        print(f"{' '.join(row(*case[1:]))}: {line!r}, not {said!r}")
    for name, many in sorted(kinds.items()):
        print(f"{many:7} {name}")
    print(f"pools: {len(cases) - len(unlike)} alike, {len(unlike)} not")
    return 1 if unlike else 0


if __name__ == "__main__":
    command.run(main, __doc__)
