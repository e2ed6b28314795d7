#!/usr/bin/env python3
"""Paths to trust anchors that `picky_anchor` finds, beside `openssl verify -untrusted` and Go's crypto/x509.

Usage:

    python3 tools/interop/anchored_paths.py [--seed N] [--count N] PROGRAM

PROGRAM is the executable of the crate `picky_anchor`.  openssl makes the certificates,
with RSA keys: those of `drawn_anchors.py`, with cross certificates, loops, two keys of
one name, expired doubles and path lengths; and over the roots of Debian's package
ca-certificates cross certificates by other CAs, roots of the same names with other
keys, and certificates that these issued.  COUNT pools are drawn, of up to 32
certificates and 8 anchors.  `verdict_table` says which
signatures are good.

All three look for a path at the same moment, the other two with the anchors as their
roots; openssl takes a trusted certificate of any kind (-partial_chain).  The path here
has to be that of `anchor_search`.  Printed are how many results are alike, and how many
differ for which reason, which is tried for each: the path alone is passed to the other
program, or a rule is left out in a search here.  Exit status 1 says that something
differs for no known reason.

It takes openssl (3.0 or later), Go and ca-certificates.
"""

import argparse
import ssl
import sys
from collections import Counter
from pathlib import Path as Folder
from random import Random
from tempfile import TemporaryDirectory
from typing import NamedTuple

sys.path.insert(0, str(Folder(__file__).resolve().parents[1]))

from cases import drawn_anchors
from cases.anchor_rows import CODE, NOW
from common import command
from common.calls import called
from interop.anchor_making import Maker, roots_world
from judges import asked_signatures
from judges import anchor_search
from judges.issuing_maker import Table

HERE = Folder(__file__).resolve().parent
# The moment NOW, as the programs take it.
DATE, SECONDS = "2025-01-01", "1735689600"
MOST_ANCHORS, MOST_IN_POOL = 8, 32
WORLD_SIZE = 48
OTHERS = "openssl", "Go"


class Case(NamedTuple):
    """What is checked, a pool and anchors, by their octets."""

    kind: str
    checked: bytes
    pool: list
    anchors: list

    def parts(self):
        return [self.checked], self.pool, self.anchors


class Result(NamedTuple):
    """Whether a path is found, and the number of its parents or why there is none, if that is known."""

    is_found: bool
    parents: int | None = None
    why: str = ""

    def is_like(self, other):
        """Whether both find a path, and none a shorter one, or neither does."""
        return self.is_found == other.is_found and None in (self.parents, other.parents) or self[:2] == other[:2]


class Path(NamedTuple):
    """The indices of a line of `picky_anchor`."""

    pool: list
    anchor: int

    @classmethod
    def of(cls, line):
        """None if there is none."""
        if not line.startswith("anchored "):
            return None
        pool, anchor = (word.partition("=")[2] for word in line.split()[1:])
        return cls([int(word) for word in pool.split(",") if word], int(anchor))

    def alone(self, case):
        """The case with the certificates of the path alone."""
        return case._replace(pool=[case.pool[index] for index in self.pool], anchors=[case.anchors[self.anchor]])


# The pools.

def worlds(random, maker):
    """What is checked, certificates and anchors, from which pools are drawn."""
    for kind in drawn_anchors.KINDS:
        world = drawn_anchors.World(random, kind, WORLD_SIZE, maker.certificate)
        yield world.kind, world.checked * 4 + world.members, world.members, world.anchors
    yield "roots of the system", *roots_world(random, maker)


def drawn(random, count, all_worlds):
    """So many pools, of each world as many."""
    for number in range(count):
        kind, checked, members, anchors = all_worlds[number % len(all_worlds)]
        pool = random.sample(members, random.randint(0, MOST_IN_POOL))
        yield Case(kind, random.choice(checked), pool, random.choices(anchors, k=random.randint(1, MOST_ANCHORS)))


# The programs.

class Files:
    """A folder with certificates, each in DER and in PEM under its number, and a verdict table."""

    def __init__(self, folder, cases):
        self.folder = folder
        certificates = dict.fromkeys(octets for case in cases for part in case.parts() for octets in part)
        self.number = {octets: str(number) for number, octets in enumerate(certificates)}
        self.pem = {octets: ssl.DER_cert_to_PEM_cert(octets) for octets in certificates}
        for octets, number in self.number.items():
            (folder / f"{number}.der").write_bytes(octets)
        asked = asked_signatures.of_certificates(map(asked_signatures.certificate_in, certificates), "the pools")
        self.lines, _ = asked_signatures.table_of(asked, version=1)
        (folder / "table.txt").write_text("".join(f"{line}\n" for line in self.lines), encoding="ascii")

    def numbers(self, certificates):
        return [self.number[octets] for octets in certificates]

    def in_pem(self, name, certificates):
        file = self.folder / name
        file.write_text("".join(self.pem[octets] for octets in certificates), encoding="ascii")
        return file


class Programs:
    """The three programs, over the files of a folder."""

    def __init__(self, picky_anchor, folder, cases):
        self.picky_anchor, self.go, self.files = picky_anchor, folder / "go", Files(folder, cases)
        called(["go", "build", "-o", self.go, HERE / "anchored_paths.go"], seconds=600, cwd=folder).check_returncode()

    def line(self, case):
        """What `picky_anchor` prints."""
        certificates = [f"{number}.der" for number in self.files.numbers([*case.anchors, case.checked, *case.pool])]
        words = self.picky_anchor, "table.txt", "code", DATE, str(len(case.anchors)), *certificates
        done = called(words, cwd=self.files.folder)
        if done.returncode not in (0, 1):
            raise command.Refusal(f"{self.picky_anchor} ends with status {done.returncode}")
        return done.stdout.decode().strip()

    def openssl(self, case):
        checked, pool, trusted = (self.files.in_pem(name, part) for name, part in zip(("checked.pem", "pool.pem", "trusted.pem"), case.parts()))
        given = ("-untrusted", pool) if case.pool else ()
        words = "openssl", "verify", "-partial_chain", "-attime", SECONDS, "-trusted", trusted, *given, checked
        done = called(words)
        errors = [line for line in done.stderr.decode().splitlines() if line.startswith("error ")]
        return Result(done.returncode == 0, None, next(iter(errors), ""))

    def of_go(self, cases):
        rows = [" ".join(",".join(self.files.numbers(part)) or "-" for part in case.parts()) for case in cases]
        words = self.go, self.files.folder, SECONDS
        done = called(words, "".join(f"{row}\n" for row in rows).encode(), seconds=3600)
        done.check_returncode()
        lines = done.stdout.decode().splitlines()
        if len(lines) != len(cases):
            raise command.Refusal(f"Go prints {len(lines)} lines of {len(cases)} rows")
        return [Result(True, int(line.split()[1])) if line.startswith("found ") else Result(False, None, line) for line in lines]

    def finds(self, other, case):
        """Whether one of the other two finds a path."""
        return (self.openssl(case) if other == "openssl" else self.of_go([case])[0]).is_found


# Why results differ.

class Verdicts(Table):
    """The lines of a verdict table of version 1."""

    def __init__(self, lines):
        super().__init__()
        self.rows = {tuple(line.split()) for line in lines}


class Rules(anchor_search.Links):
    """The rules of a link, some of which are left out."""

    def __init__(self, links, *, key_identifiers, self_issued):
        super().__init__(links.date, links.scheme)
        self.member, self.key_identifiers, self.self_issued = links.member, key_identifiers, self_issued

    def has_named_key(self, one, other):
        return not self.key_identifiers and one.own is None or super().has_named_key(one, other)

    def counts(self, octets):
        """Whether path lengths count a certificate."""
        member = self.member(octets)
        return self.self_issued or member.subject != member.issuer

    def has_path(self, case, most):
        """Whether there is a path of so many parents; a certificate is known by its octets and by how many below it count."""
        layer, seen = {(case.checked, 0)} if self.is_valid(case.checked) else set(), set()
        for _ in range(most):
            over = {(parent, below) for child, below in layer for parent in {*case.anchors, *case.pool} if self.is_link(parent, child, below)}
            if any(parent in case.anchors for parent, _ in over):
                return True
            layer = {(parent, below + self.counts(parent)) for parent, below in over} - seen
            seen |= layer
        return False


class Reasons:
    """Why results differ; None where that isn't known."""

    def __init__(self, programs, links):
        self.programs, self.links = programs, links
        self.rules = {
            "a self-issued certificate isn't counted for path lengths there": Rules(links, key_identifiers=True, self_issued=False),
            "a parent without a key identifier may have any key there": Rules(links, key_identifiers=False, self_issued=True),
            "both of these rules": Rules(links, key_identifiers=False, self_issued=False),
        }

    def of_more(self, case, result):
        """Why another program finds a path where none is found here, or a shorter one."""
        if case.checked in case.anchors:
            return "an anchor is a path of its own there"
        most = 2 * MOST_IN_POOL if result.parents is None else result.parents
        return next((why for why, rules in self.rules.items() if rules.has_path(case, most)), None)

    def of_less(self, other, case, path, result):
        """Why another program finds no path where one is found here, or a longer one."""
        if "attempts limit" in result.why:
            return "it verifies at most 100 signatures"
        alone = path.alone(case)
        if self.programs.finds(other, alone):
            return "it finds the path if no other certificate is passed"
        return self.of_openssl(alone) if other == "openssl" else self.of_go(alone)

    def of_go(self, alone):
        members = [self.links.member(octets) for part in alone.parts() for octets in part]
        return "it takes no name and key twice" if len({(member.subject, member.key) for member in members}) < len(members) else None

    def of_openssl(self, alone):
        children = [self.links.member(octets) for octets in (alone.checked, *alone.pool)]
        parents = [self.links.member(octets) for octets in {*alone.pool, *alone.anchors}]
        if any(self.fits(child, child) for child in children):
            return "a certificate of its own name that names no other key is the end there"
        if any(sum(self.fits(parent, child) for parent in parents) > 1 for child in children):
            return "it takes one of several with the name, and doesn't come back"
        return None

    def fits(self, parent, child):
        """Whether openssl takes one for the parent of the other."""
        return parent.subject == child.issuer and (parent.own is None or self.links.has_named_key(parent, child))


# The comparison.

class Comparison:
    """What all three find: how many results are alike, and why others differ."""

    def __init__(self, programs):
        self.programs = programs
        self.links = anchor_search.Links(NOW, Verdicts(programs.files.lines))
        self.reasons = Reasons(programs, self.links)
        self.counts, self.unknown = Counter(), []

    def expected(self, case):
        """The line of the search in Python."""
        line = anchor_search.line(self.links, case.checked, case.pool, [(anchor, CODE) for anchor in case.anchors], CODE)
        return "refused NoAnchoredPath" if line == "none" else line

    def add(self, other, case, line, result):
        path = Path.of(line)
        here = Result(path is not None, path and len(path.pool) + 1)
        if here.is_like(result):
            self.counts[other, "alike", "a path" if path else "no path"] += 1
            return
        if result.is_found and (path is None or result.parents < here.parents):
            difference, why = "a path there, none here" if path is None else "a shorter path there", self.reasons.of_more(case, result)
        else:
            difference, why = "none there, a path here", self.reasons.of_less(other, case, path, result)
        self.counts[other, difference, why] += 1
        if why is None:
            self.unknown.append((case.kind, other, line, result))

    def compare(self, cases):
        for number, (case, by_go) in enumerate(zip(cases, self.programs.of_go(cases)), 1):
            line, expected = self.programs.line(case), self.expected(case)
            if line != expected:
                self.unknown.append((case.kind, "anchor_search", line, expected))
            self.add("openssl", case, line, self.programs.openssl(case))
            self.add("Go", case, line, by_go)
            if number % 100 == 0:
                print(f"{number} of {len(cases)}", file=sys.stderr, flush=True)

    def report(self, count):
        """Print what was found; the exit status."""
        for (other, *what), many in sorted(self.counts.items(), key=str):
            print(f"{many:7} {other}: {': '.join(map(str, what))}")
        for one in self.unknown[:10]:
            print("differs:", *one)
        alike = {other: sum(many for key, many in self.counts.items() if key[:2] == (other, "alike")) for other in OTHERS}
        print(f"pools: {count}, {' and '.join(f'{many} as {other}' for other, many in alike.items())}, {len(self.unknown)} differences without a reason")
        return 1 if self.unknown else 0


def main(words):
    parser = argparse.ArgumentParser(description="Paths to trust anchors beside openssl and Go.")
    parser.add_argument("--seed", type=int, default=1)
    parser.add_argument("--count", type=int, default=1000)
    parser.add_argument("program", type=command.executable, help="path of picky_anchor")
    options = parser.parse_args(words)
    random = Random(options.seed)
    with TemporaryDirectory() as name, TemporaryDirectory() as made:
        cases = list(drawn(random, options.count, list(worlds(random, Maker(Folder(made))))))
        comparison = Comparison(Programs(options.program.resolve(), Folder(name), cases))
        comparison.compare(cases)
        return comparison.report(len(cases))


if __name__ == "__main__":
    command.run(main, __doc__)
