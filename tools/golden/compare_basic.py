#!/usr/bin/env python3
"""Compare what `xgolden_check` prints of basic validation with what `basic_judge` says, on signature files with elements changed at random.

Usage:

    python3 tools/golden/compare_basic.py [--seed N] [--count N] PROGRAM

PROGRAM is the executable of the crate `xgolden_check`.  The files are those of
`basic_vectors.py` in which elements are left out, repeated, exchanged, put
elsewhere or changed in an octet, one to three times.  The table accepts the
signature of whatever signer and certificate the judge finds there, so that the
steps behind the signature are reached, and mostly the digest that is in the
content is asked for.  Exit status 1 says that an answer differs.
"""

import argparse
import random
import subprocess
import sys
import tempfile
from collections import Counter
from hashlib import sha256
from pathlib import Path

sys.path.insert(0, str(Path(__file__).resolve().parents[1]))

from cases.basic_world import HEADER, signature_file, with_octet
from common import command
from golden import basic_vectors
from judges import basic_judge
from judges.der_reader import Constructed, Malformed, NotWritable, Primitive, read_first, write
from judges.value_reader import word

LONGEST = 6000


def bases():
    """Values that are one element, and the digests that they are asked for."""
    for (file, file_hash, *_), said in basic_vectors.cases():
        try:
            element, _ = read_first(file[HEADER:])
        except Malformed:
            continue
        if len(file) <= LONGEST and not said[0].startswith("NoSpc"):
            yield element, file_hash


# Changes of elements.

def places(element, place=()):
    """The place of each element in an element, by the numbers of the kids on the way down."""
    found = []
    for number, kid in enumerate(element.kids if isinstance(element, Constructed) else ()):
        found.append((*place, number))
        if isinstance(kid, Constructed):
            found.extend(places(kid, found[-1]))
    return found


def at(element, place):
    for number in place:
        element = element.kids[number]
    return element


def exchanged(element, place, others):
    """An element with others in the place of one."""
    first, *rest = place
    kids = list(element.kids)
    kids[first:first + 1] = [exchanged(kids[first], rest, others)] if rest else others
    return Constructed(element.tag, tuple(kids))


def with_other_octet(chance, element):
    if isinstance(element, Constructed) or not element.contents:
        return element
    place = chance.randrange(len(element.contents))
    return Primitive(element.tag, with_octet(element.contents, place, chance.randrange(256)))


def mutation(chance, element, known=None):
    """The element with one of its own left out, repeated, exchanged for another one, put behind another one, or changed.

    `known` has the places in it, where they are at hand.
    """
    known = places(element) if known is None else known
    if not known:
        return element
    place = chance.choice(known)
    one, other = at(element, place), at(element, chance.choice(known))
    changes = [], [one, one], [other], [other, one], [with_other_octet(chance, one)]
    return exchanged(element, place, chance.choice(changes))


# Cases.

def accepting_row(file):
    """A table that accepts the signature of the signer, where the judge finds one and its certificate."""
    try:
        signed = basic_judge.signed_data_in(basic_judge.certificate_in(file))
        signer = basic_judge.Signer(signed.signers[0])
        one = basic_judge.signers_certificate(signer, signed.bag)
        oid = basic_judge.dotted(signer.digest_algorithm.kids[0].contents)
    except (basic_judge.Refused, IndexError):
        return ""
    parts = one.key_octets(), signer.message(), signer.signature
    return " ".join((f"rsa-{basic_judge.DIGESTS.get(oid, 'sha256')}", *(sha256(part).hexdigest() for part in parts))) + "\n"


def digest_within(file):
    """The digest in the content, None where there is none."""
    try:
        signed = basic_judge.signed_data_in(basic_judge.certificate_in(file))
        return basic_judge.indirect_data_in(signed).kids[1].kids[1].contents
    except basic_judge.Refused:
        return None


def changed(chance, element, changes):
    """A file of an element with so many changes; None where it can't be written or is too long."""
    for _ in range(changes):
        element = mutation(chance, element)
    try:
        file = signature_file(write(element))
    except NotWritable:
        return None
    if len(file) > LONGEST:
        return None
    return with_octet(file, chance.randrange(len(file)), chance.randrange(256)) if chance.random() < 0.2 else file


def case(chance, element, file_hash):
    """A file, the digest that is asked for and a table; None where there is no such file."""
    file = changed(chance, element, chance.choice((1, 1, 2, 3)))
    if file is None:
        return None
    within = digest_within(file) if chance.random() < 0.7 else None
    return file, file_hash if within is None else within, accepting_row(file)


def cases(seed, count, known, make):
    """So many cases, each made of one that is known."""
    chance, known = random.Random(seed), list(known)
    found = []
    while len(found) < count:
        made = make(chance, *chance.choice(known))
        if made:
            found.append(made)
    return found


def printed(program, kind, rows):
    """The lines that the program prints of rows of words, of a kind."""
    with tempfile.TemporaryDirectory() as folder:
        file = Path(folder, "cases.txt")
        file.write_text("".join(f"{' '.join(row)}\n" for row in rows), encoding="ascii")
        return subprocess.run([program, kind, file], check=True, stdout=subprocess.PIPE).stdout.decode().splitlines()


def compare(program, vectors, answers, named):
    """Compares what the program prints of a kind's rows with the answers, and counts these by their names: 0 where none differs."""
    kind, rows = vectors
    lines = printed(program.resolve(), kind, rows)
    if len(lines) != len(rows):
        raise command.Refusal(f"{program} prints {len(lines)} lines of {len(rows)} rows")
    unlike = [(row, said, line) for row, said, line in zip(rows, answers, lines) if said != line]
    for row, said, line in unlike[:10]:
        print(f"{' '.join(row)}: {line!r}, not {said!r}")
    for name, many in Counter(map(named, answers)).most_common():
        print(f"{many:7} {name}")
    print(f"signature files: {len(rows) - len(unlike)} as the judge says, {len(unlike)} not")
    return 1 if unlike else 0


def options(words, description, count, program):
    """The words of the command line."""
    parser = argparse.ArgumentParser(description=description)
    parser.add_argument("--seed", type=int, default=1)
    parser.add_argument("--count", type=int, default=count)
    parser.add_argument("program", type=command.executable, help=f"path of {program}")
    return parser.parse_args(words)


def main(arguments):
    words = options(arguments, "Basic validation beside a judge in Python.", 6000, "xgolden_check")
    made = cases(words.seed, words.count, bases(), case)
    rows = [(word(octets), word(file_hash), word(table.encode())) for octets, file_hash, table in made]
    return compare(words.program, ("basic", rows), [basic_judge.answer(*one) for one in made], lambda said: said.split()[0])


if __name__ == "__main__":
    command.run(main, __doc__)
