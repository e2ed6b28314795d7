"""Vectors of basic validation, for `xgolden_check`.

A case is a line of words in hexadecimal digits, `-` for none: a signature file,
the digest that is asked for, the text of a table, and any number of changes.  A
change is a place in two octets and the octet that comes there instead, and each
is made of the file alone: so a case is answered by a line for the file as it is,
and one for each change.

The cases are the rows of `basic_rows` and `basic_steps`, and those of
`made_signatures` on signatures that are made, which have their answers, and the signatures of `basic_world`, whose answers `basic_judge` finds.
What it finds of the rows has to be their answers, and nothing is taken from
what the program printed.
"""

from cases import basic_rows, basic_steps, basic_world, made_signatures
from golden.stored_run import Vectors
from judges.basic_judge import answer
from judges.value_reader import word


def rows():
    """What each file is, its octets, the digest that is asked for, a table, and what is answered."""
    yield from basic_rows.rows()
    yield from basic_steps.rows()
    yield from made_signatures.judged_rows()


def cases():
    """The words of each case, and what is answered."""
    for _, file, file_hash, table, said in rows():
        yield (file, bytes.fromhex(file_hash), table.encode()), [said]
    for _, file, file_hash, table, changes, said in basic_world.rows():
        words = (at.to_bytes(2, "big") + bytes([octet]) for at, octet in changes)
        yield (file, bytes.fromhex(file_hash), table.encode(), *words), said


def vectors():
    found = list(cases())
    return Vectors(tuple(" ".join(map(word, words)) for words, _ in found), tuple(line for _, said in found for line in said))


def unlike():
    """The rows of which the judge says otherwise."""
    for why, file, file_hash, table, said in rows():
        found = answer(file, bytes.fromhex(file_hash), table)
        if found != said:
            yield f"{why}: {said!r} isn't {found!r}"
    if basic_rows.wrapped(basic_rows.encoded(basic_rows.LINES)) != basic_rows.FILE:
        yield "the lines are not those of the file"
