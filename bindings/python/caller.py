"""As caller.c, by the calls of picky.py; the first word is the path of the shared library."""

import os
import sys
from pathlib import Path

from picky import Picky, Table, TableError


def octets_of(path):
    return b"" if path == "-" else Path(path).read_bytes()


library, kind, file, table, trust_list, *words = sys.argv[1:]
picky = Picky(library)
octets, table, trust_list = octets_of(file), octets_of(table), octets_of(trust_list)


def pieces():
    """The files of a pool, by their lengths."""
    at = 0
    for length in map(int, trust_list.split()):
        yield octets[at:at + length]
        at += length


def call(given):
    """Prints the answer, with the table as octets or as a `Table`."""
    if kind == "chain":
        answer = picky.chain(words, given, list(pieces()))
    elif kind == "ask":
        answer = picky.questions(words, list(pieces()))
    else:
        answer = (picky.check_program if kind == "pe" else picky.check)(words, octets, given, trust_list)
    print(f"{answer.status} {answer.line}" + ("\n" if answer.line else ""), end="")


def parse(known, step, text):
    try:
        known.parse(text)
        print(f"{step}0", end=" ")
    except TableError as error:
        print(f"{step}{error.status}", end=" ")


steps = os.environ.get("STEPS")
if steps is None:
    call(table)
with Table(picky) as known:
    for step in steps or "":
        if step == "c":
            call(known)
        elif step == "f":
            known.close()
        else:
            parse(known, step, octets_of(os.environ["LONG"]) if step == "l" else {"p": table, "b": b"x\n", "e": b""}[step])
