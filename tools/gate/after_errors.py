#!/usr/bin/env python3
"""List the calls that change a value and may fail, with the clauses on the value after an error.

Usage:

    python3 tools/gate/after_errors.py CRATES

reads `CRATES/NAME/src` of each library and prints each public function by
`&mut self` that returns a `Result`, and behind it the names of its clauses
that say what the value is after an error, "contract" for one without a name.
A caller who goes on after an error has to know what it is left with, so a
call without such a clause is marked, and makes the exit status 1; where there
is no library it is 2.

Such a clause has `self.new` in what it says of an `Err`: in the argument of
`OnErr result` or `IfErr result`, or in the second one of `MatchResult result`.
One that says `self.new ≡ self.old` of any result counts too.  Functions of
public traits are listed with those of types; an implementation of a trait is
where it has clauses of its own, which then stand in place of the trait's.
"""

import re
import sys
from dataclasses import dataclass, field
from pathlib import Path

sys.path.insert(0, str(Path(__file__).resolve().parents[1]))

from common import command
from common.sources import libraries
from gate.crate_readmes import CLAUSE, FUNCTION, end_of, header_of, masked, next_stop

BLOCK = re.compile(r"(?m)^(?P<public>pub )?(?:unsafe )?(?P<kind>trait|impl)\b")
OF_ERROR = re.compile(r"\b(?P<word>OnErr|IfErr|MatchResult)\s+result\s*")
UNCHANGED = re.compile(r"\(?\s*self\.new\s*≡\s*self\.old\s*\)?")


@dataclass
class Call:
    """A function by `&mut self` that may fail, and the names and the texts of its clauses on the value after an error."""

    crate: str
    block: str
    name: str
    clauses: list
    said: list = field(default_factory=list)

    def __str__(self):
        said = ", ".join(self.clauses) or "NOTHING is said of the value after an error"
        return f"{self.crate}: {self.block}::{self.name}: {said}"


def arguments(text, at):
    """The arguments in parentheses that follow one another at an offset."""
    while at < len(text) and text[at] == "(":
        end = end_of(text, at)
        yield text[at:end]
        at = end + len(text[end:]) - len(text[end:].lstrip())


def is_on_error(clause):
    """Whether a clause says what `self` is after an error."""
    if UNCHANGED.fullmatch(clause.strip()):
        return True
    for match in OF_ERROR.finditer(clause):
        given = list(arguments(clause, match.end()))
        said = given[1:2] if match["word"] == "MatchResult" else given[:1]
        if any("self.new" in part for part in said):
            return True
    return False


def contract_at(text, start):
    """The head of a function behind its name, and its clauses, each by its kind, name and text."""
    head, clauses, at = None, [], start
    while True:
        at = next_stop(text, at, "{;")
        words = text[start:at]
        clause = CLAUSE.search(words)
        head = head if head is not None else words[: clause.start()] if clause else words
        if at == len(text) or text[at] == ";" or clause is None:
            return head, clauses
        end = end_of(text, at)
        clauses.append((clause["kind"], clause["name"], text[at + 1 : end - 1]))
        start = at = end


def may_fail(head):
    """Whether the head of a function takes `&mut self` and returns a `Result`."""
    return re.match(r"\s*(?:<[^()]*>)?\s*\(\s*&(?:'\w+\s+)?mut\s+self\b", head) and re.search(r"->\s*(?:\w+::)*Result\b", head)


def calls_of(crate, text):
    """The public calls of a file that change a value and may fail."""
    text = masked(text)
    for block in BLOCK.finditer(text):
        body = next_stop(text, block.end(), "{;")
        if text[body : body + 1] != "{":
            continue
        of_trait, of_type = header_of(text[block.start() : body]) if block["kind"] == "impl" else ("", "")
        name = of_type or re.match(r"\s*(\w+)", text[block.end() :])[1]
        for function in FUNCTION.finditer(text, body, end_of(text, body)):
            head, clauses = contract_at(text, function.end())
            is_public = function["public"] and not function["inside"]
            if block["kind"] == "trait":
                is_public = block["public"]
            elif of_trait:
                is_public = clauses
            if is_public and may_fail(head):
                said = [(name or "contract", clause) for kind, name, clause in clauses if kind == "ensures" and is_on_error(clause)]
                names, texts = ([pair[at] for pair in said] for at in (0, 1))
                yield Call(crate, f"{name} as {of_trait}" if of_trait else name, function["name"], names, texts)


def calls(crates):
    """All such calls of the libraries among the crates."""
    for crate in libraries(Path(crates)):
        for file in sorted(crate.glob("src/**/*.rt")):
            yield from calls_of(crate.name, file.read_text(encoding="utf-8"))


def main(words):
    if len(words) != 1 or not Path(words[0]).is_dir():
        return command.usage(__doc__)
    found = list(calls(words[0]))
    silent = [call for call in found if not call.clauses]
    for call in found:
        print(call)
    number = len(libraries(Path(words[0])))
    print(f"calls that change a value and may fail: {len(found)} in {number} libraries, {len(silent)} of them without a clause on the value after an error")
    return 1 if silent else 0


if __name__ == "__main__":
    command.run(main, __doc__)
