#!/usr/bin/env python3
"""List the public calls of the libraries that nothing calls.

Usage:

    python3 tools/gate/unused_calls.py CRATES

reads `CRATES/NAME/src` of each crate and prints each `pub fn` of a library
that takes `alloc` or uses up `self`, and that no code calls: no test, no
program, no other crate and no body but its own.  The contract of a call that
takes memory is met by a body that always answers that there is none, so one
caller at least has to see another answer.  Exit status 1 says that a call is
listed, and 2 that there is no library.

A function that is exported to C is one that calls, and needs no caller here.

A call is found by its name, since types aren't known here: a function by
`name(`, one of a type T by `T::name`, a method by `.name(`.  Where another
type or the standard library has a method of that name, the file has to name
T, and T's own method of that name doesn't count, as it mostly hands on.  So a
call that nothing calls isn't listed where a file names T and calls another
type's method of that name.
"""

import re
import sys
from collections import Counter, defaultdict
from dataclasses import dataclass
from pathlib import Path

sys.path.insert(0, str(Path(__file__).resolve().parents[1]))

from common import command
from common.sources import COMMENT_OR_TEXT, is_library, libraries

# Names that methods of the standard library have too.
STANDARD = {"chain", "count", "get", "join", "parse", "read"}

USE = re.compile(r"^ *(?:ghost )?(?:pub(?:\([a-z]+\))? )?use [^;]*;", re.MULTILINE)
BLOCK = re.compile(
    r"(?P<trait>(?:pub(?:\([a-z]+\))? )?trait )"
    r"|impl\b(?:<[^{]*?>)? (?P<of>[^{]* for )?(?P<type>[\w:]+)"
)
FUNCTION = re.compile(
    r" *(?P<public>pub )?(?:pub\([a-z]+\) )?(?:const |unsafe )*(?P<exported>extern \S+ )?fn (?P<name>\w+)"
)


@dataclass(frozen=True)
class Function:
    crate: str
    # The type whose function it is; empty where it is none's, or a trait's.
    type: str
    name: str
    # Whether it is public, and no function of a trait.
    is_public: bool
    # From the name up to the next `fn`, and the whole file.
    text: str
    file: str

    def __str__(self):
        return f"{self.crate}: {self.type + '::' if self.type else ''}{self.name}"

    def parameters(self):
        """What is in the parentheses behind the name."""
        start, depth = self.text.index("("), 0
        for at in range(start, len(self.text)):
            depth += {"(": 1, ")": -1}.get(self.text[at], 0)
            if depth == 0:
                break
        return self.text[start + 1 : at]

    def is_asked(self):
        """Whether it takes memory or uses up a value."""
        return re.match(r"\s*(?:mut )?self\b|.*\balloc:", self.parameters(), re.DOTALL) is not None


def functions(crate, file):
    """The functions of a file in order."""
    text = USE.sub("", COMMENT_OR_TEXT.sub('""', file.read_text(encoding="utf-8")))
    of_library = is_library(crate)
    block, found = None, []
    for line in text.splitlines(keepends=True):
        block = BLOCK.match(line) or (None if line.startswith("}") else block)
        function = FUNCTION.match(line)
        if function:
            of_trait = block is not None and (block["trait"] or block["of"])
            of_type = block["type"] if block and block["type"] else ""
            is_public = of_library and function["public"] is not None and not of_trait and not function["exported"]
            found.append([(of_type, function["name"], is_public), line[function.end() :]])
        elif found:
            found[-1][1] += line
    return [Function(crate.name, *what, after, text) for what, after in found]


def calls(body, call, shared):
    """Whether a body calls a function."""
    if not call.type:
        return re.search(rf"(?<![\w.]){call.name}(?:::<|\()", body.text) is not None
    types = rf"{call.type}|Self" if body.type == call.type else call.type
    if re.search(rf"\b(?:{types})(?:::<[^()]*>)?::{call.name}\b", body.text):
        return True
    if not re.search(rf"\.{call.name}(?:::<|\()", body.text):
        return False
    is_own = (body.type, body.name) == (call.type, call.name)
    names_type = re.search(rf"\b{call.type}\b", body.file) is not None
    return call.name not in shared or names_type and not is_own


def unused_calls(crates):
    """The public calls that take memory or use up a value, and those of them that no other body calls."""
    every = [
        function
        for crate in sorted(Path(crates).iterdir())
        for file in sorted(crate.glob("src/**/*.rt"))
        for function in functions(crate, file)
    ]
    bodies = defaultdict(list)
    for body in every:
        for word in set(re.findall(r"\w+", body.text)):
            bodies[word].append(body)
    types = Counter(name for name, _ in {(it.name, it.type) for it in every})
    shared = {name for name, number in types.items() if number > 1} | STANDARD
    asked = [call for call in every if call.is_public and call.is_asked()]
    return asked, [call for call in asked if not any(calls(body, call, shared) for body in bodies[call.name] if body is not call)]


def main(arguments):
    if len(arguments) != 1 or not Path(arguments[0]).is_dir():
        return command.usage(__doc__)
    number = len(libraries(Path(arguments[0])))
    asked, found = unused_calls(arguments[0])
    for call in found:
        print(call)
    print(f"public calls that nothing calls: {len(found)}, of {len(asked)} in {number} libraries")
    return 1 if found else 0


if __name__ == "__main__":
    command.run(main, __doc__)
