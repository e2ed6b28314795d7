#!/usr/bin/env python3
"""Write into the README of each library its calls with their clauses, and its example.

Usage:

    python3 tools/gate/crate_readmes.py CRATES
    python3 tools/gate/crate_readmes.py --check CRATES

writes in each `CRATES/NAME/README.md` two parts from the sources:

- below `## Example` the block ```rust: the file
  `CRATES/xtest_readme/src/of_NAME.rt` up to its first `#[test]`, without
  its `//!`, `ghost use` and `use std::test` (no module may have a library's
  name, so the file is called `of_NAME`); of a library with an example of its
  own the file `CRATES/NAME/src/citing.rt`; of one with exports for C the
  block ```c: the file `CRATES/../bindings/c/example.c`;
- between the lines `<!-- calls -->` and `<!-- /calls -->` the public calls of
  `CRATES/NAME/src` by file, with the names of their clauses, and the
  implementations of traits.  A clause without a name is a "contract".

With `--check` it writes nothing, names each README that is out of date and
each library that has none, and ends with the status 1 where there is one.
Status 2: the arguments or a file can't be used, or there is no library.

Public is what `src/lib.rt` exports, and each `extern "C"` function.  Left out are what a derive or another
macro writes, and `Drop` and `Model`, which promise nothing.
"""

import re
import sys
from dataclasses import dataclass, field
from pathlib import Path

sys.path.insert(0, str(Path(__file__).resolve().parents[1]))

from common.command import Refusal
from common.sources import COMMENT_OR_TEXT, libraries

NO_PROMISE = {"Drop", "Model"}
START, END = "<!-- calls -->", "<!-- /calls -->"
HEAD = """\
From the sources, by `tools/gate/crate_readmes.py`. "contract" is one clause without a name; `requires` marks a precondition; a type also keeps the clauses of its traits."""

CLAUSE = re.compile(r"\b(?P<kind>requires|ensures|decreases)\*?\s*(?P<name>[^\s{}()]*)\s*$")
FUNCTION = re.compile(r"(?:(?P<public>pub(?P<inside>\([^)]*\))?)\s+)?(?:(?:const|unsafe|final|(?P<export>extern\s+\S+))\s+)*fn\s+(?P<name>\w+)")
GHOST = re.compile(r"(?:pub(?:\([^)]*\))?\s+)?ghost\s+(?P<name>[^\s:={]+)\s*[:=]")
TYPE = re.compile(r"(?:pub(?:\([^)]*\))?\s+)?(?P<kind>struct|enum|union|trait)\s+(?P<name>\w+)")
ALIAS = re.compile(r"(?:pub(?:\([^)]*\))?\s+)?type\s+(?P<name>\w+)")


class Unusable(Refusal):
    """Arguments or a file that can't be used."""


@dataclass
class Call:
    """A function: its type or trait, or the words of an implementation, and its clauses."""

    name: str
    is_public: bool
    is_for_c: bool = False
    requires: list = field(default_factory=list)
    ensures: list = field(default_factory=list)


@dataclass
class Block:
    """An `impl`, a trait or a type: its ghost members and its functions."""

    kind: str
    name: str
    of_trait: str = ""
    ghosts: list = field(default_factory=list)
    calls: list = field(default_factory=list)


def masked(text):
    """The text without comments and without what strings and characters hold."""
    return COMMENT_OR_TEXT.sub(lambda it: "" if it[0].startswith("/") else '""', text)


def end_of(text, at):
    """The offset after the bracket that closes the one at an offset."""
    depth = 0
    for end in range(at, len(text)):
        depth += {"(": 1, "[": 1, "{": 1, ")": -1, "]": -1, "}": -1}.get(text[end], 0)
        if depth == 0:
            return end + 1
    raise Unusable("a bracket isn't closed")


def next_stop(text, at, stops):
    """The offset of the first of some characters outside of parentheses and square brackets."""
    while at < len(text) and text[at] not in stops:
        at = end_of(text, at) if text[at] in "([" else at + 1
    return at


def function_at(text, match):
    """A function, and the offset after it."""
    call = Call(match["name"], match["public"] is not None and match["inside"] is None, match["export"] is not None)
    start = at = match.end()
    while True:
        at = next_stop(text, at, "{;")
        if at == len(text) or text[at] == ";":
            return call, at + 1
        clause = CLAUSE.search(text, start, at)
        start = at = end_of(text, at)
        if clause is None:
            return call, at
        if clause["kind"] != "decreases":
            getattr(call, clause["kind"]).append(clause["name"])


def header_of(words):
    """The trait and the type of the head of an `impl`."""
    words = re.sub(r"->", "=>", " ".join(words.split()))
    words = re.sub(r"^impl\s*", "", words)
    depth, parts, last = 0, [], 0
    for at, letter in enumerate(words):
        depth += letter == "<"
        if letter == ">" and words[at - 1] != "=":
            depth -= 1
            if depth == 0 and words.startswith("<") and last == 0 and not parts:
                last, parts = at + 1, []
                words = " " * last + words[last:]
        if depth == 0 and words.startswith(" for ", at):
            parts.append(words[last:at])
            last = at + 5
        if depth == 0 and words.startswith(" where ", at):
            words = words[:at]
            break
    parts.append(words[last:])
    of_trait, of_type = (["", *parts])[-2:]
    return of_trait.strip().replace("=>", "->"), of_type.strip().replace("=>", "->")


def items_of(text):
    """The functions, implementations, traits and types of a text, in order."""
    found, at = [], 0
    while at < len(text):
        if text[at].isspace() or text[at] in "},":
            at += 1
        elif text[at] == "#":
            at = end_of(text, text.index("[", at))
        elif match := FUNCTION.match(text, at):
            call, at = function_at(text, match)
            found.append(call)
        elif match := re.compile(r"(?:unsafe\s+)?impl\b").match(text, at):
            body = next_stop(text, at, "{")
            of_trait, of_type = header_of(text[at:body])
            at = end_of(text, body)
            found.append(members_of(Block("impl", of_type, of_trait), text[body + 1 : at - 1]))
        elif match := TYPE.match(text, at):
            body = next_stop(text, at, "{;")
            at = end_of(text, body) if text[body : body + 1] == "{" else body + 1
            inside = text[body + 1 : at - 1] if at > body + 1 else ""
            found.append(members_of(Block(match["kind"], match["name"]), inside))
        else:
            if match := ALIAS.match(text, at):
                found.append(Block("type", match["name"]))
            stop = next_stop(text, at, ";{" if text.startswith(("mod ", "macro_rules", "extern"), at) else ";")
            at = end_of(text, stop) if text[stop : stop + 1] == "{" else stop + 1
    return found


def members_of(block, text):
    """The block with the ghost members and the functions of its body."""
    if block.kind in ("struct", "enum", "union"):
        for line in re.finditer(r"(?m)^\s*pub\s+ghost\s+([^\s:={]+)\s*:", text):
            block.ghosts.append(line[1])
        return block
    at = 0
    while at < len(text):
        if text[at].isspace():
            at += 1
        elif text[at] == "#":
            at = end_of(text, text.index("[", at))
        elif match := FUNCTION.match(text, at):
            call, at = function_at(text, match)
            block.calls.append(call)
        else:
            match = GHOST.match(text, at)
            if match:
                block.ghosts.append(match["name"])
            while at < len(text) and text[at] != ";":
                at = end_of(text, at) if text[at] in "([{" else at + 1
            at += 1
    return block


def names_in(tree):
    """The names that the words of a `pub use` bring in, each by the name of the item."""
    for part in re.split(r",(?![^{]*\})", tree):
        part = part.strip()
        if part.endswith("}"):
            yield from names_in(part[part.index("{") + 1 : -1])
        elif part:
            path, _, shown = part.partition(" as ")
            name = path.split("::")[-1].strip()
            yield name, shown.strip() or name


def exports_of(root):
    """The names that a library exports, by those of the items, and its public modules."""
    text = masked(root.read_text(encoding="utf-8"))
    trees = re.findall(r"(?m)^pub use ([^;]*);", text)
    names = dict(pair for tree in trees for pair in names_in(tree))
    return names, set(re.findall(r"(?m)^pub mod (\w+);", text))


def short(words):
    """A type or a trait without paths and lifetimes."""
    words = re.sub(r"\b(?:\w+::)+", "", words)
    words = re.sub(r"'\w+(?:,\s*)?", "", words)
    return words.replace("<>", "").replace("& ", "&")


def clauses_of(call):
    """What a table says of the clauses of a call."""
    named = [f"`{name}`" for name in call.ensures if name]
    ensures = ["contract"] * ("" in call.ensures) + named
    asked = [f"`{name}`" for name in call.requires if name]
    if call.requires:
        asked = [" ".join(["requires", ", ".join(asked)]).strip()]
    return "; ".join(asked + [", ".join(ensures)] * bool(ensures)) or "none"


def members_said(block):
    """What a table says of an implementation of a trait; empty where it has no clause of its own."""
    said = [", ".join(f"`{ghost}`" for ghost in block.ghosts)] * bool(block.ghosts)
    for call in block.calls:
        if call.ensures:
            named = f"`{call.name}` " if len(block.calls) > 1 else ""
            said.append(named + clauses_of(call))
    return "; ".join(said)


def calls_and_traits(crate):
    """By file the public calls with their clauses, and the implementations of traits."""
    root = crate / "src" / "lib.rt"
    names, modules = exports_of(root)
    parsed = {}
    for file in sorted((crate / "src").glob("**/*.rt")):
        try:
            parsed[file.relative_to(crate / "src")] = items_of(masked(file.read_text(encoding="utf-8")))
        except Unusable as why:
            raise Unusable(f"{file}: {why}") from None
    own = {
        item.name
        for items in parsed.values()
        for item in items
        if isinstance(item, Block) and item.kind != "impl"
    }
    hidden = own - {*names} - {
        item.name for path, items in parsed.items() if path.stem in modules for item in items
    }
    tables, traits = {}, {}
    for path, items in parsed.items():
        rows = []
        for item in items:
            if isinstance(item, Call):
                if item.is_public and (item.is_for_c or item.name in names or path.stem in modules):
                    inside = f"{path.stem}::" if path.stem in modules else ""
                    shown = names.get(item.name, item.name)
                    rows.append((f"{inside}{shown}", clauses_of(item)))
                continue
            if hidden & set(re.findall(r"\w+", f"{item.name} {item.of_trait}")):
                continue
            name = re.match(r"[^<]*", short(item.name))[0]
            if item.of_trait:
                if re.match(r"\w*", short(item.of_trait))[0] not in NO_PROMISE:
                    said = members_said(item)
                    if said:
                        of_one = traits.setdefault(short(item.of_trait), {})
                        of_one.setdefault(said, []).append(short(item.name))
                continue
            if item.ghosts:
                kind = "ghost member" if item.kind == "trait" else "ghost field"
                kind += "s" * (len(item.ghosts) > 1)
                rows.append((name, f"{kind} " + ", ".join(f"`{ghost}`" for ghost in item.ghosts)))
            for call in item.calls:
                if call.is_public or item.kind == "trait":
                    rows.append((f"{name}::{call.name}", clauses_of(call)))
        if rows:
            tables[path] = rows
    return tables, traits


def grouped(rows):
    """Rows of one file in which calls that follow one another and have the same clauses are one."""
    found = []
    for name, clauses in rows:
        if found and found[-1][1] == clauses:
            found[-1][0].append(name)
        else:
            found.append(([name], clauses))
    return found


def listed(names):
    """Names one after another, the type before the first alone where several are of one."""
    last, words = None, []
    for name in names:
        of_type, _, method = name.rpartition("::")
        words.append(f"`{method if of_type and of_type == last else name}`")
        last = of_type
    return ", ".join(words)


def calls_text(crate):
    """What is between the marks."""
    tables, traits = calls_and_traits(crate)
    lines = [HEAD, ""]
    if tables:
        lines += ["| file | call | clauses |", "|---|---|---|"]
        for path, rows in tables.items():
            shown = f"`{path.as_posix()}`"
            for names, clauses in grouped(rows):
                lines.append(f"| {shown} | {listed(names)} | {clauses} |")
                shown = ""
        lines.append("")
    if traits:
        lines += ["| trait | types | members and clauses |", "|---|---|---|"]
        for trait, by_words in sorted(traits.items()):
            for words, types in by_words.items():
                names = ", ".join(f"`{name}`" for name in types)
                lines.append(f"| `{trait}` | {names} | {words} |")
        lines.append("")
    return "\n".join(lines)


def has_exports(crate):
    """Whether a library has functions for C."""
    files = (crate / "src").glob("**/*.rt")
    return any(re.search(r'(?m)^pub extern "C" fn', file.read_text(encoding="utf-8")) for file in files)


def text_of_example(file):
    """The file that has the example of a README."""
    try:
        return file.read_text(encoding="utf-8")
    except OSError:
        raise Unusable(f"{file} can't be read: it has the example of the README") from None


def example_text(file):
    """The example in a file: its `use` items and its functions, up to the first test."""
    text = text_of_example(file)
    text = text.split("\n#[test]")[0]
    start = re.search(r"(?m)^(?:///|#\[|(?:pub )?(?:fn|struct|enum|const|type|impl)\b)", text)
    if start is None:
        raise Unusable(f"{file} has no function ahead of its first test")
    uses = re.findall(r"(?m)^use (?!std::test\b)[^;]*;\n", text[: start.start()])
    return "".join(uses) + "\n" * bool(uses) + text[start.start() :].rstrip() + "\n"


def example_of(crate, crates):
    """The file with the example of a crate: its own, if it has one."""
    own = crate / "src" / "citing.rt"
    return own if own.is_file() else crates / "xtest_readme" / "src" / f"of_{crate.name}.rt"


def written(text, crate, crates):
    """The text of a README with both parts as the sources have them."""
    readme = crate / "README.md"
    lines = text.splitlines()
    if lines.count(START) != 1 or lines.count(END) != 1 or lines.index(START) > lines.index(END):
        raise Unusable(f"{readme} needs one line {START} and one line {END} below it")
    first, last = lines.index(START), lines.index(END)
    lines[first + 1 : last] = ["", *calls_text(crate).splitlines(), ""]
    if "## Example" not in lines:
        raise Unusable(f"{readme} needs a line ## Example")
    example = lines.index("## Example")
    language = "c" if has_exports(crate) else "rust"
    try:
        start = lines.index(f"```{language}", example)
        end = lines.index("```", start)
    except ValueError:
        raise Unusable(f"{readme} needs a block ```{language} below ## Example") from None
    if language == "c":
        shown = text_of_example(crates.parent / "bindings" / "c" / "example.c")
    else:
        shown = example_text(example_of(crate, crates))
        # an example in the crate itself names it as callers do
        shown = shown.replace("use crate::", f"use {crate.name}::")
    lines[start + 1 : end] = shown.splitlines()
    return "\n".join(lines) + "\n"


def main(arguments):
    if arguments in (["--help"], ["-h"]):
        print(__doc__.strip())
        return 0
    is_check = "--check" in arguments
    folders = [it for it in arguments if it != "--check"]
    if len(folders) != 1 or folders[0].startswith("-"):
        print("usage: crate_readmes.py [--check] CRATES", file=sys.stderr)
        return 2
    crates = Path(folders[0])
    if not crates.is_dir():
        print(f"crate_readmes.py: {crates} is no folder", file=sys.stderr)
        return 2
    stale, read = [], []
    try:
        read = libraries(crates)
        for crate in read:
            readme = crate / "README.md"
            if not readme.is_file():
                stale.append(f"{crate.name} has no README.md")
                continue
            text = readme.read_text(encoding="utf-8")
            wanted = written(text, crate, crates)
            if wanted != text and is_check:
                stale.append(f"{readme} is out of date: run tools/gate/crate_readmes.py {crates}")
            elif wanted != text:
                readme.write_text(wanted, encoding="utf-8")
                print(f"{readme} is written")
    except (Refusal, OSError, UnicodeDecodeError) as why:
        print(f"crate_readmes.py: {why}", file=sys.stderr)
        return 2
    if is_check:
        for line in stale:
            print(line)
        print(f"READMEs that are out of date: {len(stale)}, of {len(read)}")
        return 1 if stale else 0
    return 0


if __name__ == "__main__":
    sys.exit(main(sys.argv[1:]))
