#!/usr/bin/env python3
"""Ask the static library what the programs answer, by a caller in C.

Usage:

    python3 tools/gate/door_rows.py [--write FILE] LIBRARY
    python3 tools/gate/door_rows.py --changed N [--bits] [--seed N] LIBRARY PROGRAM

LIBRARY is a folder with `libpicky_door.a` and `liblibc_c.a`.  The rows are the stored
ones of `xgolden_run`, but for failing shelves and programs that the library hasn't, and
those of `xgolden_check`, as far as the words of the program say what is asked; their
golden output is what is wanted, each within the buffer that the row has.  A file's name
among the words becomes that of the library's call.  Where a line is longer than the
buffer, the library writes nothing of it.

With `--changed` N real files that are changed at random are asked of both, with `--bits`
N files of which one bit is changed: PROGRAM is the executable of the crate `xgolden_run`, which calls `run` of the programs.  `--write`
keeps the rows, for `bindings/c/rows.c` under a sanitizer or valgrind.  Exit status 1 says
that an answer differs.
"""

import argparse
import random
import subprocess
import sys
from pathlib import Path
from tempfile import TemporaryDirectory

sys.path.insert(0, str(Path(__file__).resolve().parents[1]))

from common import command, folders
from golden import damaged_runs
from golden.stored_run import stored

BINDINGS = folders.ROOT / "bindings"
# A program's name in the rows, and the kind of call; `picky chain` is another.
KINDS = {"picky": "check", "picky_pe": "pe", "picky_ask": "ask"}
ROOM = 4096


def hexadecimal(text):
    return text.encode().hex() or "-"


# Rows of xgolden_run.

def call_of(program, room, files, words):
    """The row of the caller in C for a row of `xgolden_run`; None where the library has no such call, or words are missing or empty."""
    if program not in KINDS or not words or "" in words or (program == "picky" and words[0] == "demo"):
        return None
    kind = "chain" if words[:1] == ["chain"] else KINDS[program]
    words_at, words, given = words, list(words), {}

    def renamed(place, name):
        if place < len(words) and words[place] in files:
            given[name] = files[words[place]]
            words[place] = name

    def pooled(first):
        lengths, octets = [], []
        for place in range(first, len(words)):
            if words[place] in files and len(lengths) < 32:
                text, _, count = files[words[place]].partition("*")
                words[place] = str(len(lengths))
                lengths.append(f"{len(text.strip('-')) // 2 * int(count or 1)}\n")
                octets.append("" if text == "-" else files[words_at[place]])
        given["POOL"], given["LENGTHS"] = "+".join(filter(None, octets)), hexadecimal("".join(lengths))

    if kind in ("check", "pe"):
        renamed(1 if kind == "check" else 0, "FILE")
        renamed(2 if kind == "check" else 1, "TABLE")
        for place, word in enumerate(words):
            if word == "--list":
                renamed(place + 1, "LIST")
        words = [{"FILE": "SIG" if kind == "check" else "PROGRAM"}.get(word, word) for word in words]
        shown = given.get("FILE"), given.get("TABLE"), given.get("LIST")
    else:
        if kind == "chain":
            renamed(1, "TABLE")
            pooled(3)
        else:
            pooled(1 if words[:1] == ["--chain"] else 0)
        shown = given.get("POOL"), given.get("TABLE"), given.get("LENGTHS")
    return " ".join([kind, room, hexadecimal("\n".join(words)), *(octets or "-" for octets in shown)])


def read_row(row):
    program, room, fails, files, *words = row.split(" ")
    pairs = () if files == "-" else (pair.partition("=") for pair in files.split(","))
    return program, room, fails, {name: octets for name, _, octets in pairs}, words


def wanted(text, room):
    """What the caller in C prints, where the program has this status and line."""
    status, _, line = text.partition(" ")
    if status == "5" or not line:
        return f"{status} "
    return f"{status} {line}|".replace("\n", "|")


def stored_runs():
    rows, lines = stored("xgolden_run", "run")
    for row, text in zip(rows, damaged_runs.runs_in("\n".join(lines)), strict=True):
        program, room, fails, files, words = read_row(row)
        call = call_of(program, room, files, words) if fails == "-" else None
        if call:
            yield call, wanted(text, room)


# Rows of xgolden_check.

def moment(digits):
    return f"{digits[:4]}-{digits[4:6]}-{digits[6:8]}T{digits[8:10]}:{digits[10:12]}:{digits[12:14]}"


def words_of(flags, digest, lower, upper, seconds):
    """The words of the program for a policy; None where they don't say it."""
    if "b" not in flags or digest == "-" or "e" in flags:
        return None
    if "s" not in flags:
        return ["basic", "SIG", "TABLE", digest] if not set(flags) - {"b"} else None
    if lower == "-" or ("a" in flags and not (seconds.isdecimal() and len(seconds) <= 18)):
        return None
    words = ["check", "SIG", "TABLE", digest, moment(lower)]
    words += [] if upper == "-" else ["--until", moment(upper)]
    words += [option for letter, option in (("f", "--no-before"), ("l", "--no-after"), ("c", "--no-chain")) if letter not in flags]
    return words + (["--list", "LIST", seconds] if "a" in flags else [])


def stored_checks():
    cases, lines = stored("xgolden_check", "check")
    answers = iter(lines)
    for case in cases:
        file, table, *policies = case.split(" ")
        text = "" if table == "-" else table.replace(":", " ").replace(";", "\n")
        for policy in policies:
            answer = next(answers)
            flags, digest, lower, upper, change, *lists = policy.split(",")
            trust_list, seconds, excluded = lists or ("-", "0", "-")
            words = words_of(flags, digest, lower, upper, seconds)
            if words is None or excluded != "-" or ("a" in flags) != (trust_list != "-") or not answer.startswith(("accepted ", "refused ")):
                continue
            octets = file
            if change != "-":
                at = 2 * int(change[:4], 16)
                octets = file[:at] + change[4:] + file[at + 2:]
            status, line = ("0", answer) if answer.startswith("accepted") else ("1", " ".join(answer.split(" ")[:2]))
            shown = trust_list if "a" in flags and trust_list else "-"
            yield f"check {ROOM} {hexadecimal(chr(10).join(words))} {octets} {hexadecimal(text)} {shown}", f"{status} {line}|"


# Both.

def asked(library, folder, rows):
    """What the caller in C prints of these rows."""
    caller = folder / "rows"
    subprocess.run(["cc", "-std=gnu11", "-Wall", "-Wextra", "-Werror", "-O1", f"-I{BINDINGS}/c", BINDINGS / "c/rows.c", f"-L{library}",
                    "-lpicky_door", "-llibc_c", "-lpthread", "-o", caller], check=True)
    done = subprocess.run([caller], input="".join(f"{row}\n" for row in rows), capture_output=True, text=True)
    if done.returncode:
        raise command.Refusal(f"the caller in C ends with {done.returncode}: {done.stderr.strip()}")
    return done.stdout.splitlines()


def with_bit(chance, octets):
    """The octets with one bit changed."""
    place, bit = divmod(chance.randrange(8 * len(octets)), 8)
    return octets[:place] + bytes([octets[place] ^ 1 << bit]) + octets[place + 1:]


def bit_cases(seed, count):
    """Commands and their files, of one of which one bit is changed."""
    chance, kinds = random.Random(seed), damaged_runs.commands_of(tuple(KINDS))
    for _ in range(count):
        given = chance.choice(chance.choice(kinds))
        name = chance.choice([name for name in sorted(given.files) if given.files[name]])
        yield given, {**given.files, name: with_bit(chance, given.files[name])}


def changed(cases, program, folder):
    """Rows of files that are changed, and what the program answers."""
    drawn = [damaged_runs.vector(given, files) for given, files in cases]
    lines, status, _ = damaged_runs.run(program, drawn, folder)
    if status:
        raise command.Refusal(f"{program} ends with {status}")
    for row, text in zip(drawn, lines, strict=True):
        name, room, _, files, words = read_row(row)
        call = call_of(name, room, files, words)
        if call:
            yield call, wanted(text, room)


def main(words):
    parser = argparse.ArgumentParser(add_help=False)
    parser.add_argument("--changed", type=int, default=0)
    parser.add_argument("--bits", action="store_true")
    parser.add_argument("--seed", type=int, default=1)
    parser.add_argument("--write")
    parser.add_argument("library")
    parser.add_argument("program", nargs="?")
    given = parser.parse_args(words)
    with TemporaryDirectory() as name:
        folder = Path(name)
        if given.changed:
            cases = bit_cases(given.seed, given.changed) if given.bits else damaged_runs.cases(given.seed, given.changed, tuple(KINDS))
            pairs = [*changed(cases, given.program, folder)]
        else:
            pairs = [*stored_runs(), *stored_checks()]
        rows = [row for row, _ in pairs]
        if given.write:
            Path(given.write).write_text("".join(f"{row}\n" for row in rows))
        found = asked(Path(given.library).resolve(), folder, rows)
    differ = [(row, text, shown) for (row, text), shown in zip(pairs, found, strict=True) if text != shown]
    for row, text, shown in differ[:20]:
        print(f"{row[:160]}: {shown!r}, not {text!r}")
    print(f"door: {len(pairs)} calls, {len(differ)} differ")
    return 1 if differ else 0


if __name__ == "__main__":
    command.run(main, __doc__)
