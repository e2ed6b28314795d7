#!/usr/bin/env python3
"""Build the callers in `bindings/` over a library, and compare what they answer.

Usage:

    python3 tools/gate/bindings.py FOLDER
    python3 tools/gate/bindings.py --stand-in

FOLDER has `libpicky_door.a`, and `liblibc_c.a` or the kit does, whose `rt` is on the path.
With it the callers check the stored signature and the stored program of `crates/picky` and
`crates/picky_pe`, as they are, with octets changed, and with words for each status, and answer
as the built programs of crates/NAME/out do over files; with `--stand-in` a library in C takes
its place, which shows what comes in.  Each table goes as
octets and by a handle, which is made, kept, replaced and freed.  The caller in C also has
buffers of each length, and each request for memory refused in turn.  The symbols of the
library are those of `picky.h`, and what `bindings/install.sh` installs is found by
`pkg-config`.  C always takes part, the others where their compiler is there; which don't is
printed.  Exit status 1 says that an answer differs.
"""

import os
import random
import re
import shutil
import subprocess
import sys
from pathlib import Path
from tempfile import TemporaryDirectory
from typing import NamedTuple

sys.path.insert(0, str(Path(__file__).resolve().parents[1]))

from common import command, folders

BINDINGS = folders.ROOT / "bindings"
HASH, DATE = "1f8a9e8264515148172219a76fc4c40c33dba6a7255e31082f95d6f6470021cd", "2023-06-15"
ACCEPTED = "accepted signer=0 path=1,2 excuse=none\n"
LINKED = "-lpicky_door", "-llibc_c"
STRICT = "-Wall", "-Wextra", "-Werror"
LONGEST = 16_777_216
# What is done to a handle (bindings/c/caller.c).
STEPS = "cpccbceclcpcffc"
# How many of the first calls are made so too, and how many of these with a table that is too long.
WITH_HANDLES, WITH_LONG = 13, 2


class Case(NamedTuple):
    """The words of a caller, with octets in the place of files, and what it prints; None where it is what the program answers."""

    kind: str
    files: tuple
    words: tuple
    printed: object


# Callers.

def built(*words, folder=None, **environment):
    subprocess.run([str(word) for word in words], cwd=folder, check=True, stdout=subprocess.DEVNULL, env={**os.environ, **environment})


def in_c(library, folder):
    for name in ("caller", "refused"):
        wrapped = ["-Wl,--wrap=malloc,--wrap=realloc,--wrap=free"] if name == "refused" else []
        built("cc", "-std=c11", *STRICT, "-O1", f"-I{BINDINGS}/c", BINDINGS / f"c/{name}.c", f"-L{library}", *LINKED, *wrapped, "-o", folder / name)
    return [folder / "caller"]


def in_cpp(library, folder):
    built("c++", "-std=c++17", *STRICT, f"-I{BINDINGS}/c", f"-I{BINDINGS}/cpp", BINDINGS / "cpp/caller.cpp", f"-L{library}", *LINKED, "-o", folder / "in_cpp")
    return [folder / "in_cpp"]


def in_rust(library, folder):
    built("cargo", "build", "--offline", "--quiet", "--example", "caller", "--target-dir", folder / "rust", folder=BINDINGS / "rust", PICKY_DOOR=str(library))
    return [folder / "rust/debug/examples/caller"]


def in_go(library, folder):
    built("go", "build", "-o", folder / "in_go", "./caller", folder=BINDINGS / "go", CGO_CFLAGS=f"-I{BINDINGS}/c", CGO_LDFLAGS=f"-L{library}",
          GOCACHE=str(folder / "go"), GOFLAGS="-mod=mod")
    return [folder / "in_go"]


def in_python(library, folder):
    built("cc", "-shared", "-o", folder / "libpicky_door.so", "-Wl,--whole-archive", library / "libpicky_door.a", "-Wl,--no-whole-archive", library / "liblibc_c.a")
    return [sys.executable, BINDINGS / "python/caller.py", folder / "libpicky_door.so"]


CALLERS = {"C": ("cc", in_c), "C++": ("c++", in_cpp), "Rust": ("cargo", in_rust), "Go": ("go", in_go), "Python": ("cc", in_python)}


def answer(caller, case, folder, **environment):
    """What a caller prints of a case."""
    paths = []
    for place, octets in enumerate(case.files):
        path = folder / f"file{place}"
        if octets is not None:
            path.write_bytes(octets)
        paths.append("-" if octets is None else path)
    done = subprocess.run([*map(str, caller), case.kind, *map(str, paths), *case.words], capture_output=True, env={**os.environ, **environment})
    return done.stdout.decode() if done.returncode == 0 else f"status {done.returncode} of the process: {done.stderr.decode()}"


# Cases.

def of_stand_in():
    for kind in ("check", "pe"):
        for words in ((), ("",), ("a",), ("", "b"), ("check", "SIG", "ä"), ("x" * 700,)):
            shown = "|".join(words)
            yield Case(kind, (b"\0\1\n", b"0" + bytes(9), None), words, f"0 {kind} 3 10 0 {shown}\n")
            yield Case(kind, (None, b"1", b"list"), words, f"1 {kind} 0 1 4 {shown}\n")
        yield Case("chain" if kind == "check" else "ask", (b"abcdef", b"0", b"1\n2\n3\n"), ("a", "b"), f"0 {'chain' if kind == 'check' else 'ask'} 6 1 123 a|b\n")
        for status in (2, 3, 4, 6, 7):
            yield Case(kind, (b"", str(status).encode(), None), ("a",), f"{status} ")


def changed(chance, octets):
    found = bytearray(octets)
    place = chance.randrange(len(found))
    found[place] ^= 1 << chance.randrange(8)
    return bytes(found)


def files_by_name(case):
    """The files of a case by the names that its words have for them."""
    octets = [it or b"" for it in case.files]
    if case.kind in ("check", "pe"):
        return dict(zip(("SIG" if case.kind == "check" else "PROGRAM", "TABLE", "LIST"), octets))
    pool, at, found = octets[0], 0, {} if case.kind == "ask" else {"TABLE": octets[1]}
    for place, length in enumerate(map(int, octets[2].split())):
        found[str(place)], at = pool[at:at + length], at + length
    return found


def by_program(case, crates=folders.CRATES):
    """What a caller prints where the call answers as the built program does over these files."""
    name = {"pe": "picky_pe", "ask": "picky_ask"}.get(case.kind, "picky")
    program = crates / name / "out" / name
    if not program.is_file():
        raise command.Refusal(f"{program} isn't there, which says what is expected")
    with TemporaryDirectory() as folder:
        for file, octets in files_by_name(case).items():
            Path(folder, file).write_bytes(octets)
        done = subprocess.run([program, *case.words], cwd=folder, stdin=subprocess.DEVNULL, capture_output=True, timeout=60)
    return f"{done.returncode} {done.stdout.decode()}"


def of_library():
    data, program_data = folders.CRATES / "picky/data", folders.CRATES / "picky_pe/data"
    signature, table = (data / "signed.bin").read_bytes(), (data / "signed_table.txt").read_bytes()
    program = (program_data / "signed.exe").read_bytes()
    check, pe = ("check", "SIG", "TABLE", HASH, DATE), ("PROGRAM", "TABLE", DATE)
    length = str(len(signature)).encode()
    yield Case("check", (signature, table, None), check, f"0 {ACCEPTED}")
    yield Case("pe", (program, table, None), pe, f"0 {ACCEPTED}")
    yield Case("check", (signature, table, None), (*check[:3], "00", DATE), "1 refused FileHashMismatch\n")
    yield Case("check", (signature, table, None), ("basic", "SIG", "TABLE", HASH), "0 accepted signer=0 path= excuse=none\n")
    yield Case("check", (None, table, None), check, "1 refused WrongLength\n")
    yield Case("check", (signature, table, None), (), "2 ")
    yield Case("check", (signature, b"x\n", None), check, "3 ")
    yield Case("check", (signature, table, None), (check[0], "OTHER", *check[2:]), "4 ")
    yield Case("check", (bytes(LONGEST + 1), table, None), check, "6 ")
    yield Case("pe", (program, table, None), ("PROGRAM", "TABLE"), "2 ")
    yield Case("pe", (program, table, b""), (*pe, "--list", "LIST", "0"), "1 refused FailedToParseCtl\n")
    yield Case("chain", (signature, table, length), ("chain", "TABLE", DATE, "0"), None)
    yield Case("chain", (signature, table, length), ("chain", "TABLE", DATE, "0", "1"), "4 ")
    yield Case("ask", (signature, None, length), ("0",), None)
    yield Case("ask", (signature, None, length), ("1",), "4 ")
    yield Case("ask", (b"", None, b"0"), ("--chain", "0"), None)
    chance = random.Random(1)
    for _ in range(20):
        yield Case("check", (changed(chance, signature), table, None), check, None)
        yield Case("pe", (changed(chance, program), table, None), pe, None)


# Handles.

def long_table(table):
    """A table of more octets than a file may have: its last line again and again."""
    last = table.splitlines(keepends=True)[-1]
    return table + last * (LONGEST // len(last) + 1)


def without_table(call, case):
    """The answer where no file has the name that the words have for the table."""
    return call(case._replace(words=tuple("NONE" if word == "TABLE" else word for word in case.words)))


def by_steps(steps, call, call_without, case, long_text):
    """What a caller prints of the steps: each call as where the file TABLE has the text of the handle, or isn't there."""
    text, printed = None, ""
    for step in steps:
        if step == "c":
            printed += call_without(case) if text is None else call(case._replace(files=(case.files[0], text, case.files[2])))
        elif step == "f":
            text = None
        else:
            new = {"p": case.files[1], "b": b"x\n", "e": b"", "l": long_text}[step]
            is_bad = new.startswith(b"x")
            printed += f"{step}{3 if is_bad else 0} "
            text = text if is_bad else new
    return printed


def rooms(caller, case, folder, **environment):
    """Answers that differ for a buffer of each length up to the line's, by the caller in C: none of the line fits until all of it does."""
    before = "p0 " if environment else ""
    whole = case.printed.split(" ", 1)[1]
    for room in range(len(whole) + 2):
        expected = before + (case.printed if room >= len(whole) else "5 ")
        found = answer(caller, case, folder, ROOM=str(room), **environment)
        if found != expected:
            yield f"a buffer of {room}: {found!r}, not {expected!r}"


# The library.

def gathered(library, folder):
    """A folder with both libraries."""
    folder.mkdir()
    kit = shutil.which("rt")
    places = [library, *([Path(kit).resolve().parents[1] / "c"] if kit else [])]
    for name in ("libpicky_door.a", "liblibc_c.a"):
        found = [place / name for place in places if (place / name).exists()]
        if not found:
            raise command.Refusal(f"{library} has no {name}")
        shutil.copy(found[0], folder)
    return folder


def symbols(library):
    printed = subprocess.run(["nm", "--defined-only", "--extern-only", library / "libpicky_door.a"], capture_output=True, text=True, check=True).stdout
    return set(re.findall(r" T (picky_\w+)$", printed, re.MULTILINE))


def declared():
    return set(re.findall(r"^(?:uint8_t|void) (picky_\w+)\(", (BINDINGS / "c/picky.h").read_text(), re.MULTILINE))


def stand_in(folder):
    folder.mkdir()
    built("cc", "-c", "-fPIC", "-O1", *STRICT, f"-I{BINDINGS}/c", BINDINGS / "stand_in/stand_in.c", "-o", folder / "stand_in.o")
    built("ar", "rcs", folder / "libpicky_door.a", folder / "stand_in.o")
    built("ar", "rcs", folder / "liblibc_c.a")
    return folder


def installed(library, folder):
    """The example over what is installed below a prefix, built with the words of pkg-config, or with ours where it isn't there."""
    prefix = folder / "prefix"
    built("sh", BINDINGS / "install.sh", library, prefix)
    words = [f"-I{prefix}/include", f"-L{prefix}/lib", *LINKED]
    if shutil.which("pkg-config"):
        told = subprocess.run(["pkg-config", "--cflags", "--libs", "picky"], capture_output=True, text=True, check=True,
                              env={**os.environ, "PKG_CONFIG_PATH": f"{prefix}/lib/pkgconfig"}).stdout.split()
        if sorted(told) != sorted(words):
            yield f"pkg-config: {told}, not {words}"
        words = told
    built("cc", "-std=c11", *STRICT, BINDINGS / "c/example.c", *words, "-o", folder / "example")


def of_example(folder, is_stand_in):
    """What is wrong of the example's answers: 0 where the line is the one that is expected, and 1 where that is another."""
    data = folders.CRATES / "picky/data"
    files, printed = (data / "signed.bin", data / "signed_table.txt"), ACCEPTED
    if is_stand_in:
        files = folder / "signature", folder / "table"
        for path, octets in zip(files, (b"abc", b"0")):
            path.write_bytes(octets)
        printed = f"check 3 1 0 check|SIG|TABLE|{HASH}|{DATE}\n"
    whole = printed.rstrip("\n")
    for line in (whole, "accepted signer=0 path= excuse=none", whole[:-1], f"{whole}\n", ""):
        done = subprocess.run([folder / "example", *files, HASH, DATE, line], capture_output=True, text=True)
        if (done.returncode, done.stdout) != (0 if line == whole else 1, printed):
            yield f"the example, of which {line!r} is expected: {done.returncode} {done.stdout!r}"


def compared(library, cases, folder, is_stand_in):
    """The differences, each in a line."""
    if symbols(library) != declared():
        yield f"the library has {sorted(symbols(library))}, and picky.h {sorted(declared())}"
    yield from installed(library, folder)
    callers, left_out = {}, []
    for name, (compiler, build) in CALLERS.items():
        if shutil.which(compiler):
            callers[name] = build(library, folder)
        else:
            left_out.append(name)
    first = callers["C"]

    def in_c_alone(case):
        return answer(first, case, folder)

    # What is expected of a call comes from a program; the stand-in's cases say it themselves.
    expected_of = in_c_alone if is_stand_in else by_program

    def without(case):
        return "4 " if is_stand_in else without_table(expected_of, case)

    long_text = long_table(cases[0].files[1])
    (folder / "long").write_bytes(long_text)
    for name, caller in callers.items():
        case = cases[0]._replace(words=("a\nb",))
        if name != "C" and answer(caller, case, folder) != "2 ":
            yield f"{name}: a word with a newline"
    for number, case in enumerate(cases):
        pairs = [({}, case.printed if is_stand_in else expected_of(case))]
        if case.printed not in (None, pairs[0][1]):
            yield f"the program: {case.kind} {' '.join(case.words)[:80]}: {pairs[0][1]!r}, not {case.printed!r}"
        if case.kind != "ask" and number < WITH_HANDLES:
            steps = STEPS if number < WITH_LONG else STEPS.replace("lc", "")
            pairs.append(({"STEPS": steps, "LONG": str(folder / "long")}, by_steps(steps, expected_of, without, case, long_text)))
        for environment, expected in pairs:
            for name, caller in callers.items():
                found = answer(caller, case, folder, **environment)
                if found != expected:
                    yield f"{name}: {case.kind} {' '.join(case.words)[:80]}: {found!r}, not {expected!r}"
    yield from rooms(first, cases[0], folder)
    yield from rooms(first, cases[0], folder, STEPS="pc")
    yield from of_example(folder, is_stand_in)
    refused = [answer([folder / "refused"], case, folder) for case in cases[:WITH_HANDLES]]
    yield from (f"each request refused: {printed}" for printed in refused if not re.fullmatch(r"\d+ \d+ \d+\n", printed))
    counts = [tuple(map(int, printed.split())) for printed in refused if printed[:1].isdigit()]
    print(f"{len(cases)} calls of the library by {', '.join(callers)}; left out: {', '.join(left_out) or 'none'}; requests for memory refused: {sum(map(sum, counts))}")


def main(words):
    if len(words) != 1:
        return command.usage(__doc__)
    with TemporaryDirectory() as name:
        folder = Path(name)
        is_stand_in = words == ["--stand-in"]
        library = stand_in(folder / "library") if is_stand_in else gathered(Path(words[0]).resolve(), folder / "library")
        differences = list(compared(library, list(of_stand_in() if is_stand_in else of_library()), folder, is_stand_in))
    for line in differences:
        print(line)
    print(f"answers of the library that differ: {len(differences)}")
    return 1 if differences else 0


if __name__ == "__main__":
    command.run(main, __doc__)
