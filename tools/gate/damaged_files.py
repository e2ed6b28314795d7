#!/usr/bin/env python3
"""Call a script for users on files that are damaged at random.

Usage:

    python3 tools/gate/damaged_files.py [--seed N] [--count N] [--openssl] TOOL

TOOL is `verdict_table`, `order_bag`, `signed_program` or `check_program`.  The script is
imported and its `main` is called on N files (20,000 unless said), one after another;
`verdict_table` gets the lines of their questions, of which it reads no file.  Each
call has to end with status 0, or with status 1 and one line on standard error that
names the script and the file that it reads; one of `check_program` with a verdict of one line, by the
reference implementations in place of the programs.  Any exception is a difference, which is printed with
the octets of the file, and makes the exit status 1.

The files are signatures of the repository and of openssl and osslsigncode, with their
programs where a program is asked for, for `check_program` one more with a name and an address, and certificates in DER, each with one that is
whole.  In half of them elements are left out, repeated, exchanged, changed or
get another tag, with right lengths around them.  In the others octets are changed, left
out, put in or repeated, the rest is cut off, or a tag or a length is another, one to four
times.  Half of the signature files state their own length again after that.

No signature is verified: in place of the arithmetic a function accepts a signature by a digest of
its octets, about every other one, and of one in eight it can't say.  With `--openssl` signatures are
verified as for users, time stamps by openssl.
"""

import argparse
import random
import re
import sys
import traceback
from collections import Counter
from contextlib import contextmanager, redirect_stderr, redirect_stdout
from hashlib import sha256
from io import BytesIO, StringIO, TextIOWrapper
from pathlib import Path
from struct import pack
from tempfile import TemporaryDirectory
from time import process_time
from unittest.mock import patch

sys.path.insert(0, str(Path(__file__).resolve().parents[1]))

import check_program
import order_bag
import signed_program
import verdict_table
from cases.basic_world import signature_file
from common import command, folders
from common.openssl import OpensslError
from common.signature_forms import NotJudged
from gate.changed_programs import described
from gate.programs_stand_in import StandIn
from golden.compare_basic import at, exchanged, mutation, places
from interop import chains, signed_programs, world_signatures
from judges import asked_signatures, question_judge
from judges.der_reader import Constructed, Malformed, NotWritable, Primitive, read_first, write
from program_check import stamps

TAGS = bytes.fromhex("01 02 03 04 05 06 0c 13 16 17 18 1e 24 30 31 80 81 82 86 a0 a1 a2 a3")
NO_TAGS = bytes.fromhex("00 1f 3f ff")
LENGTHS = bytes.fromhex("00 01 7f 80 81 82 83 84 85 ff")
INDEFINITE = bytes.fromhex("30 80")
MOST_CHANGES = 4
SHOWN = 10


# Files that are whole.

def wrapped(kind, der):
    """A certificate, or signed data with its header."""
    return signature_file(der) if kind == "signature" else der


def certificates():
    for octets in chains.stored().values():
        yield "der", octets


def signatures():
    """Those of the repository, and those of openssl and osslsigncode that are in DER and of 16 KB at most."""
    for name in "signature.bin", "signed.bin":
        octets = (folders.CRATES / "picky/data" / name).read_bytes()
        yield "signature", write(asked_signatures.content_info_in(octets)[0])
    for _, kind, octets in world_signatures.stored():
        if kind == "pkcs7" and len(octets) <= 1 << 14 and not octets.startswith(INDEFINITE):
            yield "signature", octets


def programs():
    for one in signed_programs.stored().values():
        yield "program", one.octets


def shown_programs():
    """The same, and one in which the signer gives a name and an address, which no stored one has."""
    yield from programs()
    yield "program", described(signed_programs.stored()["stamped"].octets)


# Damage.

def retagged(chance, element):
    """The element with another tag on one of its own."""
    known = list(places(element))
    if not known:
        return element
    place = chance.choice(known)
    one, tag = at(element, place), chance.choice(TAGS)
    if tag & 0x20:
        other = Constructed(tag, one.kids if isinstance(one, Constructed) else ())
    else:
        other = Primitive(tag, b"" if isinstance(one, Constructed) else one.contents)
    return exchanged(element, place, [other])


def restructured(chance, der):
    """The octets of an element with others within it; the same octets where that can't be written."""
    try:
        element, length = read_first(der)
        for _ in range(chance.randint(1, 3)):
            element = chance.choice((mutation, retagged))(chance, element)
        return write(element) + der[length:]
    except (Malformed, NotWritable):
        return der


def heads(octets, begin, end):
    """Where the tags of elements are, as far as the lengths behind them are of one to three octets."""
    while begin + 2 <= end:
        more = octets[begin + 1] & 0x7F if octets[begin + 1] > 0x80 else 0
        if more > 2 or octets[begin + 1] == 0x80:
            return
        length = int.from_bytes(octets[begin + 2:begin + 2 + more], "big") if more else octets[begin + 1]
        yield begin
        if octets[begin] & 0x20:
            yield from heads(octets, begin + 2 + more, min(end, begin + 2 + more + length))
        begin += 2 + more + length


def damaged(chance, octets, known):
    """The octets with one change; `known` are places of tags."""
    place, many = chance.randrange(len(octets) + 1), chance.choice((1, 1, 2, 3, 8, 64, 1000))
    some = bytes(chance.randrange(256) for _ in range(min(many, 64)))
    head = chance.choice(known) if known else place
    match chance.randrange(9):
        case 0 | 1:
            return octets[:place] + some[:1] + octets[place + 1:]
        case 2:
            return octets[:place]
        case 3:
            return octets[:place] + octets[place + many:]
        case 4:
            return octets[:place] + some + octets[place:]
        case 5:
            return octets[:place + many] + octets[place:]
        case 6 | 7:
            return octets[:head] + bytes([chance.choice(TAGS + NO_TAGS)]) + octets[head + 1:]
        case _:
            return octets[:head + 1] + bytes([chance.choice(LENGTHS + some)]) + octets[head + 2:]


def with_entry(chance, program, entry):
    """The program with another entry in its certificate table, which mostly has the entry's length."""
    optional, place, begin, length = signed_program.parts(program)
    stated = len(entry) if chance.random() < 0.75 else length
    at = optional + place + 4
    return program[:at] + pack("<I", stated) + program[at + 4:begin] + entry


def file_of(chance, kind, base):
    """A file of a base: restructured and changed at most once, or changed several times."""
    deep = chance.random() < 0.5
    changes = chance.choice((0, 0, 1)) if deep else chance.randint(1, MOST_CHANGES)
    begin = 0
    if kind == "program":
        _, _, begin, _ = signed_program.parts(base)
        der = base[begin + 8:]
        octets = with_entry(chance, base, signature_file(restructured(chance, der))) if deep else base
    else:
        octets = wrapped(kind, restructured(chance, base) if deep else base)
    known = list(heads(octets, begin if kind == "der" else begin + 8, len(octets)))
    for _ in range(changes):
        octets = damaged(chance, octets, known)
    if kind == "signature" and chance.random() < 0.5:
        octets = pack("<I", len(octets)) + octets[4:]
    return octets


# Calls.

def words_of(chance, tool, file, folder, whole):
    """The words for a call, with the file somewhere in them, but for `verdict_table`: the files whose questions it reads."""
    if tool is verdict_table:
        if whole is None:
            return [file]
        words = [file, whole]
        chance.shuffle(words)
        return [*words, *chance.choice(([], [file]))]
    if tool is check_program:
        return [file, "--root", whole, "--at", "2023-06-15"]
    out = str(Path(folder, "out"))
    digest = chance.choice(([], [], ["sha256"], ["sha384"])) if tool is signed_program else []
    return [file, out, *digest]


def called(tool, words):
    """The status of a call and what it wrote to standard error, or the traceback; of `check_program` its verdict where it has one."""
    with redirect_stdout(StringIO()) as out, redirect_stderr(StringIO()) as errors:
        try:
            status = table_for(words) if tool is verdict_table else tool.main(words)
        except SystemExit as end:
            status = end.code
        except Exception:
            return None, traceback.format_exc()
    verdicts = re.findall(r"^(?:accepted|refused): .*\n", out.getvalue(), re.MULTILINE) if tool is check_program else []
    return status, verdicts[0] if len(verdicts) == 1 else errors.getvalue()


def table_for(files):
    """The status of `verdict_table`, of the questions about a signature file or about two certificates and more."""
    octets = [Path(file).read_bytes() for file in files]
    _, lines = question_judge.of_file(*octets) if len(octets) == 1 else question_judge.of_chain(octets)
    with patch.object(sys, "stdin", TextIOWrapper(BytesIO(lines.encode()))):
        return verdict_table.main([])


def is_well(tool, file, status, said):
    """Whether a call ended as it has to."""
    if tool is check_program and status in (0, 1):
        return said.startswith("refused: " if status else "accepted: ")
    if status == 0:
        return True
    named = "" if tool is verdict_table else f"{file}: "
    return status == 1 and said.startswith(f"{tool.__name__}.py: {named}") and said.count("\n") == 1


def in_place_of_arithmetic(kind, digest, key, message, signature):
    """Finds a signature true or false, or can't say, by a digest of its octets."""
    chosen = sha256(signature).digest()[0] % 8
    if chosen == 7:
        raise NotJudged("no reason")
    return chosen % 2 == 0


def files(chance, tool, count):
    """So many files, each with another that is whole where certificates are asked for."""
    both = {verdict_table: [*signatures(), *certificates()], order_bag: list(signatures()), signed_program: list(programs()), check_program: list(shown_programs())}[tool]
    for _ in range(count):
        kind, base = chance.choice(both)
        other = signed_programs.root() if tool is check_program else base if kind == "der" else None
        yield file_of(chance, kind, base), other


def check(tool, seed, count):
    """Calls a script on so many files; the calls by status, those that didn't end well, and the longest in seconds."""
    chance, statuses, wrong, longest = random.Random(seed), Counter(), [], 0
    with TemporaryDirectory() as folder:
        file, whole = str(Path(folder, "file")), str(Path(folder, "whole"))
        for octets, other in files(chance, tool, count):
            Path(file).write_bytes(octets)
            Path(whole).write_bytes(other or b"")
            words = words_of(chance, tool, file, folder, whole if other else None)
            begun = process_time()
            status, said = called(tool, words)
            longest = max(longest, process_time() - begun)
            statuses[status, kind_of(said.replace(file, "FILE")) if status else ""] += 1
            if not is_well(tool, file, status, said):
                wrong.append((octets, words, status, said))
    return statuses, wrong, longest


def verifies_some(*words, given=b""):
    """In place of openssl, of time stamps: finds about every other one good."""
    if sha256(Path(words[words.index("-in") + 1]).read_bytes()).digest()[0] % 2:
        raise OpensslError("not verified", out="Verification: FAILED\n")
    return b""


@contextmanager
def in_place(with_openssl):
    """The functions in place of the arithmetic, of openssl and of the programs, unless signatures are to be verified."""
    with patch.object(check_program, "Programs", lambda folder: StandIn()):
        if with_openssl:
            yield
        else:
            with patch.object(verdict_table, "is_accepted", in_place_of_arithmetic), patch.object(stamps, "openssl", verifies_some):
                yield


def kind_of(said):
    """A sentence without its numbers and what is quoted in it; of a traceback its last line."""
    return re.sub(r"[0-9]+(\.[0-9]+)*", "N", re.sub(r"'.*'", "'..'", said.strip().rpartition("\n")[2]))


def main(arguments):
    parser = argparse.ArgumentParser(description="Damaged files for the scripts of users.")
    parser.add_argument("--seed", type=int, default=1)
    parser.add_argument("--count", type=int, default=20_000)
    parser.add_argument("--openssl", action="store_true", help="verify signatures and stamps")
    tools = {tool.__name__: tool for tool in (verdict_table, order_bag, signed_program, check_program)}
    parser.add_argument("tool", choices=tools)
    words = parser.parse_args(arguments)
    with in_place(words.openssl):
        statuses, wrong, longest = check(tools[words.tool], words.seed, words.count)
    for octets, called_with, status, said in wrong[:SHOWN]:
        print(f"{' '.join(called_with)}: status {status}: {said.strip()}\n  of {octets.hex()}")
    for (status, said), many in sorted(statuses.items(), key=lambda one: -one[1]):
        print(f"{many:7} status {status} {said}")
    print(f"{words.tool}: {words.count - len(wrong)} calls ended well, {len(wrong)} not, the longest in {longest:.1f} s")
    return 1 if wrong else 0


if __name__ == "__main__":
    command.run(main, __doc__)
