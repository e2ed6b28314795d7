#!/usr/bin/env python3
"""Run the programs on real files that are changed at random, and judge what they accept.

Usage:

    python3 tools/golden/damaged_runs.py [--seed N] [--count N] [--judged N] [--programs NAME,..] PROGRAM
    python3 tools/golden/damaged_runs.py [--seed N] [--count N] [--programs NAME,..] --write FOLDER

PROGRAM is the executable of the crate `xgolden_run`, which calls `run` of each
program over files in memory.  The files are signatures by openssl and
osslsigncode, programs that osslsigncode signed, certificates of openssl's, and
trust lists, as the tools keep them, each with its verdict table, and texts of
registers; in each run one of them has octets, lengths or whole elements changed,
moved, doubled, nested or left out, and a text octets, lines, or numbers, which
become those at their ends.  `--programs` says which are run, all five without.
A run has to end with a status from 0 to 6 and the line for it; a
batch of runs has to take less than a second of processor time, or else each run
of it; and what is accepted has to be accepted by the reference implementation in
Python too, with the same line.  Of the others one in so many (`--judged`) is
compared too.  Exit status 1 says that a run ends otherwise.

With `--write` the vectors are written, so many to a file, as `rt try --cases
FOLDER -- run {}` takes them in the folder of `xgolden_run`, to be run with the kit's
sanitizer.
"""

import argparse
import random
import re
import resource
import subprocess
import sys
import tempfile
from collections import Counter
from dataclasses import dataclass
from functools import cache
from pathlib import Path
from struct import pack
from typing import Callable

sys.path.insert(0, str(Path(__file__).resolve().parents[1]))

from cases import ca_run_rows, list_rows, real_policies
from cases.anchor_run_rows import NONE, run_of, table_for
from cases.anchor_rows import CROSS, INT, LEAF, ROOT
from cases.check_making import file
from cases.check_parts import S, T, I
from cases.run_rows import ROOM, row
from common import command
from golden.compare_basic import at, exchanged, mutation, places
from golden.image_vectors import made
from interop import chains, signed_images
from interop.signed_files import NAMES, digest_of, table_of
from judges import anchor_judge, basic_judge, chain_reader, check_judge, pe_judge, question_judge, register_lines
from judges.check_judge import Policy
from judges.der_reader import Constructed, Malformed, NotWritable, read_exact, read_first, write
from judges.value_reader import Shape, certificate as read_certificate
from judges.verdict_rows import verdicts
from program_check.programs import LONGER

BATCH, LONGEST, SECONDS = 100, 64 * 1024, 1.0
HEADER = 8
PROGRAMS = "picky", "picky_pe", "picky_anchor", "picky_ask", "picky_ca"
# How many registers are drawn beside those that are known.
REGISTERS = 100


@dataclass(frozen=True)
class Command:
    """A program, its words, its files, those that are changed, and what the reference implementation says of files."""

    program: str
    words: tuple
    files: dict
    changed: tuple
    said: Callable


# What is said.

def line_of(found):
    """Status and line of a refusal by its name, or of what is accepted."""
    if found.startswith("accepted"):
        return f"0 {found}"
    return f"1 refused {found.removeprefix('refused ').split()[0]}"


def said_of_basic(file_hash):
    def said(files):
        found = basic_judge.answer(files["s"], file_hash, files["t"].decode())
        place = found.removeprefix("accepted Some(").split(")")[0]
        return f"0 accepted signer={place} path= excuse=none" if found.startswith("accepted") else line_of(found)
    return said


def said_of_check(policy):
    def said(files):
        given = policy._replace(trust_list=files.get("l"))
        return line_of(check_judge.answer(files["s"], given, files["t"].decode()))
    return said


def said_of_chain(names, digits):
    def said(files):
        status, line = chain_reader.line([files[name] for name in names], digits, verdicts(files["t"].decode()))
        return f"{status} {line.strip()}"
    return said


def said_of_image(moment):
    def said(files):
        try:
            _, _, address = pe_judge.places(files["p"])
        except pe_judge.NotSigned as refusal:
            return next(f"1 refused {name}" for text, name in NAMES.items() if text in str(refusal))
        digest = digest_of(files["p"])
        policy = Policy(True, True, True, True, True, digest and bytes.fromhex(digest), moment)
        return line_of(check_judge.answer(files["p"][address:], policy, files["t"].decode()))
    return said


def said_of_anchor(anchors, names, purpose, digits, table):
    def said(files):
        octets = [files[name] for name in names]
        try:
            for one in octets:
                read_certificate(read_exact(one))
            line = anchor_judge.Search(octets[anchors], octets[anchors + 1:], [(one, purpose) for one in octets[:anchors]], purpose, digits, table).line()
        except (Shape, Malformed):
            return "1 refused Asn1Deserialization"
        return f"0 {line}" if line.startswith("anchored") else f"{NONE[0]} {NONE[1]}"
    return said


def said_of_questions(names, found):
    def said(files):
        status, text = found(*[files[name] for name in names])
        return f"{status} {text}".removesuffix("\n")
    return said


def said_of_register(moment):
    def said(files):
        # An octet past ASCII is in no line, whatever its letter.
        return "{} {}".format(*register_lines.answer(files["r"].decode("latin-1"), moment))
    return said


# The commands.

def day(digits):
    return f"{digits[:4]}-{digits[4:6]}-{digits[6:8]}"


def of_signatures():
    """Signatures by openssl and osslsigncode."""
    for _, one in real_policies.written():
        files, asked = {"s": one.octets, "t": one.table.encode()}, one.file_hash.hex()
        yield Command("picky", ("basic", "s", "t", asked), files, ("s",), said_of_basic(one.file_hash))
        for digits in real_policies.dates(one):
            policy = real_policies.ALL._replace(file_hash=one.file_hash, lower=digits)
            yield Command("picky", ("check", "s", "t", asked, day(digits)), files, ("s",), said_of_check(policy))


def of_lists():
    """A trust list beside a signature."""
    for made_file, names in ((file(S, I), (b"R", b"I")), (file(S, I, T), (b"R",))):
        policy = real_policies.ALL._replace(file_hash=made_file.file_hash, lower="20250101000000", against_list=True, now=1)
        files = {"s": made_file.octets, "t": made_file.table.encode(), "l": list_rows.list_with(*names)}
        words = "check", "s", "t", made_file.file_hash.hex(), "2025-01-01", "--list", "l", "1"
        yield Command("picky", words, files, ("s", "l", "l"), said_of_check(policy))


def of_chains():
    """Chains of certificates of openssl's."""
    known, table = chains.stored(), chains.stored_table().encode()
    for case in chains.CASES:
        if len(case.date) == 10:
            names = [f"c{place}" for place in range(len(case.labels))]
            files = {"t": table, **{name: known[label] for name, label in zip(names, case.labels)}}
            yield Command("picky", ("chain", "t", case.date, *names), files, tuple(names), said_of_chain(names, case.digits()))


def of_images():
    """Programs that osslsigncode signed, and one that is put together."""
    found = [(image.octets, table_of(image.octets)) for image in signed_images.stored()]
    for octets, table in (*found, made()):
        for date in ("2027-01-01", "2031-01-01"):
            digits = date.replace("-", "") + "000000"
            yield Command("picky_pe", ("p", "t", date), {"p": octets, "t": table.encode()}, ("p",), said_of_image(digits))


def of_anchors():
    """Paths to an anchor."""
    for pool in ([INT], [CROSS, INT], []):
        table = table_for([ROOT, LEAF, *pool])
        files, words, _ = run_of([ROOT], LEAF, pool, table=table)
        names = words[4:]
        said = said_of_anchor(1, names, words[1], words[2].replace("-", "") + "000000", table)
        yield Command("picky_anchor", tuple(words), files, tuple(names), said)


def of_questions():
    """Questions about the same signatures and chains."""
    for _, one in real_policies.written():
        yield Command("picky_ask", ("s",), {"s": one.octets}, ("s",), said_of_questions(["s"], question_judge.of_file))
    known = chains.stored()
    for case in chains.CASES:
        files = {f"c{place}": known[label] for place, label in enumerate(case.labels)}
        said = said_of_questions(list(files), lambda *octets: question_judge.of_chain(octets))
        yield Command("picky_ask", ("--chain", *files), files, tuple(files), said)


def of_registers():
    """Registers, none of which is empty."""
    for text, word, *_ in (*ca_run_rows.known(), *ca_run_rows.drawn(REGISTERS)):
        if text:
            said = said_of_register(ca_run_rows.moment_of(word))
            yield Command("picky_ca", ("r", word), {"r": text.encode()}, ("r",), said)


@cache
def commands():
    """All commands by their kind, each of which is drawn as often: those of signatures that are accepted, the others, and so on."""
    signatures = list(of_signatures())
    accepted = [given for given in signatures if given.said(given.files).startswith("0 ")]
    return [accepted, signatures, *(list(kind()) for kind in (of_images, of_chains, of_lists, of_anchors, of_questions, of_registers))]


def commands_of(programs):
    """Those of these programs, by their kind."""
    return [kind for kind in commands() if kind[0].program in programs]


# Changes.

@cache
def element_in(octets):
    """Where the value in a file begins, and its element; None where it has none."""
    for start in (0, HEADER, address_in(octets)):
        if start is not None and octets[start:start + 1] == b"\x30":
            try:
                return start, read_first(octets[start:])[0]
            except Malformed:
                continue
    return None


def address_in(octets):
    """Where the signature in a program begins."""
    try:
        return pe_judge.places(octets)[2] + HEADER
    except (pe_judge.NotSigned, TypeError):
        return None


def with_octets(chance, octets):
    found = bytearray(octets)
    for _ in range(chance.choice((1, 1, 1, 2, 4, 16))):
        place = chance.randrange(len(found))
        found[place] = chance.choice((chance.randrange(256), found[place] ^ 1 << chance.randrange(8), 0, 0x7F, 0x80, 0xFF))
    return bytes(found)


def with_range(chance, octets):
    """A range of octets left out, doubled, moved, or cut off."""
    first, last = sorted(chance.randrange(len(octets) + 1) for _ in range(2))
    if chance.random() < 0.7:
        last = min(last, first + chance.choice((1, 2, 3, 8, 32)))
    part, rest = octets[first:last], octets[:first] + octets[last:]
    place = chance.randrange(len(rest) + 1)
    return chance.choice((rest, octets[:last] + part + octets[last:], rest[:place] + part + rest[place:], octets[:first], octets + part))


LENGTHS = b"\0", b"\x01", b"\x7F", b"\x80", b"\x81\x80", b"\x82\xFF\xFF", b"\x84\xFF\xFF\xFF\xFF", b"\x84\x80\0\0\0", b"\x88" + b"\xFF" * 8, b"\xFF"


def with_length(chance, octets):
    """An element's length in another form, or another one."""
    known = element_in(octets)
    if known is None:
        return with_octets(chance, octets)
    start, element = known
    one = write(at(element, chance.choice(places_of(octets) or [()])))
    place = octets.find(one, start)
    if place < 0 or len(one) < 2:
        return with_octets(chance, octets)
    size = 1 if one[1] < 0x80 else 1 + (one[1] & 0x7F)
    near = bytes([max(0, min(255, one[size] + chance.choice((-2, -1, 1, 2))))])
    other = chance.choice((*LENGTHS, one[1:size] + near))
    return octets[:place + 1] + other + octets[place + 1 + size:]


@cache
def places_of(octets):
    """The places in the value of a file that the tools know."""
    return places(element_in(octets)[1])


def nested(chance, element, known):
    """An element inside another of its own kind, once or many times."""
    if not known:
        return element
    place = chance.choice(known)
    one = at(element, place)
    for _ in range(chance.choice((1, 1, 2, 8, 60))):
        one = Constructed(one.tag if isinstance(one, Constructed) else 0x30, (one,))
    return exchanged(element, place, [one])


def with_elements(chance, octets):
    """Whole elements left out, repeated, exchanged, put elsewhere or nested; the lengths around them fit."""
    known = element_in(octets)
    if known is None:
        return with_octets(chance, octets)
    start, element = known
    for number in range(chance.choice((1, 1, 2, 3))):
        among = places(element) if number else places_of(octets)
        element = (nested if chance.random() < 0.25 else mutation)(chance, element, among)
    try:
        value = write(element)
    except NotWritable:
        return octets
    return refitted(octets, start, value)


def refitted(octets, start, value):
    """A file with another value, and the lengths in front of it that count it."""
    if start == 0:
        return value
    size = HEADER + len(value)
    front = octets[:start - HEADER] + pack("<I", size) + octets[start - HEADER + 4:start]
    if start > HEADER:
        _, entry, address = pe_judge.places(octets)
        front = front[:entry] + pack("<II", address, size) + front[entry + 8:]
    return front + value


ENDS = b"0", b"1", b"19", b"198", b"199", b"200", b"254", b"255", b"256", b"999", b"1000", b"12", b"13", b"28", b"29", b"31", b"32", b"9999", b"65536", b"4294967296", b"18446744073709551616"


def with_lines(chance, octets):
    """Lines left out, doubled, moved or exchanged."""
    lines = octets.splitlines(keepends=True)
    for _ in range(chance.choice((1, 1, 2, 4))):
        place, other = chance.randrange(len(lines)), chance.randrange(len(lines))
        one = lines.pop(place) if chance.random() < 0.7 else lines[place]
        if chance.random() < 0.7:
            lines.insert(other, one)
        if not lines:
            break
    return b"".join(lines)


def with_number(chance, octets):
    """A number that is one at the end of its range, or beside it, with zeros in front now and then."""
    found = list(re.finditer(rb"[0-9]+", octets))
    if not found:
        return with_octets(chance, octets)
    one = chance.choice(found)
    near = b"%d" % max(0, int(one[0]) + chance.choice((-1, 1)))
    number = chance.choice((near, *ENDS))
    if chance.random() < 0.7:
        number = number.zfill(len(one[0]))
    return octets[:one.start()] + number + octets[one.end():]


CHANGES = with_octets, with_range, with_length, with_elements, with_elements
CHANGES_OF_TEXTS = with_octets, with_range, with_lines, with_lines, with_number, with_number


def case(chance, kinds):
    """A command and its files, one of them changed; None where that one is too long."""
    given = chance.choice(chance.choice(kinds))
    name = chance.choice(given.changed)
    changes = CHANGES_OF_TEXTS if given.program == "picky_ca" else CHANGES
    octets = chance.choice(changes)(chance, given.files[name])
    if chance.random() < 0.1 and octets:
        octets = with_octets(chance, octets)
    return None if len(octets) > LONGEST else (given, {**given.files, name: octets})


def vector(given, files):
    room = ROOM + LONGER * sum(map(len, files.values())) if given.program == "picky_ask" else ROOM
    return row(given.program, room, None, files, given.words, (0, ""))[0]


def cases(seed, count, programs=PROGRAMS):
    chance, kinds, found = random.Random(seed), commands_of(programs), 0
    while found < count:
        made_case = case(chance, kinds)
        if made_case:
            found += 1
            yield made_case


# Runs.

def run(program, vectors, folder):
    """The lines, the status and the seconds of processor time of a run over vectors."""
    rows = folder / "rows"
    rows.write_text("".join(f"{one}\n" for one in vectors), encoding="ascii")
    before = resource.getrusage(resource.RUSAGE_CHILDREN)
    done = subprocess.run([program, "run", rows], stdin=subprocess.DEVNULL, capture_output=True)
    after = resource.getrusage(resource.RUSAGE_CHILDREN)
    took = after.ru_utime + after.ru_stime - before.ru_utime - before.ru_stime
    return runs_in(done.stdout.decode(errors="replace")), done.returncode, took


def runs_in(text):
    """What is printed of each run: a line with its status in front, and the lines of further questions."""
    return re.split(r"\n(?![a-z][a-z0-9-]* [0-9a-f]{64} )", text.removesuffix("\n")) if text else []


class Figures:
    """What is counted, and what is wrong."""

    def __init__(self, judged):
        self.judged, self.counts, self.runs, self.compared, self.slowest, self.wrong = judged, Counter(), 0, 0, 0.0, 0

    def tell(self, why, one):
        self.wrong += 1
        print(f"{why}: {one[:2000]}", flush=True)

    def take(self, batch, lines):
        """Looks at the lines of a batch, each by itself."""
        for (given, files), line in zip(batch, lines):
            self.runs += 1
            self.counts[given.program, " ".join(line.split()[:2]) if not line.startswith("0") else "0 accepted"] += 1
            is_accepted = line.startswith("0 ")
            if line[:2] not in ("0 ", "1 ", "2 ", "3 ", "4 ", "5 ", "6 ", "7 ") or ("\n" in line and not is_accepted):
                self.tell(f"no line of a run: {line}", vector(given, files))
            if is_accepted or self.runs % self.judged == 0:
                self.compared += 1
                said = given.said(files)
                if said != line:
                    self.tell(f"{line}, not {said}", vector(given, files))

    def print(self):
        for (program, what), many in sorted(self.counts.items()):
            print(f"{many:8} {program} {what}")
        print(f"damaged runs: {self.runs}, {self.compared} compared, the slowest batch of {BATCH} {self.slowest:.2f} s, {self.wrong} wrong", flush=True)


def one_by_one(program, batch, figures, folder):
    """The lines of a batch that stops or is slow, by a run for each."""
    lines = []
    for given, files in batch:
        one = vector(given, files)
        found, status, took = run(program, [one], folder)
        if status or len(found) != 1:
            figures.tell(f"status {status} of the process", one)
        if took > SECONDS:
            figures.tell(f"{took:.2f} s", one)
        lines.append(found[0] if found else "")
    return lines


def judge(program, seed, count, judged, programs=PROGRAMS):
    """Runs so many cases, and prints the figures: 0 where nothing is wrong."""
    figures, batch = Figures(judged), []
    with tempfile.TemporaryDirectory() as name:
        for number, one in enumerate(cases(seed, count, programs), 1):
            batch.append(one)
            if len(batch) < BATCH and number < count:
                continue
            lines, status, took = run(program, [vector(*case) for case in batch], Path(name))
            figures.slowest = max(figures.slowest, took)
            if status or len(lines) != len(batch) or took > SECONDS:
                lines = one_by_one(program, batch, figures, Path(name))
            figures.take(batch, lines)
            batch = []
            if number % (100 * BATCH) == 0:
                figures.print()
    figures.print()
    return 1 if figures.wrong else 0


def write_cases(folder, seed, count, programs=PROGRAMS):
    """Writes the vectors, so many to a file."""
    batch, number = [], 0
    for number, one in enumerate(cases(seed, count, programs), 1):
        batch.append(vector(*one))
        if len(batch) == BATCH or number == count:
            Path(folder, f"{number:08}").write_text("".join(f"{line}\n" for line in batch), encoding="ascii")
            batch = []
    return 0


def names_in(word):
    """The names of programs in a word."""
    names = tuple(word.split(","))
    if not set(names) <= set(PROGRAMS):
        raise argparse.ArgumentTypeError(f"'{word}' has another name than {', '.join(PROGRAMS)}")
    return names


def main(arguments):
    parser = argparse.ArgumentParser(description="Runs of the programs on real files changed at random.")
    parser.add_argument("--seed", type=int, default=1)
    parser.add_argument("--count", type=int, default=10_000)
    parser.add_argument("--judged", type=int, default=20, help="one in so many refusals is compared")
    parser.add_argument("--programs", type=names_in, default=PROGRAMS, metavar="NAME,..", help="the programs that are run")
    parser.add_argument("--write", type=Path, metavar="FOLDER", help="write the vectors, and run nothing")
    parser.add_argument("program", type=command.executable, nargs="?", help="path of xgolden_run")
    words = parser.parse_args(arguments)
    if words.write is not None:
        return write_cases(words.write, words.seed, words.count, words.programs)
    if words.program is None:
        return command.usage(__doc__)
    return judge(words.program.resolve(), words.seed, words.count, words.judged, words.programs)


if __name__ == "__main__":
    command.run(main, __doc__)
