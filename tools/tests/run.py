#!/usr/bin/env python3
"""Run the unit tests of this folder, several processes at a time.

Usage:

    python3 tools/tests/run.py [-j N] [--none-skipped] [--slowest N] [WORD ..]

runs the tests of each class of `test_*.py` in a process of its own, N at a time, as many as
there are processors where -j isn't given.  With words it runs the tests alone of whose names,
as in `test_users.VerdictTableTest.test_names`, one has a word in it.

A test has no terminal and nothing to read; a process that takes longer than 900 seconds is
ended.  What tests print is shown of those that fail.  A class says by `SECONDS` about how long
it takes, where it is long: the longest begin first.  The tests of a class with `APART = True`
have a process each.

A skipped test is named with its reason, and so is each program that isn't built; with
`--none-skipped` a skipped test has failed.  The last line is `N passed, N failed`.  Status 1: a
test failed; 2: the words name none.
"""

import argparse
import json
import os
import selectors
import signal
import sys
import tempfile
import time
import traceback
import unittest
from collections import defaultdict
from dataclasses import dataclass, field
from pathlib import Path

TESTS = Path(__file__).resolve().parent
CRATES = TESTS.parents[1] / "crates"
MOST_SECONDS = 900
PASSED, FAILED, SKIPPED = "passed", "failed", "skipped"


@dataclass(frozen=True)
class Outcome:
    """What became of a test: its reason where it was skipped, what was said where it failed; its processor time."""

    name: str
    kind: str
    text: str = ""
    seconds: float = 0.0


@dataclass
class Job:
    """Tests that one process runs, in order."""

    tests: list
    seconds: float = 1.0

    def names(self):
        return [test.id() for test in self.tests]


@dataclass
class Process:
    """A process that runs a job: what it has told so far, and the file with what it printed."""

    job: Job
    number: int
    reading: int
    printed: object
    begun: float
    told: bytes = b""
    was_ended: bool = False


def used():
    """Seconds of processor time of this process and of those that it started."""
    return sum(os.times()[:4])


class Told(unittest.TestResult):
    """Hands on the outcome of each test once it has ended, and what befell a class as a whole."""

    def __init__(self, tell):
        super().__init__()
        self.tell, self.kind, self.texts, self.begun = tell, PASSED, [], used()

    def startTest(self, test):
        super().startTest(test)
        self.kind, self.texts, self.begun = PASSED, [], used()

    def stopTest(self, test):
        super().stopTest(test)
        self.tell(Outcome(test.id(), self.kind, "\n".join(self.texts), used() - self.begun))

    def note(self, test, kind, text):
        if not isinstance(getattr(test, "test_case", test), unittest.TestCase):
            self.tell(Outcome(test.id(), kind, text))
        elif kind == FAILED or self.kind == PASSED:
            self.kind = kind
            self.texts.append(text)

    def addError(self, test, err):
        self.note(test, FAILED, self._exc_info_to_string(err, test))

    addFailure = addError

    def addSubTest(self, test, subtest, err):
        if err is not None:
            self.note(test, FAILED, f"{subtest}\n{self._exc_info_to_string(err, test)}")

    def addSkip(self, test, reason):
        self.note(test, SKIPPED, reason)

    def addUnexpectedSuccess(self, test):
        self.note(test, FAILED, "a success that isn't expected")


def tests_in(suite):
    """The tests of a suite, in order."""
    for it in suite:
        if isinstance(it, unittest.TestSuite):
            yield from tests_in(it)
        else:
            yield it


def jobs_of(tests):
    """The jobs of all tests, the longest first."""
    by_class = defaultdict(list)
    for test in tests:
        of_one = getattr(type(test), "APART", False) or type(test).__module__ == "unittest.loader"
        by_class[test.id() if of_one else type(test)].append(test)
    jobs = [Job(of_class, getattr(type(of_class[0]), "SECONDS", 1.0)) for of_class in by_class.values()]
    return sorted(jobs, key=lambda job: -job.seconds)


def take_part(job, writing, printed):
    """In the process of a job: without a terminal and without anything to read, run its tests and write their outcomes."""
    os.setsid()
    nothing = os.open(os.devnull, os.O_RDONLY)
    for given, place in (nothing, 0), (printed.fileno(), 1), (printed.fileno(), 2):
        os.dup2(given, place)

    def tell(outcome):
        sys.stdout.flush()
        os.write(writing, json.dumps(vars(outcome)).encode() + b"\n")

    unittest.TestSuite(job.tests).run(Told(tell))


def started(job):
    """The process of a job."""
    sys.stdout.flush()
    sys.stderr.flush()
    reading, writing = os.pipe()
    printed = tempfile.TemporaryFile()
    number = os.fork()
    if number == 0:
        status = 1
        try:
            os.close(reading)
            take_part(job, writing, printed)
            status = 0
        except BaseException:
            traceback.print_exc()
        finally:
            sys.stdout.flush()
            os._exit(status)
    os.close(writing)
    return Process(job, number, reading, printed, time.monotonic())


def end(process):
    """End a process, and those that it started."""
    process.was_ended = True
    try:
        os.killpg(process.number, signal.SIGKILL)
    except ProcessLookupError:
        os.kill(process.number, signal.SIGKILL)


def outcomes_of(process):
    """The outcomes of an ended process: those that it told, and of tests that it didn't run."""
    os.close(process.reading)
    _, status = os.waitpid(process.number, 0)
    told = [Outcome(**json.loads(line)) for line in process.told.splitlines()]
    process.printed.seek(0)
    printed = process.printed.read().decode(errors="replace").strip()
    process.printed.close()
    names = process.job.names()
    whole = [it for it in told if it.name not in names]
    kind = SKIPPED if whole and all(it.kind == SKIPPED for it in whole) else FAILED
    why = "\n".join(it.text for it in whole) or f"not run: the process ended with {os.waitstatus_to_exitcode(status)}"
    if process.was_ended:
        why = f"not run: the process took longer than {MOST_SECONDS} seconds"
    found = [it for it in told if it.name in names]
    missing = [name for name in names if name not in {it.name for it in found}]
    found += [Outcome(name, kind, why) for name in missing]
    if not missing:
        # What a class or a file does behind its last test.
        found += [it for it in whole if it.kind == FAILED]
    return found, printed


def run(jobs, at_once):
    """The outcomes of all jobs, and what was printed beside them, each process's as it ends."""
    waiting, selector, running = list(reversed(jobs)), selectors.DefaultSelector(), 0
    while waiting or running:
        while waiting and running < at_once:
            process = started(waiting.pop())
            selector.register(process.reading, selectors.EVENT_READ, process)
            running += 1
        for key, _ in selector.select(timeout=1):
            octets = os.read(key.fd, 65536)
            key.data.told += octets
            if not octets:
                selector.unregister(key.fd)
                running -= 1
                yield outcomes_of(key.data)
        for key in list(selector.get_map().values()):
            if time.monotonic() - key.data.begun > MOST_SECONDS and not key.data.was_ended:
                end(key.data)


def unbuilt(crates=CRATES):
    """The programs for users that `.ci/run` builds and that aren't there."""
    programs = sorted(file.parents[1].name for file in crates.glob("*/src/main.rt") if not file.parents[1].name.startswith("x"))
    return [name for name in programs if not (crates / name / "out" / name).is_file()]


def shown(outcomes, printed):
    """What is said of the tests of a process that failed."""
    for it in outcomes:
        if it.kind == FAILED:
            print(f"== failed: {it.name}\n{it.text.rstrip()}")
    if printed and any(it.kind == FAILED for it in outcomes):
        print(f"== what they printed\n{printed}")


@dataclass
class Summary:
    """All outcomes, and what is printed behind them."""

    none_skipped: bool
    outcomes: list = field(default_factory=list)

    def of(self, kind):
        return [it for it in self.outcomes if it.kind == kind]

    def failed(self):
        return len(self.of(FAILED)) + self.none_skipped * len(self.of(SKIPPED))

    def print(self, slowest, seconds, at_once):
        for it in sorted(self.outcomes, key=lambda it: -it.seconds)[:slowest]:
            print(f"{it.seconds:7.2f} s {it.name}")
        skipped = self.of(SKIPPED)
        for it in skipped:
            print(f"skipped: {it.name}: {' '.join(it.text.split())}")
        if skipped and unbuilt():
            print(f"not built: {', '.join(unbuilt())}")
        print(f"tests: {len(self.outcomes)} in {seconds:.0f} s, {at_once} at a time; {len(skipped)} skipped")
        print(f"{len(self.of(PASSED))} passed, {self.failed()} failed")


def parsed(words):
    parser = argparse.ArgumentParser(prog="run.py", description="Run the unit tests, several processes at a time.")
    parser.add_argument("-j", type=int, default=len(os.sched_getaffinity(0)), metavar="N", help="how many processes at a time")
    parser.add_argument("--none-skipped", action="store_true", help="a skipped test has failed")
    parser.add_argument("--slowest", type=int, default=0, metavar="N", help="name so many of the slowest tests")
    parser.add_argument("words", nargs="*", metavar="WORD", help="run the tests alone whose name has a word in it")
    return parser.parse_args(words)


def main(words, folder=TESTS):
    asked, begun = parsed(words), time.monotonic()
    loader = unittest.TestLoader()
    every = list(tests_in(loader.discover(str(folder), pattern="test_*.py", top_level_dir=str(folder))))
    tests = [it for it in every if not asked.words or any(word in it.id() for word in asked.words)]
    if not tests:
        print(f"run.py: none of the {len(every)} tests in {folder} is named so", file=sys.stderr)
        return 2
    summary, at_once = Summary(asked.none_skipped), max(1, asked.j)
    for outcomes, printed in run(jobs_of(tests), at_once):
        summary.outcomes += outcomes
        shown(outcomes, printed)
    summary.print(asked.slowest, time.monotonic() - begun, at_once)
    return 1 if summary.failed() else 0


if __name__ == "__main__":
    sys.exit(main(sys.argv[1:]))
