#!/usr/bin/env python3
"""Refuse each request for memory of the tests in turn.

Usage:

    python3 tools/gate/refuse_in_tests.py PROGRAM ..

PROGRAM is a test program, as `rt test` builds it in `crates/NAME/out/NAME_tests`.
Each of its tests is run as it is, where it asks for memory so many times, and
then once for each of these, which is refused.  Such a run passes, ends with an
error that says that memory ran out, or ends at an assertion: where a test
compares a refusal with the one that it wants, one for memory is another one.
Anything else is told: a fault, another error, or more than a minute.  It prints
a line for each program, and below it how often which assertion fails, to be
read by hand; its exit status is 1 where a run is told.

What refuses memory is that of `refuse_memory.py`; it takes `cc`.
"""

import os
import re
import signal
import subprocess
import sys
import tempfile
from collections import Counter
from dataclasses import dataclass, field
from pathlib import Path

sys.path.insert(0, str(Path(__file__).resolve().parents[1]))

from common import command
from gate.refuse_memory import SECONDS, compiled

# How an error that says so is printed by the test program: as the last variant within it, or as its text.
NO_MEMORY = re.compile(r"(?i)error:.*\b(Memory|OutOfMemory|AllocError|AllocFailed|out of memory|memory allocation failed)\b")
ASSERTION = re.compile(r"test stopped at (?P<place>\S+)")


def run(program, words, **environment):
    """The status and what is printed; the status is None where the run takes too long."""
    try:
        done = subprocess.run([program, *words], stdin=subprocess.DEVNULL, stdout=subprocess.PIPE, stderr=subprocess.STDOUT, timeout=SECONDS, env=environment)
    except subprocess.TimeoutExpired:
        return None, ""
    return done.returncode, done.stdout.decode(errors="replace")


@dataclass
class Figures:
    """How many runs are refused memory, how many of them pass, which assertions fail how often, and what is told."""

    asked: int = 0
    passed: int = 0
    assertions: Counter = field(default_factory=Counter)
    told: list = field(default_factory=list)

    def take(self, test, at, status, text):
        self.asked += 1
        if status == 0:
            self.passed += 1
        elif NO_MEMORY.search(text):
            return
        elif status == -signal.SIGABRT and (stopped := ASSERTION.search(text)):
            self.assertions[f"{test} at {stopped['place']}"] += 1
        else:
            self.told.append(f"{test}, refusal {at}: status {status}: {text.strip()[-200:]!r}")


def sweep(program, test, library, counted, figures):
    """Runs a test as it is, and with each request refused."""
    preload = {"LD_PRELOAD": str(library)}
    status, text = run(program, [test], COUNTED=str(counted), **preload)
    if status != 0:
        figures.told.append(f"{test}: it doesn't pass as it is: status {status}: {text[-200:]!r}")
        return
    for at in range(1, int(counted.read_text()) + 1):
        figures.take(test, at, *run(program, [test], REFUSED=str(at), **preload))


def all_of(program, library, counted):
    """Whether all runs of a program end as they have to; prints a line for it."""
    status, text = run(program, ["--list"])
    tests = [line.removesuffix(": test") for line in text.splitlines() if line.endswith(": test")]
    if status != 0 or not tests:
        raise command.Refusal(f"{program} lists no tests")
    figures = Figures()
    for test in tests:
        sweep(program, test, library, counted, figures)
    print(f"{os.path.basename(program)}: {len(tests)} tests, {figures.asked} refusals, {figures.passed} passed without, "
          f"{figures.assertions.total()} at assertions, {len(figures.told)} told", flush=True)
    for place, many in figures.assertions.items():
        print(f"    {many} at the assertion of {place}")
    for line in figures.told:
        print(f"    {line}")
    return not figures.told


def main(words):
    if not words:
        return command.usage(__doc__)
    programs = list(map(os.path.abspath, words))
    for program, word in zip(programs, words):
        if not os.access(program, os.X_OK) or not os.path.isfile(program):
            raise command.Refusal(f"{word} is no program")
    with tempfile.TemporaryDirectory() as name:
        library = compiled(Path(name))
        return 0 if all([all_of(program, library, Path(name, "counted")) for program in programs]) else 1


if __name__ == "__main__":
    command.run(main, __doc__)
