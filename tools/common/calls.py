"""Calls of other programs: none reads the terminal, and none runs for ever."""

import os
import signal
import subprocess

from common.command import Refusal, signals_wait

SECONDS = 60


class TimedOut(Refusal):
    """A program that didn't end in time."""


def called(words, given=None, seconds=SECONDS, **options):
    """Status, output and errors of a call, as octets; FileNotFoundError where the program isn't there.

    It gets the octets that are given, else nothing.  It has a session of its own, so there
    is no terminal that it could ask, and what it started ends with it where it doesn't end
    in time (TimedOut) or the caller is interrupted.
    """
    words = [os.fspath(word) if isinstance(word, os.PathLike) else str(word) for word in words]
    stdin = subprocess.DEVNULL if given is None else subprocess.PIPE
    process = None
    try:
        # A signal while it is started would leave it running, since nobody had its number yet.
        with signals_wait():
            process = subprocess.Popen(
                words, stdin=stdin, stdout=subprocess.PIPE, stderr=subprocess.PIPE, start_new_session=True, **options)
        out, errors = process.communicate(given, timeout=seconds)
    except subprocess.TimeoutExpired as late:
        ended(process)
        raise TimedOut(f"{os.path.basename(words[0])} didn't end within {seconds} seconds") from late
    except BaseException:
        if process is not None:
            ended(process)
        raise
    return subprocess.CompletedProcess(words, process.returncode, out, errors)


def ended(process):
    """Ends a program and what it started, and closes what it wrote to."""
    with process:
        try:
            os.killpg(process.pid, signal.SIGKILL)
        except ProcessLookupError:
            process.kill()
