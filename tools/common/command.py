"""How the scripts are called: their words, the files that they read, what is printed of bad input, and how they end."""

import argparse
import os
import re
import signal
import stat
import sys
import threading
from argparse import ArgumentTypeError
from contextlib import contextmanager
from functools import wraps
from pathlib import Path
from subprocess import CalledProcessError

from common.shown import clean, visible

CANT = 2
HELP = (["--help"], ["-h"])
# Signals that end a script, after it has removed what it wrote for itself.
ENDING = tuple(getattr(signal, name) for name in ("SIGTERM", "SIGHUP", "SIGINT") if hasattr(signal, name))


class Refusal(Exception):
    """One sentence on why a script can't do what it was called for."""


class Stopped(BaseException):
    """A signal has come that ends the script."""

    def __init__(self, number: int):
        super().__init__(number)
        self.number = number


class NotAFile(Refusal):
    """There is something else than a regular file."""


class Wrong(Refusal):
    """Why the words aren't those of a call."""


# Words.

# What argparse says ahead of a word that somebody wrote; the last ones it puts between quotation marks.
OF_WORDS = re.compile(r"(unrecognized arguments: )(.*)()|((?:explicit argument|value:|choice:) ['\"])(.*)(['\"])")


class Parser(argparse.ArgumentParser):
    """The words of a script: options aren't abbreviated, and help is asked for by the sole word."""

    def __init__(self):
        super().__init__(add_help=False, allow_abbrev=False)

    def error(self, message: str):
        raise Wrong(visible(OF_WORDS.sub(escaped_word, " ".join(message.split()), count=1)))


def escaped_word(found: re.Match) -> str:
    before, word, behind = (part for part in found.groups() if part is not None)
    return before + clean(word) + behind


def script(doc: str):
    """Of a function of the words that returns a status: wrong words are said with the usage, and help is printed."""
    def decorated(main):
        @wraps(main)
        def called(words: list) -> int:
            if words in HELP:
                return helped(doc)
            try:
                return main(words)
            except Wrong as refusal:
                say(f"{Path(sys.modules[main.__module__].__file__).name}: {refusal}")
                return usage(doc)
        return called
    return decorated


class Once(argparse.Action):
    """An option that may be there once."""

    def __call__(self, parser, namespace, values, option_string=None):
        if getattr(namespace, self.dest) is not None:
            parser.error(f"{option_string} comes twice")
        setattr(namespace, self.dest, values)


def usage(doc: str) -> int:
    """Print how a script is called, by the indented lines of its docstring, to standard error; its status."""
    lines = [line.strip() for line in doc.splitlines() if line.startswith("    python3 ")]
    say("usage: " + "\n       ".join(lines))
    return CANT


def helped(doc: str) -> int:
    """Print the docstring; its status."""
    print(doc.strip())
    return 0


def executable(word: str) -> Path:
    """The path of a program, as a type of argparse's arguments."""
    path = Path(word)
    if not (path.is_file() and os.access(path, os.X_OK)):
        raise ArgumentTypeError(f"'{clean(word)}' is no executable")
    return path


# Files.

def read_file(file, most: int | None = None) -> bytes:
    """The octets of a regular file, of a longer one `most` and one more; a FIFO or a device isn't waited for."""
    opened = os.open(file, os.O_RDONLY | getattr(os, "O_NONBLOCK", 0) | getattr(os, "O_BINARY", 0))
    try:
        if not stat.S_ISREG(os.fstat(opened).st_mode):
            raise NotAFile(f"{clean(file)}: it isn't a regular file")
        with os.fdopen(opened, "rb", closefd=False) as stream:
            return stream.read() if most is None else stream.read(most + 1)
    finally:
        os.close(opened)


# What is said.

def say(line: str):
    """Prints to standard error; where that can't be written the status alone says it."""
    try:
        print(line, file=sys.stderr, flush=True)
    except OSError:
        silence("stderr")


def sentence(error: BaseException) -> str:
    """What an error says, on one line."""
    if isinstance(error, CalledProcessError):
        words = error.cmd if isinstance(error.cmd, (list, tuple)) else [error.cmd]
        return f"{clean(words[0])} ends with status {error.returncode}"
    if isinstance(error, OSError) and isinstance(error.filename, (str, bytes, os.PathLike)):
        return f"{clean(os.fsdecode(error.filename))}: {error.strerror}"
    return " ".join(str(error).split())


# How a script ends.

def stop(number, frame):
    """Ends what is being done; a further signal doesn't stop the cleaning up."""
    for one in ENDING:
        signal.signal(one, signal.SIG_IGN)
    raise Stopped(number)


@contextmanager
def signals_wait():
    """A signal that comes meanwhile ends the script behind this; where `run` hasn't been called nothing changes."""
    came, threaded = [], threading.current_thread() is not threading.main_thread()
    held = [] if threaded else [one for one in ENDING if signal.getsignal(one) is stop]
    for one in held:
        signal.signal(one, lambda number, frame: came.append(number))
    try:
        yield
    finally:
        for one in held:
            signal.signal(one, stop)
        if came:
            stop(came[0], None)


def end_by(number: int):
    """Ends the process as the signal does, so that who called it sees that."""
    signal.signal(number, signal.SIG_DFL)
    os.kill(os.getpid(), number)


def silence(stream_name: str):
    """Writes no more to a stream that nobody reads."""
    setattr(sys, stream_name, open(os.devnull, "w", encoding="utf-8"))


def run(main, doc: str, cant_write: int = CANT):
    """Call `main` with the words of the command line and exit with its status; `--help` as the sole word prints DOC.

    `cant_write` is the status where standard output is closed.
    """
    script, *words = sys.argv
    if sys.stderr is None:
        silence("stderr")
    for one in ENDING:
        if signal.getsignal(one) is not signal.SIG_IGN:
            signal.signal(one, stop)
    try:
        status = ended(main, doc, Path(script).name, words, cant_write)
    except Stopped as stopped:
        end_by(stopped.number)
        status = 128 + stopped.number
    sys.exit(status)


def ended(main, doc: str, script: str, words: list, cant_write: int) -> int:
    """The status of a script, whose output is written."""
    if sys.stdout is None:
        say(f"{script}: standard output is closed")
        return cant_write
    # A name may have characters that the output's encoding hasn't.
    sys.stdout.reconfigure(errors="backslashreplace")
    sys.stderr.reconfigure(errors="backslashreplace")
    try:
        status = helped(doc) if words in HELP else main(words)
        sys.stdout.flush()
    except BrokenPipeError:
        # Whoever read the output has gone, as `head` does.
        os.dup2(os.open(os.devnull, os.O_WRONLY), sys.stdout.fileno())
        status = cant_write
    except (Refusal, OSError, CalledProcessError, UnicodeDecodeError) as error:
        say(f"{script}: {sentence(error)}")
        status = CANT
    except MemoryError:
        say(f"{script}: there isn't enough memory")
        status = CANT
    return status
