"""Calls of openssl (3.0 or later)."""

from common.calls import TimedOut, called
from common.command import Refusal

# Keys and parameters of the tests are made in this time too.
SECONDS = 120


class OpensslError(Refusal):
    """What openssl wrote when it refused, of which `out` and `errors` are its standard output and standard error."""

    def __init__(self, what="", out="", errors=""):
        super().__init__(what)
        self.out = out
        self.errors = errors


def openssl(*words, given=None):
    """What openssl writes for these words.  It may not skip an attribute that it doesn't know, and asks for nothing."""
    try:
        run = called(["openssl", *words], given, SECONDS)
    except (FileNotFoundError, TimedOut) as refusal:
        why = str(refusal) if isinstance(refusal, TimedOut) else "openssl isn't there"
        raise OpensslError(why, errors=why) from refusal
    if run.returncode != 0 or b"Skipping" in run.stderr:
        out, errors = (stream.decode(errors="replace") for stream in (run.stdout, run.stderr))
        raise OpensslError(f"openssl {' '.join(map(str, words))}: {errors}", out, errors)
    return run.stdout
