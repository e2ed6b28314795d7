"""What `openssl verify` says of a path: a second opinion, which decides nothing."""

import re
from pathlib import Path
from tempfile import TemporaryDirectory

from common.command import Refusal
from common.openssl import openssl
from program_check import notes, text
from program_check.stamps import epoch, pem

LOOKED_UP = re.compile(r"error [0-9]+ at [0-9]+ depth lookup: ?(.*)")


def note(line, date):
    """What to say of a path at a DATE with a time, None where openssl takes it too."""
    try:
        verify(line, epoch(date))
    except ValueError:
        # A year that Python has no time of.
        return notes.NO_OPINION
    except Refusal as error:
        why = reasons_in(getattr(error, "errors", ""))
        return notes.SECOND_OPINION.format(f"openssl: {text.clean(why)}") if why else notes.NO_OPINION
    return None


def verify(line, moment):
    """A Refusal where openssl doesn't take a path at a moment in seconds since 1970.

    It looks at critical extensions, usages of CAs and name constraints, which the proved programs leave out.
    """
    checked, *between = line[:-1] or line
    with TemporaryDirectory() as place:
        folder = Path(place)
        for name, certificates in ("root.pem", line[-1:]), ("between.pem", between), ("checked.pem", [checked]):
            (folder / name).write_bytes(pem(one.der for one in certificates))
        untrusted = ("-untrusted", folder / "between.pem") if between else ()
        trusted = "-partial_chain", "-attime", moment, "-trusted", folder / "root.pem"
        openssl("verify", *trusted, *untrusted, folder / "checked.pem")


def reasons_in(said):
    """The reasons in what it wrote, beside subjects, each on a line that begins with a type or an OID."""
    found = filter(None, map(LOOKED_UP.match, said.splitlines()))
    return ", ".join(dict.fromkeys(one[1].strip() for one in found))
