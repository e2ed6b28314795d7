"""Time stamps, as openssl verifies them.  No proved program reads one.

A stamp is good where openssl finds its signature over the signature of the program, and a
path from the certificate that made it, which has to be for time stamping, to a root that
is trusted for stamps.  The certificates of that path have to be valid at the time of the
stamp: Windows and osslsigncode take a good stamp for good after they have expired.
"""

from calendar import timegm
from base64 import encodebytes
from pathlib import Path
from tempfile import TemporaryDirectory
from time import strptime
from typing import NamedTuple

from common.command import Refusal
from common.openssl import openssl
from program_check import text
from program_check.signature import COUNTER, TOKEN


NO_REASON = "it doesn't say why"


class Verified(NamedTuple):
    """A stamp, whether openssl verifies it, and why it doesn't."""

    stamp: object
    good: bool
    why: object = None

    def shown(self, used):
        by = self.stamp.by
        return {"kind": self.stamp.kind, "time": self.stamp.time, "by": by.subject if by else None, "verified": self.good, "why": self.why, "used": used}


def pem(certificates):
    return b"".join(b"-----BEGIN CERTIFICATE-----\n" + encodebytes(der) + b"-----END CERTIFICATE-----\n" for der in certificates)


def epoch(date):
    """A DATE with a time as the seconds since 1970."""
    return timegm(strptime(date, "%Y-%m-%dT%H:%M:%S"))


def verified(stamp, signature_octets, roots):
    """What openssl says of a stamp over these octets, which aren't kept; `roots` are the octets of certificates."""
    kept = stamp._replace(octets=b"")
    if stamp.why or stamp.time is None:
        return Verified(kept, False, stamp.why or "it names no time")
    if not roots:
        return Verified(kept, False, "no root is trusted")
    try:
        moment = epoch(stamp.time)
    except ValueError:
        return Verified(kept, False, "its time doesn't exist")
    with TemporaryDirectory() as place:
        folder = Path(place)
        (folder / "roots.pem").write_bytes(pem(roots))
        (folder / "beside.pem").write_bytes(pem(one.der for one in stamp.certificates))
        (folder / "stamp").write_bytes(stamp.octets)
        (folder / "signature").write_bytes(signature_octets)
        try:
            CHECKS[stamp.kind](folder, moment)
        except Refusal as refusal:
            return Verified(kept, False, reason(refusal, place))
    return Verified(kept, True)


def check_token(folder, moment):
    openssl("ts", "-verify", "-data", folder / "signature", "-in", folder / "stamp", "-token_in", "-CAfile", folder / "roots.pem",
            *beside(folder), "-attime", moment)


def check_countersignature(folder, moment):
    openssl("cms", "-verify", "-binary", "-inform", "DER", "-in", folder / "stamp", "-content", folder / "signature", "-out", folder / "content",
            "-CAfile", folder / "roots.pem", "-no-CApath", "-no-CAstore", "-purpose", "timestampsign", "-attime", moment)


def beside(folder):
    """The words for the certificates of a stamp; `openssl ts` refuses a file without any."""
    return ("-untrusted", folder / "beside.pem") if (folder / "beside.pem").stat().st_size else ()


CHECKS = {TOKEN: check_token, COUNTER: check_countersignature}


def reason(refusal, place):
    """The reasons in what openssl wrote: its lines of errors have nine parts, of which the sixth is the reason."""
    said = f"{getattr(refusal, 'errors', '')}\n{getattr(refusal, 'out', '')}"
    lines = [line for line in said.splitlines() if line.strip() and place not in line]
    named = [named for line in lines for named in reasons_in(line)]
    if said.strip() in ("", str(refusal)):
        # It isn't there, or didn't end.
        return text.visible(str(refusal))
    return f"openssl: {text.clean(', '.join(dict.fromkeys(named)) or next(iter(lines), '')) or NO_REASON}"


def reasons_in(line):
    """The reasons in a line, of openssl's stack of errors."""
    parts = line.split(":")
    if line.lower().startswith("verify error"):
        return [line.partition(":")[2].strip()]
    if len(parts) < 6 or parts[1] != "error":
        return []
    return [line.rpartition("Verify error:")[2] if "Verify error:" in line else parts[5]]


def used(found, now):
    """The first good stamp whose time isn't after now, None where there is none."""
    return next((one for one in found if one.good and epoch(one.stamp.time) <= now), None)
