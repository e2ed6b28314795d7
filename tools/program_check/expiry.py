"""What to do next where a certificate has expired: it depends on the date, and on the time stamps that there are."""

STAMPED = "a program that was stamped while its certificates were valid is to be had from its publisher"
# What openssl says of a stamp whose CA isn't trusted.
NOT_TRUSTED = "unable to get local issuer certificate", "self-signed certificate", "self signed certificate", "no root is trusted", "unable to get issuer certificate"


def hint(report, for_a_lifetime):
    """What to do about it, by the date and the stamps of a report."""
    return f"{advice(report, for_a_lifetime)} (sbverify looks at no dates)"


def advice(report, for_a_lifetime):
    source, stamps = report.date["source"], report.stamps
    if source.startswith("as given"):
        return "the date is the one of --at, beside which no stamp counts: leave it out to have the time of a good stamp, or give a date at which it was valid"
    if source.startswith("the time"):
        return f"the stamp is from after its end, so it doesn't help; {STAMPED}"
    if for_a_lifetime:
        return "the signer's certificate is for lifetime signing: no stamp outlives it, so the program has to be signed anew by its publisher"
    if not stamps:
        return f"the program has no time stamp, which alone would make an expired certificate good; {STAMPED}"
    if any(one["verified"] for one in stamps):
        return "its stamp is good, but from after now: is the clock right?"
    if any(part in (one["why"] or "") for one in stamps for part in NOT_TRUSTED):
        return "its stamp is by a CA that isn't trusted here: if you trust that CA, name the file of its root by --stamp-root"
    return f"its stamp isn't good, for the reason that is above; {STAMPED}"
