"""Verdict tables of both versions, as the judges read them (docs/FORMATS.md)."""

FIRST_LINE = "picky-verdicts 2"


def verdicts(table):
    """What the first row on each signature says, by the line of that row in version 1."""
    first, *rows = table.splitlines() or [""]
    if first != FIRST_LINE:
        return dict.fromkeys([first, *rows], "accept")
    found = {}
    for row in rows:
        verdict, line = row.split(" ", 1)
        found.setdefault(line, verdict)
    return found
