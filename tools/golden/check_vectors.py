"""Vectors of checks under policies, for `xgolden_check`.

A case is a line of words: a signature file, a table, and what is asked of the file,
any number of times, in the form that `xgolden_check` names.

The rows are those of `check_rows`, which have their answers, and the signatures
of `real_policies`, whose answers `check_judge` finds.  What it finds of the rows has
to be their answers, and nothing is taken from what the program printed.
"""

from cases import check_rows, real_policies
from golden.stored_run import Vectors
from judges.check_judge import answer
from judges.value_reader import word

LETTERS = {"basic": "b", "signing": "s", "not_before": "f", "not_after": "l", "chain": "c", "against_list": "a", "exclude": "e"}


def moment_word(digits):
    return f"{digits}Z" if digits else "-"


def table_word(table):
    return table.replace(" ", ":").replace("\n", ";") or "-"


def list_words(policy):
    """The trust list, the time and the excluded names, where there is one of them."""
    if policy.trust_list is None and policy.now == 0 and not policy.excluded:
        return ()
    trust_list = "-" if policy.trust_list is None else policy.trust_list.hex()
    return trust_list, str(policy.now), "+".join(name.hex() for name in policy.excluded) or "-"


def asked_word(policy, change=None):
    """What is asked in one word; a change is a place and the octet that comes there instead."""
    flags = "".join(letter for name, letter in LETTERS.items() if getattr(policy, name))
    octets = change[0].to_bytes(2, "big") + bytes([change[1]]) if change else b""
    hash_word = "-" if policy.file_hash is None else policy.file_hash.hex()
    dates = moment_word(policy.lower), moment_word(policy.upper)
    return ",".join((flags or "-", hash_word, *dates, word(octets), *list_words(policy)))


def asked():
    """Each file and its table, what is asked of it, and the answer."""
    for row in check_rows.rows():
        yield (row.file.octets, row.file.table), asked_word(row.policy), row.said
    for file, policy, change, said in real_policies.asked():
        yield (file.octets, file.table), asked_word(policy, change), said


def cases():
    """The files in the order in which they come first, each with all that is asked of it."""
    found = {}
    for file, asked_of_it, said in asked():
        found.setdefault(file, []).append((asked_of_it, said))
    return found


def vectors():
    found = cases()
    lines = (" ".join((word(octets), table_word(table), *(one for one, _ in many))) for (octets, table), many in found.items())
    answers = (said for many in found.values() for _, said in many)
    return Vectors(tuple(lines), tuple(answers))


def unlike():
    """The rows of which the judge says otherwise."""
    for why, file, policy, said in check_rows.rows():
        found = answer(file.octets, policy, file.table)
        if found != said:
            yield f"{why}: {said!r} isn't {found!r}"
