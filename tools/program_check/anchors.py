"""The path from a certificate to a root, which `picky_anchor` finds.

It takes eight anchors and 32 other certificates at a time, in any order, so with more
roots it is called several times, and the shortest path counts.
"""

from itertools import islice
from typing import NamedTuple

from program_check.programs import Disagreement

MOST_ANCHORS, MOST_POOL = 8, 32
PURPOSE = "code"


class Anchored(NamedTuple):
    """The certificates of a path above the first one, nearest first, the root last; and the root as it was handed in."""

    parents: list
    root: object


class Found(NamedTuple):
    """The answers, the deciding one last, and the path, None where there is none."""

    answers: list
    path: object


def pool_of(certificates, first):
    """The other certificates that a path may go through, in the file's order, and whether there are more than 32.

    They are those that names lead to, of more than 32 the ones that are reached first.
    Each name is looked up once.
    """
    others = [one for one in dict.fromkeys(certificates) if one != first]
    reached = list(islice(reached_from(first, others), MOST_POOL + 1))
    nearest = set(reached[:MOST_POOL])
    return [one for one in others if one in nearest], len(reached) > MOST_POOL


def reached_from(first, others):
    """The certificates that issuers' names lead to, nearest first, each once."""
    named = {}
    for one in others:
        named.setdefault(one.subject_name, []).append(one)
    wanted = [first.issuer_name]
    for name in wanted:
        for one in named.pop(name, ()):
            yield one
            wanted.append(one.issuer_name)


def numbers(words):
    return [int(word) for word in words.split(",") if word]


def names_fit(certificate, parents):
    """Whether each certificate names the next one's subject as its issuer."""
    line = [certificate, *parents]
    return all(child.issuer_name == parent.subject_name for child, parent in zip(line, line[1:]))


def path_in(answer, certificate, pool, roots):
    """The path of an answer, None where it has none; a Disagreement where it can't be one of these certificates."""
    parts = answer.accepted()
    if parts is None:
        return None
    places, anchor = numbers(parts["pool"]), int(parts["anchor"])
    if anchor >= len(roots) or any(place >= len(pool) for place in places):
        raise Disagreement(f"picky_anchor answers '{answer.line()}', and was given {len(pool)} certificates and {len(roots)} roots")
    parents = [*(pool[place] for place in places), roots[anchor].certificate]
    if not names_fit(certificate, parents):
        raise Disagreement(f"picky_anchor answers '{answer.line()}', and the names of these certificates don't lead from one to the next")
    return Anchored(parents, roots[anchor])


class Files(NamedTuple):
    """Where the files for the programs are written."""

    folder: object

    def of(self, name, octets):
        file = self.folder / name
        file.write_bytes(octets)
        return file

    def certificates(self, name, ders):
        return [self.of(f"{name}{place}.der", der) for place, der in enumerate(ders)]


def calls(files, table, date, certificate, pool, roots):
    """The roots of each call, eight at a time, and the words for it."""
    checked, = files.certificates("checked", [certificate.der])
    others = files.certificates("pool", [one.der for one in pool])
    for begin in range(0, len(roots), MOST_ANCHORS):
        part = roots[begin:begin + MOST_ANCHORS]
        anchors = files.certificates(f"root{begin}_", [root.der for root in part])
        yield part, [table, PURPOSE, date, len(part), *anchors, checked, *others]


def find(programs, files, table, date, certificate, pool, roots):
    """The shortest path to one of the roots, of which each has its certificate."""
    answers, best = [], None
    for part, words in calls(files, table, date, certificate, pool, roots):
        answer = programs.run("picky_anchor", words, "picky_anchor")
        path = path_in(answer, certificate, pool, part)
        if best is None or path is not None and (best[1] is None or len(path.parents) < len(best[1].parents)):
            best = answer, path
        answers.append(answer)
    return Found([best[0]], best[1]) if best else Found([], None)
