"""Pools of certificates drawn at random, for `compare_anchor.py`.

A world has some hundred certificates: a few that issue all others, cross certificates, loops, two keys of one name,
certificates that are over, path lengths, key identifiers. A pool is drawn from one world, and so is its order. The
signatures are those of the demonstration scheme, unless the certificates are made by another maker.
"""

from itertools import permutations
from random import Random

from cases.anchor_rows import BOTH, CODE, EARLIER, LATER, NEITHER, TIME
from cases.issuing_chains import certificate

VALID = ("20200101", "20300101")
ROOTS = ("Root", "Other", "Third")
MOST = 256


def dates(random):
    return random.choice((VALID,) * 8 + (EARLIER, LATER))


def length(random, most):
    """A path length, mostly none."""
    return random.choice((None,) * 4 + (random.randrange(most + 1),))


def authority(random, make, subject, issuer, longest):
    """One certificate of a CA: of the key of its subject, or a second key of this name."""
    owner, by = (random.choice((who,) * 5 + (f"{who} renewed",)) for who in (subject, issuer))
    names_keys = random.random() < 0.2
    return make(
        subject, issuer, dates(random), ca=random.choice((True,) * 9 + (False, None)), length=length(random, longest), owner=owner, by=by,
        own=owner.encode() if names_keys or random.random() < 0.3 else None, authority=by.encode() if names_keys else None,
    )


def web(random):
    """Few names, each of which issues each: many paths, most of them short."""
    names = [f"W{number}" for number in range(random.choice((2, 4, 8)))]
    return names, lambda subject: random.choice(names * 2 + [*ROOTS[:2]]), 3


def ladder(random):
    """A name issues the one below it, seldom others: long paths, of 15 and more."""
    names = [f"L{number}" for number in range(random.choice((6, 12, 15, 16, 18)))]

    def issuer(subject):
        level = names.index(subject)
        if random.random() < 0.1:
            return random.choice(names)
        return names[level + 1] if level + 1 < len(names) else random.choice(ROOTS[:2])

    return names, issuer, 16


def ring(random):
    """Each name is issued by the next one, the last by the first: loops, and seldom a root."""
    names = [f"R{number}" for number in range(random.choice((1, 2, 3, 7)))]
    return names, lambda subject: "Root" if random.random() < 0.05 else names[(names.index(subject) + 1) % len(names)], 12


def forest(random):
    """Names of three levels: cross certificates between the trees of the roots."""
    low, high = [f"F{number}" for number in range(12)], [f"T{number}" for number in range(4)]
    return low + high, lambda subject: random.choice(high if subject in low else [*ROOTS, *high]), 2


KINDS = web, ladder, ring, forest


class World:
    """Certificates of one kind, what is checked under them, and anchors."""

    def __init__(self, random, kind, size=300, make=certificate):
        self.kind = kind.__name__
        names, issuer, longest = kind(random)
        self.members = [authority(random, make, subject, issuer(subject), longest) for subject in names]
        while len(self.members) < size:
            subject = random.choice(names)
            self.members.append(authority(random, make, subject, issuer(subject), longest))
        low = names[:max(1, len(names) // 4)]
        self.checked = [make("Leaf", random.choice(low), when, ca=False) for when in (VALID,) * 9 + (EARLIER,)]
        self.anchors = [
            make(subject, subject, dates(random), ca=True, length=length(random, longest), owner=random.choice((subject,) * 4 + (f"{subject} renewed",)))
            for subject in ROOTS * 12
        ] + self.members[:4]

    def anchored(self, random):
        """Anchors with the purposes that they serve: mostly few, at most 64."""
        count = random.choice((0, 2, 4, 8, 8, 16, 16, 64))
        return [(random.choice(self.anchors), random.choice((BOTH, BOTH, CODE, TIME, NEITHER))) for _ in range(count)]

    def case(self, random, size):
        """What is checked, the pool in its order, the anchors and the purpose."""
        checked = random.choice(self.checked if random.random() < 0.9 else self.members)
        pool = random.sample(self.members, size)
        if random.random() < 0.3:
            pool[random.randrange(len(pool))] = random.choice(pool)
        return checked, pool, self.anchored(random), random.choice((CODE, CODE, TIME))


def size(random):
    """From 2 to 256, small ones seldom."""
    return 2 + int((MOST - 1) * random.random() ** 2)


def large(count, seed):
    """So many pools, each with its kind."""
    random = Random(seed)
    worlds = [World(random, kind) for kind in KINDS * 3]
    for number in range(count):
        world = worlds[number % len(worlds)]
        yield world.kind, *world.case(random, MOST if number % 50 == 49 else size(random))


def every_order(seed, has_path, sizes=(2, 3, 4)):
    """Small pools in each of their orders, of each kind and size one with a path and one that is drawn without a look."""
    random = Random(seed)
    for kind in KINDS:
        world = World(random, kind, size=12)
        for count in sizes:
            for tries in (1, 300):
                for _ in range(tries):
                    checked, pool, anchors, purpose = world.case(random, count)
                    if tries > 1 and has_path(checked, pool, anchors, purpose):
                        break
                for order in permutations(pool):
                    yield f"{world.kind}, every order", checked, list(order), anchors, purpose
