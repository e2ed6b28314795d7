"""Rows of `xgolden_run`: certificates, pools of parents and anchors, each with the reason why it is there.

The certificates are put together by hand, as those of `issuing_chains`; their signatures are those of the demonstration
scheme.  The lines come from `anchor_judge`.
"""

from itertools import permutations
from random import Random

from cases.issuing_chains import certificate
from cases.issuing_rows import DEMO
from judges.anchor_judge import Search

NOW = "20250101000000"
BOTH, CODE, TIME, NEITHER = "code+time", "code", "time", "neither"
EARLIER, LATER = ("20200101", "20241231"), ("20250102", "20300101")
UNTIL, FROM = ("20200101", "20250101"), ("20250101", "20300101")


def ca(subject, issuer, **settings):
    return certificate(subject, issuer, ca=True, **settings)


ROOT, ROOT_1, ROOT_0 = (ca("Root", "Root", length=length) for length in (None, 1, 0))
INT, LEAF = ca("Int", "Root"), certificate("Leaf", "Int", ca=False)
# The name and the key of the intermediate, by a root that isn't given.
CROSS = ca("Int", "Elsewhere")
LOW, LOW_LEAF = ca("Low", "Int"), certificate("Leaf", "Low", ca=False)
OTHER, OTHER_INT = ca("Other", "Other"), ca("Int", "Other")


def tower(levels):
    """A leaf, and the authorities between it and the root, nearest first."""
    between = [ca(f"P{level}", f"P{level + 1}" if level + 1 < levels else "Root") for level in range(levels)]
    return certificate("Leaf", "P0" if levels else "Root", ca=False), between


def ring(size):
    """A leaf, and authorities of which each issued the one before it, the first the last; the last is issued by the root too."""
    around = [ca(f"R{level}", f"R{(level + 1) % size}") for level in range(size)]
    return certificate("Leaf", "R0", ca=False), [*around, ca(f"R{size - 1}", "Root")]


def same(count):
    """A leaf, and authorities of one name and key that issued one another."""
    return certificate("Leaf", "Same", ca=False), [ca("Same", "Same")] * count


def by_hand():
    """A certificate, a pool, anchors, a purpose, a date, and why."""
    root = [(ROOT, CODE)]
    yield LEAF, [INT], root, CODE, NOW, "over one intermediate"
    yield LEAF, [CROSS, INT], root, CODE, NOW, "a cross certificate before it, which leads to no anchor"
    yield INT, [], root, CODE, NOW, "under the anchor itself"
    yield LEAF, [INT], root, TIME, NOW, "the anchor serves another purpose"
    yield LEAF, [INT], [(ROOT_1, CODE)], CODE, NOW, "one certificate is between the anchor and the leaf"
    yield LOW_LEAF, [LOW, INT], [(ROOT_1, CODE)], CODE, NOW, "two are"
    yield LOW_LEAF, [LOW, INT], [(ROOT_1, CODE), (ROOT, CODE)], CODE, NOW, "two are, and another anchor allows them"
    yield LEAF, [INT], [(ROOT_0, CODE)], CODE, NOW, "none may be"
    yield INT, [], [(ROOT_0, CODE)], CODE, NOW, "none may be, and none is"
    yield LEAF, [], root, CODE, NOW, "the intermediate isn't given"
    yield LEAF, [INT], [], CODE, NOW, "no anchor is given"
    yield ROOT, [], root, CODE, NOW, "the anchor under itself"
    yield ROOT, [ROOT], [(OTHER, CODE)], CODE, NOW, "a root under itself, and no anchor"
    for serves in (BOTH, TIME, NEITHER):
        for purpose in (CODE, TIME):
            yield LEAF, [INT], [(ROOT, serves)], purpose, NOW, f"{serves}, {purpose}"
    yield LEAF, [INT], [(ROOT, TIME), (ROOT, CODE)], CODE, NOW, "the second anchor serves the purpose"
    yield LEAF, [INT], [(ROOT, BOTH), (ROOT, CODE)], CODE, NOW, "both do, and the first counts"
    yield LEAF, [INT, INT], root, CODE, NOW, "an intermediate twice, and the first counts"
    yield LEAF, [OTHER_INT, INT], [(ROOT, CODE), (OTHER, CODE)], CODE, NOW, "two paths as long: the indices decide before the anchor"
    yield LEAF, [INT, OTHER_INT], [(ROOT, CODE), (OTHER, CODE)], CODE, NOW, "the same, the other way around"
    yield LOW_LEAF, [INT, LOW, ca("Low", "Root")], root, CODE, NOW, "a longer path before a shorter one"
    yield LEAF, [ca("Int", "Int"), INT], root, CODE, NOW, "an intermediate of its own before it: the least of the shortest goes by neither"
    yield LEAF, [certificate("Int", "Root", ca=False), certificate("Int", "Root"), INT], root, CODE, NOW, "two that are no authority"
    yield LEAF, [ca("Int", "Root", owner="Another"), INT], root, CODE, NOW, "another key of the same name"
    yield LEAF, [ca("Int", "Root", changed=True), INT], root, CODE, NOW, "one whose signature is another's"
    yield LEAF, [INT], [(ca("Root", "Root", owner="Another"), CODE), (ROOT, CODE)], CODE, NOW, "an anchor of the same name and another key"
    yield LEAF, [INT], [(certificate("Root", "Root", ca=False), CODE)], CODE, NOW, "an anchor that is no authority"
    naming = certificate("Leaf", "Int", ca=False, authority=b"\xaa")
    for keys in ((b"\xbb", b"\xaa"), (None, b"\xaa"), (b"\xbb",), (None,)):
        yield naming, [ca("Int", "Root", own=own) for own in keys], root, CODE, NOW, "the leaf names a key"


def dates():
    """The same, with other dates: of the leaf, the intermediate or the anchor."""
    for when, why in ((EARLIER, "over"), (LATER, "not yet valid"), (UNTIL, "in its last seconds"), (FROM, "in its first second")):
        yield certificate("Leaf", "Int", when, ca=False), [INT], [(ROOT, CODE)], CODE, NOW, f"the leaf is {why}"
        yield LEAF, [ca("Int", "Root", dates=when)], [(ROOT, CODE)], CODE, NOW, f"the intermediate is {why}"
        yield LEAF, [ca("Int", "Root", dates=when), INT], [(ROOT, CODE)], CODE, NOW, f"the first of two intermediates is {why}"
        yield LEAF, [INT], [(ca("Root", "Root", dates=when), CODE)], CODE, NOW, f"the anchor is {why}"
        yield LEAF, [INT], [(ca("Root", "Root", dates=when), CODE), (ROOT, CODE)], CODE, NOW, f"the first of two anchors is {why}"


def lengths():
    """As many parents as may be, one more, and the least list among long ones."""
    for levels in (0, 1, 2, 14, 15, 16, 17):
        leaf, between = tower(levels)
        yield leaf, between, [(ROOT, CODE)], CODE, NOW, f"{levels} between"
        yield leaf, between[::-1], [(ROOT, CODE)], CODE, NOW, f"{levels} between, in another order"
    for size in (1, 2, 3):
        leaf, around = ring(size)
        yield leaf, around, [(ROOT, CODE)], CODE, NOW, f"a ring of {size}"
    # A path length that only a longer way fits can't be: a longer way has more between. One that must go around can.
    around = [ca("A", "B"), ca("B", "A"), ca("B", "Root", length=3)]
    yield certificate("Leaf", "A", ca=False), around, [(ROOT, CODE)], CODE, NOW, "a loop beside the way"
    for length in range(4):
        yield LOW_LEAF, [LOW, ca("Int", "Root", length=length)], [(ROOT, CODE)], CODE, NOW, f"a path length of {length} with one between"
    for count in (2, 5):
        leaf, pool = same(count)
        yield leaf, pool, [(ca("Same", "Same"), CODE)], CODE, NOW, f"{count} of one name and key, and an anchor of it"
        yield leaf, pool, [(ROOT, CODE)], CODE, NOW, f"{count} of one name and key, and none"
        yield leaf, [*pool, ca("Same", "Root")], [(ROOT, CODE)], CODE, NOW, f"{count} of one name and key, and the last leads to the anchor"


def orders():
    """One pool in each order."""
    pool = [CROSS, INT, LOW, ca("Low", "Other")]
    for some in permutations(pool):
        yield LOW_LEAF, list(some), [(ROOT, CODE), (OTHER, TIME)], CODE, NOW, "an order of four"
        yield LOW_LEAF, list(some), [(ROOT, CODE), (OTHER, TIME)], TIME, NOW, "an order of four"


NAMES = ["A", "B", "C", "Root", "Other"]


def drawn_pool(random, size):
    for _ in range(size):
        subject, issuer = random.choice(NAMES[:3]), random.choice(NAMES)
        length = random.choice((None, None, None, 0, 1, 2))
        dates = random.choice((("20200101", "20300101"),) * 6 + (EARLIER, LATER))
        owner = random.choice((subject,) * 5 + ("Another",))
        yield certificate(subject, issuer, dates, ca=random.choice((True,) * 7 + (False,)), length=length, owner=owner)


def drawn(count, sizes, seed):
    """Pools with cross certificates, loops, two keys of one name, certificates that are over, and path lengths."""
    random = Random(seed)
    for _ in range(count):
        pool = list(drawn_pool(random, random.choice(sizes)))
        anchors = [(ca(subject, subject, length=random.choice((None, None, 0, 1, 2))), random.choice((CODE, TIME, BOTH))) for subject in NAMES[3:]]
        yield certificate("Leaf", random.choice(NAMES[:3]), ca=False), pool, anchors, random.choice((CODE, TIME)), NOW, "drawn"


def words(member):
    octets, serves = member
    return f"{serves}:{octets.hex()}"


def row(certificate, pool, anchors, purpose, date):
    listed = ",".join(map(words, anchors)) or "-", certificate.hex(), ",".join(octets.hex() for octets in pool) or "-"
    return " ".join((purpose, f"{date}Z", *listed)), Search(certificate, pool, anchors, purpose, date, DEMO).line()


def all_cases():
    yield from by_hand()
    yield from dates()
    yield from lengths()
    yield from orders()
    yield from drawn(200, range(3, 9), 1)
    yield from drawn(6, (32, 64), 2)


def rows():
    for *case, _ in all_cases():
        yield row(*case)
