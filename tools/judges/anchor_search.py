"""The shortest path from a certificate to an anchor (RFC 5280 6.1) in large pools: a breadth-first search.

It goes out from the certificate, one parent at a time, to all certificates that so many parents reach, until an anchor
is over one of them. From there it goes back to the certificates that such a path goes by, and then takes the least
index at each step. `anchor_judge` tries lists of indices instead; the rules of a link are written twice too.
"""

from functools import cache

from cases.kept_certificates import first
from judges.issuing_judge import Read
from judges.issuing_maker import CALLED
from judges.value_reader import authority_key

MOST_INDICES = 15
MOST_CERTIFICATES = 256


class Member(Read):
    """A certificate, and the key identifiers that it has and names."""

    def __init__(self, octets):
        super().__init__(octets)
        own, named = first(self.extensions, "2.5.29.14"), first(self.extensions, "2.5.29.35")
        self.own = None if own is None else own.contents.hex()
        written = "none" if named is None else authority_key(named)[0].split()[0]
        self.named = None if written == "none" else written.strip("-")


class Links:
    """Which certificate may have issued another one, below as many others as its path length allows.

    A certificate is read once, and two certificates are compared once, however often they are in pools.
    """

    def __init__(self, date, scheme):
        self.date, self.scheme = date, scheme
        self.member = cache(Member)
        self.may_issue = cache(self.issues)

    def is_valid(self, octets):
        one = self.member(octets)
        return one.begins <= self.date <= one.ends

    def issues(self, parent, child):
        """Whether one may have issued the other, whatever its path length."""
        one, other = self.member(parent), self.member(child)
        if one.ca != "true" or not self.is_valid(parent) or one.subject != other.issuer:
            return False
        if not self.has_named_key(one, other):
            return False
        algorithm = CALLED.get(other.algorithm.kids[0])
        if algorithm is None:
            return False
        return self.scheme.verdict(algorithm, one.key, other.signed, other.signature) == "accepted"

    @staticmethod
    def has_named_key(one, other):
        """Whether one has the key identifier that the other names, if it names one."""
        return other.named is None or other.named == one.own

    def allows(self, parent, between):
        length = self.member(parent).length
        return length is None or between <= length

    def is_link(self, parent, child, between):
        return self.allows(parent, between) and self.may_issue(parent, child)


class Pool:
    """The certificates of a pool that may have issued one, found once for each."""

    def __init__(self, links, pool):
        self.links, self.pool = links, pool
        self.parents = cache(self.issuers)

    def issuers(self, child):
        """The indices of those that may have issued it, whatever their path lengths."""
        return [index for index, parent in enumerate(self.pool) if self.links.may_issue(parent, child)]

    def over(self, child, between):
        return [index for index in self.parents(child) if self.links.allows(self.pool[index], between)]


def reached(links, checked, pool, anchors):
    """Of each number of parents the certificates that it reaches, up to one under an anchor; None if none is.

    A certificate is known by its index in the pool; the checked one has none.
    """
    layers = [{None: checked}]
    while True:
        between, layer = len(layers) - 1, layers[-1]
        ends = {index for index, child in layer.items() if any(links.is_link(anchor, child, between) for anchor in anchors)}
        if ends:
            return layers, ends
        if between == MOST_INDICES or not layer:
            return None
        layers.append({index: pool.pool[index] for child in set(layer.values()) for index in pool.over(child, between)})


def least(pool, layers, ends):
    """The least indices among the paths of this length, and the certificate that they lead to."""
    on_paths = [ends]
    for between in range(len(layers) - 2, -1, -1):
        on_paths.insert(0, {index for index, child in layers[between].items() if not on_paths[0].isdisjoint(pool.over(child, between))})
    indices, child = [], layers[0][None]
    for between, candidates in enumerate(on_paths[1:]):
        indices.append(min(candidates.intersection(pool.over(child, between))))
        child = pool.pool[indices[-1]]
    return indices, child


def line(links, checked, pool, anchors, purpose):
    """What is printed of a search: octets of certificates, and anchors with the purposes that they serve."""
    if len(pool) > MOST_CERTIFICATES:
        return f"too many: {len(pool)}"
    if not links.is_valid(checked):
        return "none"
    serving = {index: anchor for index, (anchor, serves) in enumerate(anchors) if purpose in serves}
    members = Pool(links, pool)
    found = reached(links, checked, members, set(serving.values()))
    if found is None:
        return "none"
    indices, child = least(members, *found)
    anchor = min(index for index, anchor in serving.items() if links.is_link(anchor, child, len(indices)))
    return f"anchored pool={','.join(map(str, indices))} anchor={anchor}"
