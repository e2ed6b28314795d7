"""The shortest path from a certificate to an anchor (RFC 5280 6.1): a search of its own, by trying lists of indices.

Lists are tried by their length, then in their order, then each anchor: so the first that fits is the first of the
shortest.  Whether one certificate may have issued another is judged by `issuing_judge`.  Nothing is shared with the
program.
"""

from functools import cache

from judges.issuing_judge import Checks, Read, expect_authority, expect_parent, expect_signed
from judges.issuing_maker import Refused

MOST_INDICES = 15
MOST_CERTIFICATES = 256


class Search:
    """A certificate, those that may be its parents, anchors with the purposes that they serve, and a date."""

    def __init__(self, octets, pool, anchors, purpose, date, scheme):
        self.checks = Checks(date, date, ["exact_date"])
        self.scheme = scheme
        self.checked, self.pool = Read(octets), [Read(member) for member in pool]
        self.anchors = [(Read(member), purpose in serves) for member, serves in anchors]
        self.may_end = cache(self.end_of)
        self.may_follow = cache(self.follows)

    def is_valid(self, certificate):
        try:
            self.checks.expect_window(certificate)
        except Refused:
            return False
        return True

    def is_link(self, parent, child, number):
        try:
            expect_authority(parent, number)
            self.checks.expect_window(parent)
            expect_parent(parent, child)
            expect_signed(parent, child, self.scheme)
        except Refused:
            return False
        return True

    def member(self, index):
        """A certificate of the pool, or the checked one."""
        return self.checked if index is None else self.pool[index]

    def follows(self, index, child, number):
        return self.is_link(self.pool[index], self.member(child), number)

    def end_of(self, child, number):
        """The first anchor over a certificate."""
        for index, (anchor, serves) in enumerate(self.anchors):
            if serves and self.is_link(anchor, self.member(child), number):
                return index
        return None

    def tried(self, length):
        """The first list of this length that an anchor ends, and the anchor."""
        hopeless = set()

        def beyond(child, number):
            if (child, number) in hopeless:
                return None
            if number == length:
                anchor = self.may_end(child, number)
                if anchor is not None:
                    return [], anchor
            else:
                for index in range(len(self.pool)):
                    rest = beyond(index, number + 1) if self.may_follow(index, child, number) else None
                    if rest is not None:
                        return [index, *rest[0]], rest[1]
            hopeless.add((child, number))
            return None

        return beyond(None, 0)

    def line(self):
        if len(self.pool) > MOST_CERTIFICATES:
            return f"too many: {len(self.pool)}"
        if self.is_valid(self.checked):
            for length in range(MOST_INDICES + 1):
                found = self.tried(length)
                if found is not None:
                    indices, anchor = found
                    return f"anchored pool={','.join(map(str, indices))} anchor={anchor}"
        return "none"
