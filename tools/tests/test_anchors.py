"""Tests of the searches for a path to a trust anchor, of their vectors, and of what compares them with others.

    python3 -m unittest discover -s tools/tests
"""

import sys
import unittest
from pathlib import Path

sys.path.insert(0, str(Path(__file__).resolve().parents[1]))

from cases import anchor_rows, drawn_anchors
from cases.issuing_rows import DEMO
from common import folders
from golden import compare_anchor
from interop import anchored_paths
from judges import anchor_search
from judges.anchor_judge import Search


class AnchoredPathsTest(unittest.TestCase):

    def test_both_searches(self):
        links, rows = {}, [*anchor_rows.by_hand(), *anchor_rows.dates(), *anchor_rows.lengths()]
        for *case, why in rows:
            checked, pool, anchors, purpose, date = case
            search = links.setdefault(date, anchor_search.Links(date, DEMO))
            self.assertEqual(anchor_search.line(search, checked, pool, anchors, purpose), Search(*case, DEMO).line(), why)

    def test_drawn_pools(self):
        links, made = anchor_search.Links(anchor_rows.NOW, DEMO), list(drawn_anchors.large(24, 5))
        self.assertEqual(made, list(drawn_anchors.large(24, 5)))
        answers = [compare_anchor.expected(links, *case) for _, *case in made]
        self.assertTrue(any(map(compare_anchor.has_parents, answers)))
        unlike, kinds = compare_anchor.compared(None, links, made)
        self.assertEqual((unlike, sum(kinds.values())), ([], 24))

    def test_rules_of_others(self):
        """Paths that other programs find, by a rule less."""
        naming = anchor_rows.certificate("Leaf", "Int", ca=False, authority=b"\xaa")
        renewed = anchor_rows.ca("Root", "Root", owner="Root renewed")
        below = anchor_rows.certificate("Leaf", "Root", ca=False, by="Root renewed")
        links = anchor_search.Links(anchor_rows.NOW, DEMO)
        for checked, pool, anchor, most, found in (
            (anchor_rows.LEAF, [anchor_rows.INT], anchor_rows.ROOT, 2, (True, True, True)),
            (anchor_rows.LEAF, [anchor_rows.INT], anchor_rows.ROOT, 1, (False, False, False)),
            (anchor_rows.LEAF, [anchor_rows.INT], anchor_rows.ROOT_0, 2, (False, False, False)),
            (naming, [anchor_rows.INT], anchor_rows.ROOT, 2, (False, True, False)),
            (below, [renewed], anchor_rows.ROOT, 2, (True, True, True)),
            (below, [renewed], anchor_rows.ROOT_0, 2, (False, False, True)),
        ):
            case = anchored_paths.Case("one", checked, pool, [anchor])
            rules = ((True, True), (False, True), (True, False))
            said = [anchored_paths.Rules(links, key_identifiers=one, self_issued=other).has_path(case, most) for one, other in rules]
            self.assertEqual(tuple(said), found)

    def test_results(self):
        path = anchored_paths.Path.of("anchored pool=2,0 anchor=1")
        self.assertEqual((path, anchored_paths.Path.of("anchored pool= anchor=0").pool), (([2, 0], 1), []))
        self.assertIsNone(anchored_paths.Path.of("refused NoAnchoredPath"))
        case = anchored_paths.Case("one", b"c", [b"a", b"b", b"d"], [b"x", b"y"])
        self.assertEqual(path.alone(case), ("one", b"c", [b"d", b"a"], [b"y"]))
        result = anchored_paths.Result
        for one, other, like in (
            (result(True, 2), result(True, 2), True), (result(True, 2), result(True, 3), False), (result(True, 2), result(True), True),
            (result(True, 2), result(False, None, "why"), False), (result(False), result(False, None, "why"), True),
        ):
            self.assertEqual(one.is_like(other), like)


if __name__ == "__main__":
    unittest.main()
