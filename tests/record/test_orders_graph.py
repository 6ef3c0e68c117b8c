"""The graph of a record for other orders: which pairs are free, and orders that turn them round."""

import json
import tempfile
import unittest
from pathlib import Path
from typing import Any, Dict, List, Optional, Sequence, Tuple

import support  # noqa: F401  (it finds the modules)

from record.orders.gate import Key
from record.orders.graph import Graph, size, turning
from record.orders.joined import join, pass_questions

Row = Tuple[str, Sequence[str], Sequence[str], Sequence[str]]  # label, after, reads, writes


class Graphs(unittest.TestCase):
    """Records of a few lines."""

    def graph(self, *builds: Tuple[Optional[Dict[str, str]], Sequence[Row]], kinds: Optional[Dict[str, Dict[str, Any]]] = None) -> Graph:
        """The graph of builds: of each the task that it runs inside, and its tasks."""
        room = tempfile.TemporaryDirectory()
        self.addCleanup(room.cleanup)
        top = Path(room.name)
        (top / "record.json").write_text(json.dumps({"status": 0, "holes": [], "builds": ["%03d" % number for number, _ in enumerate(builds, 1)]}))
        for number, (within, rows) in enumerate(builds, 1):
            folder = top / "builds" / ("%03d" % number)
            folder.mkdir(parents=True)
            labels = {row[0]: {"target": row[0], "kind": "recipe", **(kinds or {}).get(row[0], {})} for row in rows}
            (folder / "build.json").write_text(json.dumps({"folder": "/p", "round": "goals", "within": within, "labels": labels}))
            (folder / "tasks").write_text("".join(json.dumps(dict(zip(("task", "after", "reads", "writes"), row))) + "\n" for row in rows))
        return Graph(top)

    def began(self, places: Dict[Any, float]) -> List[str]:
        """The targets in the order of their places."""
        return [key[-1][1] for key in sorted(places, key=lambda key: -places[key])]

    def test_pairs(self) -> None:
        graph = self.graph((None, [("a", [], [], []), ("b", [], [], []), ("c", ["a"], [], [])]))
        self.assertEqual(2, size(graph.free))

    def test_makes_inside(self) -> None:
        """A recipe is ordered with those that run inside it, and those of two makes by the recipes around them."""
        graph = self.graph((None, [("a", [], [], []), ("b", [], [], [])]), ({"build": "001", "task": "a"}, [("x", [], [], []), ("y", [], [], [])]),
                           ({"build": "001", "task": "b"}, [("z", [], [], [])]))
        self.assertEqual([(("/p", "a", 1),), (("/p", "a", 1), ("/p", "x", 1)), (("/p", "a", 1), ("/p", "y", 1)), (("/p", "b", 1),), (("/p", "b", 1), ("/p", "z", 1))], [*graph.keys])
        self.assertEqual(7, size(graph.free))
        self.assertEqual(("001", "a", "b"), graph.together((("/p", "a", 1), ("/p", "x", 1)), (("/p", "b", 1), ("/p", "z", 1))))
        self.assertEqual([0, 0, 0b10, 0, 0], graph.apart({(("/p", "b", 1),): {(("/p", "a", 1),)}}))  # x and y alone

    def test_part_of_a_later_rule_with_two_colons(self) -> None:
        rows: List[Row] = [("t", [], [], []), ("p", ["t"], [], []), ("t@rule2", ["p"], [], [])]
        graph = self.graph((None, rows), kinds={"t": {"colons": 1}, "p": {"kind": "part", "target": "t", "colons": 2}, "t@rule2": {"target": "t", "colons": 2}})
        self.assertEqual((2, [(("/p", "t", 1),), (("/p", "t", 2),)]), (graph.recipe_of("001", "p"), [*graph.keys]))

    def test_questions_of_pairs_not_turned(self) -> None:
        """A look stays where the two have not run both ways, or what the earlier one needs and the later one."""
        for untried, is_left in (([0, 0, 0], False), ([0, 0, 0b10], True), ([0, 0, 0b01], True)):
            graph = self.graph((None, [("n", [], [], []), ("a", ["n"], ["d/~seen"], []), ("b", [], [], ["d/~seen"])]))
            pass_questions(graph, untried)
            self.assertEqual([is_left] * 2, [bool(row["reads"] or row["writes"]) for row in graph.rows["001"][1:]])

    def test_order_of_what_runs_inside(self) -> None:
        """A recipe has the place of the first that runs inside it: that waits for it."""
        rows: List[Row] = [("a", [], [], []), ("b#1", [], [], []), ("b", ["b#1"], [], [])]
        graph = self.graph((None, rows), ({"build": "001", "task": "b#1"}, [("x", [], [], [])]), kinds={"b#1": {"kind": "part", "target": "b"}})
        places, _ = graph.covering([0, 0, 1, 0], {})
        self.assertEqual(places[("/p", "b", 1),], places[("/p", "b", 1), ("/p", "x", 1)])

    def test_last_that_waits(self) -> None:
        """What comes last begins first, also of those that come when others have run."""
        graph = self.graph((None, [("a", [], [], []), ("b", [], [], []), ("c", ["a"], [], []), ("d", ["b"], [], [])]))
        self.assertEqual(["b", "d", "a", "c"], [key[-1][1] for key in graph.last_first({})])
        self.assertEqual(["a", "c", "b", "d"], [key[-1][1] for key in graph.last_first({(("/p", "b", 1),): {(("/p", "c", 1),)}})])

    def test_covers(self) -> None:
        """The order turns round what is wanted, with what that needs first, and so it stays where the rest runs side by side."""
        graph = self.graph((None, [("a", [], [], []), ("n", [], [], []), ("b", ["n"], [], []), ("c", [], [], [])]))
        places, apart = graph.covering([0, 0, 1, 0], {})
        self.assertEqual((["n", "c", "b", "a"], {(("/p", "a", 1),): {(("/p", "b", 1),)}}), (self.began(places), apart))
        self.assertEqual(["n", "b", "a", "c"], self.began(graph.beside(2, 0)))

    def test_cover_that_turns_all_round(self) -> None:
        """What one needs waits for another one as well; and where two want to be first, the one does for which fewer pairs are given up."""
        graph = self.graph((None, [("a", [], [], []), ("b", [], [], []), ("c", [], [], []), ("d", ["b"], [], [])]))
        self.assertEqual(["c", "b", "d", "a"], self.began(graph.covering([0, 0, 0b10, 0b1], {})[0]))
        graph = self.graph((None, [("a", [], [], []), ("b", [], [], []), ("c", ["a"], [], []), ("d", ["b"], [], []), ("e", ["b"], [], [])]))
        self.assertEqual(["b", "d", "e", "a", "c"], self.began(graph.covering([0, 0, 0b10, 0b1, 0b1], {})[0]))

    def test_cover_that_begins_with_the_one_of_most_pairs(self) -> None:
        """Three are to run before the first one, and behind two that need it."""
        graph = self.graph((None, [("a", [], [], []), *((name, [], [], []) for name in "xyz"), ("g", ["a"], [], []), ("h", ["a"], [], [])]))
        self.assertEqual(["a", "g", "h", "x", "y", "z"], self.began(graph.covering([0, 0b1, 0b1, 0b1, 0b1110, 0b1110], {})[0]))

    def test_circle(self) -> None:
        """The order has all of them."""
        self.assertEqual([2, 0, 1], turning([0, 0, 0], [0b10, 0b01, 0]))
        self.assertEqual([1, 0, 2], turning([0b100, 0, 0], [0, 0, 0b101]))

    def test_recipe_that_make_runs_by_itself(self) -> None:
        """With several jobs it comes as soon as all is over that it needs; so what it needs waits where it is to come late."""
        graph = self.graph((None, [("g", [], [], []), ("e", ["g"], [], []), ("u", [], [], [])]), kinds={"e": {"expanded": True}})
        logs: List[List[Key]] = [[(("/p", name, 1),) for name in names] for names in ("gu", "ug", "u")]
        self.assertEqual([[0, 0, 0], [0, 0, 0b11], [0, 0, 0], [0, 0, 0b1]], [*map(graph.turned, logs), graph.turned(logs[1], False)])
        self.assertEqual(["u", "g", "e"], self.began(graph.covering([0, 0, 0b10], {})[0]))
        graph = self.graph((None, [("g", [], [], []), ("e", ["g"], [], []), ("u", [], [], []), ("v", [], [], [])]), kinds={"e": {"expanded": True}})
        self.assertEqual(["u", "v", "g", "e"], self.began(graph.covering([0, 0, 0b10, 0b10], {})[0]))
        graph = self.graph((None, [("g", [], [], []), ("e", ["g"], [], []), ("f", ["g"], [], []), ("h", ["f"], [], [])]), kinds={name: {"expanded": True} for name in "efh"})
        self.assertEqual([0, 0, 0, 0], graph.turned(logs[0]))

    def test_fix_that_turns_two_round(self) -> None:
        """A recipe may wait for one that came behind it in the serial build, and for what that needs."""
        graph = self.graph((None, [("a", [], [], []), ("n", [], [], []), ("b", ["n"], [], []), ("c", [], [], [])]))
        after = {(("/p", "a", 1),): {(("/p", "b", 1),)}}
        self.assertEqual([0b110, 0, 0b10, 0], graph.held(after))
        self.assertEqual([0, 0, 0, 0b111], graph.apart(after))
        self.assertEqual(["n", "c", "b", "a"], self.began(graph.covering([0, 0, 0, 1], after)[0]))

    def test_parts(self) -> None:
        """A part of a recipe begins when that does, and what it runs is inside the recipe."""
        rows: List[Row] = [("a#1", [], [], []), ("a", ["a#1"], [], []), ("b", [], [], [])]
        graph = self.graph((None, rows), ({"build": "001", "task": "a#1"}, [("x", [], [], [])]), kinds={"a#1": {"kind": "part", "target": "a"}})
        self.assertEqual([(("/p", "a", 1), ("/p", "x", 1)), (("/p", "a", 1),), (("/p", "b", 1),)], [*graph.keys])
        self.assertEqual(graph.at["001", "a"], graph.recipe_of("001", "a#1"))

    def test_parts_of_other_numbers(self) -> None:
        """What a part does in another record is not that of another part."""
        one, other = (self.graph((None, [("a&1", [], ["f"], [name])]), kinds={"a&1": {"kind": "part", "command": "cat " + name}}) for name in "gh")
        join(one, other)
        self.assertEqual((["f"], ["g"]), (one.rows["001"][0]["reads"], one.rows["001"][0]["writes"]))

    def test_users_first(self) -> None:
        """Who lists a folder, or uses one, begins before the several that make it."""
        graph = self.graph((None, [("a", [], [], ["d/a"]), ("c", [], [], []), ("b", [], [], ["d/b"])]), kinds={"c": {"lists": ["d"]}})
        self.assertEqual(["c"], self.began(graph.users_first() or {})[:1])
        self.assertIsNone(self.graph((None, [("a", [], [], ["d"]), ("c", [], ["d"], [])])).users_first())


if __name__ == "__main__":
    unittest.main()
