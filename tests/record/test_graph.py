"""The order of one round: nodes, tasks of double colons and groups, a serial order."""

import unittest
from typing import Dict, List, Set

import support  # noqa: F401
from record.build.tasks import Node, Task, befores, order_tasks
from record.make.graph import Graph
from record.make.owners import Make
from record.make.words import read_words
from record.trace.lives import Life
from test_small import Small, makefiles

COLONS = "all: dc u\ndc:: ; echo 1 >> dc\n%sdc:: ; echo 2 >> dc\nu: dc ; cat dc > u\nx: ; touch x\n"


def graph_of(considered: str, base: str, jobs: List[str]) -> Graph:
    """A round: names with blanks in front say who needs whom, `*` a target that was considered already."""
    lines = ["Reading makefiles...", "Updating goal targets...."]
    for row in considered.split("\n"):
        name = row.strip()
        blanks = " " * (len(row) - len(row.lstrip()))
        lines.append(blanks + ("Pruning file '%s'." % name[1:] if name.startswith("*") else "Considering target file '%s'." % name))
    lines += ["Putting child 0x%d (%s) PID %d on the chain." % (n, job, n + 10) for n, job in enumerate(jobs)]
    text = ["# Make data base, printed on Monday", "# Files", "", *base.split("\n"), "# files hash-table stats:", "# Finished Make data base on Monday"]
    words = read_words(7, 0, lines + text + ["EXIT 0"])
    return Graph(Make(Life(7), "/w", words), 0)


RECIPE = "#  recipe to execute (from 'Makefile', line 1):\n\ttouch $@\n"


def prerequisites(graph: Graph) -> Dict[str, List[str]]:
    """What each node waits for."""
    return {label: sorted(node.prerequisites) for label, node in graph.nodes.items()}


class Nodes(unittest.TestCase):
    """Considered targets, and who needs them."""

    def test_depth_says_who_asks(self) -> None:
        graph = graph_of("all\n a\n  x\n b\n  *x", "all: a b\n", ["a", "b"])
        self.assertEqual({"all": ["a", "b"], "a": ["x"], "x": [], "b": ["x"]}, prerequisites(graph))
        self.assertEqual((["all"], 1, 0), (graph.round.goals, len(graph.nodes["a"].jobs), len(graph.nodes["x"].jobs)))

    def test_job_of_a_target_that_was_not_considered(self) -> None:
        graph = graph_of("all", "all:\n", ["other"])
        self.assertEqual(["all", "other"], graph.round.goals)

    def test_rules_of_a_double_colon_target(self) -> None:
        graph = graph_of("u\n d\n  p\n d\n  q\nv\n *d", "u: d\n\nv: d\n\nd:: p\n%s\nd:: q\n%s" % (RECIPE, RECIPE), ["d", "d"])
        self.assertEqual(["d"], sorted(graph.nodes["u"].prerequisites))
        self.assertEqual(["p"], sorted(graph.nodes["d"].prerequisites))
        self.assertEqual(["d", "q"], sorted(graph.nodes["d@rule2"].prerequisites))
        self.assertIn("d", graph.nodes["q"].prerequisites)
        self.assertEqual([1, 1], [len(graph.nodes[n].jobs) for n in ("d", "d@rule2")])

    def test_double_colons_that_one_target_alone_needs(self) -> None:
        rules, words = "\n\nd:: p\n" + RECIPE + "\nd:: q\n" + RECIPE, "u\n d\n  p\n d\n  q"
        for considered, base, waits in ((words, "u: d", True), (words + "\n*d", "u: d", False), (words + "\nv\n *d", "u: d", False), (words + "\nv", "u: d\n\nv: d", False),
                                        (words + "\nv", "u: d\n\nv: | d", False), (words, "u: d\n#  Also makes: v", False),
                                        (words, "u: d\n#  File is an intermediate prerequisite.", False)):
            graph = graph_of(considered, base + rules, ["d", "d"])
            self.assertEqual(["d", "d@rule2"] if waits else ["d"], sorted(graph.nodes["u"].prerequisites), (considered, base))

    def test_double_colons_of_which_not_every_rule_ran(self) -> None:
        graph = graph_of("d\n p\nd\n q", "d:: p\n%s\nd:: q\n%s" % (RECIPE, RECIPE), ["d"])
        self.assertEqual([1, 0], [len(graph.nodes[n].jobs) for n in ("d", "d@rule2")])
        self.assertNotIn("d", graph.nodes["q"].prerequisites)

    def test_double_colons_without_a_recipe(self) -> None:
        graph = graph_of("u\n d\n  p\n d\n  q\n d\n  r\n*d", "u: d\n\nd:: p\n\nd:: q\n%s\nd:: r\n%s" % (RECIPE, RECIPE), ["d", "d"])
        self.assertEqual([0, 1, 1], [len(graph.nodes[n].jobs) for n in ("d", "d@rule2", "d@rule3")])
        self.assertEqual((["d", "d@rule2"], ["d@rule2", "r"]), tuple(sorted(graph.nodes[n].prerequisites) for n in ("u", "d@rule3")))

    def test_members_of_a_group_wait_for_the_one_that_runs(self) -> None:
        graph = graph_of("all\n a\n  s\n b\n  *s", "all: a b\n\na: s\n#  Also makes: b\n\nb: s\n#  Also makes: a\n", ["a"])
        self.assertEqual((["s"], ["a", "s"]), (sorted(graph.nodes["a"].prerequisites), sorted(graph.nodes["b"].prerequisites)))


class Order(unittest.TestCase):
    """A serial order, and what ended before what."""

    @staticmethod
    def order(after: List[Set[int]], keys: List[int]) -> "tuple[List[int], int]":
        tasks = [Task(str(n), Node(str(n), str(n), 0, 0), "recipe") for n in range(len(after))]
        return order_tasks(tasks, after, [(key, 0) for key in keys])

    def test_least_key_first(self) -> None:
        self.assertEqual(([2, 0, 1], 0), self.order([set(), {0}, set()], [5, 1, 2]))

    def test_ring_is_opened(self) -> None:
        after: List[Set[int]] = [{1}, {0}, {1}]
        order, dropped = self.order(after, [0, 1, 2])
        self.assertEqual(([0, 1, 2], 1), (order, dropped))
        self.assertEqual(set(), after[0])

    def test_what_has_ended(self) -> None:
        self.assertEqual([0, 1, 3, 0], befores([Task(str(n), Node(str(n), str(n), 0, 0), "recipe", after) for n, after in enumerate([set(), {0}, {1}, set()])]))


Makefiles = makefiles(__name__, {
    # names with blanks
    "name_with_a_blank_beside_another": Small("race", "all: x u\nx a\\ b &: ; echo new > a; touch x 'a b'\nu: a ; cp a u\n", {"a": "a"}),
    # rules of one double-colon target, of which some have no recipe
    "rule_without_a_recipe": Small("race", COLONS % "dc:: x\n"),
    "rule_with_an_empty_recipe": Small("race", COLONS % "dc:: x ;\n"),
    "rule_whose_recipe_starts_nothing": Small("race", COLONS % "dc:: x ; $(file >y,w)\n"),
    "first_rule_without_a_recipe": Small("safe", "all: dc u\ndc:: x\ndc:: ; echo 1 > dc\nu: dc ; cat dc > u\nx: ; touch x\n"),
})
