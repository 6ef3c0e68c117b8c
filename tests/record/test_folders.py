"""Who makes a folder, and who uses it, of events that are made here."""

import unittest
from typing import Dict, List, Mapping, Sequence, Tuple

import support  # noqa: F401
from record.build.assumptions import Assumptions
from record.build.tasks import Build
from record.make.build import MakeBuilder
from record.make.owners import Owners
from record.make.words import read_words
from record.trace.lives import Life
from record.trace.names import Inode, Names
from test_small import Small, makefiles

PAIR = "all: x y\nx: ; mkdir -p out; touch x\ny: ; %s; touch y\n"
# Recipes for which make itself makes the folder of their target, as many of git's makefile.
AHEAD = "$(if $(wildcard $(@D)),,%s$(shell mkdir -p $(@D)))"
FIRST = "F = " + AHEAD + "\nall: out/a out/b\ns: ; touch s\nout/a: s ; $(F)\n\techo a > $@\n"

TOP = "/w"
Events = Sequence[Tuple[str, str]]


def words_of(rules: Mapping[str, Sequence[str]]) -> List[str]:
    """What a make says that runs a recipe for each of these targets, in their order."""
    lines = ["ARGS", "FLAGS", "BELOW 0", "Reading makefiles...", "Updating goal targets....", "Considering target file 'all'."]
    for number, (target, prerequisites) in enumerate(rules.items()):
        lines += [" Considering target file '%s'." % target, *("  Pruning file '%s'." % a for a in prerequisites), " Must remake target '%s'." % target]
        lines += ["Putting child 0x%d (%s) PID %d on the chain." % (number, target, 10 + number)]
    base = ["# Make data base, printed on Monday", "# Files", ""]
    for target, prerequisites in rules.items():
        base += ["%s: %s" % (target, " ".join(prerequisites)), "#  recipe to execute (from 'Makefile', line 1):", "\techo", ""]
    return lines + base + ["# files hash-table stats:", "# Finished Make data base on Monday", "EXIT 0"]


def build_of(rules: Mapping[str, Sequence[str]], done: Mapping[str, Events], there: Mapping[str, str] = {}, argv: Sequence[str] = ("cc",)) -> Build:
    """The tasks of a round in which each target's recipe did these events; `there`: names with their kinds before the build."""
    make = Life(7, born=1, folder=TOP, argv=["make"], is_make=True, number=0, starts=[(1, TOP)])
    for number, target in enumerate(rules):
        life = Life(10 + number, make, 10 * number + 10, 10 * number + 19, TOP, list(argv), [list(argv)])
        life.events = {(kind, TOP + path if path[:1] == "\0" else "%s/%s" % (TOP, path)): 10 * number + 11 + place for place, (kind, path) in enumerate(done.get(target, ()))}
        make.children.append(life)
    names = Names()
    folder = names.folder(TOP)
    folder.walked = True
    names.tops.append(TOP)
    names.before = {TOP: "d", **{"%s/%s" % (TOP, n): kind for n, kind in there.items()}}
    for name, kind in there.items():
        names.put(folder, name, Inode(kind))
    owners = Owners([make, *make.children], [read_words(7, 0, words_of(rules))])
    assert not owners.holes, owners.holes
    return MakeBuilder(owners.makes[0], 0, names, Assumptions(), names.before).run()


def meetings(build: Build) -> Dict[str, Tuple[str, str]]:
    """The paths on which two tasks meet that nothing orders, numbers left out, with the tasks."""
    found: Dict[str, Tuple[str, str]] = {}
    for second, task in enumerate(build.tasks):
        for first in range(second):
            other = build.tasks[first]
            for path in sorted(task.writes & (other.reads | other.writes) | task.reads & other.writes):
                if build.unordered(first, second):
                    name = path[len(TOP) + 1:] + "/"
                    found["/".join(p for p in name.split("/") if p and not p.isdigit())] = (other.label, task.label)
    return found


AB: Dict[str, List[str]] = {"a": [], "b": []}


class Folders(unittest.TestCase):
    """Which two tasks meet."""

    def meet(self, one: Events, two: Events, there: Mapping[str, str] = {}, argv: Sequence[str] = ("cc",)) -> List[str]:
        return sorted(meetings(build_of(AB, {"a": one, "b": two}, there, argv)))

    def test_two_makers(self) -> None:
        self.assertEqual([], self.meet([("M", "d"), ("C", "d/")], [("E", "d")]))

    def test_user_without_a_maker_before_it(self) -> None:
        for use in (("C", "d/x"), ("U", "d"), ("L", "d"), ("N", "d")):
            self.assertEqual(["d/~seen"], self.meet([("M", "d")], [use]), use)

    def test_user_that_looks_first(self) -> None:
        self.assertEqual([], self.meet([("M", "d")], [("S", "d"), ("C", "d/x")]))
        self.assertEqual(["d/~seen"], self.meet([("M", "d")], [("C", "d/x"), ("S", "d")]))

    def test_user_behind_its_maker(self) -> None:
        self.assertEqual({}, meetings(build_of({"a": [], "b": ["a"], "c": []}, {"a": [("M", "d")], "b": [("C", "d/x")], "c": [("E", "d")]})))

    def test_user_that_makes_it(self) -> None:
        self.assertEqual([], self.meet([("M", "d")], [("C", "d/x"), ("E", "d")]))

    def test_folder_that_was_there(self) -> None:
        self.assertEqual([], self.meet([("M", "d")], [("C", "d/x")], {"d": "d"}))


Makefiles = makefiles(__name__, {
    "folder_that_is_not_closed": Small("safe", "all: a u\na: ; chmod 700 d; touch a\nu: ; cat d/x > u\n", {"d/x": "x"}),
    "folder_of_another_mode": Small("race", PAIR % "umask 077; test -d out || mkdir -p out", is_tried=True),
    "folder_asked_for_behind_its_use": Small("race", PAIR % "touch out/y; test -d out || mkdir -p out", is_tried=True),
    "folder_made_before_its_use": Small("safe", PAIR % "mkdir -p out; touch out/y"),
    "folder_of_another_recipe": Small("race", PAIR % "touch out/y", says="that the folder out is there"),
    "folder_that_make_makes_ahead": Small("safe", FIRST % "" + "out/b: ; $(F)\n\techo b > $@\n", is_tried=True),
})
