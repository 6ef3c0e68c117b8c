"""A harmless race beside a harmful one is not confirmed by what that does; whose matter a difference is."""

from __future__ import annotations

import json
import os
import shutil
import tempfile
import unittest
from collections.abc import Callable, Mapping
from pathlib import Path

from confirm.failed import STATUS, Failed, failed
from confirm.reach import Blame, Reach, Tasks
from confirm.room import can_enter
from record.fixes import Remedy
from record.kinds import LOG
from report.model import Race, Recipe, Side

HARMLESS = "a: ; echo same > shared; touch a\nb: ; echo same > shared; %s\n"
# Where a meets b, the recipe that stands between the two runs behind b: that is the other race.
READER = {"Makefile": "all: a y b\n" + HARMLESS % "echo 1 > b" + "y: ; cat b > y || echo none > y\n"}
FAILS = {"Makefile": "all: a y b\n" + HARMLESS % "echo 1 > b" + "y: ; test ! -f b && touch y\n"}
WRITER = {"Makefile": "all: a y b\n" + HARMLESS % "cat conf > b || echo none > b" + "y: ; echo 1 > conf; touch y\n"}
# Both races change what is made of all: it says nothing about the harmless one.
JOINED = {"Makefile": "all: late\nlate: a y b ; cat a y b > late\n" + HARMLESS % "echo 1 > b" + "y: ; cat b > y || echo none > y\n"}
BELOW = {"Makefile": "all: one copy\none: ; $(MAKE) -C sub\ncopy: one ; cat sub/late > copy\n",
         "sub/Makefile": "all: late\nlate: a b ; cat a b > late\na: ; cat g > a || echo none > a\nb: ; echo 1 > g; touch b\n"}
OF_NINJA = "rule sh\n  command = $c\n" + "".join(f"build {name}: sh\n  c = {text}\n" for name, text in (
    ("a", "echo same > shared; touch a"), ("y", "cat b > y || echo none > y"), ("b", "echo same > shared; echo 1 > b")))
THREE = {"Makefile": "all: a b c\n" + "".join(f"{it}: ; echo {it} > t; mv t {it}\n" for it in "abc")}
# While the recipe of a is held beside make alone, that of y runs before it.
LOOKED = {"Makefile": "all: a y x\na: ; cat conf > a || echo none > a; echo 1 > x\ny: ; echo 1 > conf; touch y\nx: in ; test -f x || echo 1 > x\n", "in": ""}


class OtherTests:
    """The tests; the runner mixes them with what runs them."""

    project: Path
    files: Callable[[Mapping[str, str]], None]
    record: Callable[..., None]
    check: Callable[..., str]
    assertNotIn: Callable[..., None]
    skipTest: Callable[..., None]

    def beside(self, files: Mapping[str, str], wanted: int, *says: str) -> None:
        """The harmless race on `shared` is not confirmed; `says` is said of it."""
        self.files(files)
        self.record("ninja" if "build.ninja" in files else "make")
        text = self.check(wanted, *says, words=("shared",))
        self.assertNotIn("\nCONFIRMED", text)

    def test_sources_that_the_build_changes(self) -> None:
        self.files({"Makefile": "all: a b\na: ; sed -i s/A/1/ conf && touch a\nb: ; sed -i s/B/2/ conf && touch b\n", "conf": "A B\n"})
        self.record()
        self.check(2, "the serial build of the copy ends with status 2.", "If the build changes its own sources: --prepare 'git checkout . && make clean'")
        self.check(1, "\nCONFIRMED ", " 1 --schedule 2 --prepare 'rm -f a b; echo A B > conf' --keep /tmp/kept\n",
                   words=("1", "--prepare", "rm -f a b; echo A B > conf"))

    def test_source_that_the_build_changes_and_does_not_make(self) -> None:
        self.files({"Makefile": "all: a b\na: ; sed -i s/A/1/ conf; touch a\nb: ; sed -i s/B/2/ conf; touch b\n", "conf": "A B\n"})
        self.record()
        self.check(2, "the build changes conf, and does not make it:", "If the build changes its own sources: --prepare 'git checkout . && make clean'")

    def test_folder_that_a_recipe_fills(self) -> None:
        self.files({"Makefile": "all: gen inst\ngen: ; echo 1 > d/one; touch gen\ninst: ; cp -r d inst\n", "d/zero": ""})
        self.record()
        self.check(2, "the recipe of inst cannot be held:", "such as where a folder that it makes is still there: --prepare 'make clean'")
        self.check(1, "\nCONFIRMED ", "inst/one: is missing\n", words=("1", "--prepare", "rm -rf inst gen d/one"))

    def test_reader_between_the_two(self) -> None:
        self.beside(READER, 0, "NOT CONFIRMED in 3 tries: what differs comes from other recipes.\n",
                    "  Another race shows, race 2:\n    y: line 1 is `1`, and `none` after a serial build\n")
        self.check(1, "CONFIRMED  all of b before y:\n", words=("2",))

    def test_reader_that_fails_between_the_two(self) -> None:
        self.beside(FAILS, 2, "CANNOT BE CONFIRMED  parallel builds differ also where the two run in the order of the serial build (its status)",
                    "  Another race shows, race 2:\n    the build fails with status 2; the serial build ends with 0\n", "*** [Makefile:4: y] Error 1")

    def test_writer_between_the_two(self) -> None:
        self.beside(WRITER, 2, "in the order of the serial build (b): another race may do that", "Another race shows, race 2:\n")

    def test_what_is_made_of_both(self) -> None:
        self.beside(JOINED, 0, "NOT CONFIRMED in ", "  Another race shows, race 2:\n    late: line 1 is `1`")

    def test_reader_between_commands_of_ninja(self) -> None:
        self.beside({"build.ninja": OF_NINJA}, 0, "NOT CONFIRMED in ", "  Another race shows, race 2:\n    y: line 1 is `1`")

    def test_three_that_share_a_temporary(self) -> None:
        self.files(THREE)
        self.record()
        self.check(1, "CONFIRMED  all of c while a is held before `mv` renames it:\n", words=("a", "c"))

    def test_beside_make_alone(self) -> None:
        self.files(LOOKED)
        self.record()
        text = self.check(0, "NOT CONFIRMED in ", "  Another race shows, race 1:\n    a: line 1 is `1`", words=("x",))
        self.assertNotIn("\nCONFIRMED", text)

    def test_make_inside_a_recipe_that_another_needs(self) -> None:
        self.files(BELOW)
        self.record()
        self.check(1, "CONFIRMED  all of b before a:\n", "  sub/a: line 1 is `1`, and `none`", "  copy: line 1 is `1`", words=("g",))

    def test_make_by_its_whole_path(self) -> None:
        if os.geteuid() != 0 or not can_enter():
            self.skipTest("the recorder may not have mounts of its own")
        self.files({"in.mk": READER["Makefile"], "build": f"#!/bin/sh\nexec {os.path.realpath(str(shutil.which('make')))} -f in.mk\n"})
        (self.project / "build").chmod(0o755)
        self.record("./build")
        self.check(1, "CONFIRMED  all of b before y:\n", words=("2",))


def task(label: str, after: str = "", reads: str = "", writes: str = "", kind: str = "recipe") -> tuple[dict, dict]:
    """A task, and what its label stands for."""
    row = {"task": label, "after": after.split(), "reads": reads.split(), "writes": writes.split()}
    return row, {"target": label.partition("@")[0], "kind": kind, "file": "Makefile", "line": 1, "recipe": ""}


class ReachTests(unittest.TestCase):
    """Whose matter a difference is, by the tasks of a record."""

    def setUp(self) -> None:
        room = tempfile.TemporaryDirectory(prefix="confirm-test-")
        self.addCleanup(room.cleanup)
        self.record, self.numbers = Path(room.name), list[str]()

    def build(self, *rows: tuple[dict, dict], folder: str = "/p", within: str = "", span: tuple[int, int] = (0, 9)) -> None:
        """A build of the record; `within` is a task of the first build."""
        number = f"{len(self.numbers) + 1:03d}"
        self.numbers.append(number)
        place = self.record / "builds" / number
        place.mkdir(parents=True)
        about = {"folder": folder, "meanings": {}, "within": {"build": "001", "task": within} if within else None, "span": span,
                 "labels": {row["task"]: label for row, label in rows}}
        (place / "build.json").write_text(json.dumps(about))
        (place / "tasks").write_text("".join(json.dumps(row) + "\n" for row, _ in rows))
        (self.record / "record.json").write_text(json.dumps({"builds": self.numbers}))

    def race(self, first: str, second: str, build: str = "001", is_look: bool = False) -> Race:
        """A race of two tasks of a build."""
        one, other = (Recipe(it, it.partition("@")[0], "", "", 0, "", is_look and it == second) for it in (first, second))
        return Race(build, "f", "f", "f", "f", "", Side(one, "writes"), Side(other, "reads"), LOG, Remedy(), (), "/p", ("", "", ""), True, True)

    def blame(self, race: Race, found: str, output: str = "", there: str = "", races: tuple[Race, ...] = ()) -> Blame:
        """Whose matter some names are."""
        return Reach(Tasks.of(self.record, "/p"), race, races).blame({*found.split()}, there.split(), output)

    def test_files(self) -> None:
        self.build(task("a", writes="f"), task("b", reads="f"), task("c", reads="f", writes="d"), task("app", "a b"), task("all", "app", kind="group"))
        race = self.race("a", "b")
        self.assertEqual(Blame({"f", "b", "app"}, {"c", "d"}, {"new"}), self.blame(race, "f b app c d new"))
        self.assertEqual(({"new"}, {"a"}, set()), tuple(self.blame(race, it).harm for it in ("new", "new c a", "new c")))

    def test_files_of_what_others_spoilt(self) -> None:
        self.build(task("a"), task("b"), task("c", writes="d"), task("app", "a c", "d"), task("top", "app", "app"), task("own", "a"))
        self.assertEqual(Blame({"own"}, {"d", "app", "top"}), self.blame(self.race("a", "b"), "d app top own"))

    def test_targets_that_no_recipe_made(self) -> None:
        self.build(task("a", writes="f"), task("x", reads="f", kind="group"), task("f@look", kind="group"), task("app", "x"))
        self.assertEqual(Blame({"x", "app", "f"}), self.blame(self.race("a", "x", is_look=True), "x app f"))

    def test_recipe_that_races_with_others_beside_make(self) -> None:
        self.build(task("a", writes="f"), task("x", reads="f", kind="group"), task("c"))
        look = self.race("a", "x", is_look=True)
        self.assertEqual(Blame({"x"}, {"a"}), self.blame(look, "a x", races=(look, self.race("a", "c"))))
        self.assertEqual(Blame(set(), {"f", "x"}), self.blame(look, "f x", races=(look, self.race("a", "c"))))
        self.assertEqual(Blame({"x", "f", "a"}), self.blame(look, "f a x", races=(look, self.race("c", "c"))))

    def test_recipe_that_races_with_others_between_recipes(self) -> None:
        self.build(task("a", writes="f"), task("b", reads="f"), task("c"))
        race = self.race("a", "b")
        self.assertEqual(Blame({"a", "b"}), self.blame(race, "a b", races=(race, self.race("a", "c"))))

    def nested(self) -> None:
        """Two makes one after the other inside a recipe, beside which another recipe runs one."""
        self.build(task("sub", writes="sub/a sub/c"), task("dir"), task("app", "sub"))
        self.build(task("a", writes="f"), task("b"), task("c"), folder="/p/sub", within="sub", span=(1, 3))
        self.build(task("d"), folder="/p/sub", within="sub", span=(4, 5))
        self.build(task("e"), folder="/p/dir", within="dir", span=(6, 7))

    def test_makes_inside_recipes(self) -> None:
        self.nested()
        inner, outer = self.race("a", "b", "002"), self.race("sub", "dir")
        self.assertEqual(Blame({"sub/a", "sub/f", "sub/d", "app"}, {"sub/c", "dir/e"}, {"sub"}), self.blame(inner, "sub sub/a sub/f sub/c sub/d app dir/e"))
        self.assertEqual(Blame({"sub/a", "sub/c", "sub/d", "dir/e", "app"}), self.blame(outer, "sub/a sub/c sub/d app dir/e"))

    def test_rounds_of_one_make(self) -> None:
        self.build(task("a"), task("b"))
        self.build(task("c"))
        self.assertEqual(Blame({"c"}), self.blame(self.race("a", "b", "001"), "c"))
        self.build(task("x"), task("y"))
        self.assertEqual(Blame(set(), {"c"}), self.blame(self.race("x", "y", "003"), "c"))

    def test_who_failed(self) -> None:
        self.nested()
        inner, lines = self.race("a", "b", "002"), ("make[1]: *** [Makefile:3: {}] Error 1\nmake: *** [Makefile:2: sub] Error 2\n")
        for target, harm in (("a", {STATUS}), ("c", set()), ("d", {STATUS}), ("e", set())):
            self.assertEqual(harm, self.blame(inner, f"{STATUS} sub/a sub/c", lines.format(target)).harm, target)
        self.assertEqual(Blame(unknown={STATUS}), self.blame(inner, STATUS, "make: *** [Makefile:2: sub] Error 2\n"))
        self.assertEqual(Blame(unknown={STATUS}), self.blame(inner, STATUS, "killed"))
        self.assertEqual(Blame({STATUS}, {STATUS}), self.blame(inner, STATUS, lines.format("c") + lines.format("b")))

    def test_who_failed_on_what_others_spoilt(self) -> None:
        self.build(task("a"), task("b"), task("c", writes="d"), task("app", "a c", "d"))
        race, output = self.race("a", "b"), "make: *** [Makefile:3: app] Error 1\n"
        self.assertEqual(Blame(others={STATUS}), self.blame(race, f"{STATUS} app d", output, "d"))
        self.assertEqual(Blame({STATUS}), self.blame(race, f"{STATUS} app d", output))

    def test_names_that_two_have(self) -> None:
        self.build(task("a"), task("b"))
        self.build(task("a"), folder="/p/sub", within="b", span=(1, 2))
        self.build(task("a"), folder="/p/other", span=(2, 8))
        self.assertEqual(Blame(unknown={STATUS}), self.blame(self.race("a", "b"), STATUS, "make: *** [Makefile:3: a] Error 1\n"))

    def test_what_make_and_ninja_print(self) -> None:
        rows = {"make: *** [Makefile:16: build/a.o] Error 1": Failed(("build/a.o",), "Makefile"),
                "make[2]: *** [<builtin>: a b.o] Segmentation fault (core dumped)": Failed(("a b.o",)),
                "gmake: *** [my file.mk:2: all] Fehler 1": Failed(("all",), "my file.mk"),
                "make: *** No rule to make target 'x', needed by 'y'.  Stop.": Failed(("x", "y")),
                "make[1]: *** No rule to make target 'x'.  Stop.": Failed(("x",)),
                "FAILED: [code=1] a b ": Failed(("a", "b")), "FAILED: a ": Failed(("a",))}
        for line, found in rows.items():
            self.assertEqual([found], [*failed(line + "\n")], line)
        for line in ("make: [Makefile:3: a] Error 1 (ignored)", "make: *** Waiting for unfinished jobs....", "make: *** Deleting file 'a'"):
            self.assertEqual([], [*failed(line)], line)
