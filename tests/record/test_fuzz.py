"""The fuzzer sees what it is there for: a wrong yes, a build that the recording changed, a recorder that stops."""

import shutil
import tempfile
import unittest
from dataclasses import replace
from pathlib import Path

import support
from fuzz_builds import Outcome, Result, assumptions, differences, judge, parts
from fuzz_directed import Side, side
from fuzz_gadgets import COMMANDS, GadgetDraw
from fuzz_ninja import NinjaDraw, NinjaProject
from fuzz_placed import PlacedDraw
from fuzz_places import FOLDERS, INPUTS, OUTPUTS, VARIABLES, Place, draw_place, has_terminals
from fuzz_projects import Block, Draw, Project, load
from guard_tables import GUARDS
from record.build.assumptions import TEXTS
from record.ninja.manifest import read_manifest

RACE = Project(1, [Block(["a"], "a: ; sleep 0.2; echo a > a\n"), Block(["b"], "b: ; cat a > b || true\n")])
SAFE = Project(1, [Block(["a"], "a: ; echo a > a\n"), Block(["b"], "b: a ; cat a > b\n")])
NINJA_RACE = "build a: sh\n  c = sleep 0.2; echo a > a\nbuild b: sh\n  c = cat a > b || true\n"


class Judges(unittest.TestCase):
    """Recorders that say what they should not."""

    def result(self, project: Project, script: str) -> Result:
        with tempfile.TemporaryDirectory() as room:
            fake = Path(room) / "recorder"
            fake.write_text("#!/bin/sh\nshift 2\ntest $1 = make || set -- \"$@\" -j1\n\"$@\" > /dev/null 2>&1\n" + script)
            fake.chmod(0o755)
            return judge(project, Path(room), 2, fake)

    def test_wrong_yes(self) -> None:
        result = self.result(RACE, "printf 'SAFE\\nsafe, if:\\n  - one\\n    more\\n  - two\\n'\n")
        self.assertEqual(("wrong yes", ["one more", "two"]), (result.kind, [a.strip() for a in result.assumed]))

    def test_yes_that_prints_what_is_broken(self) -> None:
        """A file that an assumption is about may differ where this assumption is printed, and no other file."""
        broken = Project(1, [Block(["a", "b"], RACE.blocks[0].text + RACE.blocks[1].text, {}, {"b": "locks"})])
        says = "printf 'SAFE\\nsafe, if:\\n  - %s (1, such\\n    as x)\\n'\n"
        self.assertEqual("assumption broken", self.result(broken, says % TEXTS["locks"]).kind)
        self.assertEqual("wrong yes", self.result(broken, says % TEXTS["outside"]).kind)
        self.assertEqual("wrong yes", self.result(RACE, says % TEXTS["locks"]).kind)

    def test_race_that_is_seen(self) -> None:
        self.assertEqual("race seen", self.result(RACE, "exit 1\n").kind)

    @unittest.skipUnless(shutil.which("ninja"), "ninja is missing (Debian: apt-get install ninja-build)")
    def test_wrong_yes_over_a_manifest(self) -> None:
        project = NinjaProject(1, [Block(["a", "b"], NINJA_RACE)])
        self.assertEqual(["wrong yes", "race seen"], [self.result(project, "exit %d\n" % status).kind for status in (0, 1)])
        ordered = NinjaProject(1, [Block(["a", "b"], NINJA_RACE.replace("b: sh", "b: sh a"))])
        self.assertEqual("safe", self.result(ordered, "exit 0\n").kind)

    def test_right_yes(self) -> None:
        self.assertEqual(("safe", 2), (self.result(SAFE, "exit 0\n").kind, self.result(SAFE, "exit 0\n").builds))

    def test_race_that_is_none(self) -> None:
        self.assertEqual("race not seen", self.result(SAFE, "exit 1\n").kind)

    def test_changed_build(self) -> None:
        self.assertEqual("changed", self.result(SAFE, "echo x >> a\n").kind)

    def test_build_that_depends_on_the_time(self) -> None:
        """What a serial build leaves too, where each step takes a while, the recording has not changed."""
        timed = Project(1, [Block(["a"], "a: ; @test '$N' = : && echo quick > a || echo slow > a\n")])
        self.assertEqual(["unstable", "changed"], [self.result(timed, "echo %s > a\n" % word).kind for word in ("slow", "other")])

    def test_recorder_that_stops(self) -> None:
        self.assertEqual(["crash", "no verdict"], [self.result(SAFE, "exit %d\n" % status).kind for status in (3, 2)])


class PlacedBuilds(unittest.TestCase):
    """Builds in places: what a recorder changes of their outputs, their status, or what they find there."""

    TEXT = "a: ; @cat > a; echo said; echo error >&2; umask >> a; echo $$V >> a; (echo log >&3) 2> /dev/null || true\n"
    PLACE = Place(stdin="text", open=[3], env={"V": "v", "HOME": None}, folder="a b", linked=True, mask=0o77, files=64, ignored=["INT"])

    def result(self, script: str, place: Place = PLACE, text: str = TEXT) -> Result:
        with tempfile.TemporaryDirectory() as room:
            fake = Path(room) / "recorder"
            fake.write_text("#!/bin/sh\nshift 2\n" + script)
            fake.chmod(0o755)
            return judge(Project(1, [Block(["a"], text)], place=place), Path(room), 2, fake)

    def test_same(self) -> None:
        for script in ('"$@" && echo SAFE\n', '"$@" && printf "race-record: 0:02, 3 processes done\\033[K\\r\\r\\033[KSAFE\\n"\n'):
            self.assertEqual("safe", self.result(script).kind, script)
        for outputs in ("joined", "files", "no errors", "no output"):
            self.assertEqual("safe", self.result('"$@" && echo SAFE\n', Place(stdin="text", outputs=outputs)).kind, outputs)

    def test_changed(self) -> None:
        for script in ('"$@" | cat -n && echo SAFE\n', '"$@" 2>&1 && echo SAFE\n', '"$@"; echo more; echo SAFE\n', '"$@" < /dev/null && echo SAFE\n', 'umask 022; "$@" && echo SAFE\n',
                       'V=w "$@" && echo SAFE\n', '"$@"; echo NO VERDICT; echo "the build ended with status 2"; exit 2\n'):
            self.assertEqual("changed", self.result(script).kind, script)

    def test_closed_descriptors(self) -> None:
        text = "a: ; @(echo log >&3) 2> /dev/null && echo open > a || echo closed > a\n"
        self.assertEqual(["safe", "changed"], [self.result(script, text=text).kind for script in ('"$@" && echo SAFE\n', '"$@" 3>&- && echo SAFE\n')])

    def test_build_that_fails(self) -> None:
        says = '"$@"; echo NO VERDICT; echo "the build ended with status 2"; exit 2\n'
        self.assertEqual(["serial fails", "changed"], [self.result(one, text="a: ; @echo said; false\n").kind for one in (says, says.replace('"$@"', '"$@" > /dev/null'))])

    def test_terminal(self) -> None:
        if has_terminals():
            text = "a: ; @test -t 0 && echo here > a && echo said > /dev/tty || echo none > a\n"
            self.assertEqual(["safe", "changed"], [self.result(one, Place(stdin="terminal"), text).kind for one in ('"$@" && echo SAFE\n', '"$@" < /dev/null && echo SAFE\n')])


class Directed(unittest.TestCase):
    """Builds that hold back what a verdict names show a race that no delay at random has shown."""

    def kind(self, project: Project) -> str:
        with tempfile.TemporaryDirectory() as room:
            return judge(project, Path(room), 0).kind

    def test_the_first_comes_last(self) -> None:
        self.assertEqual("race seen", self.kind(Project(1, [Block(["a"], "a: ; $N $@; echo a > a\n"), Block(["b"], "b: ; $N $@; cat a > b || true\n")])))

    def test_the_second_comes_between(self) -> None:
        """What one recipe writes and removes, another one sees only in the middle of it."""
        text = "a: ; $N $@; echo a > x; $N $@; rm x; touch a\n"
        self.assertEqual("race seen", self.kind(Project(1, [Block(["a"], text), Block(["b"], "b: ; $N $@; cat x > b || true\n")])))

    def test_a_race_that_changes_nothing(self) -> None:
        blocks = [Block([name], "%s: ; $N $@; echo w > x; touch %s\n" % (name, name)) for name in "ab"]
        self.assertEqual("race not seen", self.kind(Project(1, blocks)))

    def test_what_is_held_back(self) -> None:
        """A recipe at each of its steps; a look by the recipes that it waits for and the other one does not."""
        after = {"a": [], "b": ["a"], "c": ["b"], "c@look": ["b"], "w": ["a"]}
        kinds = {**dict.fromkeys(after, "recipe"), "c@look": "look"}
        self.assertEqual(Side(("w",), True), side("w", "c@look", after, kinds))
        self.assertEqual(Side(("b",), False), side("c@look", "w", after, kinds))
        self.assertEqual([["b 1"], []], [side("c@look", "w", after, kinds).at(step) for step in (1, 2)])
        self.assertEqual(("t1a", "t1"), side("t1a", "w", after, {"t1a": "recipe"}).names)


class Projects(unittest.TestCase):
    """What is drawn."""

    def test_a_seed_is_a_project(self) -> None:
        self.assertEqual(Draw(7).draw().all_files(), Draw(7).draw().all_files())
        self.assertNotEqual(Draw(7).draw().all_files(), Draw(8).draw().all_files())

    def test_kept_and_loaded(self) -> None:
        with tempfile.TemporaryDirectory() as room:
            for draw in (Draw, GadgetDraw, NinjaDraw):
                draw(3).draw().save(Path(room) / "p.json")
                self.assertEqual(draw(3).draw(), load(Path(room) / "p.json", {"make": Project, "ninja": NinjaProject}))

    def test_places(self) -> None:
        """A part of the seeds has a place, the same each time; it is kept with the project. Over many seeds each kind is drawn, and recipes ask for it."""
        drawn = [PlacedDraw(seed).draw() for seed in range(300)]
        placed = [one for one in drawn if one.place is not None]
        self.assertTrue(50 < len(placed) < 110, len(placed))
        self.assertEqual([one.place for one in drawn], [PlacedDraw(seed).draw().place for seed in range(300)])
        self.assertEqual([GadgetDraw(seed).draw() for seed in range(50) if drawn[seed].place is None], [replace(one, left=None) for one in drawn[:50] if one.place is None])
        places = [draw_place(seed, True, True) for seed in range(600)]
        lacks = {"terminal"} if not has_terminals() else set()
        self.assertEqual(({*INPUTS} - lacks, {*OUTPUTS} - lacks, {*FOLDERS}, {*VARIABLES}),
                         ({p.stdin for p in places}, {p.outputs for p in places}, {p.folder for p in places}, {name for p in places for name in p.env}))
        self.assertTrue(all(any(getattr(p, name) for p in places) for name in ("open", "linked", "mask", "nice", "files", "user", "ignored", "above")))
        text = "".join(one.makefile() for one in placed)
        for word in ("umask", "/proc/self/fd", "cat > $@", "p/../", "./t", "vpath %.t"):
            self.assertTrue(word in text, word)
        with tempfile.TemporaryDirectory() as room:
            placed[0].save(Path(room) / "p.json")
            self.assertEqual(placed[0], load(Path(room) / "p.json", {"make": Project}))

    def test_gadgets(self) -> None:
        """Over many seeds each shape is drawn, and what the command asks for; a shape alone is drawn where that is asked for."""
        drawn = [GadgetDraw(seed).draw() for seed in range(150)]
        text = "".join(project.makefile() for project in drawn)
        for word in ("$(eval Vt", "$$(shell", "obj1", "$(MFLAGS)", "> $@ 2>&1", "| cat > $@", "mkdir -p -m 700", "touch -r", "cp -p", "tar xf", "find t", ": Vt", "ar rcD", ".x -s all", "vpath %.c", ".d; touch", ".d/t "):
            self.assertIn(word, text)
        self.assertEqual({"-j1"}, {word for project in drawn for word in project.recorded})
        self.assertTrue(any(p.is_script for p in drawn) and any(p.head for p in drawn) and any(p.values for p in drawn))
        for name in {guard.shape for guard in GUARDS if guard.shape} - set(COMMANDS):
            self.assertTrue(all(block.text for block in GadgetDraw(1, [name]).draw().blocks), name)

    def test_manifests(self) -> None:
        """A seed is a manifest; over many seeds each kind of statement is drawn, and ninja reads what is drawn."""
        drawn = [NinjaDraw(seed).draw().all_files() for seed in range(60)]
        self.assertEqual(drawn[7], NinjaDraw(7).draw().all_files())
        text = "".join(files.get("next.ninja", files["build.ninja"]) for files in drawn)
        for word in ("restat = 1", "dyndep = ", "pool = one", "pool = console", ": list ", ": spool ", ": phony", "|@ " if support.is_new_ninja() else "|| ", "|| ", "subninja", "include", "-C t", "again"):
            self.assertIn(word, text)
        for files in drawn[:20]:
            self.assertTrue(read_manifest("", "build.ninja", files.__getitem__).edges)

    def test_each_part_is_smaller(self) -> None:
        found = parts(RACE)
        self.assertEqual([1, 1, 2, 2], [len(p.blocks) for p in found])
        self.assertEqual(["", "b: ; cat a > b || true\n"], [b.text for b in found[2].blocks])

    def test_differences(self) -> None:
        one, two = Outcome(0, {"a": "f 1"}), Outcome(0, {"a": "f 2"})
        self.assertEqual(["a: f 2 for f 1", "", "status 2 for 0"], [differences(one, two, []), differences(one, two, ["a"]), differences(one, Outcome(2, {}), [])])
        self.assertEqual([], assumptions("SAFE\n"))
