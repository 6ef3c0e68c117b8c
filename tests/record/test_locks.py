"""Small makefiles about files of locks: who makes such a file first makes no difference, unless somebody looks whether it is there, or changes it."""

import shutil
import unittest
from typing import Dict

import support
from test_replay import TOP, events_of, played
from test_small import Small, test_of

# Two recipes under one lock, which nothing orders, and a third one.
BOTH = "all: a b c\na b: ; flock lock touch $@\n"
LOG = "who asks for a lock"

LOCKS: Dict[str, Small] = {
    "file_that_recipes_make": Small("safe", "all: a b\na b: ; flock lock touch $@\n", lacks=LOG),
    "file_that_was_there": Small("safe", "all: a b\na b: ; flock lock touch $@\n", {"lock": "text\n"}),
    "makefile": Small("safe", "all: a b\na b: ; flock Makefile -c 'touch $@'\n"),
    "without_another_process": Small("safe", "all: a b\na b: ; flock -F lock touch $@\n"),
    "log_under_a_lock": Small("race", "all: a b\na b: ; flock lock -c 'echo $@ >> log'; touch $@\n", says="RACE  log\n", lacks="RACE lock"),
    "file_that_the_command_writes": Small("race", "all: a b\na b: ; flock lock -c 'echo $@ >> lock'; touch $@\n"),
    "file_that_the_command_writes_in_one_process": Small("race", "all: a b\na b: ; flock -F lock sh -c 'echo $@ >> lock; touch $@'\n"),
    "file_that_a_shell_opens": Small("race", "all: a b\na b: ; (flock 9; touch $@) 9> lock\n"),
    "tool_of_that_name": Small("safe", "all: a b\na b: ; ./flock lock touch $@\n", {"flock.c": ""}, setup="cp $(command -v flock) flock"),
    "lock_that_nobody_waits_for": Small("race", "all: a b\na b: ; flock -n lock touch $@\n"),
    "lock_that_nobody_waits_for_with_a_status": Small("race", "all: a b\na b: ; flock -E 3 -xn lock touch $@\n"),
    "lock_that_all_wait_for_a_while": Small("race", "all: a b\na b: ; flock -w 9 lock touch $@\n"),
    "lock_before_other_options": Small("safe", "all: a b\na b: ; flock -xE 3 lock grep -w all Makefile > $@\n"),
    # who looks whether it is there
    "file_that_another_looks_for": Small("race", BOTH + "c: ; test -f lock && echo yes > c || touch c\n"),
    "file_that_another_looks_for_behind_one": Small("safe", BOTH + "c: a ; test -f lock && echo yes > c || touch c\n"),
    "file_that_another_looks_for_first": Small("race", "all: c a b\nc: ; test -f lock && echo yes > c || touch c\na: c ; flock lock touch $@\nb: ; flock lock touch $@\n"),
    "file_that_its_maker_looks_for": Small("race", "all: a b\na: ; test -f lock && echo yes > a; flock lock touch $@\nb: ; flock lock touch $@\n"),
    "file_that_was_there_and_that_another_reads": Small("safe", BOTH + "c: a ; cat lock > c\n", {"lock": "text\n"}),
    "file_that_another_writes": Small("race", BOTH + "c: a b ; echo text > lock; touch c\nd: a b; cat lock > d\nall: d\n"),
    "file_that_another_removes": Small("race", BOTH + "c: a ; rm -f lock; touch c\n"),
    "file_that_one_of_its_makers_removes": Small("race", "all: b e\na: ; flock lock touch $@\nb: a ; flock lock touch $@; rm -f lock\ne: ; flock lock touch $@\n"),
    "file_that_each_removes": Small("race", "all: a b\na b: ; flock lock touch $@; rm -f lock\n"),
    "file_that_another_makes": Small("race", BOTH + "c: ; touch lock c\n"),
    "file_that_another_moves_there": Small("race", BOTH + "c: ; echo 1 > c; ln c lock || true\n"),
    "file_in_a_list_behind_one": Small("safe", BOTH + "c: a b ; ls l* > c\n"),
    "file_in_a_list_of_other_names": Small("safe", BOTH + "c: ; echo *.i > c\n"),
    "file_in_a_list_of_make_for_other_names": Small("safe", BOTH.replace("lock t", "d/lock t") + "c: x ; echo $(wildcard d/k*) > c\nx: ; touch x\n", {"d/k": ""}),
    "file_that_a_make_inside_looks_for": Small("race", BOTH + "c: ; $(MAKE) -f in.mk\n", {"in.mk": "all: $(wildcard loc?)\n\ttouch c\n"}),
    # its folder, its mode and its age
    "folder_that_another_makes": Small("race", "all: d a b\nd: ; mkdir d\na b: ; flock d/lock touch $@\n"),
    "folder_that_comes_first": Small("safe", "all: a b\nd: ; mkdir d\na b: | d ; flock d/lock touch $@\n"),
    # makes inside
    "age_that_an_unknown_program_under_it_asks_for": Small("safe", "all: a b\na b: ; flock lock ./s -Lc %s /dev/fd/3 > $@\n", {"s.c": ""}, setup="cp $(command -v stat) s"),
    "locks_of_two_makes": Small("safe", "all: a b\na b: ; $(MAKE) -f in.mk G=$@\n", {"in.mk": "all: $G.x $G.y\n$G.x $G.y: ; flock lock touch $@\n"}),
}


@unittest.skipUnless(shutil.which("flock"), "flock is missing")
class Makefiles(unittest.TestCase):
    """A test for each makefile."""


for key, one in LOCKS.items():
    setattr(Makefiles, "test_" + key, test_of(key, one))


@unittest.skipUnless(shutil.which("flock"), "flock is missing")
class Others(unittest.TestCase):
    """Locks in footprints, with missing inputs, and of two processes of a recipe."""

    def test_footprints(self) -> None:
        with support.Project({"Makefile": "all: a b\na b: ; flock lock touch $@\n"}) as project:
            project.record(["make"], ["--footprints"])
            text = (project.folder / ".race" / "builds" / "001" / "footprints").read_text()
        self.assertEqual(1, text.count('"lock"'), text)

    def test_processes_of_one_recipe(self) -> None:
        with support.Project({"Makefile": "all: ; flock lock sleep 0.1 & test -f lock; wait; touch all\n"}) as project:
            outcome = project.record(["make"])
        self.assertEqual(0, outcome.status, outcome.text())

    def test_opened_in_another_way(self) -> None:
        began = '1 execve("/usr/bin/some", ["some"], 0x1 /* 1 var */) = 0'
        for flags, wanted in (("O_RDONLY|O_CREAT|O_NOCTTY, 0666", "F"), ("O_RDWR|O_NOCTTY", "W"), ("O_RDONLY|O_CREAT|O_TRUNC, 0666", "W"), ("O_RDONLY|O_CREAT|O_EXCL, 0666", "W"), ("O_WRONLY|O_CREAT, 0666", "W")):
            replay = played(began, '1 openat(AT_FDCWD<%s>, "x", %s) = 3<%s/x>' % (TOP, flags, TOP))
            self.assertIn((wanted, "x"), events_of(replay.all[0]), flags)
            self.assertEqual(wanted == "F", "F" in {kind for kind, _ in events_of(replay.all[0])}, flags)

    @unittest.skipUnless(shutil.which("ninja"), "ninja is missing")
    def test_ninja(self) -> None:
        text = "rule r\n  command = flock lock touch $out\nrule log\n  command = flock lock sh -c 'echo 1 >> log; touch $out'\n"
        for rule, wanted in (("r", 0), ("log", 1)):
            with support.Project({"build.ninja": text + "build a: %s\nbuild b: %s\n" % (rule, rule)}) as project:
                outcome = project.record(["ninja"])
            self.assertEqual(wanted, outcome.status, outcome.text())
