"""Words of makes and lives of processes, brought together; what does not fit is a hole."""

import os
import unittest
from collections import Counter
from typing import List, Optional, Tuple

import support
from record.failed import failed
from record.make.owners import Make, Owners
from record.make.words import Words, read_words
from record.trace.lives import Life
from record.watch.files import Start
from test_small import IN_ORDER, Small, makefiles

INNER = "all: in gen\ngen: ; %s; touch gen\nin: ; $(MAKE) -f in.mk; touch in\n"
KEPT = "all: gen t\nt: p ; touch t log\ngen: ; sleep 0.02; touch p gen\n"
LATER = "all: u gen\ngen: ; cp t bin/tool; touch gen\n"
SETUP = "sed -i '1i#!/bin/sh' t; chmod +x t bin2/tool"
TOOLS = {"t": "echo new > $1\n", "bin2/tool": "#!/bin/sh\necho old > $1\n", "bin/k": ""}
EXPANDED = "all: a b\na: p ; @%s\nb: p ; @%s\np: ; @touch p\n"
LISTS = "S := $(wildcard *.q)\nz: ; echo '$(S)' > z\n"
# A make inside that lists its folder for one pattern, beside a recipe that makes a name of another one.
INSIDE = "all: a b\na: ; $(MAKE) -f in.mk\nb: ; %s; touch b\n"
MAKES = INSIDE % "touch y.x"

RECIPES = [line for name in "ab" for line in ("%s:" % name, "#  recipe to execute (from 'Makefile', line 2):", "\techo %s" % name, "")]
BASE = ["# Make data base, printed on Monday", "# Files", "", *RECIPES, "# files hash-table stats:", "# Finished Make data base on Monday"]


def words_of(*lines: str, status: Optional[str] = "EXIT 0") -> Words:
    """What make 7 said."""
    return read_words(7, 0, ["Reading makefiles...", "Updating goal targets....", *lines, *BASE] + ([status] if status else []), Start(["all"]))


def make_of(*children: Tuple[int, int]) -> List[Life]:
    """The life of make 7, and of its children: number and place of birth."""
    make = Life(7, born=1, died=90, folder="/w", argv=["make"], is_make=True, number=0, starts=[(1, "/w")])
    make.children = [Life(pid, make, born, born + 2, "/w") for pid, born in children]
    return [make, *make.children]


class Holes(unittest.TestCase):
    """A record with a hole has no yes."""

    JOB = "Putting child 0x5 (a) PID 8 on the chain."
    AGAIN = "Putting child 0x6 (b) PID 9 on the chain."
    TWO = (JOB, "Removing child 0x5 PID 8 from chain.", "Putting child 0x6 (b) PID 8 on the chain.")

    def holes(self, lives: List[Life], words: List[Words]) -> str:
        return "; ".join(Owners(lives, words).holes)

    def test_all_fits(self) -> None:
        self.assertEqual("", self.holes(make_of((8, 5), (9, 8)), [words_of(self.JOB, self.AGAIN)]))

    def test_make_without_words(self) -> None:
        self.assertIn("a make has no words", self.holes(make_of(), []))

    def test_words_without_a_make(self) -> None:
        self.assertIn("a make has no process", self.holes([], [words_of()]))

    def test_make_that_did_not_end(self) -> None:
        self.assertIn("a make did not end", self.holes(make_of(), [words_of(status=None)]))

    def test_make_that_failed(self) -> None:
        makes = Owners(make_of(), [words_of(status="EXIT 2")]).makes
        self.assertEqual(makes, failed(makes))

    def test_recipe_without_a_process(self) -> None:
        self.assertIn("a recipe that ran has no process: b", self.holes(make_of((8, 5)), [words_of(self.JOB, self.AGAIN)]))

    def test_recipe_whose_first_process_is_lost(self) -> None:
        lives = make_of((8, 5))
        self.assertIn("a recipe that ran has no process", self.holes(lives, [words_of(self.JOB, "Live child 0x5 (a) PID 9")]))

    def test_jobs_out_of_order(self) -> None:
        self.assertIn("not in the order of the trace", self.holes(make_of((9, 5), (8, 8)), [words_of(self.JOB, self.AGAIN)]))

    def test_number_that_comes_again_once_too_often(self) -> None:
        self.assertIn("a process number came again", self.holes(make_of((8, 5), (8, 8)), [words_of(self.JOB)]))

    def test_number_of_a_process_that_is_no_job(self) -> None:
        for numbers, places in (((9, 8, 9), (2, 3)), ((8, 9, 8), (1, 2)), ((8, 9, 9, 8), ())):
            lives = make_of(*((number, 2 + 3 * at) for at, number in enumerate(numbers)))
            owners = Owners(lives, [words_of(self.JOB, self.AGAIN)])
            self.assertEqual([id(lives[at]) for at in places], [*owners.jobs])
            self.assertEqual(not places, any("a process number came again" in hole for hole in owners.holes))

    def test_number_that_comes_again_in_one_job(self) -> None:
        lives = make_of((8, 5), (9, 7), (8, 9))
        owners = Owners(lives, [words_of(self.JOB, "Live child 0x5 (a) PID 9 ", "Live child 0x5 (a) PID 8 ")])
        self.assertEqual(([], 3), (owners.holes, len(owners.jobs)))

    def test_processes_that_are_lost_between_two(self) -> None:
        self.assertIn("a recipe that ran has no process", self.holes(make_of((8, 5)), [words_of(self.JOB, "Live child 0x5 (a) PID 9 ", "Live child 0x5 (a) PID 8 ")]))
        self.assertIn("a process number came again", self.holes(make_of((8, 5)), [words_of(*self.TWO)]))

    def test_number_of_two_jobs(self) -> None:
        lives = make_of((8, 5), (8, 8))
        owners = Owners(lives, [words_of(*self.TWO)])
        self.assertEqual([], owners.holes)
        self.assertEqual(["a", "b"], [owners.jobs[id(life)].target for life in lives[1:]])


Makefiles = makefiles(__name__, {
    "output_that_a_recipe_reads": Small("race", "all: ; $(MAKE) -f in.mk > log\n", {"in.mk": "all: a b\na: ; echo 1; touch a\nb: ; cat log > b\n"}, is_tried=True),
    "file_that_make_writes_for_a_recipe": Small("race", EXPANDED % ("touch a$(file >v,V=1)", ". ./v; echo $$V > b"), {"v": "V=1\n"}),
    "file_that_a_call_of_make_counts_up": Small("race", EXPANDED % ("n=$$(cat v); echo $$((n+1)) > v; touch a", "echo $(shell echo $$(($$(cat v)+1)) > v) > b"), {"v": "0\n"}),
    "file_that_two_calls_of_make_read": Small("safe", EXPANDED % ("echo $(shell cat v) > a", "echo $(shell cat v) > b"), {"v": "1\n"}),
    # when make has read its makefiles
    # what a make inside a recipe asks of a list that it keeps of a folder
    "pattern_of_a_default_that_changes_nothing": Small("safe", INNER % "echo n > d/n.h", {"d/k.c": "k", "d/k.h": "k", "in.mk": "C = d/k.c\ninclude more.mk\n", "more.mk": "C ?= $(shell ls d/*)\nout: $(C) ; cat $^ > out\n"}),
    # what is there when a build begins, and not when the recording does
    "target_that_the_make_above_has_made": Small("race", "in: pre ; $(MAKE) -f 2.mk; touch in\npre: ; touch t pre\n", {"p": "p", "2.mk": KEPT}),
    "target_that_is_made_while_make_reads": Small("race", "X := $(shell touch t; sleep 0.05)\n" + KEPT, {"p": "p"}),
    "target_that_is_made_for_a_makefile": Small("race", "-include x.d\n" + KEPT + "x.d: ; touch t\n", {"p": "p"}),
    # programs that make itself looks for before a line of a recipe
    "program_of_a_later_line_that_comes_first": Small("safe", "export PATH := $(CURDIR)/bin:$(CURDIR)/bin2:$(PATH)\n" + LATER + "u: gen\n\ttrue\n\ttool u\n", TOOLS, SETUP),
    "program_that_the_next_recipe_does_not_need": Small("safe", "export PATH := $(CURDIR)/bin:$(PATH)\n" + LATER + "all: w\nw: ; touch w\nu: gen\n\ttrue\n\ttool u\n", TOOLS, SETUP),
    # names that a data base of make shows in an odd way
    # branches that are not read
})


class Slots(unittest.TestCase):
    """Makes that run one job at a time."""

    def test_count_of_processors(self) -> None:
        before = os.sched_getaffinity(0)
        os.sched_setaffinity(0, {min(before)})
        self.addCleanup(os.sched_setaffinity, 0, before)
        with support.Project({"Makefile": "all: ; $(MAKE) -j`nproc` -f in.mk\n", "in.mk": IN_ORDER}) as project:
            self.assertEqual(1, project.record().status)
