"""What a make said: the lines that the library kept, and what is wrong with them."""

import os
import unittest
from typing import List

import support  # noqa: F401
from record.make.owners import Make, Owners
from record.make.words import Words, read_words
from record.trace.lives import Life
from record.watch.files import read_start
from test_owners import make_of, words_of
from test_small import Small, makefiles

LISTS = "printf 'all: ; echo $$(wildcard d/%s.c) >> u\\n' > t.mk; $(MAKE) -f t.mk"
KEEPS = "all: ; %s -s -f in.mk %s\n"
TWO = "all: a b\na b: ; @%s; touch $@\n"

HEAD = ["ARG all", "ENV MAKEFLAGS=", "SAYS 4.3", "Reading makefiles...", "Updating goal targets....", "Considering target file 'a'."]
BASE = ["# Make data base, printed on Monday", "# Files", "a:", "", "# files hash-table stats:", "# Finished Make data base on Monday"]


class Patterns(unittest.TestCase):
    """What a make looks for by `glob`."""

    def test_all_looks(self) -> None:
        lines = [*HEAD[:4], "GLOB *.c", HEAD[4], "GLOB *.d", "Considering target file 'a'.", "Must remake target 'a'.", "GLOB d/*.h", "Putting child 0x1 (a) PID 8 on the chain.", "GLOB *.o", *BASE]
        words = read_words(7, 0, [*lines, "EXIT 0"])
        self.assertEqual(["*.c", "*.d", "d/*.h", "*.o"], words.patterns)

    def test_make_that_nobody_hears(self) -> None:
        for lines, found in (([], []), (["DEAF "], ["*"])):
            words = read_words(7, 0, [*HEAD[:4], *lines, *HEAD[4:], *BASE, "EXIT 0"])
            self.assertEqual(found, [*Make(Life(7), "/w", words).patterns])

    def test_parts_of_patterns(self) -> None:
        lines = ["GLOB " + pattern for pattern in ("*.c", "/w/e/*", "{a,b}/?", "d/[!a]*/x", "k.c")]
        words = read_words(7, 0, [*HEAD[:4], *lines, *HEAD[4:], *BASE, "EXIT 0"])
        self.assertEqual({"*.c", "*", "?", "?*"}, Make(Life(7), "/w", words).patterns)


class Holes(unittest.TestCase):
    """A data base that is not make's own, whole, is a hole."""

    @staticmethod
    def words(*lines: str) -> Words:
        return read_words(7, 0, HEAD + list(lines) + ["EXIT 0"], read_start(HEAD))

    def holes(self, lines: List[str]) -> List[str]:
        return self.words(*lines).holes

    def test_whole_data_base(self) -> None:
        words = self.words(*BASE)
        self.assertEqual(([], 0), (words.holes, words.status))
        self.assertIn("a", words.rounds[0].base.prerequisites)

    def test_no_data_base(self) -> None:
        self.assertEqual(["a make that began 1 times printed 0 data bases: make all"], self.holes([]))

    def test_make_that_prints_its_own_words(self) -> None:
        self.assertEqual(["a make that prints its own words (-d, -p, --debug, --trace) cannot be seen: make all"], self.holes(["ASKS db_level"]))

    def test_make_that_begins_again(self) -> None:
        self.assertEqual([], self.holes(BASE + HEAD[3:] + BASE))

    def test_data_base_that_a_recipe_prints_whole(self) -> None:
        self.assertEqual(["a make that began 1 times printed 2 data bases: make all"], self.holes(BASE + BASE))

    def test_data_base_that_begins_in_what_a_recipe_prints(self) -> None:
        self.assertEqual(["the data base of a make begins twice: make all"], self.holes(BASE[:1] + ["hello"] + BASE))

    def test_data_base_that_a_variable_ends(self) -> None:
        self.assertIn("the data base of a make lists no targets: make all", self.holes(BASE[:1] + BASE[-1:] + BASE[1:]))

    def test_data_base_with_a_mark_that_comes_twice(self) -> None:
        """A macro's text may look like it, and nobody can say which is the real one."""
        for mark in ("# Files", "# files hash-table stats:"):
            self.assertEqual(["the data base of a make holds lines of a macro that look like its own: make all"], self.holes([BASE[0], "V := x", mark, *BASE[1:]]), mark)

    def test_data_base_that_a_macro_holds_whole(self) -> None:
        self.assertEqual(["a line of make's words cannot be read: " + mark for mark in ("# Files", "# files hash-table stats:")], self.holes([BASE[0], "V := x", *BASE[1:], *BASE[1:]]))

    def test_data_base_that_is_cut(self) -> None:
        self.assertEqual(["the data base of a make has no end: make all"], self.holes(BASE[:-1]))

    def test_variable_with_a_line_of_the_log(self) -> None:
        words = self.words(BASE[0], "EXIT x", *BASE[1:])
        self.assertEqual(([], 0), (words.holes, words.status))


Makefiles = makefiles(__name__, {
    # recipes that one job never reaches, as one has failed, and make goes on
    "failure_for_a_makefile_that_need_not_be_there": Small("no verdict", "-include x.d\nall: ; touch all\nx.d: p q ; touch x.d\np: ; false\nq: ; touch q\n", says="what stands behind it did not run: p"),
    "failure_of_a_makefile_that_need_not_be_there": Small("safe", "-include x.d\nall: ; touch all\nx.d: p ; false\np: ; touch p\n"),
    # makefiles that need not be there
    "target_that_is_given_up_for_a_makefile": Small("no verdict", "-include x.d\nall: ; touch all\nx.d: p q ; touch x.d\np: r none ; touch p\nr q: ; touch $@\n", says="did not run: p"),
    "target_without_a_rule_for_a_makefile": Small("safe", "-include x.d\nall: ; touch all\nx.d: q none s ; touch x.d\nq s: ; touch $@\n"),
    # makefiles that are written again
    "makefile_that_is_written_once": Small("safe", "all: u gen\ngen: ; touch d/n.c gen\nu: ; " + LISTS % "k" + "\n", {"d/k.c": ""}),
    # folders that are made, where something shows who made them
    "folder_made_or_true_in_a_make_with_output": Small("safe", KEEPS % ("$(MAKE)", "> log"), {"in.mk": TWO % "mkdir d || true"}, is_tried=True),
})


class Several(unittest.TestCase):
    """Recipes that run at once."""

    def test_processes_that_ran_at_once(self) -> None:
        words = words_of("Putting child 0x5 (a) PID 8 on the chain.", "Putting child 0x6 (b) PID 9 on the chain.")
        owners = Owners(make_of((8, 5), (9, 6)), [words])
        self.assertEqual(([], ["a", "b"]), (owners.holes, [job.target for job in owners.jobs.values()]))

    def test_recipe_that_goes_on_in_the_next_round(self) -> None:
        """As where a recipe fails for a makefile that need not be there, while another one runs."""
        lines = ["Reading makefiles...", "Updating makefiles....", "Putting child 0x5 (a) PID 8 on the chain.", "Updating goal targets....", "Live child 0x5 (a) PID 8 ",
                 "Removing child 0x5 PID 8 from chain."]
        words = read_words(7, 0, lines)
        self.assertEqual([["a"], []], [[job.target for job in one.jobs] for one in words.rounds])


class Language(unittest.TestCase):
    """Make that would speak another language than English."""

    def test_german(self) -> None:
        with support.Project({"Makefile": "all: a b\na: ; @echo a > a\nb: ; @cat a > b\n"}) as project:
            env = dict(os.environ, RACE=support.race_program(), LC_ALL="de_DE.UTF-8", LANGUAGE="de", LOCPATH=str(project.folder / "loc"))
            project.sh("mkdir loc; localedef -i de_DE -f UTF-8 loc/de_DE.UTF-8 2> /dev/null || true")
            outcome = project.run(["--", "make"], env)
        self.assertEqual(1, outcome.status, outcome.text()[-1500:])
        self.assertTrue(outcome.stdout.startswith(b"RACE"), outcome.text()[:300])

    def test_make_that_is_not_understood(self) -> None:
        self.assertIn("nothing that the recorder knows", " ".join(read_words(7, 0, ["ARGS all\n", "Makefiles werden gelesen ...\n", "EXIT 0\n"]).holes))

    def test_names_in_another_encoding(self) -> None:
        with support.Project({"Makefile": "all: \u00fc b\n\u00fc: ; touch \u00fc\nb: ; touch b\n", "\u00fc": ""}) as project:
            project.sh("mkdir loc; localedef -i de_DE -f ISO-8859-1 loc/de_DE.ISO-8859-1 2> /dev/null || true")
            env = dict(os.environ, RACE=support.race_program(), LC_ALL="de_DE.ISO-8859-1", LOCPATH=str(project.folder / "loc"))
            self.assertEqual(2, project.run(["--", "make"], env).status)


class Lines(unittest.TestCase):
    """Lines of make's words."""

    def test_a_line_that_is_not_whole_is_a_hole(self) -> None:
        for line in ("Considering target file 'xxx", " Must remake target 'x' ", "Putting child 0x5f (xxx", "Live child 0x5f (xxx"):
            words = read_words(1, 0, ["Reading makefiles...\n", "Updating goal targets....\n", line + "\n"])
            self.assertIn("a line of make's words cannot be read: " + line, words.holes)
        words = read_words(1, 0, ["Reading makefiles...\n", "Updating goal targets....\n", "Considering target file 'x'.\n", "Removing child 0x5f PID 7 from chain.\n"])
        self.assertEqual([], [hole for hole in words.holes if "cannot be read" in hole])
