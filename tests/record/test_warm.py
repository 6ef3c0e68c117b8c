"""Targets that were there before: which of them withhold the yes, where nobody said `--warm`."""

import unittest
from typing import Dict

import support
from test_small import Small, makefiles

IDLE = "nothing was to be done"
UP_TO_DATE = "touch a"

OLD = "touch -d 2001-01-01 s; touch -d 2002-01-01 "
KEPT = "kept: s ; touch temporary; cp s kept\n"
BESIDE = "all: a b c\na b: kept ; touch $@\nc: ; touch c\n"
OWN = "all: a\na: Makefile ; touch a\nMakefile: ../s ; touch Makefile\n"
BOTH = "all: a b\na b: kept ; cp kept $@\n"


class Warm(unittest.TestCase):
    """Small makefiles, in a tree where something that they make is there."""

    def status(self, makefile: str, kept: str = "kept", says: str = "", **files: str) -> int:
        """The status of a recording; `kept` are the targets that are there."""
        names: Dict[str, str] = {"Makefile": makefile, "s": "s", **{name: "1" for name in kept.split()}, **{n.replace("_", "."): t for n, t in files.items()}}
        with support.Project(names) as project:
            project.sh(OLD + kept)
            outcome = project.record()
        self.assertEqual(outcome.status == 2, "\nWARM  " in "\n" + outcome.text())
        self.assertIn(says, outcome.text())
        return outcome.status

    def test_each_recipe_waits_for_it(self) -> None:
        self.assertEqual(0, self.status(BOTH + KEPT, says="targets that were up to date stay so (1, such"))

    def test_one_after_the_other(self) -> None:
        self.assertEqual(0, self.status(BOTH + KEPT.replace(": s", ": first") + "first: s ; cp s first\n", "first kept", "stay so (2, such"))

    def test_target_in_a_search_path(self) -> None:
        rules = "VPATH = o\nall: a b\na: kept ; cp o/kept a\nb: %s ; cat o/kept > b\nkept: s ; cp s o/kept\n"
        self.assertEqual(2, self.status(rules % "", "o/kept", "\n  o/kept\n"))
        self.assertEqual(0, self.status(rules % "kept", "o/kept", "stay so (1, such"))

    def test_recipe_that_does_not_wait(self) -> None:
        self.assertEqual(2, self.status("all: c\n" + BOTH + KEPT + "all: c\nc: ; touch c\n"))

    def test_two_that_are_not_in_order(self) -> None:
        self.assertEqual(2, self.status("all: a b\na b: kept other ; cp kept $@\n" + KEPT + KEPT.replace("kept", "other"), "kept other"))

    def test_target_that_is_made_again(self) -> None:
        self.assertEqual(2, self.status("all: a b\na b: kept ; cp kept $@\nkept: new ; touch kept\nnew: ; touch new\n"))

    def test_target_that_is_made_again_alone(self) -> None:
        self.assertEqual(2, self.status("all: kept\nkept: new ; touch kept\nnew: s ; touch new\n"))

    def test_inner_make(self) -> None:
        self.assertEqual(2, self.status("all: ; $(MAKE) -f in.mk\n", in_mk=BOTH + KEPT))

    def test_inner_make_beside_it(self) -> None:
        self.assertEqual(2, self.status("all: a\na: kept ; $(MAKE) -f in.mk; touch a\n" + KEPT, in_mk="all: ; touch x\n"))

    def test_make_that_had_nothing_to_do(self) -> None:
        self.assertEqual(2, self.status(KEPT))

    def test_double_colons(self) -> None:
        self.assertEqual(2, self.status(BOTH + "kept:: s ; touch kept\nkept:: s ; touch kept\n"))

    def test_link_that_is_made(self) -> None:
        for there, wanted in (("", 0), ("touch -d 2001-01-01 t; ln -s t l", 2)):
            with support.Project({"Makefile": "all: a\nl: s ; ln -sf t l\na: l ; cp l a\n", "s": "s", "t": "t"}) as project:
                project.sh(there)
                self.assertEqual(wanted, project.record().status, there)

    def test_folder_that_is_a_target(self) -> None:
        """An earlier build may have left it, as there are no files in it."""
        with support.Project({"Makefile": "all: a b\na: | d ; touch d/a a\nb: ; touch b\nd: ; mkdir -p d\n"}) as project:
            project.sh("mkdir -p d/e")
            self.assertEqual(2, project.record().status)

    def test_folder_with_sources(self) -> None:
        with support.Project({"Makefile": "all: d a\na: ; touch d/a a\nd: ; mkdir -p d\n", "d/s": "s"}) as project:
            self.assertEqual(0, project.record().status)

    def test_race(self) -> None:
        self.assertEqual(1, self.status("all: a b\na b: kept ; echo $@ > log\n" + KEPT))

    def cleaned(self, script: str, makefile: str = "all: a b\na: ; touch a\nb: a ; cp a b\nclean: ; rm -f a b\n") -> int:
        """The status of a recording of a script, in a tree that was built before."""
        with support.Project({"Makefile": makefile, "s": "s", "in.mk": "all: b\nb: a ; cp a b\na: ; touch a\n"}) as project:
            project.sh("make > log")
            outcome = project.record(["sh", "-c", script])
        self.assertEqual(outcome.status == 2, "WARM" in outcome.text(), outcome.text())
        return outcome.status

    def test_what_is_removed_first(self) -> None:
        self.assertEqual(0, self.cleaned("make clean; make"))
        self.assertEqual(0, self.cleaned("rm a b; make"))
        self.assertEqual(1, self.cleaned("make clean; make", "all: a b\na: ; touch a\nb: ; cp a b\nclean: ; rm -f a b\n"))

    def test_what_is_removed_in_part(self) -> None:
        self.assertEqual(2, self.cleaned("rm b; make", "all: a b c\na c: ; touch $@\nb: a ; cp a b\n"))

    def test_what_is_removed_before_a_make_inside(self) -> None:
        self.assertEqual(0, self.cleaned("make", "all: ; rm -f a b && $(MAKE) -f in.mk\n.PHONY: all\n"))

    def test_what_is_removed_and_made_by_another_make(self) -> None:
        self.assertEqual(2, self.cleaned("make clean; make a; make"))

    def test_what_is_removed_between_two_makes(self) -> None:
        self.assertEqual(2, self.cleaned("make; make clean; make"))

    def test_what_is_removed_and_put_back(self) -> None:
        self.assertEqual(2, self.cleaned("cp -p a k; make clean; mv k a; make"))
        self.assertEqual(2, self.cleaned("cp -p a k; make clean; make b; mv k a; make"))

    def kept(self, wanted: int, makefile: str, command: str = "make", **files: str) -> None:
        """The status of a recording in a tree where `kept` and `d/Makefile` are there, and newer than what they are made of. A yes has no line `WARM`."""
        names: Dict[str, str] = {"Makefile": makefile, "s": "s", "kept": "1", "d/Makefile": OWN, **{name.replace("_", "."): text for name, text in files.items()}}
        with support.Project(names) as project:
            project.sh("touch -d 2001-01-01 s; touch -d 2002-01-01 kept d/Makefile %s; for f in log d/sh; do test ! -f $f || chmod +x $f; done" % " ".join(name.replace("_", ".") for name in files))
            outcome = project.record(command.split())
        self.assertEqual(wanted, outcome.status, outcome.text())
        self.assertEqual(wanted == 2, "WARM" in outcome.text(), outcome.text())

    def test_recipe_that_does_nothing(self) -> None:
        for recipe in ("@true", ":", "-@ :", "@true\n\t@:"):
            self.kept(0, BESIDE + "kept: s\n\t%s\n" % recipe)

    def test_recipe_that_does_something(self) -> None:
        for recipe in ("$(X)", "true > x", "trueish", "true; touch x"):
            self.kept(2, BESIDE + "X = touch x\nkept: s\n\t%s\n" % recipe)

    def test_recipe_that_does_nothing_beside_one_that_makes_it(self) -> None:
        self.kept(2, BESIDE + "kept: new\n\t@true\nnew: ; touch new kept\n")
        self.kept(2, BESIDE + "all: new\nkept: ; @true\nnew: ; touch new; cp s kept\n")

    def test_recipe_that_does_nothing_in_another_shell(self) -> None:
        self.kept(2, BESIDE + "SHELL = ./log\nkept: s ; true\n", log='#!/bin/sh\nexec /bin/sh "$@"\n')
        self.kept(2, BESIDE + "kept: SHELL = ./log\nkept: s ; true\n", log='#!/bin/sh\nexec /bin/sh "$@"\n')
        self.kept(2, BESIDE + "SHELL = /usr/bin/env\n.SHELLFLAGS = sh -c\nkept: s ; true\n")
        self.kept(2, BESIDE + "SHELL = d/sh\nkept: s ; true\n", **{"d/sh": '#!/bin/sh\nexec /bin/sh "$@"\n'})

    def test_makefile_that_make_begins_with(self) -> None:
        self.kept(0, BESIDE.replace("kept", "Makefile") + "Makefile: s ; touch t; cp s Makefile\n")

    def test_makefile_that_words_name(self) -> None:
        self.kept(2, "", "make -f in.mk", in_mk=BESIDE.replace("kept", "in.mk") + "in.mk: s ; touch t; cp s in.mk\n")

    def test_makefile_that_another_one_takes_in(self) -> None:
        self.kept(2, BESIDE.replace("kept", "in.mk") + "in.mk: s ; touch t; cp s in.mk\ninclude in.mk\n", in_mk="X = 1\n")

    def test_makefile_of_a_make_inside(self) -> None:
        self.kept(2, "all: c\n\ttest -f d/Makefile || cp in d/Makefile; $(MAKE) -C d\nc: ; touch c\n", **{"in": OWN})
        self.kept(2, "all: c d/Makefile\n\t$(MAKE) -C d\nc: ; touch c\nd/Makefile: s ; touch t; cp s $@\n")
        self.kept(2, "all: c\n\tcp in d/Makefile; $(MAKE) -C d\nc: ; touch c\n", **{"in": OWN})


Makefiles = makefiles(__name__, {
    # a run in which nothing was to be done
    "nothing_to_do_in_a_make_inside": Small("no verdict", "all: ; $(MAKE) -f in.mk\n", {"in.mk": "all: a\na: ; touch a\n"}, UP_TO_DATE, IDLE),
    "no_recipe_at_all": Small("no verdict", "all: a\n", setup=UP_TO_DATE, says=IDLE),
    "recipe_that_always_runs": Small("safe", "all: a ; @echo done\na: ; touch a\n", setup=UP_TO_DATE),
    "file_that_make_writes": Small("safe", "all: ; $(file >x,w)\n"),
    "caller_of_a_make_that_does_more": Small("safe", "all: ; $(MAKE) -f in.mk; touch all\n", {"in.mk": "all: a\na: ; touch a\n"}, UP_TO_DATE),
})


class Beyond(unittest.TestCase):
    """Targets outside of the project that were there before."""

    def status(self, makefile: str, setup: str, *words: str) -> int:
        """The status of a recording."""
        with support.Project({"Makefile": makefile}) as project:
            project.sh(setup)
            return project.record(words or ("make",)).status

    def test_target_that_is_there(self) -> None:
        makefile = "all: ../x fin\n../x: ; touch ../x\nfin: ; touch fin\n"
        self.assertEqual([2, 0], [self.status(makefile, setup) for setup in ("touch ../x", "true")])

    def test_make_that_has_nothing_to_do(self) -> None:
        words = ("sh", "-c", "make && cd ../other && make")
        setup = "mkdir ../other; printf 'x: ; touch x\\n' > ../other/Makefile"
        self.assertEqual([2, 0], [self.status("y: ; touch y\n", setup + more, *words) for more in ("; touch ../other/x", "")])

    def test_statement_of_ninja(self) -> None:
        manifest = "rule t\n  command = touch $out\nbuild ../x: t\nbuild fin: t\n"
        setup = "printf '%s' > build.ninja; " % manifest.replace("\n", "\\n")
        self.assertEqual([2, 0], [self.status("", setup + more, "ninja") for more in ("ninja ../x > log", "true")])
