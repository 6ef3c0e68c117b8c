"""`--missing`: a later build that is another one with no edit at all, and what is taken for granted of it."""

import unittest
from typing import Callable, Dict, NamedTuple, Tuple

import support

CHAINS = "%.t: %.m ; cp $< $@\n%.m: %.a ; cp $< $@\n%.t: %.n ; cp $< $@\n%.n: %.b ; cp $< $@\n"
GEN = "gen: %s s\n\tcp s %s\n\ttouch gen\n"
SEARCHED = {"z.b": "b", "s": "s", "v/k": "k"}
SECOND = ".SECONDEXPANSION:\n"
TWO_RULES = "%.t: %.a ; cp $< $@\n%.t: %.b ; cp $< $@\n"
LATER: Dict[str, Tuple[str, str, Dict[str, str]]] = {
    "by_way_of_another_file": ("the recipe of z.t is another one", "all: z.t gen\n" + CHAINS + GEN % ("z.t", "z.a"), SEARCHED),
    "in_a_search_path": ("the recipe of z.t is another one", "VPATH = v\nall: z.t gen\n" + TWO_RULES + GEN % ("z.t", "v/z.a"), SEARCHED),
    "without_a_stem": ("the recipe of z.t is another one", "all: z.t gen\n%.t: %.b flag ; cat $^ > $@\n%.t: %.b ; cp $< $@\n" + GEN % ("z.t", "flag"), SEARCHED),
    "by_a_pattern_of_names": ("a later build leaves v.zip otherwise", "all: v.zip gen\n%.zip: %/* ; echo $^ > $@\n" + GEN % ("v.zip", "v/n"), SEARCHED),
    "by_a_second_expansion": ("a later build leaves z.o otherwise", SECOND + "all: z.o gen\n%.o: %.b $$(wildcard v/*.h) ; echo $^ > $@\n" + GEN % ("z.o", "v/n.h"), SEARCHED),
    "by_a_second_expansion_of_a_rule": ("a later build leaves z.o otherwise", SECOND + "all: z.o gen\nz.o: z.b $$(wildcard v/*.h) ; echo $^ > $@\n" + GEN % ("z.o", "v/n.h"), SEARCHED),
}
def later_of(says: str, makefile: str, files: Dict[str, str], status: int = 2) -> Callable[[unittest.TestCase], None]:
    """The test of a makefile whose later build finds more, with no edit at all."""

    def test(self: unittest.TestCase) -> None:
        with support.Project({"Makefile": makefile, **files}) as project:
            outcome = project.record(options=["--missing"])
        self.assertEqual(status, outcome.status, outcome.text() + outcome.stderr.decode())
        self.assertIn(says, outcome.text())

    return test

INNER = {"in/Makefile": "x: y\n\tcp y x\n", "in/y": "y\n"}
FILES = {"list": "1\n", "h.h": "h\n", **INNER}


class Case(NamedTuple):
    """A project, what its answer says, and the command that builds it."""

    makefile: str
    says: str
    words: Tuple[str, ...] = ("make",)
    files: Tuple[Tuple[str, str], ...] = ()


HOLES: Dict[str, Case] = {
    "rule": Case("all: f.o b\nf.o: list\n%.o: %.c\n\tcat $< list > $@\n%.o: %.s\n\tcat $< list > $@\nb: list f.o\n\tcp list f.c\n\tcp list b\n",
                 "the recipe of f.o is another one", files=(("f.s", "s\n"),)),
    "rule that needs what a rule of patterns makes": Case(".SECONDARY:\nall: f.o g.y\n%.o: %.c g.h\n\tcat $< > $@\n%.o: %.s\n\tcat $< > $@\n%.y: %.h\n\tcp $< $@\n%.h: %.x\n\tcp $< $@\n",
                                                           "the recipe of f.o is another one", files=(("f.s", "s\n"), ("f.c", "c\n"), ("g.x", "x\n"))),
    "rule that needs what another recipe makes": Case("all: f.o b\n%.o: %.c g.h\n\tcat $< > $@\n%.o: %.s\n\tcat $< > $@\nb: list f.o\n\tcp list g.h; cp list b\n",
                                                       "the recipe of f.o is another one", files=(("f.s", "s\n"), ("f.c", "c\n"))),
    "vpath": Case("VPATH = src\nall: a b\na: list x.h\n\tcat src/x.h > a\nb: list a\n\tcp list b\n\tcp list x.h\n", "make finds x.h for x.h", files=(("src/x.h", "x\n"),)),
    "vpath of a pattern": Case("vpath %.h one two\nall: a b\na: x.h\n\tcat $< > a\nb: list a\n\tmkdir -p one; cp list one/x.h; cp list b\n",
                               "make finds one/x.h for x.h", files=(("two/x.h", "x\n"),)),
    "search path of a target": Case("VPATH = out\nall: z\nz: list\n\tcat list h.h > out/z\n", "make finds out/z for z", files=(("out/f", ""),)),
    "time that has not come": Case("a: list\n\tcp list a\n\ttouch -d 2099-01-01 a\n", "the recipe of a does not run where all sources have a new time"),
    "old file": Case("a: list h.h\n\tcat list h.h > a\n", "is asked to take files as old (-o)", ("make", "--old-file", "h.h")),
    "old file of a make inside": Case("all: FORCE\n\t$(MAKE) -f m.mk -sio list\nFORCE:\n", "is asked to take files as old (-o)", files=(("m.mk", "a: list\n\tcat list > a\n"),)),
    "checked in": Case("all: a\na: list\n\tcat list p.h > a\n\techo 'a: p.h' > a.d\np.h: h.h\n\tcp h.h p.h\n-include a.d\n", "a needs p.h too", files=(("p.h", "p\n"),)),
    "handed": Case("all: a\na: list\n\tcat $^ > a\n\techo 'a: h.h' > a.d\n-include a.d\n", "a later build leaves a otherwise"),
    "filtered": Case("all: a\na: list\n\tcat $(filter l%,$^) > a\n\techo 'a: l.h' > a.d\n-include a.d\n", "a later build leaves a otherwise", files=(("l.h", "h\n"),)),
    "order": Case("all: a\na: $(wildcard *.c) b.c\n\tcat $^ > a\nb.c: list\n\tcp list b.c\n", "a later build leaves a otherwise", files=(("c.c", "c\n"),)),
    "first": Case("all: a\na: $(wildcard b.c) c.c\n\tcat $< > a\nb.c: list a\n\tcp list b.c\nall: b.c\n", "a later build leaves a otherwise", files=(("c.c", "c\n"),)),
    "macro": Case("ifneq ($(wildcard a),)\nV += 2\nendif\na: list\n\techo $(V) > a\n", "a later build leaves a otherwise"),
    "wildcard": Case("V := $(wildcard *.h)\na: list h.h\n\tcat $(V) > a\n\tcp a b.h\n", "a later build leaves a otherwise"),
    "a list in a recipe": Case("all: a b\na: list\n\tcat list $(wildcard *.def) > a\nb: a h.h\n\tcp h.h o.def\n\tcp h.h b\n", "a later build leaves a otherwise"),
    "a pattern that a later recipe adds to": Case("all: a b\na: list\n\tcat list *.def > a 2>/dev/null || true\nb: a h.h\n\tcp h.h o.def\n\tcp h.h b\n",
                                                  "a later build leaves a otherwise"),
    "a new folder that is searched": Case("all: a b\na: list\n\tfind . -name '*.def' > a; cat list >> a\nb: a h.h\n\tmkdir -p d\n\tcp h.h d/o.def\n\tcp h.h b\n",
                                          "a later build leaves a otherwise"),
    "a name in a recipe": Case("all: a b\na: X = $(wildcard o.h)\na: list\n\tcat list $(X) > a\nb: a h.h\n\tcp h.h o.h\n\tcp h.h b\n", "a later build leaves a otherwise"),
    "a process in a recipe": Case("all: a b\na: list\n\techo $(shell cat list o.h 2>/dev/null) > a\nb: a h.h\n\tcp h.h o.h\n\tcp h.h b\n", "a later build leaves a otherwise"),
    "a log": Case("a: list\n\tcp list a\n\techo more >> log\n", "a later build leaves log otherwise"),
    "a build that fails": Case("a: list\n\ttest ! -f a\n\tcp list a\n", "a later build fails, where all sources have a new time"),
    "a recipe that runs later alone": Case(".PHONY: all\nall: a $(if $(wildcard a),b)\na: list\n\tcp list a\nb:\n\techo b\n", "the recipe of b runs too"),
    "a stamp": Case(".PHONY: all\nall:\n\tif test ! -f stamp; then $(MAKE) -C in && touch stamp; fi\n", "it does not call make -C in"),
    "target's own": Case("all: a g\na: V := $(wildcard g)\na: list\n\techo $(V) > a\ng: list\n\tcp list g\n", "a later build leaves a otherwise"),
    "several lines": Case("all: a\nifneq ($(wildcard a),)\ndefine V\necho 1 > a\nendef\nelse\ndefine V\necho 2 > a\nendef\nendif\na: list\n\t$(V)\n",
                          "a later build leaves a otherwise"),
    "macro in one of several lines": Case("ifneq ($(wildcard a),)\nV += 2\nendif\ndefine W\necho $(V) > a\nendef\na: list\n\t$(W)\n", "a later build leaves a otherwise"),
    "export": Case("export V := $(wildcard a)\na: list\n\techo $$V > a\n", "a later build leaves a otherwise"),
    "recipe": Case("all: a\nifeq ($(wildcard a),)\na: list\n\tcp list a\nelse\na: list\n\tcat list h.h > a\nendif\n", "the recipe of a is another one"),
    "less": Case(".PHONY: all in\nall: $(if $(wildcard in/x),,in)\n\tcat in/x > a\nin:\n\t$(MAKE) -C in\n", "all does not need in any more"),
    "more": Case(".PHONY: all\nall: a $(patsubst %.x,%.y,$(wildcard *.x))\na: list\n\tcp list a\n\tcp list b.x\n%.y: %.x\n\tcp $< $@\n", "all needs b.y too"),
    "not called": Case(".PHONY: all\nall:\n\ttest -f in/x || $(MAKE) -C in\n", "it does not call make -C in"),
    "script": Case("a: list\n\tcp list a\n", "it does not call make a", ("sh", "-c", "test -f a || make a")),
    "folder": Case("all: a b\na: list\n\tif test -d d; then echo 2 > a; else cp list a; fi\nb: list a\n\tmkdir -p d; cp list b\n", "a later build leaves a otherwise"),
    "two makes": Case(".PHONY: all\nall:\n\t$(MAKE) -C one\n\t$(MAKE) -C two\n", "a later build leaves one/x otherwise",
                      files=(("one/Makefile", "x: ../list\n\tcp ../list x\n"), ("two/Makefile", "x:\n\techo 2 > ../list\n\tcp ../list x\n"))),
}
PREMISES: Dict[str, Tuple[str, str, Case]] = {
    "a file that make reads": ("called", "list", Case("V := $(file <list)\na: h.h\n\techo $(V) > a\n", "")),
    "a macro of the shell": ("called", "h.h", Case("all: a\na: list\n\techo $(shell cat h.h) > a\n", "")),
    "a macro of the shell in two places": ("called", "h.h", Case("V = $(shell cat h.h)\nN := $(V)\n-include none.mk\nall: a\na: list\n\techo $(V) > a\n", "")),
    "a makefile of dependencies alone": ("called", "m.mk", Case("all: a\ninclude m.mk\nm.mk: list\n\techo 'a: h.h' > m.mk\na:\n\tcat $^ > a\n", "")),
    "a caller": ("called", "list", Case(".PHONY: all\nall:\n\t$(MAKE) -C in V=`cat list`\n", "")),
    "a script": ("called", "list", Case("a: h.h\n\techo $(V) > a\n", "", ("sh", "-c", "make a V=`cat list`"))),
    "a macro of a phony make": ("called", "list", Case("V := $(shell cat list)\n.PHONY: all\nall:\n\t$(MAKE) -C in V=$(V)\n", "")),
    "another recipe": ("not-run", "g", Case(".PHONY: all\nall:\n\t$(MAKE) -f one.mk\n\t$(MAKE) -f two.mk\n", "",
                                            files=(("one.mk", "g: list\n\tcat list > g\n"), ("two.mk", "a: g\n\tcp g a\ng: list h.h\n\tcat list h.h > g\n")))),
    "in place": ("own", "list", Case("a: h.h\n\tsort -o list list\n\tcat h.h list > a\n", "")),
    "a name with a blank": ("unjudged", "a", Case("all: a\na: my\\ file\n\tcat h.h 'my file' > a\nmy\\ file:\n\techo x > 'my file'\n", "")),
    "a time that passes": ("unstable", "a", Case("a: list\n\tdate +%N > a\n\tcat list >> a\n", "")),
    "a time": ("times", "a", Case("a: list\n\tcp list a\n\ttouch -d 2001-01-01 a\n", "")),
    "a link": ("looks", "cur", Case("all: a\no.h: h.h\n\tcp h.h o.h\ncur: list o.h\n\tln -sfn o.h cur\na: cur o.h\n\tcat cur > a\n", "")),
    "a size": ("looks", "h.h", Case("all: a b\na: list\n\tstat -c %s h.h > a\nb: h.h\n\tcp h.h b\n", "")),
}
REMOVED = {
    "a file": ("t.h", "all: a b\na: list\n\trm -f t.h\n\tcp list a\nb: h.h | a\n\tcp h.h t.h\n\tcp h.h b\n"),
    "a tree": ("out/t.h", "all: a b\na: list\n\trm -rf out\n\tcp list a\nb: h.h | a\n\tmkdir -p out; cp h.h out/t.h\n\tcp h.h b\n"),
    "a pattern": ("t.h", "all: a b\na: list\n\trm -f t*\n\tcp list a\nb: h.h | a\n\tcp h.h t.h\n\tcp h.h b\n"),
}
QUIET: Dict[str, str] = {
    "folders that are cleaned": ".PHONY: all clean\nall: clean a\nclean:\n\trm -f a* b*\na: list h.h | clean\n\tcat list h.h > a\n",
    "a folder of sources": "VPATH = in\na: y list\n\tcat $^ > a\n",
    "a filter that leaves nothing new": "all: a\na: list\n\tcat $(filter l%,$^) > a\n\techo 'a: h.h' > a.d\n-include a.d\n",
    "files of dependencies": "D := $(wildcard *.d)\nall: a\na: list h.h\n\tcat list h.h > a\n\techo 'a: h.h' > a.d\n-include $(D)\n",
    "generated sources": "S := $(wildcard *.c) g.c\nO := $(sort $(S:.c=.o))\nall: $(O)\n\tcat $(O) > out\ng.c: list\n\tcp list g.c\n%.o: %.c\n\tcp $< $@\n",
    "folders that are looked for": "all: a b\na: list\n\ttest -d o || mkdir o\n\tcp list o/a\n\tcp list a\nb: list a\n\ttest -d o || mkdir o\n\tcp list b\n",
    "extra prerequisites that are made": ".EXTRA_PREREQS = g.h\nall: a\ng.h: list\n\tcp list g.h\na: list h.h\n\tcat list g.h h.h > a\n",
    "a rule that needs a target": "MAKEFLAGS += -r\nall: f.o g.h\nf.o: list\n%.o: %.c g.h\n\tcat g.h list > $@\n%.o: h.h\n\tcat h.h list > $@\ng.h: list\n\tcp list g.h\n",
    "what CMake keeps": "all: a\nb/CMakeFiles/x: list ; mkdir -p b/CMakeFiles; cp list $@; test ! -f b/CMakeFiles/y || cp h.h b/CMakeFiles/z; touch b/CMakeFiles/y\na: b/CMakeFiles/x list ; cp list a\n",
    "files that are removed first": "a: list\n\trm -f a b\n\tcp list a\n\tcp list b\n",
}


class Later(unittest.TestCase):
    """A later build that is another one has no verdict, or a premise; one that is the same has a yes."""

    def hole(self, name: str) -> None:
        one = HOLES[name]
        with support.Project({"Makefile": one.makefile, **FILES, **dict(one.files)}) as project:
            outcome = project.record(list(one.words), ["--missing"])
            self.assertEqual(2, outcome.status, outcome.text() + outcome.stderr.decode())
            self.assertIn(one.says, outcome.text())

    def premise(self, name: str) -> None:
        kind, example, one = PREMISES[name]
        with support.Project({"Makefile": one.makefile, **FILES, **dict(one.files)}) as project:
            outcome = project.record(list(one.words), ["--missing"])
            found = {one["kind"]: one["example"] for one in (outcome.record or {})["missing"]["premises"]}
            self.assertEqual((0, example), (outcome.status, found.get(kind)), outcome.text() + outcome.stderr.decode())

    def quiet(self, name: str) -> None:
        with support.Project({"Makefile": QUIET[name], **FILES}) as project:
            outcome = project.record(options=["--missing"])
            self.assertEqual(0, outcome.status, outcome.text() + outcome.stderr.decode())
            self.assertIn("NOTHING MISSING", outcome.text())

    def removed(self, name: str) -> None:
        path, makefile = REMOVED[name]
        with support.Project({"Makefile": makefile, **FILES}) as project:
            outcome = project.record(options=["--missing"])
            self.assertEqual(1, outcome.status, outcome.text() + outcome.stderr.decode())
            self.assertIn("SHARED  %s\n" % path, outcome.text())

    def test_temporary_of_a_caller(self) -> None:
        files = {"Makefile": "a: h.h\n\tcat h.h conf > a\n", "build.sh": "cp list conf\nmake a\nrm conf\n", **FILES}
        with support.Project(files) as project:
            outcome = project.record(["sh", "build.sh"], ["--missing"])
        self.assertEqual(1, outcome.status, outcome.text() + outcome.stderr.decode())
        self.assertIn("MISSING  conf\n", outcome.text())

    def test_extra_prerequisites_are_not_phony(self) -> None:
        """Make puts them among those of `.PHONY` too."""
        files = {"Makefile": ".PHONY: all\nall: a\n.EXTRA_PREREQS = g\na: list\n\tcat list g > a\ng: list\n\tcat list h.h > g\n", **FILES}
        with support.Project(files) as project:
            outcome = project.record(options=["--missing"])
        self.assertIn("MISSING  h.h\n", outcome.text(), outcome.stderr.decode())

    def test_phony_recipes_too(self) -> None:
        files = {"Makefile": ".PHONY: all a b\nall: a b\nb: a\na:\n\tcat list o > out.a 2>/dev/null || true\nb:\n\tcp list o\n", **FILES}
        with support.Project(files) as project:
            outcome = project.record(options=["--missing"])
        self.assertEqual(1, outcome.status, outcome.text() + outcome.stderr.decode())
        self.assertIn("LATE  o\n", outcome.text())


support.add_tests(Later, {"hole": HOLES, "premise": PREMISES, "quiet": QUIET, "removed": REMOVED})


class SecondExpansion(unittest.TestCase):
    """What make looks for when it considers a target, and finds in a later build."""

    test_second_expansion_that_looks_at_nothing = later_of("NOTHING MISSING", SECOND + "all: o/z.o\n%/.: ; mkdir -p $@\no/%.o: %.b | $$(@D)/. ; cp $< $@\n", SEARCHED, 0)


for key, (says, makefile, files) in LATER.items():
    setattr(SecondExpansion, "test_" + key, later_of(says, makefile, files))
