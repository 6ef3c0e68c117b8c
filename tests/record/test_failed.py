"""What is said of a build that failed, and of a make that did where the build did not."""

import unittest
from typing import Dict, List, Optional, Tuple

import support

END = "the build ended with status 2"
LACKS = "the recipe that failed looks for %s, and does not wait for it. Write the rule %s: %s"
BY_HAND = ["if `make -j1` fails without race-record too, repair that first; if not, report it"]


class Failed(unittest.TestCase):
    """Records of builds that fail."""

    def failed(self, makefile: str, others: Optional[Dict[str, str]] = None, words: Tuple[str, ...] = ("make",)) -> Tuple[List[str], List[str]]:
        """The holes and the hints."""
        with support.Project({"Makefile": makefile, **(others or {})}) as project:
            outcome = project.record(words)
        self.assertEqual(2, outcome.status, outcome.text())
        assert outcome.record is not None
        return outcome.record["holes"], outcome.record["hints"]

    def holes(self, makefile: str, files: Dict[str, str]) -> List[str]:
        """The holes of a build that does not fail."""
        with support.Project({"Makefile": makefile, **files}) as project:
            outcome = project.record()
        assert outcome.record is not None
        self.assertEqual((2 if outcome.record["holes"] else 0, 0), (outcome.status, outcome.record["status"]), outcome.text())
        return list(outcome.record["holes"])

    def test_recipe(self) -> None:
        self.assertEqual(([END], BY_HAND), self.failed("all: a b\na: ; touch a\nb:\n\tfalse\n"))

    def test_what_comes_before_the_build(self) -> None:
        for setup, status in (("./configure", 127), ("make -s b; false", 1), ("exit 0", 0)):
            with support.Project({"Makefile": "all: ; touch all\nb: ; touch b\n"}) as project:
                outcome = project.record(options=("--fresh", "--setup", setup))
            assert outcome.record is not None
            self.assertEqual((2, ["%s ended with status %d, before the build" % (setup, status)]), (outcome.status, outcome.record["holes"]))
            self.assertEqual(["the build did not begin: repair what stands behind --setup first"], outcome.record["hints"])

    def test_prerequisite_that_was_forgotten(self) -> None:
        lacks = "all: first sub/a.o gen.h\nfirst: ; touch $@\nsub/a.o: ; cat gen.h > $@\n"
        self.assertEqual([LACKS % ("gen.h", "sub/a.o", "gen.h")], self.failed(lacks + "gen.h:\n\techo > $@\n", {"sub/x": ""})[1])
        self.assertEqual(BY_HAND, self.failed(lacks + "other.h: ; echo > $@\n", {"sub/x": "", "gen.h/x": ""})[1])
        self.assertEqual(BY_HAND, self.failed("all: a gen.h\na: ; cat gen.h && false\ngen.h: ; echo > $@\n", {"gen.h": ""})[1])
        self.assertEqual(BY_HAND, self.failed("all: gen.h a\ngen.h: ; true\na: ; cat gen.h > $@\n")[1])

    def test_make_that_has_the_rule(self) -> None:
        inner = {"sub/Makefile": "a: ; cat ../gen.h > $@\n"}
        around = "all: sub gen.h\nsub: ; $(MAKE) -C sub\ngen.h: ; echo > $@\n.PHONY: all sub\n"
        self.assertEqual([LACKS % ("gen.h", "sub", "gen.h")], self.failed(around, inner)[1])
        self.assertEqual([LACKS % ("gen.h", "a.o", "gen.h")], self.failed("all: ; $(MAKE) sub\nsub: a.o gen.h\na.o: ; cat gen.h > $@\ngen.h: ; echo > $@\n")[1])

    def test_what_failed_before_and_was_ignored(self) -> None:
        files = {"one.mk": "x: ; $(MAKE) -f two.mk\n", "two.mk": "y: ; test -e w\nw: ; touch w\n"}
        self.assertEqual(BY_HAND, self.failed("all: a b\na: ; -$(MAKE) -f one.mk\nb: ; -false\n\tfalse\n", files)[1])
        self.assertEqual([LACKS % ("w", "y", "w")], self.failed("all: a b\na: ; $(MAKE) -f one.mk\nb: ; touch b\n", files)[1])

    def test_make_that_is_asked(self) -> None:
        """That it fails is its answer; what it built before counts, and what it might have run beside is not known."""
        files = {"one.mk": "x: a ; cmp a b\na: ; echo > a\n", "two.mk": "x: a b\na: ; false\nb: ; echo > c\n"}
        for name, holes in (("one.mk", []), ("two.mk", ["a make failed, and had not come to b: make -f two.mk"]), ("two.mk -k", [])):
            with self.subTest(name):
                self.assertEqual(holes, self.holes("all: ; echo 1 > b; if $(MAKE) -f %s; then echo same > c; else echo other > c; fi\n" % name, files))

    def test_failures_that_a_recipe_ignores(self) -> None:
        self.assertEqual([], self.holes("all: ; -$(MAKE) -f one.mk\n", {"one.mk": "x: ; $(MAKE) -f two.mk\n", "two.mk": "y: ; false\n"}))

    def test_what_cmake_tries(self) -> None:
        tries = {"CMakeFiles/CMakeTmp/Makefile": "all: t u\nt: ; false\nu: ; touch u\n"}
        self.assertEqual([], self.holes("all: ; -(cd CMakeFiles/CMakeTmp && $(MAKE))\n", tries))

    def test_long_words(self) -> None:
        """As where a recipe tries many libraries, each by a make."""
        holes, _ = self.failed("all:\n" + "".join("\t-$(MAKE) -f one.mk X=%s\n" % ("x" * 200 + end) for end in "abc"), {"one.mk": "all: x y\nx: ; false\ny: ;\n"})
        self.assertEqual(["a make failed, and had not come to y: make -f one.mk X=%s" % ("x" * 83)], holes)

    def test_no_make(self) -> None:
        self.assertEqual(["the build ended with status 3", "no make and no ninja ran"], self.failed("", words=("sh", "-c", "exit 3"))[0])
