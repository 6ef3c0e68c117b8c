"""The reader of make's data base."""

import unittest
from typing import List

import support  # noqa: F401
from record.make.database import Base, Colons, read_base
from record.trace.strace import folders, said, texts
from test_small import Small, makefiles

ROW = "all: a b%s\na: ; echo 1 > x; touch a\nb: ; cat x > b\n%s"

TEXT = """# Make data base, printed on Monday
# Implicit Rules

%.o: %.c %.h | folder
#  recipe to execute (built-in):
\t$(CC) -c $<

A := 1
# Files

# Not a target:
source.c:
#  Implicit rule search has not been done.

all: a b
#  Phony target (prerequisite of .PHONY).

a: b source.c | folder
#  Implicit rule search has been done.
#  File is an intermediate prerequisite.
#  Also makes: a.h a.x
#  recipe to execute (from 'sub/Makefile', line 12):
\tcc -c $<
\t
\tstrip $@

d:: one | two
#  recipe to execute (from 'Makefile', line 3):
\techo 1

d:: three
#  recipe to execute (from 'Makefile', line 5):
\techo 2

# files hash-table stats:
late: x
# Finished Make data base on Monday"""

class Reads(unittest.TestCase):
    """What each part of the text says."""

    def base(self, text: str = TEXT) -> Base:
        return read_base(text.split("\n"))

    def test_prerequisites(self) -> None:
        base = self.base()
        self.assertEqual((["b", "source.c"], {"folder"}), (base.prerequisites["a"], base.order_only["a"]))

    def test_remarks(self) -> None:
        base = self.base()
        self.assertEqual(({"all"}, {"a"}, {"a"}, {"a": ["a.h", "a.x"]}), (base.phony, base.implicit, base.intermediate, base.also))

    def test_recipes_and_places(self) -> None:
        base = self.base()
        self.assertEqual(["cc -c $<", "strip $@"], base.recipes["a"])
        self.assertEqual([("sub/Makefile", 12)], base.places["a"])

    def test_rules_of_a_double_colon_target(self) -> None:
        base = self.base()
        self.assertEqual([Colons(["one"], ["two"], False), Colons(["three"], [], False)], base.double["d"])
        self.assertEqual([("Makefile", 3), ("Makefile", 5)], base.places["d"])

    def test_end_of_the_list(self) -> None:
        self.assertEqual(({"source.c", "all", "a", "d"}), set(self.base().prerequisites))

    def test_what_is_no_target_may_have_been_searched_for(self) -> None:
        text = "# Files\n\n# Not a target:\nx.y:\n#  Implicit rule search has been done.\n"
        self.assertEqual({"x.y"}, self.base(text).implicit)

    def test_serial(self) -> None:
        self.assertFalse(self.base().serial)
        self.assertTrue(self.base("# Files\n\n.NOTPARALLEL:\n").serial)


class Lines(unittest.TestCase):
    """One target each."""

    def prerequisites(self, line: str) -> List[str]:
        return read_base(["# Files", "", line]).prerequisites.get(line.split(":")[0], [])

    def test_target_without_prerequisites(self) -> None:
        self.assertEqual([], self.prerequisites("x:"))

    def test_macro_of_one_target(self) -> None:
        base = read_base(["# Files", "", "# makefile (from 'Makefile', line 2)", "a: X = 1", "a:: s", "# automatic", "# @ := a", "", "b: t"])
        self.assertEqual((["s"], ["t"]), (base.prerequisites["a"], base.prerequisites["b"]))

    def test_archive_member(self) -> None:
        self.assertEqual(["a.o"], self.prerequisites("lib.a(a.o): a.o"))


Makefiles = makefiles(__name__, {
    # what make looks for when it first considers a target, though what that needs is made later
    # one job at a time
    "target_that_begins_like_a_remark": Small("no verdict", "all: a \\#\\ b\na: ; touch a\n\\#\\ b: ; touch '# b'\n", says="does not show the recipe of a target that ran: # b"),
    "not_parallel_as_a_prerequisite": Small("race", ROW % ("", "c: .NOTPARALLEL\n")),
    "not_parallel": Small("safe", ROW % ("", ".NOTPARALLEL:\n")),
})


class Texts(unittest.TestCase):
    """What stands in lines and texts."""

    def test_quote_behind_a_descriptor(self) -> None:
        found = said(r'openat(AT_FDCWD</q\"r\">, "a>\"b", O_RDONLY) = 3</q\"r\"/a\76\"b>')
        args = found[1]
        self.assertEqual((['a>"b'], ['/q"r"']), (texts(args), folders(args)))
        self.assertEqual('/q"r"/a>"b', found[4])

    def test_backslash_and_quote_behind_a_descriptor(self) -> None:
        found = said(r'renameat(3</q\\\"4>, "1<\"", 5</r>, "2>") = 0')
        args = found[1]
        self.assertEqual((['1<"', "2>"], ['/q\\"4', "/r"]), (texts(args), folders(args)))

    def test_macros_that_count(self) -> None:
        base = read_base(["# makefile (from 'M', line 1)", "SHELL := /bin/sh", "X = $(SHELL)", "MAKESHELL = /s", "# automatic", "# SHELL := x", "define SHELL", "two", "endef", "# Files", "",
                          "# makefile (from 'M', line 2)", "a: SHELL = y", "a: SHELL = z"])
        self.assertEqual({"SHELL": {"/bin/sh", "x", "", "y"}}, base.values)

    def test_not_parallel_that_is_no_target(self) -> None:
        head = ["# Make data base", "# Files", ""]
        self.assertTrue(read_base([*head, ".NOTPARALLEL:"]).serial)
        self.assertFalse(read_base([*head, "# Not a target:", ".NOTPARALLEL:"]).serial)
        self.assertTrue(read_base([*head, "# Not a target:", "x:", "", ".NOTPARALLEL:"]).serial)

    def test_recipe_with_an_empty_line(self) -> None:
        base = read_base(["# Files", "", "a: s", "#  recipe to execute (from 'M', line 2):", "\techo a; \\", "", "\techo b", "", "b:"])
        self.assertEqual(["echo a; \\", "echo b"], [line for line in base.recipes["a"] if line])
