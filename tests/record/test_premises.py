"""Tests of record/premises.py."""

import unittest

import support
from test_small import COMMANDS, Small, makefiles

WAIT = "until test -e %s; do sleep 0.05; done; "
COMPILES = "cc -shared -fPIC -o obj.so obj.c"
OBJECT = """#include <stdio.h>
int plugin_is_GPL_compatible;
extern void gmk_add_function(const char *, char *(*)(const char *, unsigned int, char **), unsigned int, unsigned int, unsigned int);
static char *writes(const char *name, unsigned int count, char **words) { FILE *f = fopen(words[0], "w"); fputs("w", f); fclose(f); return 0; }
int obj_gmk_setup(const void *place) { gmk_add_function("writes", writes, 1, 1, 0); return 1; }
"""
WRITES = "all: s a b\ns: ; touch s\na: s ; touch a$(writes w)\n"
Makefiles = makefiles(__name__, {
    # what goes past files
    "process_beside_make": Small("safe", "all: ; touch go; " + WAIT % "x" + "touch all\n", says="files that a process which no recipe started"),
    "script_beside_make": Small("safe", "all: ; touch go; " + WAIT % "x" + "touch all\n", says="files that a process which no recipe started"),
    "script_before_make": Small("safe", "all: ; touch all\n", lacks="files that a process which no recipe started"),
})


COMMANDS["process_beside_make"] = ["sh", "-c", "(" + WAIT % "go" + "echo 1 > x) & make; wait"]
COMMANDS["script_beside_make"] = ["sh", "-c", "make & " + WAIT % "go" + "echo 1 > x; wait"]
COMMANDS["script_before_make"] = ["sh", "-c", "(echo 1 > x); echo 1 > y; make; echo 1 > z"]


class Loaded(unittest.TestCase):
    """Objects that make loads into itself."""

    def loaded(self, makefile: str, is_there: bool = True) -> support.Outcome:
        """Records a makefile with an object that has a function `writes`."""
        with support.Project({"Makefile": makefile, "obj.c": OBJECT}) as project:
            if "load" not in project.plain(["make", "-pqf", "/dev/null"]).stdout.decode().partition(".FEATURES := ")[2].split("\n")[0].split():
                self.skipTest("this make loads no objects")
            project.sh(COMPILES if is_there else "")
            return project.record()

    def test_function_that_writes_before_a_recipe(self) -> None:
        outcome = self.loaded("load obj.so\n" + WRITES + "b: a ; cat w > b\n")
        self.assertEqual(0, outcome.status, outcome.text())
        self.assertIn("loads (load)", outcome.text())

    def test_object_that_a_rule_makes(self) -> None:
        outcome = self.loaded("-load obj.so\n" + WRITES + "b: a ; cat w > b\nobj.so: obj.c ; %s\n" % COMPILES, False)
        self.assertEqual(0, outcome.status, outcome.text())
        self.assertEqual(["makefiles", "goals"], [build["round"] for build in outcome.builds])

    def test_another_language(self) -> None:
        """A make that has it inside says so in its macro `.FEATURES`."""
        with support.Project({"Makefile": "X = $(guile (system \"touch x\"))\n.FEATURES += guile\nall: ; touch all\n"}) as project:
            self.assertIn("$(guile ..)", project.record().text())
