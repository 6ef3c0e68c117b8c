"""Tests of record/trace/spelling.py."""

import os
import tempfile
import unittest
from unittest import mock

import support
from record.trace.names import Names as NameSpace
from record.trace.spelling import folds, has_two_names


class Spellings(unittest.TestCase):
    """A file system that takes two spellings for one name. Here none does, so the test says it."""

    def outcome(self, makefile: str, **files: str) -> support.Outcome:
        with mock.patch("record.trace.names.folds", return_value=True), support.Project({"Makefile": makefile, **files}) as project:
            return project.record()

    def holes(self, makefile: str, **files: str) -> int:
        """How many files have two spellings, in a build without a verdict."""
        outcome = self.outcome(makefile, **files)
        self.assertEqual(2, outcome.status, outcome.text())
        return outcome.text().count("  - this file system takes ")

    def test_file_that_a_recipe_makes(self) -> None:
        self.assertEqual(1, self.holes("all: a b\na: ; echo 1 > Config.h; cp Config.h a\nb: ; cat config.h > b || true\n"))

    def test_folder_on_the_way(self) -> None:
        self.assertEqual(2, self.holes("all: a b\na: ; mkdir D; echo 1 > D/x; cp D/x a\nb: ; cat d/x > b || true\n"))

    def test_file_that_was_there(self) -> None:
        self.assertEqual(1, self.holes("all: a\na: ; echo 1 > log; cp log a\n", LOG=""))

    def test_target_that_was_there(self) -> None:
        self.assertEqual(1, self.holes("all: a b\na: ; echo 1 > a\nb: ; @true\n", B=""))

    def test_what_does_not_change(self) -> None:
        outcome = self.outcome("all: a b\na: X ; cat x > a || cat X > a\nb: a ; cat X > b\n", X="1\n")
        self.assertEqual(0, outcome.status, outcome.text())

    def test_what_make_looks_for(self) -> None:
        """It knows suffixes with large letters, and names of makefiles with small ones."""
        outcome = self.outcome("all: x.o\n%.c: %.in ; cp $< $@; touch Makefile\n", **{"x.in": "int x;\n"})
        self.assertEqual(0, outcome.status, outcome.text())

    def test_file_systems(self) -> None:
        with tempfile.TemporaryDirectory() as room:
            folder = os.path.join(os.path.realpath(room), "Ab")
            os.mkdir(folder)
            self.assertEqual((False, False), (folds(room, ["Ab"]), has_two_names(folder)))
            with mock.patch("record.machine.lexists", return_value=True), mock.patch("os.path.samefile", return_value=True):
                self.assertEqual((True, False, False, True), (folds(room, ["1", "Ab"]), folds(room, ["Ab", "aB"]), folds(room, ["1", "\u00e9"]), has_two_names(folder)))
                os.symlink("Ab", folder[:-2] + "aB")
                self.assertFalse(has_two_names(folder))

    def test_each_folder_is_asked(self) -> None:
        for one, other in (("folds", "has_two_names"), ("has_two_names", "folds")):
            with mock.patch("record.trace.names." + one, return_value=True), mock.patch("record.trace.names." + other, return_value=False), tempfile.TemporaryDirectory() as room:
                names = NameSpace()
                names.walk(os.path.realpath(room))
                self.assertTrue(names.folds)
