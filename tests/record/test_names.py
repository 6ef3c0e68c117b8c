"""The model of the name space."""

import os
import tempfile
import unittest

import support
from record.trace.names import Inode, Names, join, mounts_below
from test_replay import played
from test_small import Small, makefiles

DEEP = "for f in */*/*.c; do echo $f; done\n"
# A recipe that runs a script, or a text, beside one that makes a name.
SCRIPT = "all: a b\na: s ; sh s > a\nb: ; %s; touch b\n"
TREE = "mkdir -p d/e; touch d/e/x.c"


class Paths(unittest.TestCase):
    """Where a path leads."""

    def setUp(self) -> None:
        self.project = support.Project({"d/file": "x", "e/other": "y"})
        self.addCleanup(self.project.__exit__)
        self.top = os.path.realpath(self.project.folder)
        os.symlink("d", self.top + "/link")
        os.symlink("link/file", self.top + "/far")
        os.symlink("loop", self.top + "/loop")
        os.link(self.top + "/d/file", self.top + "/second")
        self.names = Names()
        self.names.walk(self.top)

    def path(self, name: str, follow: bool = True) -> str:
        return self.names.find(self.top, name, follow).path[len(self.top) + 1:]

    def test_plain_spelling(self) -> None:
        self.assertEqual("d/file", self.path("./d//../d/./file"))

    def test_links_are_followed_and_noted(self) -> None:
        found = self.names.find(self.top, "far", True)
        self.assertEqual(self.top + "/d/file", found.path)
        self.assertEqual([self.top + "/far", self.top + "/link"], found.links)

    def test_last_link_stays_where_it_is_not_followed(self) -> None:
        self.assertEqual("far", self.path("far", False))
        self.assertEqual("d/file", self.path("link/file", False))

    def test_dot_dot_goes_by_the_real_folder(self) -> None:
        self.assertEqual("e/other", self.path("link/../e/other"))

    def test_ring_of_links_ends(self) -> None:
        self.assertEqual("loop", self.path("loop"))

    def test_first_name_that_is_absent(self) -> None:
        found = self.names.find(self.top, "d/none/deep", True)
        self.assertEqual((self.top + "/d/none", None), (found.missing, found.inode))

    def test_two_names_of_one_file(self) -> None:
        found = self.names.find(self.top, "second", True)
        self.assertEqual({self.top + "/d/file", self.top + "/second"}, set(self.names.aliases(found.inode)))

    def test_before_keeps_what_the_tree_was(self) -> None:
        self.assertEqual(["d", "l", "f"], [self.names.before[join(self.top, n)] for n in ("d", "link", "second")])

    def test_name_that_is_taken_away_is_gone(self) -> None:
        folder = self.names.find(self.top, "d", True).inode
        assert folder is not None
        os.unlink(self.top + "/second")
        self.names.take(folder, "file")
        self.assertIsNone(self.names.find(self.top, "d/file", True).inode)

    def test_folder_that_moves_takes_what_is_below(self) -> None:
        top = self.names.find(self.top, ".", True).inode
        assert top is not None
        moved = self.names.take(top, "d")
        assert moved is not None
        self.names.put(top, "new", moved)
        self.assertEqual("new/file", self.path("new/file"))
        self.assertIsNone(self.names.find(self.top, "d", True).inode)
        self.assertEqual([self.top + "/new/file"], [p for p, _ in self.names.below(moved, self.top + "/new")])

    def test_what_was_not_walked_is_asked_of_the_disk(self) -> None:
        self.assertEqual("d", getattr(self.names.find("/", "usr/bin/..", True).inode, "kind", ""))

    def test_path_of_a_made_folder(self) -> None:
        top = self.names.find(self.top, "e", True).inode
        assert top is not None
        child = Inode("d")
        self.names.put(top, "made", child)
        self.assertEqual(self.top + "/e/made", child.path())


Makefiles = makefiles(__name__, {
    # files with a name elsewhere
    "name_outside_that_is_written": Small("race", "all: a b\na: ; echo 1 > ../y; touch a\nb: ; cat x > b\n", setup="echo 0 > ../y; ln ../y x"),
    # the same of a script
    # folders above the project, and those of the system
    "file_beside_the_project": Small("safe", "all: a b\na: ; mkdir -p $(CURDIR)/d; touch a\nb: ; touch ../race.tmp; rm ../race.tmp; touch b\n"),
    "folders_by_a_whole_path": Small("safe", "all: x y\nx: ; mkdir -p $(CURDIR)/d/e; touch x\ny: ; touch $(CURDIR)/y\n", lacks="outside of the project"),
    "folder_beside_the_project": Small("race", "all: x y\nx: ; mkdir -p ../d/e; touch x\ny: ; touch ../d/y 2> /dev/null; touch y\n"),
    "folder_of_the_system_for_temporary_files": Small("safe", "all: x y\nx: ; d=/tmp/race-test-$$$$; mkdir -p $$d/e; rmdir $$d/e $$d; touch x\ny: ; rm `mktemp /tmp/race-test-XXXXXX`; touch y\n", below="/dev/shm"),
})


class Tops(unittest.TestCase):
    """Names in two folders."""

    def test_file_with_a_name_in_each(self) -> None:
        with support.Project({"Makefile": "all: a b\na: ; echo 1 > x; touch a\nb: ; cat ../other/y > b\n"}) as project:
            project.sh("mkdir ../other; echo 0 > ../other/y; ln ../other/y x")
            self.assertEqual(1, project.record(options=["--top", "../other"]).status)

    def test_file_that_is_mounted(self) -> None:
        with tempfile.TemporaryDirectory() as room:
            room = os.path.realpath(room)
            os.mknod(room + "/x")
            names = Names()
            names.walk(room)
            self.assertEqual([1, 0], [len(names.mounted(mounts)) for mounts in ({room + "/x", "/"}, {"/"})])


class Traces(unittest.TestCase):
    """Lines of a trace, and names before it."""

    def test_descriptor_of_another_process(self) -> None:
        self.assertNotEqual([], played("1 pidfd_getfd(3<anon_inode:[pidfd]>, 4, 0) = 5</x>").holes)

    def test_folder_with_two_names(self) -> None:
        names = Names()
        for path, number in (("/w/a", 5), ("/w/b", 6), ("/w/c", 5), ("/w/a", 5)):
            names.note_number(path, os.stat_result((0, number, 1, *[0] * 7)))
        self.assertEqual([("/w/a", "/w/c")], names.twice)
        self.assertEqual([1, 1, 0], [len(names.mounted(mounts)) for mounts in ({"/w/c"}, {"/w/a", "/"}, {"/w", "/w/b"})])

    def test_mount_points(self) -> None:
        self.assertIn("/proc", mounts_below("/"))


class SecondTop(unittest.TestCase):
    """Another folder that the build works in."""

    def of(self, status: int, makefile: str, top: str, setup: str = ":") -> None:
        with support.Project({"Makefile": makefile}) as project:
            project.sh(setup)
            outcome = project.record(options=["--top", top])
            self.assertEqual(status, outcome.status, outcome.text())

    def test_that_is_not_there(self) -> None:
        used = "all: x y\nx: ; mkdir -p ../out/d; touch x\ny:%s ; touch ../out/y; touch y\n"
        self.of(1, used % "", "../out")
        self.of(1, used % "", "../out/d")
        self.of(0, used % " x", "../out")
        self.of(1, "all: y x\nx: ; mkdir -p ../out; touch x\ny: ; touch ../out/y 2> /dev/null || echo no > y; touch y\n", "../out")
        self.of(0, used % "", "../out", "mkdir ../out")

    def test_in_which_a_target_is_cold(self) -> None:
        self.of(0, "all: ../out/x\n../out/x: ; mkdir -p ../out; touch ../out/x\n", "../out")
        self.of(2, "all: ../out/x\n../out/x: ; touch ../out/x\n", "../out", "mkdir ../out; touch ../out/x")
