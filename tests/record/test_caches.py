"""What ccache and others keep in folders of their own, from lines of a trace, and with ccache itself where it is there."""

import shutil
import unittest
from typing import Set, Tuple

import support
from record.tools.caches import settle_caches
from test_replay import TOP, lives_of, played

PLACE = "/race-test-cache"
CALL = '1 execve("/usr/bin/ccache", ["ccache", "cc", "-c", "a.c"], 0x1) = 0'
OF_PROJECT = '1 execve("%s/ccache", ["ccache", "cc", "-c", "a.c"], 0x1) = 0' % TOP
KEEPS = ['1 mkdir("%s", 0777) = 0' % PLACE, '1 mkdir("%s/0", 0777) = 0' % PLACE, '1 openat(AT_FDCWD</w>, "%s/0/stats", O_WRONLY|O_CREAT, 0666) = 3<%s/0/stats>' % (PLACE, PLACE)]
COMPILES = ['1 vfork() = 2', '2 execve("/usr/bin/cc", ["cc", "-E"], 0x1) = 0', '2 openat(AT_FDCWD</w>, "%s/tmp/x.i", O_WRONLY|O_CREAT, 0666) = 3<%s/tmp/x.i>' % (PLACE, PLACE)]
OTHER = ['3 openat(AT_FDCWD</w>, "%s/0/stats", O_RDONLY) = 3<%s/0/stats>' % (PLACE, PLACE)]
MAKEFILE = "export CCACHE_DIR := $(CURDIR)/../kept\nall: a.o b.o c\n%.o: %.c ; ccache cc -c -o $@ $<\nc: ; "
LEFT: Set[Tuple[str, str]] = {("E", ""), ("C", "/")}  # the folder gets a name in the one above, and who looks for it makes it too


def left(*lines: str) -> Set[Tuple[str, str]]:
    """The events on that folder that are left, and the paths below it."""
    replay = played(*lines)
    list(settle_caches(replay.all, [TOP]))
    return {(kind, path[len(PLACE):]) for life in replay.all for kind, path in life.events if path.startswith(PLACE)}


class Kept(unittest.TestCase):
    """Lines of a trace."""

    def test_what_it_keeps(self) -> None:
        self.assertEqual(LEFT, left(CALL, *KEEPS))

    def test_what_its_compiler_writes_there(self) -> None:
        self.assertEqual(LEFT, left(CALL, *KEEPS, *COMPILES))

    def test_compiler_in_its_place(self) -> None:
        self.assertEqual(LEFT, left(CALL, *KEEPS, '1 execve("/usr/bin/cc", ["cc", "a.o"], 0x1) = 0'))

    def test_that_others_look_at(self) -> None:
        self.assertIn(("M", ""), left(CALL, *KEEPS, *OTHER))

    def test_that_a_process_looked_at_before(self) -> None:
        self.assertIn(("M", ""), left(OTHER[0].replace("3", "1", 1), CALL, *KEEPS))

    def test_of_the_project(self) -> None:
        self.assertIn(("M", ""), left(OF_PROJECT, *KEEPS))

    def test_its_words(self) -> None:
        self.assertEqual(["ccache cc -c a.c"], list(settle_caches(played(CALL, *KEEPS).all, [TOP])))
        self.assertEqual([], list(settle_caches(played(OF_PROJECT, *KEEPS).all, [TOP])))

    def test_of_other_programs(self) -> None:
        for program, name in (("cargo", "/.global-cache"), ("go", "/c/ab/%s-d" % ("0a" * 32)), ("guile-3.0", "/guile/ccache/3.0/x.scm.go.A1"), ("dot", "/fontconfig/ab-le64.cache-8"),
                              ("npm-cli.js", "/.npm/_logs/1-debug-0.log")):
            opened = '1 openat(AT_FDCWD</w>, "%s", O_WRONLY|O_CREAT, 0666) = 3<%s>' % (PLACE + name, PLACE + name)
            self.assertEqual(set(), left(CALL.replace("/usr/bin/ccache", "/race-test-bin/" + program), opened), program)
            self.assertIn(("C", name), left(CALL, opened), program)

    def test_words_that_say_what_was_kept(self) -> None:
        objects = '1 openat(AT_FDCWD</w>, "%s/ab/%s-d", O_WRONLY|O_CREAT, 0666) = 3<%s/ab/%s-d>' % (PLACE, "0a" * 32, PLACE, "0a" * 32)
        for words, is_left in (('"build", "-o", "a"', False), ('"build", "-v"', True), ('"build", "-o", "a", "-x", "."', True), ('"test", "-vet=off"', False)):
            self.assertEqual(is_left, left('1 execve("/race-test-bin/go", ["go", %s], 0x1) = 0' % words, objects) != set(), words)
        self.assertEqual(LEFT, left('1 execve("/usr/bin/ccache", ["cc", "-c", "a.c"], 0x1) = 0', *KEEPS))
        self.assertIn(("M", ""), left('1 execve("/usr/bin/ccache", ["ccache", "-s"], 0x1) = 0', *KEEPS))

    def test_index_of_git(self) -> None:
        index = '1 openat(AT_FDCWD</w>, "%s/.git/index", O_RDWR|O_CREAT, 0666) = 3<%s/.git/index>' % (PLACE, PLACE)
        for words, is_left in (('"-C", "x", "status"', False), ('"describe"', False), ('"add", "x"', True), ('"status-x"', True), ('"-c", "a=b", "checkout"', True)):
            self.assertEqual(is_left, left('1 execve("/usr/bin/git", ["git", %s], 0x1) = 0' % words, index) != set(), words)

    def test_other_files(self) -> None:
        life = lives_of(played(CALL, *KEEPS, '1 openat(AT_FDCWD<%s>, "a.o", O_WRONLY|O_CREAT, 0666) = 3<%s/a.o>' % (TOP, TOP)), 1)[0]
        list(settle_caches([life], [TOP]))
        self.assertIn(("C", TOP + "/a.o"), life.events)


@unittest.skipUnless(shutil.which("ccache") and shutil.which("cc"), "ccache is missing (Debian: apt-get install ccache)")
class Builds(unittest.TestCase):
    """Builds by ccache itself."""

    def said(self, recipe: str) -> Tuple[int, str]:
        """The status of a build of two files beside a recipe, and what is said."""
        with support.Project({"a.c": "int a;\n", "b.c": "int b;\n", "Makefile": MAKEFILE + recipe}) as project:
            outcome = project.record()
            return outcome.status, outcome.text()

    def test_two_files(self) -> None:
        status, text = self.said("true")
        self.assertEqual(0, status, text)
        self.assertIn("what ccache, cargo, go, guile, npm and fontconfig keep", text)

    def test_folder_that_a_recipe_lists(self) -> None:
        self.assertEqual(1, self.said("ls ../kept || true")[0])
