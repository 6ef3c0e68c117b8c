"""Tests of record/trace/moves.py."""

import unittest
from typing import Dict

import support
from test_replay import TOP, events_of, lives_of, played
from test_small import Small, makefiles

ABSENT = "all: u a\nu: ; %s 2> /dev/null || echo no > u; touch u\na: ; mkdir d; touch a\n"
FOLDERS = "n" * 200
DEEP = """import os, sys
for number in range(25):
    if sys.argv[1] == "make":
        os.mkdir("%s")
    os.chdir("%s")
if sys.argv[1] == "number":
    folder = os.open(".", os.O_RDONLY)
    os.chdir("/")
    os.close(os.open("f", os.O_RDONLY, dir_fd=folder))
else:
    open("f", "a").close()
""" % (FOLDERS, FOLDERS)
NAME = "x" * 9000
PAIR = {"Makefile": ".PHONY: %s\nall: %s b\n%s: ; @echo a > a; echo said\nb: ; @cat a > b\n" % (NAME, NAME, NAME)}
Makefiles = makefiles(__name__, {
    # names that cannot be made, as their folder is not there, or is full
    "link_in_a_folder_that_is_absent": Small("race", ABSENT % "ln x d/y", {"x": "x"}),
    "symbolic_link_in_a_folder_that_is_absent": Small("race", ABSENT % "ln -s x d/y"),
    # folders that move
    "folder_that_is_moved": Small("race", "all: a b\na: ; mv d e; touch a\nb: ; echo z > e/z; touch b\n", {"d/k": "k"}),
    "folder_below_one_that_is_moved": Small("race", "all: a b\na: ; mv d e; touch a\nb: ; echo z > e/s/z; touch b\n", {"d/s/k": "k"}),
    "folder_that_is_moved_and_waited_for": Small("safe", "all: a b\na: ; mkdir t; mv t e; touch a\nb: a ; echo z > e/z; touch b\n"),
    "two_names_of_one_file_moved": Small("race", "all: a b\na: ; ln x y; python3 mv.py; echo 1 > x; touch a\nb: ; cat y > b || true\n", {"x": "x", "mv.py": "import os\nos.rename('x', 'y')\n"}),
})


class Moved(unittest.TestCase):
    """Folders that are moved while somebody is in them."""

    def test_a_process_goes_with_its_folder(self) -> None:
        replay = played('1 mkdir("d", 0777) = 0', '1 mkdir("d/s", 0777) = 0', '1 chdir("d/s") = 0', '1 rename("../../d", "../../e") = 0', '1 mkdir("n", 0777) = 0')
        self.assertIn(("M", "e/s/n"), events_of(lives_of(replay, 1)[0]))


class Traces(unittest.TestCase):
    """Lines of a trace."""

    def test_too_many_words(self) -> None:
        self.assertIn("too many to be seen", "".join(played('1 execve("/bin/x", ["x", "a", ...], 0x1 /* 1 var */) = 0').holes))
        self.assertEqual([], played('1 execve("/bin/x", ["x", "[1, ...]"], 0x1 /* 1 var */) = 0').holes)

    def test_descriptors_without_a_name(self) -> None:
        for line in ('openat(3, "f", O_RDONLY) = 4', "fchmod(3, 0755) = 0", "fchdir(3) = 0", 'newfstatat(3, "f", {}, 0) = 0', 'renameat(3, "a", AT_FDCWD<%s>, "b") = 0' % TOP,
                     'renameat2(AT_FDCWD<%s>, "a", 3, "b", 0) = 0' % TOP, 'linkat(AT_FDCWD<%s>, "a", 3, "b", 0) = 0' % TOP, 'symlinkat("a", 3, "b") = 0',
                     "ioctl(3, FS_IOC_SETFLAGS, [0]) = 0"):
            self.assertIn("by the number of its descriptor alone", "".join(played("1 " + line).holes), line)
        for line in ('openat(3, "f", O_RDONLY) = -1 EBADF (Bad file descriptor)', "umask(0) = 022", 'symlink("a, 3, b", "c, 3, d") = 0', 'symlinkat("a", AT_FDCWD, "b") = 0',
                     'rename("a", "b") = 0', 'openat(AT_FDCWD, "f", O_RDONLY) = 3'):
            self.assertEqual([], played("1 " + line).holes, line)


class Recorded(unittest.TestCase):
    """Real builds."""

    def both(self, files: Dict[str, str]) -> support.Outcome:
        """A recorded build, which prints what a plain one does."""
        with support.Project(files) as project:
            plain = project.plain(["make"]).stdout
        with support.Project(files) as project:
            outcome = project.record()
        self.assertEqual(plain, outcome.stdout[:len(plain)])
        self.assertRegex(outcome.stdout[len(plain):], rb"\A(RACE|SAFE)")
        return outcome

    def test_name_of_a_target(self) -> None:
        outcome = self.both(PAIR)
        self.assertEqual(["a"], support.races_of(outcome.text()))

    def test_names_that_make_a_line_long(self) -> None:
        folder = "/".join("d%d" % at + "y" * 200 for at in range(10))
        text = "D := %s\nall: $D/a $D/b\n$D/a: $D/c ; @cp $D/c $D/a\n$D/c: ; @mkdir -p $D; echo > $D/c\n$D/b: ; @mkdir -p $D; cat $D/c > $D/b\n" % folder
        self.assertEqual(1, self.both({"Makefile": text}).status)

    def test_a_long_command(self) -> None:
        words = "echo " + "w" * 100000 + " > /dev/null"
        files = {"Makefile": "all: a b\na: ; @%s; echo > x; touch a\nb: ; @%s; cat x > b\n" % (words, words)}
        self.assertEqual(["x"], support.races_of(self.both(files).text()))
        self.assertEqual(["x"], support.races_of(self.both({"Makefile": files["Makefile"].replace("@", "")}).text()))

    def test_folders_below_what_a_name_can_say(self) -> None:
        files = {"Makefile": "all: a b\na: ; @python3 t/d.py make; touch a\nb: a ; @python3 t/d.py number; touch b\n", "t/d.py": DEEP}
        with support.Project(files) as project:
            outcome = project.record()
            project.plain(["rm", "-rf", FOLDERS])
        self.assertEqual(2, outcome.status)
        self.assertIn("by the number of its descriptor alone", outcome.text())
