"""What the words of a process say."""

import os
import unittest

import support
from record.commands import shelltext
from record.commands.system import OF_SYSTEM
from test_output import Output


class Words(unittest.TestCase):
    """Removals and scripts."""

    def test_removals(self) -> None:
        for words, is_one in (("rm -f x", True), ("rm -rf x y", True), ("rm --force x", True), ("rm x", False), ("rm -fv x", False), ("rm -f --verbose x", False), ("rm -if x", False),
                              ("rmdir d", False), ("find d -name x -delete", True), ("find d -name x -print -delete", False), ("find d -delete -execdir ls {} ;", False), ("find d", False)):
            self.assertEqual(is_one, shelltext.is_removal(words.split()), words)

    def test_first_line_of_a_script(self) -> None:
        with support.Project({"one": "#!/bin/sh -e\n", "two": "#!/usr/bin/env -S python3\n", "three": "text\n"}) as project:
            paths = [os.path.join(project.folder, name) for name in ("one", "two", "three", "none")]
            self.assertEqual(["/bin/sh", paths[0], "x"], shelltext.with_interpreter(["./one", "x"], paths[0], shelltext.first_words(paths[0])))
            self.assertEqual(["python3", paths[1]], shelltext.with_interpreter(["./two"], paths[1], shelltext.first_words(paths[1])))
            self.assertEqual([["./three"], ["./none"]], [shelltext.with_interpreter(["./" + os.path.basename(p)], p, shelltext.first_words(p)) for p in paths[2:]])


class System(unittest.TestCase):
    """What comes with the system, and what is of a project below `/usr` or the like."""

    def test_names(self) -> None:
        system = ["/usr/bin/x", "/usr/local/lib/x", "/lib64/x", "/usr/share/x", "/etc/x", "/dev/null", "/usr/include"]
        project = ["/usr/src/app/x", "/usr/local/src/x", "/usr/app", "/library/x", "/dev/shm/p/x", "/home/usr/bin/x"]
        self.assertEqual(system, [name for name in system + project if OF_SYSTEM.match(name)])


class Said(Output):
    """What a build prints where a line of a recipe names a program that is not there."""

    def test_first_line(self) -> None:
        self.assertEqual(0, self.both("all: u v\nu v:\n\t-@no-such-tool\n\t@echo $@ > $@; echo said $@\n"))

    def test_last_line(self) -> None:
        self.assertEqual(0, self.both("all: u v\nu v:\n\t@echo $@ > $@; echo said $@\n\t-@no-such-tool\n"))

    def test_all_lines(self) -> None:
        self.assertEqual(0, self.both("all: u v\nu:\n\t-no-such-tool\n\t-no-such-tool\nv: ; @echo $@ > $@; echo said $@\n"))
