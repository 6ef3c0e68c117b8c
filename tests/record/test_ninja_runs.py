"""Which process worked for which build statement: what does not fit is a hole."""

import unittest
from typing import List, Sequence

import support
from record.build.assumptions import Assumptions
from record.make.owners import Owners
from record.ninja.build import NinjaBuilder
from record.ninja.runs import Runs
from record.trace.calls import Calls
from record.trace.lives import Act, Life
from record.trace.names import Names
from record.trace.strace import read_trace

MANIFEST = "rule r\n  command = $c\nbuild a: r\n  c = one\nbuild b: r\n  c = two\n"


class Holes(unittest.TestCase):
    """A ninja with processes that are made up."""

    def runs(self, texts: List[str], cut: bool = False, manifest: str = MANIFEST, words: Sequence[str] = (), has_read: bool = True) -> Runs:
        with support.Project({"build.ninja": manifest}) as project:
            folder = str(project.folder.resolve())
            names = Names()
            names.walk(folder)
            ninja = Life(1, folder=folder, argv=["ninja", *words], is_ninja=True, starts=[(1, folder)])
            ninja.acts += [Act(2, "R", folder + "/build.ninja")] * has_read
            for number, text in enumerate(texts):
                born = 10 + 10 * number
                argv = ["/bin/sh", "-c", text] if text else ["/bin/true"]
                life = Life(10 + number, ninja, born, born + 5, folder, argv, [argv], cut)
                life.events[("W", "%s/f%d" % (folder, number))] = born + 1
                ninja.children.append(life)
            self.lives, self.names = [ninja, *ninja.children], names
            return Runs(self.lives, Owners([], []), names, {}, True)

    def holes(self, runs: Runs, made: str = "") -> List[str]:
        """The holes of the build of the only stage; `made` is a folder that ninja made."""
        if made:
            runs.ninjas[0].life.events[("M", runs.ninjas[0].folder + "/" + made)] = 12
        builder = NinjaBuilder(runs.ninjas[0], 0, self.names.before, set(), self.names, Assumptions())
        builder.run()
        return builder.holes

    def test_all_fits(self) -> None:
        runs = self.runs(["two", "one"])
        self.assertEqual(([], ["b", "a"]), (runs.holes, [edge.label for edge in runs.ninjas[0].stages[0].ran()]))

    def test_command_of_two_statements(self) -> None:
        runs = self.runs(["one", "two"], manifest=MANIFEST + "build c: r\n  c = two\n")
        self.assertEqual(["several build statements have one command: two"], runs.holes)

    def test_command_that_no_statement_has(self) -> None:
        self.assertIn("ninja ran a command that no build statement has: three", self.runs(["three"]).holes)

    def test_command_that_is_cut(self) -> None:
        self.assertIn("no build statement has", " ".join(self.runs(["one"], cut=True).holes))

    def test_child_that_is_no_command(self) -> None:
        self.assertIn("no command", " ".join(self.runs([""]).holes))

    def test_manifest_that_cannot_be_read(self) -> None:
        self.assertIn("cannot be read again", " ".join(self.runs(["one"], manifest="build a: nothing\n").holes))

    def test_words_that_cannot_be_read(self) -> None:
        self.assertIn("its words cannot be read: ninja -Z", " ".join(self.runs(["one"], words=["-Z"]).holes))

    def test_ninja_that_read_no_manifest(self) -> None:
        self.assertIn("a ninja read no manifest: ninja", self.runs(["one"], has_read=False).holes)

    def test_order_of_the_trace(self) -> None:
        text = "rule r\n  command = $c\nbuild a: r b\n  c = one\nbuild b: r\n  c = two\n"
        self.assertEqual([], self.holes(self.runs(["two", "one"], manifest=text)))
        self.assertEqual(["the order of the trace is not that of the manifest: a"], self.holes(self.runs(["one", "two"], manifest=text)))

    def test_folder_that_no_statement_needs(self) -> None:
        runs = self.runs(["one", "two"])
        self.assertEqual([], self.holes(runs))
        self.assertIn("and no statement needs it", " ".join(self.holes(runs, "odd")))

    def test_statements_in_a_ring(self) -> None:
        text = "rule r\n  command = $c\nbuild a: r b\n  c = one\nbuild b: r a\n  c = two\n"
        self.assertIn("wait for each other in a cycle", " ".join(self.holes(self.runs(["one", "two"], manifest=text))))


class Changed(unittest.TestCase):
    """A manifest that changes while the build runs: the lines of its trace, in each order that they can come in."""

    def holes(self, *lines: str) -> List[str]:
        """The holes of a build of which the trace has these lines; `build.ninja` stands for an open that changes it."""
        with support.Project({"build.ninja": MANIFEST}) as project:
            folder = str(project.folder.resolve())
            names = Names()
            names.walk(folder)
            replay = Calls(names, "/no/such/spool", "/usr/bin/make", folder)
            for event in read_trace(self.line(text, folder) + "\n" for text in lines):
                replay.play(event)
            kept = {folder + "/build.ninja": MANIFEST}
            return [hole.replace(folder + "/", "") for hole in Runs(replay.all, Owners(replay.all, []), names, kept, False).holes]

    @staticmethod
    def line(text: str, folder: str) -> str:
        """A line of the trace: `1 changes` and `2 reads` are opens of the manifest."""
        pid, _, does = text.partition(" ")
        flags = {"changes": "O_WRONLY|O_CREAT|O_TRUNC", "reads": "O_RDONLY"}.get(does)
        return '%s openat(AT_FDCWD<%s>, "build.ninja", %s) = 3<%s/build.ninja>' % (pid, folder, flags, folder) if flags else text

    START = ["1 vfork() = 2", '2 execve("/usr/bin/ninja", ["ninja"], 0x1 /* 1 var */) = 0', "2 reads"]
    ONE = ["2 vfork() = 3", '3 execve("/bin/sh", ["/bin/sh", "-c", "one"], 0x1 /* 1 var */) = 0', "3 changes", "3 +++ exited with 0 +++"]
    TWO = ["2 vfork() = 4", '4 execve("/bin/sh", ["/bin/sh", "-c", "more"], 0x1 /* 1 var */) = 0', "4 +++ exited with 0 +++"]
    AT_ONCE = [ONE[0], TWO[0], ONE[1], TWO[1], ONE[2], TWO[2], ONE[3]]
    HOLE = "the manifest that ninja read cannot be read again: nobody kept build.ninja as it was when ninja read it"

    def test_before_and_after_ninja_read_it(self) -> None:
        for jobs in (self.ONE + self.TWO, self.TWO + self.ONE, self.AT_ONCE):
            self.assertEqual([self.HOLE], self.holes("1 changes", *self.START, *jobs))

    def test_after_ninja_read_it(self) -> None:
        for jobs in (self.ONE + self.TWO, self.TWO + self.ONE, self.AT_ONCE):
            self.assertEqual(["ninja ran a command that no build statement has: more"], self.holes(*self.START, *jobs))

    def test_by_one_process_before_and_after(self) -> None:
        self.assertEqual([self.HOLE], self.holes("1 changes", *self.START, *self.TWO, "1 changes"))
