"""The gate: which recipes wait, which begins, and by what names they are known."""

import os
import shutil
import subprocess
import tempfile
import unittest
from pathlib import Path
from typing import Callable, Dict, List, Sequence

import support

from record.orders.gate import Came, Gate, Key
from record.orders.overlap import Meet, Overlap
from record.orders.processes import end
from record.watch.lay import BELOW, BIND, Watch, leave, makes_of, mount


class Gates(unittest.TestCase):
    """Builds whose recipes wait."""

    def began(self, files: Dict[str, str], words: Sequence[str], place: Callable[[str], float] = lambda name: 0.0, after: Sequence["tuple[str, str]"] = (),
              is_flipped: bool = False, at_once: int = 1) -> List[List[str]]:
        """The recipes as they began: of each the targets from the outermost make on."""
        top = Path(tempfile.mkdtemp(prefix="race-gate-"))
        self.addCleanup(shutil.rmtree, top)
        with support.Project(files) as project:
            folder = str(project.folder)

            def key(name: str) -> Key:
                return ((folder, name, 1),)

            gate = Gate(top, Places(place), {key(late): {key(early)} for late, early in after}, is_flipped, at_once)
            with gate.listen() as listener:
                watch = Watch(str(top), str(top / "gate"))
                watch.prepare(makes_of(os.environ["PATH"]))
                if not watch.covered:
                    self.skipTest("the system gives no mounts")
                process = subprocess.Popen(words, cwd=folder, preexec_fn=watch.lay, start_new_session=True, stdout=subprocess.PIPE)
                self.assertTrue(gate.serve(process.pid, listener, lambda: 60))
                end(process.pid)
                process.wait()
                assert process.stdout is not None
                self.output = process.stdout.read().decode()
                process.stdout.close()
            self.assertEqual(0, process.returncode)
        return [[part[1] + ("" if part[2] == 1 else " %d" % part[2]) for part in key] for key in gate.began]

    def test_files_of_two_recipes_have_two_ages(self) -> None:
        self.began({"Makefile": "all: a b c d e ; @stat -c %y $^ | sort -u | wc -l\na b c d e: ; @touch $@\n"}, ["make", "-j5"])
        self.assertEqual("5\n", self.output)

    def test_order(self) -> None:
        """The greatest place first, of those that are ready."""
        found = self.began({"Makefile": "all: a b c\na b c: ; @echo $@\nb: c\n"}, ["make", "-j9"], lambda name: "acb".index(name))
        self.assertEqual(([["c"], ["b"], ["a"]], "c\nb\na\n"), (found, self.output))

    def test_last_that_came(self) -> None:
        """Where no place says more: what becomes ready later comes later, and of those the last one."""
        files = {"Makefile": "all: b a d c\na b c d e: ; @echo $@\nd: e\n"}
        self.assertEqual([["c"], ["e"], ["d"], ["a"], ["b"]], self.began(files, ["make", "-j9"], is_flipped=True))
        self.assertEqual([["b"], ["a"], ["e"], ["c"], ["d"]], self.began(files, ["make", "-j9"]))

    def test_fixes(self) -> None:
        """One waits for another that it does not name."""
        self.assertEqual([["a"], ["b"]], self.began({"Makefile": "all: a b\na b: ; @echo $@\n"}, ["make", "-j9"], lambda name: "ab".index(name), [("b", "a")]))

    def test_side_by_side(self) -> None:
        """Two begin while the other runs, but not one that waits for them."""
        wait = "@touch $@; for i in $$(seq 500); do test -e %s && exit; sleep 0.01; done; exit 1\n"
        files = {"Makefile": "all: c d in e\na: ; %sb: ; %sc: a b\nc d: ; @touch $@\nin: ; @$(MAKE) -s -f in.mk\ne: ; @touch e\n" % (wait % "b", wait % "a"),
                 "in.mk": "all: f g\nf: ; %sg: ; %s" % (wait % "g", wait % "f")}
        found = self.began(files, ["make", "-j9"], lambda name: "cabde".find(name), [("d", "a")], at_once=3)
        self.assertEqual(({"a", "b", "c", "d", "e", "in"}, True), ({key[0] for key in found}, found.index(["a"]) < found.index(["d"])))

    @unittest.skipUnless(os.geteuid() == 0, "needs root")
    def test_fixes_in_a_chroot(self) -> None:
        with tempfile.TemporaryDirectory(prefix="race-root-") as root:
            child = os.fork()
            if child == 0:
                try:
                    if leave() and mount("/", root, BIND | BELOW):
                        os.chroot(root)
                        self.test_fixes()
                    self.doCleanups()
                    os._exit(0)
                finally:
                    os._exit(1)
            self.assertEqual(0, os.waitpid(child, 0)[1])

    def test_two_jobs(self) -> None:
        """With two jobs two wait at once."""
        self.assertEqual([["b"], ["c"], ["a"]], self.began({"Makefile": "all: a b c\na b c: ; @echo $@\n"}, ["make", "-j2"], lambda name: "abc".index(name)))

    def test_order_while_one_sleeps(self) -> None:
        """The next begins when the one before has ended, however long that sleeps, or where it waits for a moment."""
        for waits in ("sleep 1", "python3 -Sc 'import select; select.select([], [], [], 0.1)'"):
            self.began({"Makefile": "all: a b\na: ; @echo $@\nb: ; @%s; echo $@\n" % waits}, ["make", "-j9"], lambda name: "ab".index(name))
            self.assertEqual("b\na\n", self.output)

    def test_functions_and_further_lines(self) -> None:
        """What a function of make runs begins at once, and so do the lines behind the first."""
        text = "X := $(shell echo 1)\nall: a b\na: ; @echo $(shell echo 2)\n\t@echo a\nb: ; @echo b\n\t@echo $(X)\n"
        self.assertEqual(([["b"], ["a"]], "b\n1\n2\na\n"), (self.began({"Makefile": text}, ["make", "-j9"], lambda name: "ab".index(name)), self.output))

    def test_make_in_a_recipe(self) -> None:
        """One gate over all makes, also of a second line."""
        files = {"Makefile": "all: a b\na: ; @echo a\nb:\n\t@echo b\n\t@$(MAKE) -s -C d\n", "d/Makefile": "all: x y\nx y: ; @echo $@\n"}
        self.assertEqual([["b"], ["b", "y"], ["b", "x"], ["a"]], self.began(files, ["make", "-s", "-j9"], lambda name: "axyb".index(name)))

    def test_make_of_a_script(self) -> None:
        """A script that gives no environment, and calls make by its whole path."""
        files = {"Makefile": "all: a b\na b: ; @echo $@\n", "build": "exec env -i PATH=\"$PATH\" %s -j9\n" % os.path.realpath(str(shutil.which("make")))}
        self.assertEqual([["b"], ["a"]], self.began(files, ["sh", "./build"], lambda name: "ab".index(name)))

    def test_several_of_one_name(self) -> None:
        files = {"Makefile": "all: ; @$(MAKE) -s x; $(MAKE) -s x\nx: ; @echo $@\n"}
        self.assertEqual([["all"], ["all", "x"], ["all", "x 2"]], self.began(files, ["make", "-s", "-j9"]))

    def test_one_that_waits_for_another(self) -> None:
        """A recipe waits for what only another one does, and no child of it runs: that may begin."""
        text = "all: a b\na: ; @echo a > pipe\nb: ; @cat pipe; echo b\n"
        with_pipe = {"Makefile": "$(shell mkfifo pipe)\n" + text}
        self.assertEqual([["b"], ["a"]], self.began(with_pipe, ["make", "-j9"], lambda name: "ab".index(name)))

    def test_build_that_hangs(self) -> None:
        top = Path(tempfile.mkdtemp(prefix="race-gate-"))
        self.addCleanup(shutil.rmtree, top)
        gate = Gate(top, {})
        with gate.listen() as listener:
            process = subprocess.Popen(["sleep", "60"], start_new_session=True)
            self.assertFalse(gate.serve(process.pid, listener, lambda: 0.5))
            end(process.pid)
            self.assertEqual(-9, process.wait())


class Overlaps(unittest.TestCase):
    """Recipes that meet at a folder."""

    def test_second_that_waits_for_the_first(self) -> None:
        one, other, third = ((("/p", name, 1),) for name in "abc")
        gate = Overlap(Path("nowhere"), {}, meets=[Meet(one, other, "/p/d", False)])
        self.assertEqual([True, False, True], [*map(gate.may_begin, (one, other, third))])
        gate.held[7] = one, -1, 1
        self.assertEqual([True, True, False], [*map(gate.may_begin, (one, other, third))])
        gate.held.clear()
        gate.over.add(one)
        self.assertTrue(gate.may_begin(other))

    def test_what_runs_beside(self) -> None:
        """Before two meet, what they need; beside them nothing, and all when both are over."""
        one, other, need, rest = ((("/p", name, 1),) for name in "abcd")
        gate = Overlap(Path("nowhere"), {need: 4, one: 3, other: 2, rest: 1}, at_once=4, meets=[Meet(one, other, "/p/d", False)])
        rows = {pid: Came(9, "", key, (0, pid)) for pid, key in ((1, need), (2, rest))}
        for running, over, beside in (({need}, set(), [1]), ({one}, set(), []), (set(), {one}, [1]), (set(), {one, other}, [1, 2])):
            gate.running, gate.over = running, over
            self.assertEqual(beside, gate.beside(rows, [1, 2]))


class Places(Dict[Key, float]):
    """The places of recipes by the names of their targets."""

    def __init__(self, place: Callable[[str], float]) -> None:
        super().__init__()
        self.place = place

    def get(self, key: Key, default: float = 0.0) -> float:  # type: ignore[override]
        """The place of one."""
        try:
            return self.place(key[-1][1])
        except ValueError:
            return default


if __name__ == "__main__":
    unittest.main()
