"""Processes that are held at their end, in builds under strace."""

import os
import shutil
import signal
import socket
import subprocess
import sys
import tempfile
import unittest
from pathlib import Path
from threading import Timer
from typing import Dict, List
from unittest import mock

import support  # noqa: F401  (where the recorder is)

from record.orders import holding
from record.orders.holding import WAITED, Ends, Held
from record.orders.processes import STILL, Stalled, children_of, pulse, words_of

POLLS = "exec python3 -c 'import os, select; out, into = os.pipe(); os.fork() or os._exit(0); os.close(into); select.select([out], [], [], 4)'"  # at most so long
TRACED = ["strace", "-f", "-q", "--seccomp-bpf", "-e", "trace=execve,wait4"]


class Holding(unittest.TestCase):
    """What ends when, where the first child of a shell is held."""

    def ran(self, script: str, *words: str) -> List[str]:
        """Runs a script; the programs that ended, in this order, and `first` where the shell has waited for the first one."""
        room = Path(tempfile.mkdtemp(prefix="race-ends-"))
        self.addCleanup(shutil.rmtree, room)
        held = Ends(room, {}, ends=frozenset({(0,)}))
        with held.listen() as listener:
            root = os.fork()
            if root == 0:
                try:
                    held.enter()
                    os.execvp(TRACED[0], [*TRACED, "-o", str(room / "trace"), *(words or ("sh", "-c", script))])
                finally:
                    os._exit(9)
            self.assertTrue(held.serve(root, listener, lambda: 20.0))
        self.assertEqual(0, os.waitpid(root, 0)[1])
        self.is_waited = (room / WAITED).exists()
        return self.order((room / "trace").read_text().split("\n"))

    def order(self, lines: List[str]) -> List[str]:
        """The same of the lines of strace."""
        rows = [line.split(None, 1) for line in lines if line]
        shell, first = rows[0][0], min((pid for pid, _ in rows if pid != rows[0][0]), key=int)
        names: Dict[str, str] = {}
        found = []
        for pid, text in rows:
            if "execve(" in text:
                names[pid] = text.split('"')[1].rpartition("/")[2]
            elif text.startswith("+++"):
                found.append(names.get(pid, "shell"))
            elif pid == shell and text.endswith("= " + first):
                found.append("first")
        return found

    def test_child_for_which_its_parent_waits(self) -> None:
        self.assertEqual(["sleep", "true", "first", "expr", "sh"], self.ran("/bin/true & sleep .1; wait; expr 1 > /dev/null; exit 0"))

    def test_child_for_which_its_parent_waits_at_once(self) -> None:
        self.assertEqual(["cat", "true", "first", "expr", "sh"], self.ran("/bin/true & cat /dev/null & wait; expr 1 > /dev/null; exit 0"))

    def test_child_for_which_nobody_waits(self) -> None:
        """It ends when its parent has."""
        self.assertEqual({"sh", "true"}, {*(found := self.ran("/bin/true & sleep .1; expr 1 > /dev/null; exit 0"))[2:]})
        self.assertEqual(["sleep", "expr"], found[:2])

    def test_child_without_which_nothing_goes_on(self) -> None:
        for script, is_waited in (("/bin/true & wait; exit 0", True), ("x=$(cat /dev/null); exit 0", True), ("/bin/true & sleep .1; exit 0", False), (POLLS, False)):
            with self.subTest(script):
                self.ran(script)
                self.assertEqual(is_waited, self.is_waited)

    def test_child_whose_output_is_read_to_its_end(self) -> None:
        self.assertEqual(["cat", "sh"], [one for one in self.ran("x=$(cat /dev/null); exit 0") if one != "first"])
        self.assertEqual(["cat", "cat", "sh"], [one for one in self.ran("cat /dev/null | cat; exit 0") if one != "first"])

    def test_child_at_which_somebody_looks_again_and_again(self) -> None:
        with mock.patch.object(holding, "LONG", 0.5):
            self.assertEqual("true", [one for one in self.ran("/bin/true & while kill -0 $!; do sleep .1; done 2> /dev/null; exit 0") if one != "sleep"][0])

    def test_child_while_a_message_is_to_come(self) -> None:
        """It comes from a process outside of the build."""
        with tempfile.TemporaryDirectory() as room:
            os.mkfifo(room + "/f")
            with open(room + "/f", "r+b", 0) as message:
                Timer(0.25, message.write, [b"x\n"]).start()
                self.assertEqual(["head", "true", "first", "sh"], self.ran("/bin/true & head -n1 %s/f > /dev/null; wait; exit 0" % room))

    def test_child_that_is_killed(self) -> None:
        self.assertIn("expr", self.ran("/bin/true & sleep .1; kill -9 $!; wait; expr 1 > /dev/null; exit 0"))

    def test_program_that_forbids_itself_calls(self) -> None:
        """Nothing of the recorder is at work in it."""
        if shutil.which("file"):
            with tempfile.TemporaryDirectory() as room:
                Path(room, "magic").write_text("0 string x x file\n")
                self.assertEqual(["sleep", "file", "first", "sh"], self.ran("cd %s; file -C -m magic & sleep .1; wait; exit 0" % room))
                self.assertTrue(Path(room, "magic.mgc").exists())

    def test_threads(self) -> None:
        """The end of one is no end of its process."""
        text = "import threading as t; a = [t.Thread(target=len, args=('',)) for _ in range(3)]; [x.start() for x in a]; [x.join() for x in a]"
        self.assertEqual(["shell"] * 3, self.ran("", sys.executable, "-c", text)[:-1])


class Looking(unittest.TestCase):
    """When one that is held may end."""

    def test_build_in_which_nothing_ends(self) -> None:
        held = Ends(Path(), {})
        with held.listen() as listener:
            root = os.fork()
            if root == 0:
                try:
                    held.enter()
                    os.execvp("sleep", ["sleep", "60"])
                finally:
                    os._exit(9)
            self.assertFalse(held.serve(root, listener, lambda: 0.2))
        os.kill(root, signal.SIGKILL)
        os.waitpid(root, 0)

    def test_child_of_which_its_parent_is_to_hear(self) -> None:
        """It has ended, beside one that is held."""
        for first, states, still in (("", "S", 0.0), ("os.fork() or os._exit(0); ", "SZ", STILL)):
            text = "import os; %sheld = os.fork() or os.execvp('sleep', ['sleep', '9']); os.waitpid(held, 0)" % first
            with self.subTest(states), subprocess.Popen([sys.executable, "-c", text]) as parent:
                while sorted(words_of(one)[0] for one in children_of(parent.pid)) != [*states] or words_of(parent.pid)[0] != "S":
                    holding.time.sleep(0.01)
                held = {one for one in children_of(parent.pid) if words_of(one)[0] == "S"}
                self.assertEqual(still, (pulse(parent.pid, (), held) or (None,))[0])
                os.kill(held.pop(), signal.SIGKILL)

    def test_end_of_which_nobody_has_heard(self) -> None:
        """Its parent is to end, and the kernel has reported that since."""
        held = Ends(Path(), {})
        parent = subprocess.Popen(["sleep", "9"])
        here, there = socket.socketpair()
        with here, there, mock.patch.object(Stalled, "is_so", return_value=True), mock.patch.object(Ends, "let_end") as let_end:
            held.held[parent.pid] = Held(1, os.getpid(), holding.time.monotonic())
            there.send(b"x")
            held.reports = here.fileno()
            held.turn(os.getpid())
            self.assertFalse(let_end.called)
            here.recv(1)
            with tempfile.TemporaryDirectory() as room:
                held.top = Path(room)
                held.turn(os.getpid())
                held.held[os.getpid()] = Held(2, os.getppid(), holding.time.monotonic())
                held.turn(os.getpid())
                self.assertEqual("%d\n" % parent.pid, Path(room, WAITED).read_text())  # of two nobody knows which it is
            self.assertTrue(let_end.called)
        parent.kill()
        parent.wait()


if __name__ == "__main__":
    unittest.main()
