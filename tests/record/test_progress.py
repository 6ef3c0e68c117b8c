"""What standard error shows while a build is recorded, and while a long trace is read; and that a build stands still, as where two recipes wait for each other."""

import errno
import io
import unittest
from contextlib import contextmanager
from itertools import count
from types import SimpleNamespace
from typing import Iterator, List
from unittest import mock

import support
from record import progress
from record.progress import CHANGE, PATIENCE, Progress, watched

LOOK = b'7 newfstatat(AT_FDCWD</w>, "flag", 0x7ffd, 0) = -1 ENOENT (No such file or directory)\n'
SLEEP = b'8 execve("/usr/bin/sleep", ["sleep", "1"], 0x1 /* 9 vars */) = 0\n'
NOWHERE = b'7 openat(AT_FDCWD</w>, "/dev/null", O_WRONLY|O_CREAT|O_TRUNC, 0666) = 3</dev/null>\n'
TAKEN = b'7 mkdir("lock", 0777) = -1 EEXIST (File exists)\n'
WRITES = b'7 openat(AT_FDCWD</w>, "a", O_WRONLY|O_CREAT|O_TRUNC, 0666) = 3</w/a>\n'
MOVES = b'7 rename("a", "b") = 0\n'
# a waits for b, which comes second; it does not wait for ever.
WAITS = "all: a b\na: ; for n in 1 2 3 4 5 6 7 8 9; do test -f b && break; sleep 1; done; touch a\nb: ; touch b\n"


class Terminal(io.StringIO):
    """A text that says it is a terminal."""

    def isatty(self) -> bool:
        return True


class Full(io.StringIO):
    """A device that is full."""

    def flush(self) -> None:
        raise OSError(errno.ENOSPC, "No space left on device")


@contextmanager
def shown(out: io.StringIO, step: float = 1.0) -> Iterator[None]:
    """Standard error goes to a text, by a clock that is so much on at each look."""
    seconds = count()
    with mock.patch("sys.stderr", out), mock.patch.object(progress, "time", SimpleNamespace(monotonic=lambda: step * next(seconds))):
        yield


class Shown(unittest.TestCase):
    """A trace of lines of ten bytes."""

    def read(self, lines: int, out: io.StringIO) -> str:
        """What was shown; the lines come out as they are."""
        text = ["123456789\n"] * lines
        with shown(out):
            self.assertEqual(text, list(watched(text, 10 * lines)))
        return out.getvalue()

    def test_share_and_nothing_at_the_end(self) -> None:
        said = self.read(400, Terminal())
        self.assertIn("\rrace-record: reads the trace: 49 %\rrace-record: reads the trace: 50 %\r", said)
        self.assertTrue(said.endswith("\r\x1b[K"), repr(said))

    def test_no_lines(self) -> None:
        self.assertEqual("", self.read(0, Terminal()))

    def test_nothing_where_no_terminal_is(self) -> None:
        self.assertEqual("", self.read(400, io.StringIO()))


class Building(unittest.TestCase):
    """A build that is looked at each second; one process ends each time."""

    def look(self, seconds: int, out: io.StringIO, expected: float = 0.0) -> str:
        with shown(out):
            found = Progress(expected, 0)
            for _ in range(seconds):
                found.see(b"7 +++ exited with 0 +++\n")
            found.end()
        return out.getvalue()

    def test_a_line_a_minute(self) -> None:
        self.assertEqual("", self.look(59, io.StringIO()))
        self.assertEqual("race-record: 1:00, 60 processes done\nrace-record: 2:00, 120 processes done\n", self.look(130, io.StringIO()))

    def test_what_is_left(self) -> None:
        self.assertEqual("race-record: 1:00, 60 processes done, about 0:30 left\nrace-record: 2:00, 120 processes done, longer than the last time\n", self.look(120, io.StringIO(), 90.5))

    def test_one_line_on_a_terminal(self) -> None:
        shown = self.look(5, Terminal())
        self.assertEqual("race-record: 0:02, 2 processes done\x1b[K\rrace-record: 0:04, 4 processes done\x1b[K\r\r\x1b[K", shown)
        self.assertEqual("", self.look(1, Terminal()))


class Lines(unittest.TestCase):
    """What strace writes, by a clock of which a minute passes at each look."""

    def said(self, parts: List[bytes]) -> str:
        """What is printed of that."""
        out = io.StringIO()
        with shown(out, 60.0):
            watch = Progress(0.0, 0)
            for part in parts:
                watch.see(part)
        return "".join(line for line in out.getvalue().splitlines(True) if "processes done" not in line)

    def test_nothing_changes(self) -> None:
        for part in (b"", LOOK, SLEEP + LOOK, NOWHERE, TAKEN):
            self.assertEqual("", self.said([part] * 9), part)
            said = self.said([part] * 30)
            self.assertEqual(1, said.count("\n"), said)
            self.assertIn("no file was made or changed for 10 minutes", said)

    def test_something_changes(self) -> None:
        for part in (WRITES, MOVES, SLEEP + WRITES + LOOK):
            self.assertEqual("", self.said([part] * 30), part)
            self.assertEqual("", self.said(([b""] * 9 + [part]) * 5), part)
            self.assertEqual(1, self.said([part] * 10 + [LOOK] * 30).count("\n"), part)

    def test_calls_that_change(self) -> None:
        for line, wanted in ((WRITES, True), (MOVES, True), (b'7 unlinkat(5</w>, "a", 0) = 0\n', True), (b'7 mkdir("d", 0777) = 0\n', True), (LOOK, False), (SLEEP, False), (NOWHERE, False), (TAKEN, False),
                             (b'7 openat(AT_FDCWD</w>, "a", O_RDONLY|O_CLOEXEC) = 3</w/a>\n', False), (b'7 readlink("/w/a", 0x7f, 1023) = 0\n', False)):
            self.assertEqual(wanted, CHANGE.search(line) is not None, line)

    def test_nobody_reads_it(self) -> None:
        closed = io.StringIO()
        closed.close()
        for out in (closed, Full()):
            with mock.patch("sys.stderr", out), mock.patch.object(closed, "isatty", lambda: False, create=True):
                watch = Progress(0.0, 0)
                watch.due, watch.changed, stops = watch.began, watch.began - PATIENCE, False
                try:
                    watch.see(b"")
                except (OSError, ValueError):
                    stops = True
            self.assertEqual((False, True), (stops, watch.is_still))

    def test_minutes(self) -> None:
        self.assertEqual(600, PATIENCE)


class Recorded(unittest.TestCase):
    """A recipe that waits for another one."""

    def test_numbers_of_processes_begin_again(self) -> None:
        there = {30000: ("make", 1), 31000: ("sh", 30000), 200: ("make", 31000), 201: ("cc", 200)}  # in the order in which they began
        with mock.patch.multiple(progress, traced=lambda _: [200, 201, 30000, 31000], born=[*there].index, parent_of=lambda pid: there[pid][1],
                                 shown=lambda pid, name: there[pid][0] + {"comm": "\n", "cmdline": "\0x\0"}[name]):
            self.assertEqual("cc x", progress.running(1))

    def test_a_recipe_that_waits(self) -> None:
        files = {"Makefile": "all: ; @$(MAKE) --no-print-directory -f in.mk\n", "in.mk": WAITS}
        with support.Project(files) as project, mock.patch.object(progress, "PATIENCE", 5.0):  # (a busy machine may take seconds to begin)
            outcome = project.record(["make"])
            plain = project.plain(["make", "-B"])
        said = outcome.stderr.decode()
        self.assertEqual(1, said.count("race-record: no file was made or changed"), said)
        self.assertIn("this runs: /bin/sh -c for n in 1 2 3", said)
        self.assertNotIn("no file was made", outcome.text())
        self.assertTrue(outcome.stdout.startswith(plain.stdout), outcome.text())
        self.assertEqual(1, outcome.status, outcome.text())
