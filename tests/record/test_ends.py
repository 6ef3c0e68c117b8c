"""How race-record ends where it cannot go on: in a sentence, with status 3, and nothing of the user's is lost."""

import contextlib
import errno
import os
import re
import shutil
import signal
import subprocess
import tempfile
import threading
import time
import unittest
from concurrent.futures import ThreadPoolExecutor
from pathlib import Path
from typing import Optional, Sequence
from unittest import mock

import forked
import support
from record import folder as places
from record.entry import STOPPING, end_traced, have_ended
from record.folder import Missing, alone as alone_at, aside, come_back, move
from record.messages import printable, reason
from record.orders.processes import children_of, families, shown, words_of
from record.trace.pipe import Pipe
from record.watch.lay import Watch

SLOW = {"Makefile": "all: ; @echo $$PPID $$$$ > pids; sed -n 's/.* //; /watch.so/{p;q}' /proc/$$PPID/maps > path; : > begun; exec sleep 100\n"}  # a shell that waits for a child may go on behind an interrupt
SAFE = {"Makefile": "all: ; @touch all\n"}


def alone() -> None:
    """A session of its own, in which signals do what they usually do."""
    os.setsid()
    for number in STOPPING:
        signal.signal(number, signal.SIG_DFL)


def started(project: support.Project, options: Sequence[str] = (), words: Sequence[str] = ("make",)) -> "subprocess.Popen[bytes]":
    """A recording that has come to its recipe."""
    args = [str(support.RECORDER), "--race", support.race_program(), *options, "--", *words]
    process = subprocess.Popen(args, cwd=project.folder, stdin=subprocess.DEVNULL, stdout=subprocess.PIPE, stderr=subprocess.PIPE, preexec_fn=alone)
    begun = time.monotonic()
    while not any("begun" in files for _, _, files in os.walk(project.folder)) and time.monotonic() < begun + 60:  # folders go meanwhile
        time.sleep(0.05)
    return process


def is_alive(pid: str) -> bool:
    """Whether a process runs."""
    try:
        return Path("/proc", pid, "stat").read_text().rpartition(")")[2].split()[0] not in "ZX"
    except OSError:
        return False


class Signals(unittest.TestCase):
    """A signal while a build runs."""

    def test_strace_that_ended_before_the_build(self) -> None:
        """A signal to a whole group ends it, and may not reach what it follows."""
        with support.Project(SLOW) as project:
            process = started(project)
            process.send_signal(signal.SIGSTOP)
            os.kill(next(pid for pid in children_of(process.pid) if shown(pid, "comm") == "strace\n"), signal.SIGKILL)
            process.send_signal(signal.SIGTERM)
            process.send_signal(signal.SIGCONT)
            status = process.wait(60)
            left = [pid for pid in (project.folder / "pids").read_text().split() if is_alive(pid)]
            for pid in left:
                os.kill(int(pid), signal.SIGKILL)
            process.communicate(timeout=60)
        self.assertEqual((3, []), (status, left))

    def stopped(self, number: int, to_all: bool = False) -> None:
        with support.Project(SLOW) as project:
            (project.folder / ".race").mkdir()
            (project.folder / ".race" / "record.json").write_text("older\n")
            process = started(project)
            self.assertFalse((project.folder / ".race").exists())  # the build does not see it
            os.killpg(process.pid, number) if to_all else process.send_signal(number)
            self.assertEqual(3, process.wait(60))
            _, said = process.communicate(timeout=60)
            self.assertEqual("race-record: stopped by %s; there is no verdict" % signal.Signals(number).name, said.decode().splitlines()[-1])
            self.assertEqual("older\n", (project.folder / ".race" / "record.json").read_text())
            self.assertFalse([pid for pid in (project.folder / "pids").read_text().split() if is_alive(pid)])
            library = (project.folder / "path").read_text().strip()
            self.assertEqual(("watch.so", False), (os.path.basename(library), os.path.exists(os.path.dirname(library))))

    def test_what_does_not_hear_the_first_signal(self) -> None:
        """It is killed then, also where strace does not follow it any more."""
        with tempfile.TemporaryDirectory() as room, mock.patch("record.entry.PATIENCE", 0.2), subprocess.Popen(["true"]) as strace:
            strace.wait()
            watch = Watch(room)
            with subprocess.Popen(["sh", "-c", "trap '' TERM; echo; exec sleep 100"], env=watch.environment(dict(os.environ)), stdout=subprocess.PIPE, stderr=subprocess.DEVNULL) as left:
                assert left.stdout is not None
                left.stdout.readline()  # it ignores the signal now
                end_traced(strace, watch.left)
                time.sleep(0.1)
                status = left.poll()
                left.kill()
        self.assertEqual(-signal.SIGKILL, status)

    @unittest.skipUnless(os.geteuid() == 0, "needs root")
    def test_number_that_comes_again(self) -> None:
        """What begins when the build has ended may get mounts of the same number, and is none of its processes."""
        words = ["unshare", "--mount", "sh", "-c", "echo; exec sleep 100"]
        with tempfile.TemporaryDirectory() as room:
            watch = Watch(room)
            found = []
            for at in range(2):
                with subprocess.Popen(words, stdout=subprocess.PIPE) as process:
                    assert process.stdout is not None
                    process.stdout.readline()
                    if at == 0:
                        watch.note(process.pid)
                    found.append(process.pid in watch.left())
                    process.kill()
            watch.remove()
        self.assertEqual([True, False], found)

    def test_what_becomes_another_program(self) -> None:
        """It has no environment for a moment, by which it would be found."""
        for shown, looks in (((False, True, False, False), 4), ((False, False), 2)):
            left = mock.Mock(side_effect=[iter((1 << 30,) if is_there else ()) for is_there in shown])
            with subprocess.Popen(["true"]) as strace:
                strace.wait()
                self.assertEqual((True, looks), (have_ended(strace, left, signal.SIGTERM), left.call_count))

    def test_builds_beside_it(self) -> None:
        """They end with it, and nothing is left of them."""
        for number, to_all in ((signal.SIGTERM, False), (signal.SIGINT, True)):
            with support.Project(SLOW) as project:
                process = started(project)
                until = time.monotonic() + 60
                while [words_of(pid)[:1] for pid in dict(families(process.pid)) if shown(pid, "comm") == "sleep\n"] != [["S"]] * 3 and time.monotonic() < until:
                    time.sleep(0.05)
                pids = [pid for pid in dict(families(process.pid)) if pid != process.pid]
                rooms = {place for pid in pids for place in re.findall(r"(/\S*/race-orders-\w+)/(?:serial|flipped)/", shown(pid, "maps"))}
                os.killpg(process.pid, number) if to_all else process.send_signal(number)
                self.assertEqual(3, process.wait(60))
                process.communicate(timeout=60)
                self.assertEqual((1, [], []), (len(rooms), [pid for pid in pids if is_alive(str(pid))], [*filter(os.path.exists, rooms)]))

    def test_builds_that_are_left(self) -> None:
        """They end where nobody lives who could let their recipes begin: the gates stand still before any comes."""
        with support.Project({"Makefile": "X := $(shell : > begun; sleep 4)\nall: a b\na b: ; sleep 1; touch $@\n"}) as project:
            process, until = started(project), time.monotonic() + 60
            for name, count in (("make\n", 3), ("hold\n", 1)):
                while [shown(pid, "comm") for pid in dict(families(process.pid))].count(name) < count and time.monotonic() < until:
                    time.sleep(0.01)
                os.killpg(process.pid, signal.SIGSTOP)
            pids = [*map(str, dict(families(process.pid)))]
            os.killpg(process.pid, signal.SIGKILL)
            process.communicate(timeout=60)
            until = time.monotonic() + 15
            while any(map(is_alive, pids)) and time.monotonic() < until:
                time.sleep(0.05)
            left = [*filter(is_alive, pids)]
            for pid in left:
                with contextlib.suppress(ProcessLookupError):  # it ended with another one
                    os.kill(int(pid), signal.SIGKILL)
            self.assertEqual((True, []), (len(pids) > 3, left))

    def test_terminated(self) -> None:
        self.stopped(signal.SIGTERM)

    def test_hung_up(self) -> None:
        self.stopped(signal.SIGHUP)

    def test_quit(self) -> None:
        self.stopped(signal.SIGQUIT, True)
        self.stopped(signal.SIGQUIT)

    def test_signal_of_a_batch_system(self) -> None:
        self.stopped(signal.SIGXCPU, True)

    def test_signal_that_ends_no_make(self) -> None:
        self.stopped(signal.SIGUSR1, True)

    def test_interrupted_at_a_terminal(self) -> None:
        self.stopped(signal.SIGINT, True)

    def test_terminated_when_the_build_has_just_begun(self) -> None:
        def sift(*args: object) -> None:
            os.kill(os.getpid(), signal.SIGTERM)
            time.sleep(0.2)  # the signal is heard before the next thread begins

        with support.Project({"Makefile": "all: ; @sleep 1\n"}) as project, mock.patch("record.main.sift", sift), mock.patch.object(support, "SECONDS", 9):
            try:
                found = project.record()
            except subprocess.TimeoutExpired:
                self.fail("it waits for what never comes")
            self.assertEqual((3, "race-record: stopped by SIGTERM; there is no verdict"), (found.status, found.stderr.decode().splitlines()[-1]))  # (make may say so, too)

    def test_an_interrupt_that_the_build_does_not_mind(self) -> None:
        files = {"Makefile": "all: ; @trap '' INT; touch begun; sleep 1; touch all\n"}
        with support.Project(files) as project:
            process = started(project)
            process.send_signal(signal.SIGINT)  # to the recorder alone
            self.assertIn(b"SAFE", process.communicate(timeout=60)[0])
            self.assertEqual(0, process.returncode)

    @unittest.skipUnless(shutil.which("ninja"), "ninja is missing")
    def test_a_fresh_folder_comes_back(self) -> None:
        rule = "rule r\n  command = touch begun; sleep 100\nbuild out: r\nbuild all: phony out\n"
        with support.Project({"b/build.ninja": rule, "b/kept": "k"}) as project:
            process = started(project, ["--fresh"], ["ninja", "-C", "b"])
            process.send_signal(signal.SIGTERM)
            _, said = process.communicate(timeout=60)
            self.assertEqual(3, process.returncode, said)
            self.assertEqual(["b"], sorted(path.name for path in project.folder.iterdir()))
            self.assertEqual({"build.ninja", "kept"}, {path.name for path in (project.folder / "b").iterdir()})


class Places(unittest.TestCase):
    """Folders and records that cannot be used."""

    def ends(self, project: support.Project, says: str, args: Sequence[str]) -> None:
        ran = forked.run(forked.script(support.RECORDER, ["--race", support.race_program(), *args]), project.folder, support.SECONDS)
        said = ran.stderr.decode()
        self.assertEqual((3, 1), (ran.returncode, said.count("\n")), said)
        self.assertIn(says, said)
        self.assertNotIn("Traceback", said)

    def test_output_that_cannot_be_made(self) -> None:
        with support.Project({**SAFE, "file": "f"}) as project:
            self.ends(project, "file/record: Not a directory; there is no verdict", ("-o", "file/record", "--", "make"))
            self.ends(project, "no/such/record: No such file or directory; there is no verdict", ("-o", "no/such/record", "--", "make"))
            self.ends(project, "file is there and is no record", ("-o", "file", "--", "make"))
            self.assertFalse((project.folder / "all").exists())

    def test_temporary_folders_in_which_no_program_runs(self) -> None:
        """/tmp is often mounted so: the library comes from another one, which is no part of the project."""
        files = {"Makefile": "all: ; @sed -n 's:.* \\(.*\\)/race-watch-.*/watch.so:\\1:; T; p; q' /proc/$$PPID/maps > all\n"}
        with support.Project(files) as project, mock.patch("record.folder.runs_programs", lambda path: path != "/tmp"):
            with mock.patch.dict(os.environ, TMPDIR=os.fspath(project.folder)):
                self.assertEqual(0, project.record().status)
            self.assertEqual("/var/tmp\n", (project.folder / "all").read_text())
        with support.Project(SAFE) as project, mock.patch("record.folder.runs_programs", lambda path: False):
            self.ends(project, "no folder for temporary files lets programs run (/tmp, ", ("--", "make"))

    def test_records_that_cannot_be_judged_again(self) -> None:
        for text, says in (("", "is no whole record"), ("[]", "is no whole record"), ("{}", "is of another version"), ('{"version": "0"}', "is of another version"),
                           ('{"version": "1"}', "is no whole record"), ('{"version": "1", "warm": 3}', "is no whole record"), ("\0\xff", "is no whole record"),
                           ("{", "): record again, and report it if that comes again\n")):
            with support.Project(SAFE) as project:
                (project.folder / ".race").mkdir()
                (project.folder / ".race" / "record.json").write_text(text, encoding="latin-1")
                self.ends(project, says, ("--warm",))
                self.assertEqual(text, (project.folder / ".race" / "record.json").read_text(encoding="latin-1"))

    def test_record_without_its_builds(self) -> None:
        with support.Project(SAFE) as project:
            project.record()
            shutil.rmtree(project.folder / ".race" / "builds")
            self.ends(project, "build.json: No such file or directory; there is no verdict", ("--warm",))

    def test_output_that_nobody_can_write(self) -> None:
        with support.Project(SAFE) as project, open("/dev/full", "wb") as full:
            args = [str(support.RECORDER), "--race", support.race_program(), "--", "make"]
            ran = subprocess.run(args, cwd=project.folder, stdin=subprocess.DEVNULL, stdout=full, stderr=subprocess.PIPE, timeout=60, check=False)
        self.assertEqual((3, "race-record: No space left on device (make room there, and run it again); there is no verdict"), (ran.returncode, ran.stderr.decode().splitlines()[-1]))


class Pipes(unittest.TestCase):
    """The pipe from strace, which goes on where its own file cannot be written."""

    def filled(self, file: Optional[Path], writes: int) -> bytes:
        """What comes of so many lines; the writer is never held up."""
        with tempfile.TemporaryDirectory() as room:
            pipe = Pipe(Path(room))
            pipe.file = file or pipe.file
            writing, ended = os.open(pipe.path, os.O_WRONLY), threading.Event()
            with ThreadPoolExecutor(1) as pool:
                filling = pool.submit(pipe.fill, ended.wait)
                for _ in range(writes):
                    os.write(writing, b"1 line\n" * 100)
                os.close(writing)
                ended.set()
                filling.result()
            self.assertFalse(pipe.path.exists())
            return pipe.file.read_bytes()

    def test_all_lines(self) -> None:
        for writes in (0, 1, 5000):
            self.assertEqual(b"1 line\n" * 100 * writes, self.filled(None, writes))

    def test_a_full_disk(self) -> None:
        with self.assertRaisesRegex(OSError, "No space left on device: '/dev/full'"):
            self.filled(Path("/dev/full"), 5000)


class Moves(unittest.TestCase):
    """An older record."""

    def older(self, room: str) -> Path:
        """A record."""
        here = Path(room, "here")
        here.mkdir()
        (here / "f").write_text("f")
        return here

    def test_to_another_device(self) -> None:
        with tempfile.TemporaryDirectory() as room:
            here, there = self.older(room), Path(room, "there")
            real, calls = Path.rename, []

            def rename(path: Path, to: Path) -> Path:
                calls.append(path)
                if len(calls) in (1, 3, 4):
                    raise OSError(errno.EXDEV if len(calls) % 2 else errno.EROFS, "cannot be done", str(path))
                return real(path, to)

            with mock.patch.object(Path, "rename", rename):
                move(here, there)
                self.assertEqual((["there"], "f"), ([it.name for it in Path(room).iterdir()], (there / "f").read_text()))
                with self.assertRaisesRegex(OSError, "Errno %d" % errno.EROFS):  # what is there cannot be removed
                    move(there, here)
            self.assertEqual((["there"], "f"), ([it.name for it in Path(room).iterdir()], (there / "f").read_text()))

    def test_a_place_where_nothing_can_be_written(self) -> None:
        with tempfile.TemporaryDirectory() as room, mock.patch.object(places, "move", side_effect=OSError(errno.EROFS, "cannot be done", "here")):
            here = self.older(room)
            with self.assertRaisesRegex(OSError, "Errno %d" % errno.EROFS), aside(here):
                self.fail("nothing is to be built")
            self.assertEqual("f", (here / "f").read_text())

    def test_a_record_that_cannot_come_back(self) -> None:
        with tempfile.TemporaryDirectory() as room, mock.patch.object(places, "move", side_effect=OSError(errno.ENOSPC, "no room", "there")):
            here = self.older(room)
            with self.assertRaisesRegex(OSError, "the older record cannot come back to .*/there .*; it is in .*/here"):
                come_back(here, Path(room, "there"))
            self.assertEqual("f", (here / "f").read_text())

    def test_one_at_a_time(self) -> None:
        with tempfile.TemporaryDirectory() as room:
            with alone_at(Path(room, "one")), alone_at(Path(room, "two")):
                with self.assertRaises(Missing), alone_at(Path(room, "one")):
                    self.fail("the place is in use")
            with alone_at(Path(room, "one")):
                pass

    def test_a_move_that_fails(self) -> None:
        with tempfile.TemporaryDirectory() as room:
            here = Path(room, "here")
            here.mkdir()
            (here / "f").write_text("f")
            with self.assertRaises(OSError):
                move(here, Path(room, "here", "f", "such"))
            self.assertEqual("f", (here / "f").read_text())

    def test_what_stays(self) -> None:
        with tempfile.TemporaryDirectory() as room:
            folder = Path(room, "record")
            for text in ("one", "two"):
                with aside(folder):
                    self.assertFalse(folder.exists())
                    folder.mkdir()
                    (folder / "record.json").write_text(text)
            with self.assertRaises(ValueError), aside(folder):
                folder.mkdir()
                (folder / "record.json").write_text("three")
                raise ValueError
            self.assertEqual("two", (folder / "record.json").read_text())


class Together(unittest.TestCase):
    """Something else that builds in the same folder."""

    def test_a_recording(self) -> None:
        with support.Project(SLOW) as project:
            process = started(project)
            ran = forked.run(forked.script(support.RECORDER, ["--race", support.race_program(), "--", "make"]), project.folder, support.SECONDS)
            process.send_signal(signal.SIGTERM)
            process.communicate(timeout=60)
        self.assertEqual((3, True), (ran.returncode, b"another race-record makes the record" in ran.stderr), ran.stderr)

    def test_a_target_that_something_else_makes(self) -> None:
        makefile = "all: x c d\nx: ; touch begun; while ! test -e go; do sleep 0.05; done; touch x\nc: ; echo 1 > c\nd: ; cat c > d\n"
        with support.Project({"Makefile": makefile}) as project:
            process = started(project, ["--once"])
            (project.folder / "c").write_text("1\n")
            (project.folder / "go").touch()
            said = process.communicate(timeout=60)[0].decode()
        self.assertEqual(2, process.returncode, said)
        self.assertIn("/c was absent, and something else made it while the build ran", said)


class Words(unittest.TestCase):
    """What is printed."""

    def test_signs_that_a_terminal_obeys(self) -> None:
        self.assertEqual("a\\x1b[31mb\\x0d\\x9b\t\n\u00e4", printable("a\x1b[31mb\r\x9b\t\n\u00e4", True))
        self.assertEqual("\x1b[1;31mRACE\x1b[0m", printable("\x1b[1;31mRACE\x1b[0m", True))
        self.assertEqual("\\x1b[1;31mRACE\\x1b[0m", printable("\x1b[1;31mRACE\x1b[0m"))

    def test_files_that_cannot_be_copied(self) -> None:
        self.assertEqual("no room", reason(shutil.Error([("a", "b", "no room"), ("c", "d", "no room")])))
