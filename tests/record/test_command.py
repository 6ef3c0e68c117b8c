"""The tests record in children of their own process (forked.py): what such a child leaves is what the command `race-record` leaves."""

import os
import re
import shutil
import subprocess
import sys
import tempfile
import unittest
from pathlib import Path
from typing import Dict, List, Tuple

import forked
import support

RACE = "all: a b\na: ; echo a > a\nb: ; cp a b\n"
SAFE = "all: a b\na: ; echo a > a; echo said; echo aside >&2\nb: a ; cp a b\n"
# A makefile, and the words of race-record behind `--race PROGRAM`.
RUNS: Dict[str, Tuple[str, List[str]]] = {
    "safe": (SAFE, ["--", "make", "-s"]),
    "race": (RACE, ["--", "make"]),
    "no verdict": ("all: ; false\n", ["--", "make"]),
    "missing inputs": ("x: ; cat Makefile > x\n", ["--missing", "--", "make"]),
    "no such command": (RACE, ["--", "no-such-command"]),
    "no command": (RACE, []),
    "usage": (RACE, ["--no-such-option", "--", "make"]),
    "help": (RACE, ["--help"]),
}


def left(outcome: support.Outcome, folder: Path) -> Tuple[object, ...]:
    """All of an outcome that is the same each time. How many names outside of the project count depends on what make looks at before, and
    what behind, the begin of a job."""
    record = re.sub(r'"seconds": [\d.]+|"count": \d+', "", str(outcome.record).replace(str(folder), ".").replace("'", '"'))
    stdout = re.sub(rb"\(\d+, such as", b"(such as", outcome.stdout.replace(os.fsencode(folder), b"."))
    return outcome.status, stdout, outcome.stderr, record, len(outcome.builds)


class Command(unittest.TestCase):
    """Both ways to record, one after the other, in a project each."""

    def test_same_as_a_child(self) -> None:
        for name, (makefile, args) in RUNS.items():
            with self.subTest(name):
                outcomes = []
                for env in (None, dict(os.environ)):
                    with support.Project({"Makefile": makefile}) as project:
                        outcomes.append(left(project.run(["--race", support.race_program(), *args], env), project.folder))
                self.assertEqual(*outcomes)

    def test_statuses(self) -> None:
        wanted = {"safe": 0, "race": 1, "no verdict": 2, "usage": 3}
        for name, status in wanted.items():
            with self.subTest(name), support.Project({"Makefile": RUNS[name][0]}) as project:
                self.assertEqual(status, project.run(["--race", support.race_program(), *RUNS[name][1]], dict(os.environ)).status)


AS_NOBODY = ["setpriv", "--reuid=65534", "--regid=65534", "--clear-groups"]


def python_of_nobody() -> str:
    """Where this is root: a Python with which another user may run the recorder where it stands."""
    if os.geteuid() == 0 and shutil.which("setpriv"):
        for python in (sys.executable, "/usr/bin/python3"):
            words = [*AS_NOBODY, "sh", "-c", '"$@"; exit', "sh", python, os.fspath(support.RECORDER), "--help"]
            if subprocess.run(words, capture_output=True, check=False).returncode == 0:
                return python
    return ""


class Users(unittest.TestCase):
    """Builds of another user."""

    def test_recorder_as_another_user(self) -> None:
        python = python_of_nobody()
        if not python:
            return  # this is not root, or another user may not run the recorder where it stands
        with support.Project({"Makefile": RACE}) as project:
            for folder in (project.folder.parent, project.folder):
                folder.chmod(0o777)
            words = [*AS_NOBODY, python, os.fspath(support.RECORDER), "--race", support.race_program(), "--", "make"]
            self.assertEqual(1, subprocess.run(words, cwd=project.folder, capture_output=True, check=False).returncode)
            self.assertEqual(65534, os.stat(project.folder / ".race" / "record.json").st_uid)


class Load(unittest.TestCase):
    """`-l N`, a bound on the load, is no number of jobs."""

    FILES = {"Makefile": "all: a b\na: ; @test -e b || sleep 0.2; echo a > a\nb: ; @cat a > b; $(MAKE) -s -l 1 -f in.mk\n", "in.mk": "all: ; touch c\n"}

    def test_build_is_serial_and_the_verdict_the_same(self) -> None:
        for words, flags in ((["make", "-l", "2"], ""), (["make", "-j4", "-l0.01"], ""), (["make", "--load-average=2", "-kj", "3"], ""), (["make"], "-l2 -j3")):
            with self.subTest(words=words, flags=flags), support.Project(self.FILES) as project:
                outcome = project.run(["--race", support.race_program(), "--", *words], dict(os.environ, MAKEFLAGS=flags))
                self.assertEqual((1, ["a"]), (outcome.status, support.races_of(outcome.text())), outcome.text())
                self.assertEqual("a\n", (project.folder / "b").read_text())


class Children(unittest.TestCase):
    """What a child has of a command: folder, words, streams, status, and an end."""

    def ran(self, text: str, *args: str, seconds: float = 60) -> "forked.Ran[bytes]":
        """What is left by a script of these lines."""
        with tempfile.TemporaryDirectory() as room:
            path = Path(room, "script")
            path.write_text(text)
            return forked.run(forked.script(path, args), Path(room), seconds)

    def test_words_folder_and_streams(self) -> None:
        ran = self.ran("import os, sys\nprint(os.path.basename(sys.argv[0]), sys.argv[1:], os.listdir(), __name__)\n"
                       "print('aside', file=sys.stderr)\nprint(repr(sys.stdin.read()))\nsys.exit(7)\n", "a", "b c")
        self.assertEqual((7, "script ['a', 'b c'] ['script'] __main__\n''\n", "aside\n"), (ran.returncode, ran.stdout.decode(), ran.stderr.decode()))

    def test_status(self) -> None:
        self.assertEqual(0, self.ran("pass\n").returncode)
        self.assertEqual(0, self.ran("import sys\nsys.exit()\n").returncode)
        self.assertEqual(-15, self.ran("import os\nos.kill(os.getpid(), 15)\n").returncode)
        failed = self.ran("raise IndexError('no such thing')\n")
        self.assertEqual((1, "IndexError: no such thing"), (failed.returncode, failed.stderr.decode().splitlines()[-1]))

    def test_no_open_files_of_the_parent(self) -> None:
        with open(os.devnull, encoding="utf-8") as file:
            ran = self.ran("import os, sys\ntry:\n    os.fstat(%d)\nexcept OSError:\n    sys.exit(5)\n" % file.fileno())
        self.assertEqual(5, ran.returncode)

    def test_too_slow(self) -> None:
        with self.assertRaises(subprocess.TimeoutExpired):
            self.ran("import time\ntime.sleep(60)\n", seconds=0.2)

    def test_parent_goes_on(self) -> None:
        before = os.getcwd(), sys.argv[:], sys.stdout, sys.stderr
        self.ran("import os\nos.chdir('/')\n", "a")
        self.assertEqual(before, (os.getcwd(), sys.argv, sys.stdout, sys.stderr))
