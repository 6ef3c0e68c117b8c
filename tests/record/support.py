"""What the tests of the recorder share: the tools that they need, a project in a folder of its own, a recorded build."""

import contextlib
import gc
import io
import json
import os
import re
import shutil
import subprocess
import sys
import tempfile
import unittest
from dataclasses import dataclass
from functools import lru_cache
from pathlib import Path
from typing import Any, Callable, Dict, Iterable, List, Mapping, Optional, Sequence, Tuple, Type

import forked
from kept import CURRENT

HERE = Path(__file__).resolve().parent
TOP = HERE.parent.parent
RECORDER = TOP / "record" / "race-record"
STAND_IN = HERE / "race_tasks.py"
SECONDS = 600  # (a machine may be busy with proofs)

sys.path.insert(0, str(TOP))

import record.importing  # noqa: E402,F401  (once, for all recordings of this process)
import record.main  # noqa: E402,F401
from record.make.words import numbers_of  # noqa: E402
from record.trace.sifting import skipping  # noqa: E402

# What is found here is kept for all children.
skipping([])
gc.freeze()  # a child need not go over what was loaded


def warm() -> None:
    """Records once in this process itself, so that its children find the modules, patterns and texts that each recording asks for."""
    import pkgutil  # noqa: F401  (`runpy` asks for it)

    here = os.getcwd()
    with Project({"Makefile": "all: a b\na: ; @echo > a\nb: ; @cat a > b\n"}) as project, contextlib.redirect_stdout(io.StringIO()):
        os.chdir(project.folder)
        try:
            record.main.main(["--once", "--race", race_program(), "--", "make", "-s"])
        finally:
            os.chdir(here)
    gc.freeze()


def make_version() -> Tuple[int, ...]:
    """The version of the make that is here."""
    return numbers_of(record.main.versions()["make"])


def major(compiler: str) -> int:
    """The first number of a compiler's version; 0 where there is none."""
    ran = subprocess.run([compiler, "-dumpversion"], capture_output=True, text=True, check=False) if shutil.which(compiler) else None
    return int(ran.stdout.split(".")[0]) if ran and ran.stdout[:1].isdigit() else 0


def race_program() -> str:
    """What answers over tasks: `$RACE`, or the model that stands in for it."""
    return os.environ.get("RACE") or str(STAND_IN)


@dataclass
class Outcome:
    """What a run of `race-record` left: its status, its streams, and the record."""

    status: int
    stdout: bytes
    stderr: bytes
    record: Optional[Dict[str, Any]]
    builds: List[Dict[str, Any]]

    def text(self) -> str:
        """Standard output."""
        return self.stdout.decode("utf-8", "replace")


class Project:
    """A folder with files, gone again at the end of the `with`."""

    def __init__(self, files: Optional[Mapping[str, str]] = None, below: Optional[str] = None) -> None:
        self.place = CURRENT.place()
        self.room = self.place.room_of("race-test-", below) if self.place else tempfile.TemporaryDirectory(prefix="race-test-", dir=below)
        self.folder = Path(self.room.name) / "project"
        self.folder.mkdir()
        for name, text in (files or {}).items():
            path = self.folder / name
            path.parent.mkdir(parents=True, exist_ok=True)
            path.write_text(text)

    def __enter__(self) -> "Project":
        return self

    def __exit__(self, *_: object) -> None:
        self.room.cleanup()

    def copy(self, tree: Path) -> None:
        """Puts a tree in the place of the folder."""
        shutil.rmtree(self.folder)
        shutil.copytree(tree, self.folder, symlinks=True)

    def sh(self, text: str) -> None:
        """Runs lines of the shell in the folder; the first that fails is an error."""
        subprocess.run(["sh", "-e", "-c", text], cwd=self.folder, check=True, stdin=subprocess.DEVNULL, timeout=SECONDS)

    def plain(self, words: Sequence[str]) -> "subprocess.CompletedProcess[bytes]":
        """Runs a command that is not recorded."""
        return subprocess.run(list(words), cwd=self.folder, capture_output=True, stdin=subprocess.DEVNULL, timeout=SECONDS, check=False)

    def record(self, words: Sequence[str] = ("make",), options: Sequence[str] = (), once: bool = True) -> Outcome:
        """Runs `race-record` over a command, in one build or with other orders, and reads what it left."""
        return self.run(["--race", race_program(), *options, "--", *words], once=once)

    def run(self, args: Sequence[str], env: Optional[Dict[str, str]] = None, once: bool = True) -> Outcome:
        """Runs `race-record` with these words: in a child of the tests or, with an environment, as the command that it is. `once`: a build that it
        records is not built in other orders."""
        args = [*(["--once"] if once and "--" in args else []), *args]
        if env is None:
            work = forked.script(RECORDER, args)
            ran = forked.run(self.place.watched(work, args) if self.place else work, self.folder, SECONDS)
            if self.place:
                self.place.end(ran.stdout, ran.stderr)
        else:
            ran = subprocess.run([str(RECORDER), *args], cwd=self.folder, capture_output=True, stdin=subprocess.DEVNULL, timeout=SECONDS, check=False, env=env)
        record, builds = self.left()
        return Outcome(ran.returncode, ran.stdout, ran.stderr, record, builds)

    def left(self) -> "tuple[Optional[Dict[str, Any]], List[Dict[str, Any]]]":
        """The record in the folder, if there is one."""
        path = self.folder / ".race"
        if not (path / "record.json").is_file():
            return None, []
        record = json.loads((path / "record.json").read_text())
        return record, [json.loads((path / "builds" / n / "build.json").read_text()) for n in record["builds"]]


def add_tests(case: Type[unittest.TestCase], tables: Mapping[str, Iterable[str]]) -> None:
    """Gives a class a test for each name of a table: `test_WAY_NAME`, which calls the method WAY with the name."""
    for way, names in tables.items():
        for name in names:
            if hasattr(case, named(way, name)):
                raise ValueError("two tests %s" % named(way, name))
            setattr(case, named(way, name), test_of(way, name))


def named(way: str, name: str) -> str:
    """The name of a test that `add_tests` adds."""
    return "test_%s_%s" % (way, re.sub(r"\W+", "_", name))


def test_of(way: str, name: str) -> Callable[[unittest.TestCase], None]:
    """The test that calls the method WAY of its class with a name."""

    def test(self: unittest.TestCase) -> None:
        getattr(self, way)(name)

    return test


def tasks_of(folder: Path, number: str = "001") -> Dict[str, Dict[str, Any]]:
    """The tasks of one build of a record, by label."""
    lines = (folder / ".race" / "builds" / number / "tasks").read_text().splitlines()
    return {one["task"]: one for one in map(json.loads, lines)}


def races_of(text: str) -> List[str]:
    """The files on which a report shows a race."""
    return re.findall(r"(?m)^RACE  (.+?)(?:  \(.*)?$", text)


@lru_cache(maxsize=None)
def is_new_ninja() -> bool:
    """Whether the ninja that is here is 1.11 or later: it has validations (`|@`), and the tool `missingdeps`."""
    return "missingdeps" in subprocess.run(["ninja", "-t", "list"], capture_output=True, text=True, check=False, timeout=60).stdout


def missing(folder: Path) -> List[str]:
    """The files of which `ninja -t missingdeps` says that a statement reads them, and waits for nobody who makes them; without those of phony statements."""
    output = subprocess.run(["ninja", "-C", str(folder), "-t", "missingdeps"], capture_output=True, text=True, check=False, timeout=60).stdout
    found = re.findall(r"Missing dep: .* uses (\S+) \(generated by (?!phony\))", output)
    return [os.path.relpath(os.path.join(folder, path), folder) for path in found]
