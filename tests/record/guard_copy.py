"""A copy of the recorder and its tests, in which one guard after the other is turned off; the tests run in a child of the process that has the copy.

That process has loaded the copy as it is. In a child the edited functions get their other code (patched.py). Where that is not enough, it loads again what
is another one where the guard is off: the edited module, and those that import it, from what was compiled once for all copies.
"""

import importlib
import os
import re
import shutil
import sys
import tempfile
import unittest
from contextlib import contextmanager
from importlib.machinery import FileFinder, SourceFileLoader
from pathlib import Path
from types import CodeType
from typing import Callable, Dict, Iterable, Iterator, List, Optional, Set, Tuple

import forked
from guard import Guard
from kept import may_replay
from patched import Loaded, Patch, apply

HERE = Path(__file__).resolve().parent
TOP = HERE.parent.parent
SECONDS = 900
TRIES = 3
COMPILED: Dict[bytes, CodeType] = {}
IMPORT = re.compile(r"(?m)^ *(?:from ([\w.]+) import ([\w, ]*)|import ([\w., ]+))")


def compile_all() -> None:
    """Compiles the recorder and its tests as they are, and lets `re` keep the patterns of the recorder."""
    for path in [*(TOP / "record").rglob("*.py"), *HERE.glob("*.py")]:
        text = path.read_bytes()
        COMPILED[text] = compile(text, str(path), "exec", dont_inherit=True)
    import support  # (with all modules of the recorder)

    support.warm()


class Loader(SourceFileLoader):
    """Takes what is compiled already for the text of a module."""

    def source_to_code(self, data: bytes, path: str, *, _optimization: int = -1) -> CodeType:  # type: ignore[override]
        """The code of a text."""
        text = bytes(data)
        if text not in COMPILED:
            COMPILED[text] = super().source_to_code(data, path)
        return COMPILED[text]


def imported(text: str) -> Set[str]:
    """The names of modules that a text may import."""
    found: Set[str] = set()
    for package, names, modules in IMPORT.findall(text):
        found.update({package, *("%s.%s" % (package, name.split()[0]) for name in names.split(",") if name.strip())} if package else modules.replace(",", " ").split())
    return found


def name_of(path: Path) -> str:
    """The name of a module by its path below the folder that is searched."""
    return ".".join(path.with_suffix("").parts).replace(".__init__", "")


class Copy:
    """The recorder and its tests in a folder of their own. Another companion says which packages it needs, its own first, where its tests are,
    and which are loaded."""

    packages: Tuple[str, ...] = ("record",)
    source = HERE
    shared: Tuple[str, ...] = ("support",)  # modules of its tests, with all that they need

    def __init__(self) -> None:
        self.room = tempfile.TemporaryDirectory(prefix="race-guards-")
        self.top = Path(os.path.realpath(self.room.name))
        self.tests = self.top / self.source.relative_to(TOP)
        for package in self.packages:
            shutil.copytree(TOP / package, self.top / package, ignore=shutil.ignore_patterns("__pycache__"))
        self.tests.mkdir(parents=True)
        for path in [*self.source.glob("*.py"), self.source / "run"]:
            shutil.copy2(path, self.tests)
        (self.tests / "cases").symlink_to(HERE / "cases")
        (self.top / "examples").symlink_to(TOP / "examples")
        self.users = self.find_users()
        self.loaded = Loaded()
        self.kept: Optional[Path] = None  # where recordings of the recorder as it is are kept

    def __enter__(self) -> "Copy":
        return self

    def __exit__(self, *_: object) -> None:
        self.room.cleanup()

    def find_users(self) -> Dict[str, Set[str]]:
        """Which modules import a module."""
        texts = {name_of(path.relative_to(self.top)): path.read_text() for package in self.packages for path in (self.top / package).rglob("*.py")}
        texts.update((path.stem, path.read_text()) for path in self.tests.glob("*.py"))
        users: Dict[str, Set[str]] = {name: set() for name in texts}
        for name, text in texts.items():
            for one in imported(text) & users.keys():
                users[one].add(name)
        return users

    def load(self, tests: Iterable[str] = ()) -> None:
        """Takes the modules of the copy, as they are, in the place of those that this process has; also those of tests that children need."""
        sys.path[:] = [str(self.tests), str(self.top), *(path for path in sys.path if not path.startswith(str(TOP)))]
        sys.path_hooks.insert(0, self.finder)
        sys.dont_write_bytecode, os.environ["PYTHONDONTWRITEBYTECODE"] = True, "1"
        forget(self.users)
        with self.loaded.watching():
            for name in (*self.shared, *sorted({test.split(".")[0] for test in tests})):
                importlib.import_module(name)

    def finder(self, folder: str) -> FileFinder:
        """What finds the modules of this copy."""
        if not (folder + "/").startswith(str(self.top) + "/") or not os.path.isdir(folder):
            raise ImportError(folder)
        return FileFinder(folder, (Loader, [".py"]))

    @contextmanager
    def without(self, guard: Guard) -> Iterator[str]:
        """Turns a guard off meanwhile; what is wrong with its marker, or nothing."""
        source, path = (top / self.packages[0] / guard.module for top in (TOP, self.top))
        text = guard.off(source.read_text())
        path.write_text(text)
        try:
            yield "" if text else "one line of %s has to end in the marker" % guard.module
        finally:
            shutil.copy2(source, path)

    def uses(self, modules: Iterable[str]) -> Set[str]:
        """These modules, and all that import them, at once or by way of others."""
        found: Set[str] = set()
        todo = [*modules]
        while todo:
            one = todo.pop()
            todo += self.users.get(one, set()) - found
            found.add(one)
        return found

    def test(self, names: List[str], edited: Iterable[str] = ()) -> str:
        """What the tests of these names say, on the modules of the copy, of which these were edited."""
        modules = {name_of(Path(self.packages[0], module)): module for module in edited}
        patches = self.patches([*modules.values()])
        kept = self.kept if may_replay(modules.values()) else None
        work = tests_of(names, self.uses(modules) if patches is None else set(), patches or [], kept)
        ran = forked.run(work, self.tests, SECONDS)
        return (ran.stdout + ran.stderr).decode("utf-8", "replace")

    def patches(self, edited: List[str]) -> Optional[List[Patch]]:
        """The functions of edited modules that have another code now; None where that is not all."""
        found: List[Patch] = []
        for module in edited:
            path = self.top / self.packages[0] / module
            old = COMPILED.get((TOP / self.packages[0] / module).read_bytes())
            patches = None if old is None else self.loaded.patches(old, compile(path.read_bytes(), old.co_filename, "exec", dont_inherit=True))
            if patches is None:
                return None
            found += patches
        return found

    def stops(self, output: str) -> bool:
        """Whether tests show that the companion itself stops: one of its modules is in a traceback."""
        return any(str(top / self.packages[0]) + "/" in output for top in (self.top, TOP))


def forget(names: Iterable[str]) -> None:
    """Lets modules be loaded again."""
    for name in names:
        sys.modules.pop(name, None)
        package, _, last = name.rpartition(".")
        if package in sys.modules:
            vars(sys.modules[package]).pop(last, None)


class Result(unittest.TextTestResult):
    """The results of tests, which take the recordings that are kept in a folder."""

    kept: Optional[Path] = None

    def startTest(self, test: unittest.TestCase) -> None:
        """A test begins."""
        if self.kept is not None:
            importlib.import_module("kept").CURRENT.begin(test.id(), self.kept, False)
        super().startTest(test)


def tests_of(names: List[str], stale: Set[str], patches: List[Patch], kept: Optional[Path]) -> Callable[[], int]:
    """What a child does that runs these tests, where some modules were edited: either some are no longer those that were loaded, or functions have
    other codes."""

    def work() -> int:
        forget(stale)
        apply(patches)
        Result.kept = kept
        runner = unittest.TextTestRunner(sys.stderr, resultclass=Result)
        return 0 if runner.run(unittest.defaultTestLoader.loadTestsFromNames(names)).wasSuccessful() else 1

    return work


def fault_of(guard: Guard, copy: Copy) -> str:
    """What is wrong where a guard is off, or nothing where its test sees it. What shows only where two processes meet may take several tries."""
    with copy.without(guard) as fault:
        outputs = (copy.test([guard.test], [guard.module]) for _ in range(0 if fault else TRIES))
        return fault or next((fault_in(guard, copy, output) for output in outputs if re.search(r"(?m)^FAILED", output)), "no failure of %s" % guard.test)


def fault_in(guard: Guard, copy: Copy, output: str) -> str:
    """What is wrong with how a test fails where a guard is off, or nothing."""
    if copy.stops(output):
        return "the %s stops in place of a wrong answer:\n%s" % ("recorder" if type(copy) is Copy else "companion", output[-1500:])
    if not re.search(r"(?m)^FAILED \(failures=\d+\)$", output):
        return "%s ends with an error:\n%s" % (guard.test, output[-1500:])
    if guard.gives not in output:
        return "%s fails, and not with '%s':\n%s" % (guard.test, guard.gives, output[-1500:])
    return ""
