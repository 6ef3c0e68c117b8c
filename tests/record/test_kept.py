"""What guards take in the place of a build (kept.py), and how they turn a rule off in modules that are loaded (patched.py)."""

import json
import os
import sys
import tempfile
import threading
import unittest
from pathlib import Path
from types import FrameType, FunctionType
from typing import Any, Dict, List, Set

import forked
import kept
import record.main
import support
from patched import IS_FUNCTION, Loaded, apply

FILES = {"Makefile": "all: a b\na: in ; @date +%N > a; cat a; echo said >&2\nb: ; @cat a > b; mkdir d; ln -s ../a d/l\n", "in": "x\n"}
MODULE = "VALUE = 1\nclass Some:\n    def three(self): return 3\ndef one(): return VALUE\ndef two(): return [2 for _ in 'x']\nHAS = two()\n"


class Recordings(unittest.TestCase):
    """A recording that is taken again."""

    def setUp(self) -> None:
        room = tempfile.TemporaryDirectory(prefix="race-test-")
        self.addCleanup(room.cleanup)
        self.addCleanup(vars(kept.CURRENT).update, vars(kept.CURRENT).copy())
        self.folder = Path(room.name)

    def left(self, keeps: bool, files: Dict[str, str] = FILES) -> List[Any]:
        """What a recording of the project leaves."""
        kept.CURRENT.begin("test", self.folder, keeps)
        with support.Project(files) as project:
            outcome = project.record()
            tree = [one for one in kept.tree_of(str(project.folder), {".race"}) or [] if one[0] != "in"]
            builds = [{key: value for key, value in one.items() if key != "span"} for one in outcome.builds]  # a trace is sifted piece by piece: its lines may have other numbers
            return [outcome.status, outcome.stdout, outcome.stderr, outcome.record, builds, sorted(tree)]

    def test_same_without_a_build(self) -> None:
        first = self.left(True)
        self.assertEqual((1, b"said\n"), (first[0], first[2]))
        self.assertEqual(first, self.left(False))

    def test_another_tree_is_built(self) -> None:
        first = self.left(True)
        again = self.left(False, {**FILES, "in": "y\n"})
        self.assertEqual(first[0], again[0])
        self.assertNotEqual(first[1], again[1])

    def test_tree_that_cannot_be_put_again(self) -> None:
        for text in ("ln in more", "mkfifo pipe", "chmod u+s in"):
            with self.subTest(text), support.Project(FILES) as project:
                project.sh(text)
                self.assertIsNone(kept.tree_of(str(project.folder)))

    def test_modules_that_act_while_a_build_runs(self) -> None:
        with support.Project(FILES) as project:
            ran = forked.run(self.watched, project.folder, support.SECONDS)
            acting = set(json.loads((project.folder / "acting").read_text()))
        self.assertEqual(0, ran.returncode, ran.stderr)
        self.assertLess({"main.py", "trace/pipe.py", "trace/sifting.py"}, acting)
        self.assertEqual(set(), acting - kept.BUILDING - kept.READING)

    def watched(self) -> int:
        """Builds, and says in a file which modules had a function that ran meanwhile."""
        acting: Set[str] = set()
        top = str(support.TOP / "record") + "/"

        def see(frame: FrameType, event: str, _: Any) -> None:
            if event == "call" and frame.f_code.co_filename.startswith(top) and frame.f_code.co_flags & IS_FUNCTION:
                acting.add(frame.f_code.co_filename[len(top):])

        spool = Path(tempfile.mkdtemp(dir=os.path.abspath("..")))
        watch = record.main.Watch(None)
        watch.prepare(record.main.makes_of(os.environ["PATH"]))
        threading.setprofile(see)
        sys.setprofile(see)
        status, _ = record.main.run_build(["make"], spool, [os.getcwd()], watch, record.main.Processor(0, "6.1"), 0)
        sys.setprofile(None)
        watch.remove()
        Path("acting").write_text(json.dumps(sorted(acting)))
        return status


class Patches(unittest.TestCase):
    """Edits of a module that is loaded."""

    def edited(self, old: str, new: str) -> Any:
        """The names of the module with an edited text; None where it must be loaded again."""
        codes = [compile(text, "module", "exec") for text in (MODULE, MODULE.replace(old, new))]
        loaded, names = Loaded(), {}  # type: ignore[var-annotated]
        with loaded.watching():
            exec(codes[0], names)  # noqa: S102
        functions = [one for one in (names["one"], names["two"], names["Some"].three) if isinstance(one, FunctionType)]
        loaded.functions = {id(one.__code__): one for one in functions}
        patches = loaded.patches(*codes)
        if patches is not None:
            apply(patches)
        return None if patches is None else names

    def test_functions(self) -> None:
        self.assertEqual(2, self.edited("def one(): return VALUE", "\ndef one(): return VALUE + 1")["one"]())
        self.assertEqual(4, self.edited("return 3", "return 4")["Some"]().three())

    def test_what_must_be_loaded_again(self) -> None:
        for old, new in (("VALUE = 1", "VALUE = 2"), ("VALUE = 1", "VALUE = True"), ("[2 for", "[3 for"), ("class Some:", "class Some:\n    four = 4"), ("HAS = two()", "")):
            with self.subTest(new):
                self.assertIsNone(self.edited(old, new))
