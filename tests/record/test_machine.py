"""What an import asks of the machine is noted, and a record is made again of that alone."""

import ast
import os
import shutil
import subprocess
import sys
import tempfile
import unittest
from pathlib import Path
from typing import Dict, Iterator, Set

import support
from record import machine
from record.orders.graph import Graph
from record.folder import rewrite

sys.path.append(str(support.HERE / "golden"))

from goldens import import_again  # noqa: E402

ASKS = {"os.path.%s" % name for name in ("isfile", "isdir", "islink", "exists", "lexists", "realpath", "getsize", "samefile")} | {
    "os.%s" % name for name in ("stat", "lstat", "readlink", "listdir", "scandir", "walk", "environ", "getenv", "geteuid", "getcwd", "umask")} | {
    "open", "tokenize.open", "glob.glob", "subprocess.run", "time.time"}
OF_PATHS = {"read_text", "read_bytes", "is_file", "is_dir", "is_symlink", "exists", "iterdir", "rglob", "resolve", "samefile"}  # methods of paths that ask too
# Modules that run builds, read what was kept of one, or write a record or judge it.
OTHERS = ("machine.py", "first_tree.py", "fresh.py", "facts.py", "folder.py", "entry.py", "messages.py", "judge.py", "importing.py", "footprints.py", "orders/processes.py", "missing", "make/words.py",
          "trace/sifting.py", "watch/files.py")


class Answers(unittest.TestCase):
    """Questions and answers."""

    def played(self, ask: "machine.Ask", *words: str) -> object:
        """The answer to a question, or the number of its error, from a machine that has changed since it was noted."""
        noted, path = machine.Answers(), Path(self.room, "noted")
        with machine.answering(noted):
            self.answer(ask, *words)
        noted.write(path)
        shutil.rmtree(os.path.join(self.room, "tree"))
        with machine.answering(machine.Answers.written(path)):
            return self.answer(ask, *words)

    @staticmethod
    def answer(ask: "machine.Ask", *words: str) -> object:
        """An answer, or the number of an error."""
        try:
            return ask(*words)
        except OSError as error:
            return error.errno

    def test_each_kind_of_answer(self) -> None:
        for ask, name, wanted in ((machine.read, "file", b"a\xff\0\n"), (machine.listdir, "", ["file"]), (machine.isfile, "file", True), (machine.read, "gone", 2),
                                  (machine.readlink, "file", 22), (machine.islink, "file", False)):
            with self.subTest(ask.__name__), tempfile.TemporaryDirectory() as self.room:
                Path(self.room, "tree").mkdir()
                Path(self.room, "tree", "file").write_bytes(b"a\xff\0\n")
                self.assertEqual(wanted, self.played(ask, os.path.join(self.room, "tree", name)))

    def test_what_stat_gives(self) -> None:
        with tempfile.TemporaryDirectory() as self.room:
            Path(self.room, "tree").mkdir()
            wanted = os.lstat(self.room + "/tree")
            self.assertEqual(wanted[:7], self.played(machine.lstat, self.room + "/tree")[:7])  # type: ignore[index]

    def test_question_that_was_not_asked(self) -> None:
        with machine.answering(machine.Answers(is_played=True)), self.assertRaisesRegex(machine.NotKept, r"isfile\('/x'\) was not asked"):
            machine.isfile("/x")


class Again(unittest.TestCase):
    """A record that is made again without the project."""

    def same(self, files: Dict[str, str], words: "list[str]", status: int, setup: str = ":") -> None:
        """Records, removes the project, makes the record again, and compares."""
        with support.Project(files) as project, tempfile.TemporaryDirectory() as room:
            project.sh(setup)
            ran = project.run(["--race", support.race_program(), "--keep-trace", "-o", room + "/record", "--", *words], dict(os.environ))
            self.assertEqual(status, ran.status, ran.stdout + ran.stderr)
            facts = shutil.move(room + "/record/trace", room + "/facts")
            shutil.rmtree(project.folder)
            record = import_again(Path(facts), Path(room, "again"))[0]
            record.assume("orders", *Graph(Path(room, "again")).free_pairs() if record.status == 0 else (0, ""))
            rewrite(Path(room, "again"), record)
            differs = subprocess.run(["diff", "-r", room + "/record", room + "/again"], capture_output=True, text=True, check=False)
            self.assertEqual("", differs.stdout)

    def test_makes(self) -> None:
        self.same({"Makefile": "-include d.mk\nall: a b\na: ; @echo > a\nb: ; @cat a > b\nd.mk: ; @echo > $@\n", "sub/Makefile": "all: ; @sh s\n", "sub/s": "ls *.x\n"}, ["make"], 1)

    def test_makes_inside(self) -> None:
        self.same({"Makefile": "all: ; @$(MAKE) -C sub\n", "sub/Makefile": "all: ; @sh s > t\n", "sub/s": "ls *\n"}, ["make"], 0)

    def test_work_tree_of_git(self) -> None:
        self.same({"Makefile": "all: a\na: x ; @cat x > a\n", "x": ""}, ["make"], 0, "git init -q . && git add -A && git -c user.name=x -c user.email=x@y commit -qm x")

    @unittest.skipUnless(shutil.which("ninja"), "ninja is missing")
    def test_ninja(self) -> None:
        self.same({"build.ninja": "rule r\n command = cat $in > $out && echo $out: h > $out.d\n depfile = $out.d\nbuild a: r x\nbuild b: r x\n", "x": "x\n", "h": "h\n"}, ["ninja"], 0)


class Modules(unittest.TestCase):
    """Who asks the machine."""

    def test_each_question_is_noted(self) -> None:
        found = set()
        for path in sorted((support.TOP / "record").rglob("*.py")):
            name = str(path.relative_to(support.TOP / "record"))
            if "record.%s" % name[:-3].replace("/", ".") in LOADED and not name.startswith(OTHERS):
                found |= {"%s:%d asks %s" % (name, line, what) for line, what in asked_in(ast.parse(path.read_text()))}
        self.assertEqual(set(), found)


def asked_in(tree: ast.AST) -> "Iterator[tuple[int, str]]":
    """The questions in a module that are not noted: not in a function that is marked."""
    todo = [tree]
    while todo:
        node = todo.pop()
        if isinstance(node, ast.FunctionDef) and any(ast.unparse(one) == "machine.asked" for one in node.decorator_list):
            continue
        if isinstance(node, (ast.Attribute, ast.Name)) and ast.unparse(node) in ASKS or isinstance(node, ast.Attribute) and node.attr in OF_PATHS and ast.unparse(node.value) != "machine":
            yield node.lineno, ast.unparse(node)
        todo.extend(ast.iter_child_nodes(node))


def loaded() -> Set[str]:
    """The modules that an import loads."""
    text = "import sys, record.importing; print(*(name for name in sys.modules if name.startswith('record.')))"
    return set(subprocess.run([sys.executable, "-c", text], cwd=support.TOP, capture_output=True, text=True, check=True).stdout.split())


LOADED = loaded()
