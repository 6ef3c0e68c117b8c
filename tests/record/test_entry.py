"""How a companion ends that breaks: with status 3 and a line, never with the 1 that says races."""

import ast
import os
import re
import shutil
import subprocess
import sys
import tempfile
import unittest
from pathlib import Path
from typing import Dict, Sequence, Tuple

from support import TOP, Project, race_program

LINES = {"record": "there is no verdict", "report": "there is no report", "confirm": "nothing is confirmed", "explain": "nothing is explained"}
BROKEN = {"a main that fails": "def main():\n    raise IndexError('no such thing')\n", "no Python": "def main(:\n"}


def copied(name: str, room: Path) -> Path:
    """The folder of a script, with the script and what it begins with alone."""
    for folder in (room / "record", room / name):
        folder.mkdir(exist_ok=True)
    for begins in ("entry.py", "messages.py", "needed.py"):
        shutil.copy2(TOP / "record" / begins, room / "record")
    shutil.copy2(TOP / name / ("race-" + name), room / name)
    return room / name


def without_make(outcome: Tuple[int, bytes, bytes]) -> Tuple[int, bytes, bytes]:
    """An outcome without the lines of make, which depend on the job that ends first."""
    status, stdout, stderr = outcome
    return status, b"".join(line for line in stdout.splitlines(True) if not line.startswith(b"    make")), stderr


@unittest.skipIf(any(not (TOP / name).is_dir() for name in LINES), "the other companions are not beside the recorder")
class Entry(unittest.TestCase):
    """The scripts, with a main that is broken."""

    def test_error_of_its_own(self) -> None:
        for name, line in LINES.items():
            for how, text in BROKEN.items():
                with self.subTest(name=name, how=how), tempfile.TemporaryDirectory() as room:
                    folder = copied(name, Path(room))
                    (folder / "main.py").write_text(text)
                    words = [sys.executable, os.fspath(folder / ("race-" + name))]
                    ran = subprocess.run(words, capture_output=True, text=True, stdin=subprocess.DEVNULL, timeout=60, check=False)
                    self.assertEqual((3, ""), (ran.returncode, ran.stdout))
                    self.assertIn("Traceback", ran.stderr) if how != "no Python" else self.assertIn("SyntaxError", ran.stderr)
                    behind = "Nothing of your project or its build is lost. Please report it: the command, and the lines above from Traceback on, which say where it stopped"
                    self.assertEqual("race-%s: an error of its own stopped it; %s. %s" % (name, line, behind), ran.stderr.splitlines()[-1])
                    self.assertIn("Traceback", ran.stderr.splitlines()[0])

    def test_out_of_memory(self) -> None:
        with tempfile.TemporaryDirectory() as room:
            folder = copied("record", Path(room))
            (folder / "main.py").write_text("def main():\n    raise MemoryError\n")
            ran = subprocess.run([sys.executable, os.fspath(folder / "race-record")], capture_output=True, text=True, timeout=60, check=False)
        self.assertEqual((3, "race-record: out of memory; there is no verdict\n"), (ran.returncode, ran.stderr))

    def test_output_that_nobody_reads(self) -> None:
        reads, writes = os.pipe()
        os.close(reads)
        with tempfile.TemporaryDirectory() as room:
            folder = copied("record", Path(room))
            (folder / "main.py").write_text("def main():\n    print('safe')\n    return 0\n")
            ran = subprocess.run([sys.executable, os.fspath(folder / "race-record")], stdout=writes, stderr=subprocess.PIPE, timeout=60, check=False)
        os.close(writes)
        self.assertEqual(3, ran.returncode)


class Pythons(unittest.TestCase):
    """A Python that is older than the companions need, and modules of the user's that have names of Python's."""

    def test_modules_of_the_user(self) -> None:
        with Project({"Makefile": "all: ; @echo $$PYTHONPATH > all\n", "mine/json.py": "raise SystemExit('mine')\n", "mine/argparse.py": "raise SystemExit('mine')\n"}) as project:
            for name in filter(lambda name: (TOP / name).is_dir(), LINES):
                words = [sys.executable, str(TOP / name / ("race-" + name)), *(["--once", "--race", race_program(), "--", "make"] if name == "record" else ["--help"])]
                ran = subprocess.run(words, cwd=project.folder, env={**os.environ, "PYTHONPATH": "mine"}, capture_output=True, text=True, timeout=60, check=False)
                self.assertEqual((0, ""), (ran.returncode, ran.stderr))
            self.assertEqual("mine\n", (project.folder / "all").read_text())

    def test_what_is_needed(self) -> None:
        began = "import runpy, sys; sys.version_info = (3, 8, 10, 'final', 0); sys.argv = [%r]; runpy.run_path(%r, run_name='__main__')"
        for name in filter(lambda name: (TOP / name).is_dir(), LINES):
            path = str(TOP / name / ("race-" + name))
            ran = subprocess.run([sys.executable, "-c", began % (path, path)], capture_output=True, text=True, timeout=60, check=False)
            said = "race-%s: Python 3.9 or later is needed, and %s is 3.8.10. Run it by a newer one, such as: python3.11 %s\n" % (name, sys.executable, path)
            self.assertEqual((3, "", said), (ran.returncode, ran.stdout, ran.stderr))

    def test_an_older_one_reads_it(self) -> None:
        scripts = [TOP / name / ("race-" + name) for name in LINES]
        for path in filter(Path.is_file, [TOP / "record" / "__init__.py", TOP / "record" / "needed.py", *scripts, TOP / "install", TOP / "demo"]):
            ast.parse(path.read_text(encoding="utf-8"), feature_version=(3, 7))
            self.assertNotIn("import annotations", path.read_text(encoding="utf-8"), path)


class Closed(unittest.TestCase):
    """Companions without a standard output."""

    def test_closed_output(self) -> None:
        with Project({"Makefile": "all: ; touch built\n"}) as project:
            for name, line in ((name, line) for name, line in LINES.items() if (TOP / name).is_dir()):
                words = [sys.executable, os.fspath(TOP / name / ("race-" + name)), *(["--", "make"] if name == "record" else [])]
                ran = subprocess.run(words, stdout=None, stderr=subprocess.PIPE, cwd=project.folder, text=True, timeout=60, check=False, preexec_fn=lambda: os.close(1))
                self.assertEqual((3, "race-%s: its standard output is closed, so %s: leave it open, such as by > /dev/null\n" % (name, line)), (ran.returncode, ran.stderr))
            self.assertEqual(["Makefile"], sorted(os.listdir(project.folder)))

    def test_closed_errors(self) -> None:
        """The build gets none either, and no other file in their place."""
        with Project({"Makefile": "all: ; @test -e /proc/self/fd/2 || echo closed; touch all\n"}) as project:
            words = [sys.executable, os.fspath(TOP / "record" / "race-record"), "--race", race_program(), "--", "make"]
            ran = subprocess.run(words, stdout=subprocess.PIPE, cwd=project.folder, text=True, timeout=60, check=False, preexec_fn=lambda: os.close(2))
        self.assertEqual((0, "closed"), (ran.returncode, ran.stdout.splitlines()[0]))


class Untraced(unittest.TestCase):
    """Where strace may not follow a process, as in a container: a process that is traced already starts none that can be."""

    def test_nobody_may_trace(self) -> None:
        with Project({"Makefile": "all: ; touch all\n"}) as project:
            words = ["strace", "-f", "-q", "-o", "/dev/null", sys.executable, str(TOP / "record" / "race-record"), "--race", race_program(), "--", "make"]
            ran = subprocess.run(words, cwd=project.folder, capture_output=True, text=True, timeout=60, check=False)
            left = sorted(os.listdir(project.folder))
        self.assertEqual((3, "", ["Makefile"]), (ran.returncode, ran.stdout, left))
        self.assertIn("PTRACE_TRACEME", ran.stderr)
        self.assertIn("race-record: strace may not follow processes here, so nothing was built", ran.stderr)

    def test_command_that_cannot_be_run(self) -> None:
        with Project({"Makefile": "", "build": "#!/nothing\n"}) as project:
            project.sh("chmod +x build")
            self.assertEqual(2, project.record(["./build"]).status)


LOCALES = ({"LANG": "C"}, {"LC_ALL": "POSIX"}, {"LC_ALL": "en_US.ISO-8859-1"}, {"LC_ALL": "C", "PYTHONIOENCODING": "ascii:strict"})
NAMES = b"all: \xc3\xa9.o b\xff.o\n\xc3\xa9.h: ; @echo > $@\n\xc3\xa9.o: \xc3\xa9.h ; @cat \xc3\xa9.h > $@; echo '\xc3\xa9'\nb\xff.o: ; @cat \xc3\xa9.h > $@\n"


@unittest.skipIf(any(not (TOP / name).is_dir() for name in LINES), "the other companions are not beside the recorder")
class Locales(unittest.TestCase):
    """Other locales, and names that are no UTF-8: what is printed is the same, byte for byte."""

    def ran(self, name: str, words: Sequence[str], folder: Path, locale: Dict[str, str]) -> Tuple[int, bytes, bytes]:
        """Status and streams of a companion, in an environment without any other word about locales."""
        env = {key: value for key, value in os.environ.items() if not key.startswith(("LC_", "LANG", "PYTHON"))}
        env.update({"PYTHONUTF8": "0", "PYTHONCOERCECLOCALE": "0", "PYTHONDONTWRITEBYTECODE": "1", "RACE": race_program(), **locale})
        done = subprocess.run([sys.executable, str(TOP / name / ("race-" + name)), *words], cwd=folder, env=env, capture_output=True, stdin=subprocess.DEVNULL, timeout=600, check=False)
        self.assertNotIn(b"Traceback", done.stderr)
        return done.returncode, done.stdout, re.sub(rb"a second or less|about \d+ seconds", b"some time", done.stderr)

    def alike(self, name: str, words: Sequence[str], folder: Path, locales: Sequence[Dict[str, str]] = LOCALES) -> Tuple[int, bytes, bytes]:
        """What is the same in all of them."""
        wanted = self.ran(name, words, folder, {"LC_ALL": "C.UTF-8"})
        for locale in locales:
            self.assertEqual(wanted, self.ran(name, words, folder, locale), (name, words, locale))
        return wanted

    def test_record_report_and_explain(self) -> None:
        with Project() as project:
            (project.folder / "Makefile").write_bytes(NAMES)
            found = []
            for locale in ({"LC_ALL": "C.UTF-8"}, *LOCALES):
                project.sh("rm -rf *.o *.h .race")
                found.append(self.ran("record", ["--", "make"], project.folder, locale))
            self.assertEqual([found[0]] * len(found), found)
            self.assertEqual((1, True), (found[0][0], "RACE  \u00e9.h\n".encode() in found[0][1]), found[0])
            for form in ("text", "json", "html", "sarif", "github"):
                self.assertEqual(1, self.alike("report", ["--format", form], project.folder)[0])
            self.assertEqual(3, self.alike("report", [os.fsdecode(b"no\xff\xc3\xa9")], project.folder)[0])
            self.assertEqual(1, self.alike("explain", ["F1", os.fsdecode(b"no\xff\xc3\xa9")], project.folder)[0])
            self.assertEqual(0, self.alike("explain", [], project.folder)[0])

    def test_confirm(self) -> None:
        with Project() as project:
            (project.folder / "Makefile").write_bytes(NAMES.replace(b"\xff", b"\xc3\xbc").replace(b"@cat", b"@cat 2> /dev/null"))  # (cat quotes names by the locale)
            self.assertEqual(1, project.record().status)
            words = ["1", "--runs", "1", "--schedule", "1"]
            locales = ({"LC_ALL": "C.UTF-8"}, {"LC_ALL": "C", "PYTHONIOENCODING": "ascii:strict"})
            (status, shown, _), other = (without_make(self.ran("confirm", words, project.folder, locale)) for locale in locales)
            self.assertEqual((status, shown), other[:2])
            self.assertEqual((1, True), (status, "\u00e9.h".encode() in shown), shown)
            self.assertEqual(3, self.alike("confirm", [os.fsdecode(b"no\xff\xc3\xa9")], project.folder)[0])
