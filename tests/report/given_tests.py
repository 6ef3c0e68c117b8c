"""Reports of tasks that another tool wrote, of code quality, and the fixes as a patch."""

from __future__ import annotations

import json
import shutil
import subprocess
import unittest
from pathlib import Path

import records
from report.main import main as race_report
from support import PROGRAMS, TOP, Reporting

TASKS = TOP / "examples" / "tasks"


class Given(Reporting):
    """Tasks, in each form."""

    def given(self, tasks: Path, *words: str) -> tuple[int, str]:
        out = self.room / "out"
        status = race_report(["--tasks", str(tasks), "--root", str(self.room), "--race", str(PROGRAMS[0]), "-o", str(out), *words])
        return status, out.read_text(encoding="utf-8")

    def test_tasks(self) -> None:
        status, text = self.given(TASKS / "tasks")
        self.assertEqual((1, True), (status, "  fix: lex.o: keywords.h          (checked: ends this race)\n" in text), text)
        status, text = self.given(TASKS / "tasks-fixed")
        self.assertEqual((0, True), (status, text.startswith("SAFE  each order leaves what the serial one leaves. 4 recipes")), text)
        for form in ("json", "sarif", "github", "gitlab", "html"):
            self.assertIn("tasks", self.given(TASKS / "tasks", "--format", form)[1], form)
        self.assertIn(f"file={TASKS / 'tasks'},line=3,", self.given(TASKS / "tasks", "--format", "github")[1])

    def test_tasks_that_are_refused(self) -> None:
        (self.room / "t").write_text('{"task":"a","after":["b"],"reads":[],"writes":[]}\nno line\n')
        status, text = self.given(self.room / "t")
        self.assertEqual((2, True), (status, "refused F" in text), text)
        self.assertIn("--tasks: ", self.refused("--tasks", str(self.room / "none")))

    def test_code_quality(self) -> None:
        record = records.header(self.room / "r")
        (issue,) = json.loads(self.shown(record, "gitlab")[1])
        self.assertEqual(("forgotten-prerequisite", "major", {"path": "src/rules.mk", "lines": {"begin": 23}}), (issue["check_name"], issue["severity"], issue["location"]))
        (self.room / "base").write_text(self.shown(record, "json")[1])
        self.assertEqual("info", json.loads(self.shown(record, "gitlab", "--baseline", str(self.room / "base"))[1])[0]["severity"])
        hole = records.header(self.room / "h", is_fixed=True, holes=("a hole",))
        self.assertEqual(["blocker"], [it["severity"] for it in json.loads(self.shown(hole, "gitlab")[1])])


@unittest.skipUnless(shutil.which("patch"), "patch is missing")
class Patches(Reporting):
    """What `patch -p1` makes of the fixes."""

    def patched(self, tasks: list, places: dict, files: dict, **about: object) -> tuple[str, dict]:
        """The patch of a record of a project, and the files with it."""
        top = self.room / "p"
        for name, text in files.items():
            (top / name).parent.mkdir(parents=True, exist_ok=True)
            (top / name).write_text(text)
        record = records.write(top / ".race", tasks, places, folder=str(top))
        records.changed(record, tool="make", make="4.3", **about)
        text = self.shown(record, "patch")[1]
        ran = subprocess.run(["patch", "-p1"], cwd=top, input=text, text=True, capture_output=True, check=False)
        self.assertEqual(0, ran.returncode, ran.stdout + text)
        return text, {name: (top / name).read_text() for name in files}

    def test_lines_at_the_end_of_the_makefile_that_waits(self) -> None:
        tasks = [records.task("g", (), (), ("g",)), records.task("a", (), ("g",)), records.task("b", (), ("g",))]
        files = {"Makefile": "all: a b g\ninclude mk/b.mk\ng:\n\tgen\na:\n\tone\n\ttwo\\\n  more\n", "mk/b.mk": "b: c"}
        _, found = self.patched(tasks, {"g": ("Makefile", 4), "a": ("Makefile", 6), "b": ("mk/b.mk", 1)}, files)
        self.assertEqual({"Makefile": files["Makefile"] + "a: g\n", "mk/b.mk": "b: c\nb: g\n"}, found)

    def test_what_is_done_by_hand(self) -> None:
        tasks = [records.task("g", (), (), ("h",)), records.task("k", (), (), ("z.a",)), records.task("z.t", (), ("z.a",)), records.task("u", (), ("h",))]
        text, found = self.patched(tasks, {"u": ("Makefile", 2)}, {"Makefile": "u:\n\tcc\n"},
                                   labels={"g": {"target": "g"}, "u": {"target": "u", "file": "Makefile", "line": 2}, "k": {"target": "k", "colons": 2}})
        self.assertEqual("u:\n\tcc\nu: g\n", found["Makefile"])
        self.assertTrue(text.startswith("# by hand: z.a: Advice: write the rules of k as one"), text)
