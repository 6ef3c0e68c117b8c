"""What `race` says of a text of tasks; a program that does not answer as it should is no yes."""

import os
import subprocess
import tempfile
import unittest
from pathlib import Path
from typing import Sequence

import forked
import support
from record.judge import judge

FORGOTTEN = "all: a%sb r\na%sb: src\n\tcat src > '$@'\nr: src\n\tcat 'a%sb' > r\n"
MAKEFILE = "all: w r\nw:\n\tprintf 1 > 'a%sb'; touch w\nr:\n\tcat 'a%sb' > r\n"
SIGNS = {"a blank that does not break": "\xa0", "a wide blank": "\u3000", "an end of a line": "\u2028", "a next line": "\x85", "a carriage return": "\r"}


class Answers(unittest.TestCase):
    """Programs that stand for race."""

    def verdict(self, script: str) -> int:
        """The status that a build is recorded with."""
        with support.Project({"Makefile": "all: ; touch all\n", "fake": "#!/bin/sh\n" + script}) as project:
            project.sh("chmod +x fake")
            return project.record(options=["--race", "./fake"]).status

    def test_safe(self) -> None:
        self.assertEqual(0, self.verdict("echo races 0; echo pairs 0\n"))

    def test_refused(self) -> None:
        self.assertEqual(2, self.verdict("echo refused; exit 2\n"))

    def test_status_of_a_race_without_one(self) -> None:
        self.assertEqual(2, self.verdict("echo races 0; exit 1\n"))

    def test_race_with_the_status_of_a_yes(self) -> None:
        self.assertEqual(2, self.verdict("echo race x : a writes b reads; echo races 1\n"))

    def test_another_program(self) -> None:
        self.assertEqual(2, self.verdict("exit 0\n"))
        self.assertEqual(2, self.verdict("echo races 1; echo pairs 1\n"))
        self.assertEqual(2, self.verdict("echo race x : a writes b reads; echo race y : a writes b reads; echo races 1; exit 1\n"))

    def test_killed(self) -> None:
        self.assertEqual(2, self.verdict("kill -9 $$\n"))

    def test_races_with_names_as_they_are(self) -> None:
        with support.Project({"tasks": '{"task":"a b","after":[],"reads":[],"writes":["x y"]}\n{"task":"c","after":[],"reads":["x y"],"writes":[]}\n'}) as project:
            found = judge(support.race_program(), Path(project.folder) / "tasks", str(project.folder))
        self.assertEqual([("x y", "a b", "writes", "c", "reads")], [(r.path, r.first, r.first_does, r.second, r.second_does) for r in found.races])
        self.assertEqual((True, ["c: a b"]), (found.is_fixed, found.fix))


class Names(unittest.TestCase):
    """A race on a file with an odd name, or in a folder with one, is found as any other."""

    def file(self, name: str) -> None:
        sign = SIGNS[name]
        with support.Project({"Makefile": MAKEFILE % (sign, sign)}) as project:
            outcome = project.record(options=["--missing"])
        self.assertEqual((1, ["a%sb" % (sign if sign > "\x9f" else "\\x%02x" % ord(sign))]), (outcome.status, support.races_of(outcome.text())), outcome.text())
        self.assertIn("  add: r: w\n", outcome.text())

    def target(self, name: str) -> None:
        sign = SIGNS[name]
        with support.Project({"Makefile": FORGOTTEN % (sign, sign, sign), "src": "1\n"}) as project:
            outcome = project.record(options=["--missing"])
        self.assertEqual(1, outcome.status, outcome.text())
        self.assertIn("  add: r: a", outcome.text())

    def folder(self, name: bytes, forms: Sequence[str] = ()) -> None:
        with tempfile.TemporaryDirectory() as room:
            place = os.fsencode(room) + b"/" + name
            os.mkdir(place)
            Path(os.fsdecode(place), "Makefile").write_text(MAKEFILE % ("-", "-"))
            ran = forked.run(forked.script(support.RECORDER, ["--race", support.race_program(), "--missing", "--", "make"]), Path(os.fsdecode(place)), support.SECONDS)
            self.assertEqual((1, ["a-b"]), (ran.returncode, support.races_of(ran.stdout.decode())), ran.stdout.decode() + ran.stderr.decode())
            for form in forms:
                words = [str(support.TOP / "report" / "race-report"), "--race", support.race_program(), "--format", form]
                shown = subprocess.run(words, cwd=place, capture_output=True, check=False)
                self.assertEqual((1, b""), (shown.returncode, shown.stderr), form)
                self.assertIn(b"Makefile", shown.stdout)
                self.assertNotIn(b"../", shown.stdout)

    def test_quotation_marks_of_a_folder(self) -> None:
        self.folder(b"a'b\"c, \"d")

    def test_folder_that_is_not_utf_8(self) -> None:
        self.folder(b"a\xff\xfe b")

    def test_reports_of_such_a_folder(self) -> None:
        self.folder(b"a\xff\"<]]>\x1b[31m b", ("text", "json", "sarif", "github", "html"))


support.add_tests(Names, {"file": SIGNS, "target": [name for name, sign in SIGNS.items() if sign != "\r"]})
