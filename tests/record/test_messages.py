"""What is said to somebody in a hurry: what is missing, where it was looked for, where the page lies that says what to do."""

import json
import os
import re
import shutil
import subprocess
import sys
import tempfile
import unittest
from pathlib import Path
from typing import Dict, List, Optional, Tuple

import support
from record.build.assumptions import TEXTS
from record.judge import Race, Verdict, ended, explained
from record.missing.report import Question, missing_text
from record.report import Colours, Judged, report
from support import TOP

COMPANIONS = ("record", "report", "confirm")
HOLES = ["hole %d" % number for number in range(23)]
ABOUT = {"counts": {"recipes": 1}}
ROW = re.compile(r"^\| `([^`]+)` \(`([\w-]+)`\)", re.M)  # of a line that is taken for granted: how it begins, and its key


def written(holes: List[str]) -> Dict[str, object]:
    """A record with these holes."""
    return {"holes": holes, "assumptions": [], "folder": "/p", "builds": []}


def refused(why: str, number: str = "001") -> Judged:
    """A build that `race` does not judge."""
    return Judged(number, ABOUT, Verdict(2, refused=why))


class NoVerdict(unittest.TestCase):
    """Reasons, and where it stands what to do."""

    WHAT_TO_DO = '  what to do: "No verdict, and what to do" in %s'

    def test_page_of_the_checkout(self) -> None:
        page = TOP / "docs" / "RECORD.md"
        lines = report(written(HOLES[:2]), [], Path("/r"))
        self.assertEqual(["NO VERDICT  the record has holes:", "  - hole 0", "  - hole 1", self.WHAT_TO_DO % (page if page.exists() else "docs/RECORD.md")], lines)

    def test_holes_that_are_not_shown_are_counted(self) -> None:
        lines = report(written(HOLES), [], Path("/r"))
        self.assertEqual(["  - hole 19", "  - and 3 more: /r/record.json has all of them, under holes"], lines[20:22])
        self.assertNotIn("more", "".join(report(written(HOLES[:20]), [], Path("/r"))))

    def test_holes_of_missing_inputs(self) -> None:
        about = {"holes": HOLES, "otherwise": [], "premises": [], "judged": 0}
        for own, ends in (([], "docs/MISSING.md"), (["a hole"], "under holes")):
            question = Question({**written(own), "missing": about, "warm": {"count": 0}}, [], Path("/r"))
            shown = [line for line in missing_text(question, Colours()) if line != "Assumed:"]
            self.assertIn("  - and %d more: /r/record.json has all of them, under holes" % (3 + len(own)), shown)
            self.assertTrue(shown[-1].endswith(ends), shown)

    def test_build_that_is_refused(self) -> None:
        lines = report(written([]), [refused("refused F22 WritesTarget at tasks 3"), refused("race: out of memory", "002")], Path("/r"))
        self.assertEqual(["NO VERDICT  race did not judge all builds:",
                          "  - no verdict on build 001: refused F22 WritesTarget at tasks 3 (race-explain F22 says what to do)",
                          "  - no verdict on build 002: race: out of memory"], lines[:3])
        self.assertIn("RECORD.md", lines[3])
        both = report(written(HOLES[:1]), [refused("refused F22 WritesTarget")], Path("/r"))
        self.assertEqual(("NO VERDICT  the record has holes:", True, "  - hole 0"), (both[0], "F22" in both[1], both[2]))

    def test_the_build_is_not_safe_beside_a_rule_that_no_line_orders(self) -> None:
        labels = {"a": {"target": "a"}, "b": {"target": "b"}, "c": {"target": "c", "colons": 2}}
        about = {**ABOUT, "labels": labels, "meanings": {}}
        races = [Race("f", "a", "writes", "b", "reads"), Race("g", "c", "writes", "b", "reads")]
        for count, says in ((1, "With this line the build is safe (checked)."), (2, "No line ends 1 of the races.")):
            lines = report(written([]), [Judged("001", about, Verdict(1, races[:count], count, ["b: a"]))], Path("/r"))
            self.assertIn("  fix: b: a          (checked: ends this race)", lines)
            self.assertTrue(any(line.endswith(says) for line in lines), lines)
        self.assertIn("  advice: write the rules of c as one: what needs it is only sure to wait for the first of them", lines)

    def test_calls_with_many_words(self) -> None:
        """Each build is named by its call, which may hand on many macros."""
        about = {**ABOUT, "labels": {"a": {"target": "a"}, "b": {"target": "b"}}, "meanings": {}, "folder": "/p"}
        races = [Race("f", "a", "writes", "b", "reads")]
        judged = [Judged("00%d" % number, {**about, "words": words}, Verdict(1, races, 1)) for number, words in ((1, "-f x.mk"), (2, "A=1 " * 100))]
        lines = [line for line in report(written([]), judged, Path("/r")) if line.endswith("  in /p")]
        self.assertEqual(["make -f x.mk  in /p", "make" + " A=1" * 23 + " ..  in /p"], lines)

    def test_ends_without_an_answer(self) -> None:
        self.assertEqual(("ended with status 3", "was stopped by signal 9: race-report asks it again"), (ended(3), ended(-9)))
        self.assertEqual("race: F22 is no fault here", explained("race: F22 is no fault here"))


@unittest.skipIf(not (TOP / "docs").is_dir(), "the pages are not beside the recorder")
class Pages(unittest.TestCase):
    """What is taken for granted, and the pages that say what to do about each line."""

    def test_each_line_has_its_row(self) -> None:
        rows = [row for name in ("RECORD.md", "MISSING.md") for row in ROW.findall((TOP / "docs" / name).read_text(encoding="utf-8"))]
        self.assertEqual(sorted(TEXTS), sorted(key for _, key in rows))
        self.assertEqual([], [(key, begins) for begins, key in rows if not TEXTS[key].startswith(begins)])


@unittest.skipIf(any(not (TOP / name).is_dir() for name in COMPANIONS), "the other companions are not beside the recorder")
class NoRace(unittest.TestCase):
    """The program `race` is not there. The scripts stand in a folder of their own, as in a checkout without it or as they are installed."""

    def setUp(self) -> None:
        room = tempfile.TemporaryDirectory(prefix="race-test-")
        self.addCleanup(room.cleanup)
        self.room = Path(os.path.realpath(room.name))
        (self.room / "empty" / ".race").mkdir(parents=True)
        (self.room / "empty" / ".race" / "record.json").write_text(json.dumps({**written(HOLES), "version": "1", "words": ["make"]}))

    def scripts(self, scripts: str, pages: str) -> Path:
        """Puts the scripts and the pages there; the folder of the scripts."""
        for name in COMPANIONS:
            shutil.copytree(TOP / name, self.room / scripts / name)  # with what Python compiled
        (self.room / pages).mkdir(parents=True)
        for name in ("INSTALL.md", "RECORD.md"):
            (self.room / pages / name).touch()
        return self.room / scripts

    def said(self, name: str, *words: str, race: str = "") -> Tuple[int, str]:
        """The status, and what a companion says where PATH has nothing."""
        env = {"PATH": str(self.room / "empty"), "CC": shutil.which("cc") or "", "PYTHONDONTWRITEBYTECODE": "1", **({"RACE": race} if race else {})}
        script = next(self.room.rglob("race-" + name))
        ran = subprocess.run([sys.executable, str(script), *words], cwd=self.room / "empty", env=env, capture_output=True, text=True, check=False, timeout=60)
        return ran.returncode, ran.stdout + ran.stderr

    def says(self, lines: List[str], race: str = "", option: Optional[str] = None) -> None:
        """Each companion says these lines, and ends with 3."""
        for name in COMPANIONS:
            words = (["--race", option] if option else []) + (["--", "make"] if name == "record" else [])
            status, text = self.said(name, *words, race=race)
            first = "race-%s: the program race is missing, which judges builds" % name
            self.assertEqual((3, "\n  ".join([first, *lines]) + "\n"), (status, text))

    def test_in_a_checkout(self) -> None:
        top = self.scripts("top", "top/docs")
        (top / "install").touch()
        places = ", ".join(str(top / place) for place in ("record/race", "race", "crates/race/out/race", "out/race"))
        behind = ["to get it: %s/install --prefix ~/.local --unproved, about 2 minutes; put ~/.local/bin on PATH (%s/docs/INSTALL.md says more)" % (top, top),
                  "if it is elsewhere: --race PROGRAM"]
        self.says(["looked for: --race PROGRAM (not given), $RACE (not set), %s, and race on PATH" % places, *behind])
        self.says(["--race names /no/race, which is no program that can be run", *behind], option="/no/race")
        self.says(["$RACE names .., which is no program that can be run", *behind], race="..")
        (self.room / "empty" / "text").touch()
        self.says(["--race names ./text, which is no program that can be run", *behind], race="/no/race", option="./text")
        self.assertFalse((self.room / "empty" / "all").exists())

    def test_in_an_installation(self) -> None:
        self.scripts("share/race", "share/doc/race/docs")
        page = self.room / "share/doc/race/docs"
        self.says(["$RACE names /p/bin/race, which is no program that can be run", "to get it: in a checkout of race: ./install --prefix ~/.local --unproved, about 2 minutes; "
                   "put ~/.local/bin on PATH (%s/INSTALL.md says more)" % page, "if it is elsewhere: --race PROGRAM"], race="/p/bin/race")
        race = self.room / "race"
        race.write_text("#!/bin/sh\n")
        race.chmod(0o755)
        for name, status in (("report", 2), ("confirm", 2)):
            found = self.said(name, race=str(race))
            self.assertEqual((status, True), (found[0], NoVerdict.WHAT_TO_DO % (page / "RECORD.md") in found[1].splitlines()), found[1])


class Usage(unittest.TestCase):
    """Words that cannot be meant."""

    def says(self, project: support.Project, text: str, *words: str) -> None:
        outcome = project.run(["--race", support.race_program(), *words])
        self.assertEqual((3, text), (outcome.status, outcome.stderr.decode().splitlines()[-1]))

    def test_no_command(self) -> None:
        behind = ", or it cannot be run; behind -- stands the command that builds, such as make: race-record -- make"
        with support.Project({"build.sh": "#!/bin/sh\n"}) as project:
            self.says(project, "race-record: no such command: mak" + behind, "--", "mak")
            self.says(project, "race-record: no such command: ./build.sh" + behind, "--", "./build.sh")
            self.says(project, "race-record: error: which command builds the project? It stands behind --, such as make: race-record -- make")
            self.says(project, "race-record: error: no option of race-record: -j4; what belongs to the build stands behind --, such as race-record -- make -j4", "-j4", "make")

    def test_tools_that_are_missing_or_old(self) -> None:
        files = {"bin/make": "#!/bin/sh\necho GNU Make 3.82\n", "none/x": "", "other/make": "#!/bin/sh\necho usage >&2\n"}
        with support.Project(files) as project:
            project.sh("chmod +x */make; ln -s $(command -v strace) bin; ln -s $(command -v strace) other; cp -P bin/strace none")
            for folder, command, says in (
                ("bin", "make", "%s/make is GNU Make 3.82, and GNU make 4.2 or later is needed (Debian: apt-get install make)"),
                ("other", "make", "%s/make is of no version that it says, and GNU make 4.2 or later is needed (Debian: apt-get install make)"),
                ("none", "make", "make is missing (Debian: apt-get install make)"),
                ("none", "ninja", "ninja is missing (Debian: apt-get install ninja-build)"),
            ):
                path = str(project.folder / folder)
                words = [sys.executable, str(support.RECORDER), "--race", sys.executable, "--", command]
                ran = subprocess.run(words, cwd=project.folder, env={"PATH": path}, capture_output=True, text=True, check=False, timeout=60)
                self.assertEqual((3, "race-record: %s\n" % (says % path if "%" in says else says)), (ran.returncode, ran.stderr))

    def test_build_that_a_signal_stops(self) -> None:
        with support.Project({"x": ""}) as project:
            self.assertIn("  - the build ended with status -9: signal 9 stopped it\n", project.record(["sh", "-c", "kill -9 $$"]).text())

    def test_folder_that_is_no_record(self) -> None:
        with support.Project({"file": "f", "one/x": ""}) as project:
            for name in ("file", "one"):
                wanted = "race-record: %s is there and is no record: nothing there was changed; name another folder by -o" % os.path.realpath(project.folder / name)
                self.says(project, wanted, "-o", name, "--", "make")
            self.assertEqual("f", (project.folder / "file").read_text())
