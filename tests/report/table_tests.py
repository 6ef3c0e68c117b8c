"""One table for several records, in each form."""

from __future__ import annotations

import contextlib
import hashlib
import io
import json
import os
import subprocess
from pathlib import Path
from xml.etree import ElementTree

import records
import sarif
from report.index import page_name
from report.main import main as race_report
from support import PROGRAMS, TOP, Reporting

ARCHIVE = TOP / "share" / "archive"


class Tables(Reporting):
    """Several records, or a folder that holds some."""

    def setUp(self) -> None:
        super().setUp()
        self.all = self.room / "all"
        records.header(self.all / "b" / ".race", folder="/src/racy-1.0")
        records.header(self.all / "c", is_fixed=True, folder="/src/safe-2.0")
        records.header(self.all / "d" / "e", is_fixed=True, holes=("the build ended with status 2",), folder="/src/hole-3.0")
        (self.all / "f").mkdir()

    def table(self, *words: object, form: str = "text") -> tuple[int, str, str]:
        """The status, the text and the errors of a table."""
        out = self.room / "out"
        with contextlib.redirect_stderr(io.StringIO()) as errors:
            status = race_report([*map(str, words), "--format", form, "--race", str(PROGRAMS[0]), "-o", str(out)])
        return status, (out / "index.html" if out.is_dir() else out).read_text(encoding="utf-8"), errors.getvalue()

    def broken(self, name: str = "a") -> Path:
        """A record that is not whole, as what a form needs of it is missing."""
        record = records.header(self.all / name)
        (record / "builds" / "001" / "tasks").write_text('{"task":')
        return record

    def test_text(self) -> None:
        status, text, errors = self.table(self.all)
        self.assertEqual((2, ""), (status, errors))
        self.assertEqual([
            "3 records: 1 SAFE, 1 RACE, 1 NO VERDICT", "",
            "package   verdict     recipes  new  known  premises  seconds  tree, or why there is no verdict",
            "racy-1.0  RACE              4    1      0         2      2.5",
            "safe-2.0  SAFE              4    0      0         2      2.5",
            "hole-3.0  NO VERDICT        4    0      0         2      2.5  the build ended with status 2"], text.splitlines())

    def test_status_is_that_of_the_worst(self) -> None:
        race, safe, hole = self.all / "b", self.all / "c", self.all / "d"
        for wanted, words in ((1, (safe, race)), (2, (hole, race)), (3, (hole, self.all / "f")), (0, (safe, records.header(self.room / "g", is_fixed=True)))):
            self.assertEqual(wanted, self.table(*words)[0], words)

    def test_one_record_is_no_table(self) -> None:
        one = self.all / "c"
        for words in ([one], [one, one], [one, f"{one}/"]):
            self.assertTrue(self.table(*words)[1].startswith("SAFE  make -j leaves"), words)
        self.assertTrue(self.table(self.all / "d")[1].startswith("1 record: 1 NO VERDICT\n"))

    def test_what_cannot_be_read(self) -> None:
        """Each has a row, also a folder without a record, and a record that breaks where a form shows it."""
        broken, changed = self.broken(), records.header(self.all / "g", folder="/src/changed")
        about = json.loads((changed / "record.json").read_text())
        (changed / "record.json").write_text(json.dumps({**about, "seconds": None}))
        status, text, errors = self.table(*sorted(self.all.iterdir()), self.room / "none")
        self.assertEqual(3, status)
        self.assertTrue(text.startswith("7 records: 1 SAFE, 1 RACE, 1 NO VERDICT, 4 UNREADABLE\n"), text)
        for name, says in (("shell", f"{broken / 'builds/001/tasks'} cannot be read"), ("f", f"there is no record in {self.all / 'f'}"), ("none", "there is no record in"),
                           ("changed", f"{changed} is no whole record (TypeError")):
            self.assertRegex(text, f"\n{name} +UNREADABLE +0 .* {says.replace('(', '.')}")
            self.assertIn(f"race-report: {says}", errors)

    def test_names(self) -> None:
        """Two records of projects with one name are called by their paths; what does not say its project, by its folder."""
        twins = [records.header(self.room / "x" / it, is_fixed=True, folder=f"/{it}/src") for it in ("p/.race", "q")]
        nameless = records.header(self.room / "x" / "r" / ".race", is_fixed=True, folder="/")
        text = self.table(*twins, nameless)[1]
        self.assertEqual([*map(str, twins), "r"], [line.split("  ")[0].strip() for line in text.splitlines()[3:]])
        self.assertEqual(4, len({*map(page_name, ("a/b", "a-b", "a%2Fb", "a b"))}))

    def test_json(self) -> None:
        self.broken("f")
        status, text, _ = self.table(self.all, form="json")
        lines = [json.loads(it) for it in text.splitlines()]
        self.assertEqual((3, [("racy-1.0", 1, "race"), ("safe-2.0", 0, "safe"), ("hole-3.0", 2, "none"), ("shell", 3, "none")]),
                         (status, [(it["package"], it["status"], it["verdict"]) for it in lines]))
        self.assertEqual((str(self.all / "b" / ".race"), 2.5, ""), tuple(lines[0][it] for it in ("record", "seconds", "tree")))
        own = json.loads(self.shown(self.all / "b" / ".race", "json")[1])
        self.assertEqual(own, {key: lines[0][key] for key in own})
        self.assertIn("cannot be read", lines[3]["holes"][0])

    def test_baseline(self) -> None:
        """What several records were like is known by package; what one was like, of each."""
        base = self.room / "base"
        base.write_text(self.table(self.all, form="json")[1])
        records.header(self.all / "h", folder="/src/other")
        text = self.table(self.all, "--baseline", base)[1]
        self.assertRegex(text, r"\nracy-1.0  RACE +4 +0 +1 ")
        self.assertRegex(text, r"\nother     RACE +4 +1 +0 ")
        self.assertEqual(0, self.table(self.all / "b", self.all / "c", "--baseline", base)[0])
        self.assertIn("0 new, 1 known, 0 fixed", self.shown(self.all / "b" / ".race", "text", "--baseline", str(base))[1])
        base.write_text(self.shown(self.all / "h", "json")[1])
        self.assertEqual(0, self.table(self.all / "b", self.all / "h", "--baseline", base)[0])

    def test_ignored(self) -> None:
        top = self.room / "p"
        (top / ".git").mkdir(parents=True)
        (top / "race-ignore").write_text("build/*.h  # nobody reads it\n")
        record = records.header(top / ".race", folder=str(top))
        status, text, _ = self.table(record, self.all / "c")
        self.assertEqual(0, status)
        self.assertRegex(text, r"\np         RACE +4 +0 +0 ")

    def test_sarif(self) -> None:
        self.broken("f")
        log = json.loads(self.table(self.all, form="sarif")[1])
        self.assertEqual([], [*sarif.faults(log)])
        self.assertEqual(["racy-1.0/", "safe-2.0/", "hole-3.0/", "shell/"], [it["automationDetails"]["id"] for it in log["runs"]])
        self.assertEqual([True, True, False, False], [it["invocations"][0]["executionSuccessful"] for it in log["runs"]])
        self.assertEqual([1, 0, 0, 0], [len(it["results"]) for it in log["runs"]])

    def test_html(self) -> None:
        records.header(self.all / "f", folder="/src/a&b <c>")
        status, text, _ = self.table(self.all, form="html")
        root = ElementTree.fromstring(text.removeprefix("<!DOCTYPE html>"))
        self.assertEqual(2, status)
        self.assertNotRegex(text, r"(?i)\bsrc=|<link|<img|<iframe|url\(|@import|\bhttps?:")
        rows = [*root.iter("tr")][1:]
        self.assertEqual(["racy-1.0", "safe-2.0", "hole-3.0", "a&b <c>"], [it.findtext("th/a") for it in rows])
        self.assertEqual(["race", "safe", "none", "race"], [it.find("td").get("class") for it in rows])
        for row, record in zip(rows, (self.all / "b" / ".race", self.all / "c", self.all / "d" / "e", self.all / "f")):
            link = row.find("th/a").get("href")
            page = self.room / "out" / link.replace("%25", "%")
            self.assertEqual(page_name(row.findtext("th/a")), page.name)
            out = self.room / "one"
            race_report([str(record), "--format", "html", "--race", str(PROGRAMS[0]), "-o", str(out)])
            self.assertEqual(out.read_text(), page.read_text())

    def test_forms_of_one_record_alone(self) -> None:
        for words, says in ((["--format", "github"], "--format github shows one record, and here are 3"), (["--format", "patch"], "--format patch shows one"),
                            (["--format", "html"], "name a folder for them by -o"), (["--tasks", "t", "more"], "--tasks takes no record, and here are 2")):
            self.assertIn(says, self.refused(str(self.all), *words))


class OnePackage(Reporting):
    """The script that records a package, with another program in the place of mmdebstrap."""

    def ran(self, *words: str, status: int = 0) -> "subprocess.CompletedProcess[str]":
        tool = self.room / "mmdebstrap"
        tool.write_text(f'#!/bin/sh\necho "$# words, $DEB_BUILD_OPTIONS"\nprintf "%s\\n" "$@" "$record"\nexit {status}\n')
        tool.chmod(0o755)
        env = {**os.environ, "PATH": f"{self.room}:{os.environ['PATH']}"}
        return subprocess.run([str(ARCHIVE / "one-package"), *words], cwd=self.room, env=env, capture_output=True, text=True, check=False)

    def test_log_and_status(self) -> None:
        old = self.room / "records" / "libx++-1.0" / "record.json"
        old.parent.mkdir(parents=True)
        old.write_text("{}")
        for status in (0, 25):
            ran = self.ran("base.tar", "records", "libx++-1.0", status=status)
            self.assertEqual((status, "", ""), (ran.returncode, ran.stdout, ran.stderr))
            log = (old.parent / "log").read_text()
            self.assertIn("nocheck parallel=4\n", log)
            self.assertIn("\n--setup-hook=tar-in 'base.tar' /\n", log)
            self.assertIn("\n--customize-hook=sync-out /build/record 'records/libx++-1.0'\n", log)
        self.assertFalse(old.exists())

    def test_a_script_in_the_place_of_the_recording(self) -> None:
        for words, last in (((), "race-record --fresh --from ../*_*.tar"), ((str(ARCHIVE / "compared"),), "mv /build/trial /build/record/")):
            self.assertEqual(0, self.ran("base.tar", "records", "hello", *words).returncode)
            self.assertIn(f"\n{last}", (self.room / "records" / "hello" / "log").read_text()[-160:])
        subprocess.run(["sh", "-n", str(ARCHIVE / "compared")], check=True)

    def test_usage(self) -> None:
        for words in ((), ("b", "records"), ("b", "records", ""), ("b", "records", ".."), ("b", "records", "../x"), ("b", "records", "a b"), ("b", "records", "a", "c", "d")):
            ran = self.ran(*words)
            self.assertEqual((3, "usage: one-package BASE.tar FOLDER PACKAGE [SCRIPT]\n"), (ran.returncode, ran.stderr), words)
        self.assertFalse((self.room / "records").exists())


class Draw(Reporting):
    """The script that draws packages, from an index that is written here."""

    INDEX = """\
Package: plain
Architecture: any
Build-Depends: debhelper-compat (= 13), libfoo-dev

Package: folded
Architecture: any all
Build-Depends:
 libfoo-dev (>= 2),
 gcc | meson:native <!nocheck>

Package: all-alone
Architecture: all
Build-Depends: make

Package: scons-alone
Architecture: any
Build-Depends: scons, makefile2graph

Package: indep
Architecture: linux-any any
Build-Depends: scons
Build-Depends-Indep: cmake (>= 3)
"""

    def drawn(self, *words: str) -> "subprocess.CompletedProcess[str]":
        return subprocess.run([str(ARCHIVE / "draw"), *words], capture_output=True, text=True, check=False)

    def test_what_is_drawn_and_in_which_order(self) -> None:
        index = self.room / "Sources"
        index.write_text(self.INDEX)
        for seed in ("72", "73", "74"):
            wanted = sorted(("plain", "folded", "indep"), key=lambda name: hashlib.sha256(f"{seed} {name}".encode()).hexdigest())
            for count in ("2", "9"):
                self.assertEqual(wanted[:int(count)], self.drawn(seed, count, str(index), str(index)).stdout.split())

    def test_statuses(self) -> None:
        for status, words in ((3, ()), (3, ("72",)), (3, ("72", "many")), (1, ("72", "2", str(self.room / "none")))):
            self.assertEqual((status, ""), (self.drawn(*words).returncode, self.drawn(*words).stdout), words)


class Found(Reporting):
    """The page of what came of a list."""

    def test_page(self) -> None:
        trial = records.header(self.room / "all" / "safe", is_fixed=True, folder="/build/safe") / "trial"
        slow, gone = self.room / "all" / "slow" / "trial", self.room / "all" / "gone"
        for it in (trial, slow, gone):
            it.mkdir(parents=True)
        (trial / "facts").write_text("serial 0 2.0\nrecord 0 5.0\nagain 0 2.0\nj8 0 1.0\nlate1 0 1.0\nlate2 2 1.0\n")
        for build, tree in (("serial", "a\t1\nb\t1\n"), ("again", "a\t2\nb\t1\n"), ("record", ""), ("j8", "a\t3\nb\t1\n"), ("late1", "a\t1\n"), ("late2", "a\t1\nb\t1\n")):
            (trial / f"{build}.tree").write_text(tree)
            (trial / f"{build}.times").write_text(f"0m0.0s 0m0.0s\n{2 if build == 'record' else 1}m1.5s 0m0.5s\n")
        (slow / "facts").write_text("serial 124 9.0\n")
        (slow.parent / "log").write_text("")
        (gone / "log").write_text("E: 404  Not Found\n")
        (self.room / "packages").write_text("gone\nsafe\nslow\nlater\nolder\nabsent\n")
        (self.room / "judged").write_text("Today.\n---\nsafe\tyes\tIt is so.\n")
        (self.room / "former").write_text("\n## The packages\n\n| `older` | RACE | 5 | 1 | 2 | 9 | 4.5 | 4.0 |  |\n| `safe` | RACE | 9 | 1 | 2 | 5 | 2.5 | 2.0 |  |\n\n"
                                          "## By hand\n\n| `older` | true | It was so. | `a: b` |\n\n## The list\n\n(absent), safe\n")
        words = [TOP / "tools" / "found", *(self.room / it for it in ("all", "packages", "judged", "former"))]
        text = subprocess.run(words, env={**os.environ, "RACE": str(PROGRAMS[0])}, capture_output=True, text=True, check=True).stdout
        for row in ("# What was found\n\nToday.\n\n## ", "| drawn | 6 |\n| tried | 5 |\n| its source is not on the mirror | 2 |\n| took longer than the bound | 1 |\n| recorded | 2 |\n",
                    "| `safe` | SAFE | 4 |  | 2 | 5 | 2.5 | 2.0 | 1 of 3 the same, 1 name apart |\n", "| `slow` | took longer than the bound |  |  |  |  |  |  |  |\n| `older` | RACE | 5 | 1 | 2 | 9 | 4.5 | 4.0 |  |\n",
                    "| `older` | true | It was so. | `a: b` |\n| `safe` | yes | It is so. |  |\n", "(gone), safe, slow, later, older, (absent)\n"):
            self.assertIn(row, text)
