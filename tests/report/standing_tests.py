"""How races stand against a baseline and the file race-ignore, wherever the project is."""

from __future__ import annotations

import json
from pathlib import Path

import records
from support import Reporting


class Standing(Reporting):
    """New, known, fixed, not seen, ignored."""

    def baseline(self, record: Path) -> str:
        """A baseline of a record."""
        path = self.room / "baseline.json"
        path.write_text(self.shown(record, "json")[1])
        return str(path)

    def project(self, name: str, ignored: str = "", **more: object) -> Path:
        """A record of a project in a folder of its own, with a file race-ignore."""
        top = self.room / name
        (top / ".git").mkdir(parents=True)
        if ignored:
            (top / "race-ignore").write_text(ignored)
        return records.header(top / ".race", folder=str(top), **more)

    def test_known(self) -> None:
        race = records.header(self.room / "r")
        status, text = self.shown(race, "text", "--baseline", self.baseline(race))
        self.assertEqual(0, status)
        self.assertIn("\nknown 1  build/keywords.h: build/keywords.h and lex.o\n\n0 new, 1 known, 0 fixed, 0 not seen\n", text)
        self.assertNotIn("RACE 1", text)
        self.assertIn("::warning file=src/rules.mk", self.shown(race, "github", "--baseline", self.baseline(race))[1])
        self.assertIn('<span class="tag">known</span>', self.shown(race, "html", "--baseline", self.baseline(race))[1])

    def test_new(self) -> None:
        status, text = self.shown(records.header(self.room / "r"), "text", "--baseline", self.baseline(records.header(self.room / "s", is_fixed=True)))
        self.assertEqual((1, True, True), (status, "\nRACE 1  build/keywords.h  forgotten" in text, "\n1 new, 0 known, 0 fixed, 0 not seen\n" in text), text)

    def test_fixed(self) -> None:
        baseline, safe = self.baseline(records.header(self.room / "r")), records.header(self.room / "s", is_fixed=True)
        status, text = self.shown(safe, "text", "--baseline", baseline)
        self.assertEqual(0, status)
        self.assertIn("\nfixed  build/keywords.h: build/keywords.h and lex.o\n\n0 new, 0 known, 1 fixed, 0 not seen\n", text)
        self.assertEqual(["build/keywords.h: build/keywords.h and lex.o"], json.loads(self.shown(safe, "json", "--baseline", baseline)[1])["fixed"])
        self.assertIn("::notice title=race%3A fixed::", self.shown(safe, "github", "--baseline", baseline)[1])
        self.assertIn("<h2>Fixed since the baseline</h2>", self.shown(safe, "html", "--baseline", baseline)[1])

    def test_not_seen(self) -> None:
        """One of the two was up to date: nobody knows whether the race is gone."""
        baseline, warm = self.baseline(records.header(self.room / "r")), records.header(self.room / "s", is_fixed=True)
        records.labelled(warm, "lex.o", kind="group")
        text = self.shown(warm, "text", "--baseline", baseline)[1]
        self.assertIn("\nnot seen  build/keywords.h: build/keywords.h and lex.o\n\n0 new, 0 known, 0 fixed, 1 not seen\n", text)
        self.assertIn("<h2>Not seen in this build</h2>", self.shown(warm, "html", "--baseline", baseline)[1])

    def test_not_seen_where_there_is_no_verdict(self) -> None:
        baseline, hole = self.baseline(records.header(self.room / "r")), records.header(self.room / "s", is_fixed=True, holes=("a hole",))
        self.assertIn("\n0 new, 0 known, 0 fixed, 1 not seen\n", self.shown(hole, "text", "--baseline", baseline)[1])

    def test_other_folders(self) -> None:
        """The same project elsewhere, with files outside of the folder in which its make works."""
        prints = []
        for name in ("p", "deep/er/p"):
            top = self.room / name
            tasks = [records.task("a", (), (), (f"{top}/gen/a.h", "~seen/1/0")), records.task(f"{top}/b", (), (f"{top}/gen/a.h",))]
            (top / ".git").mkdir(parents=True)
            record = records.write(top / ".race", tasks, {}, folder=str(top), inner="sub", meanings={"~seen/1/0": "x"})
            prints.append([it["fingerprint"] for it in json.loads(self.shown(record, "json")[1])["races"]])
        self.assertEqual(prints[0], prints[1])

    def test_kinds_do_not_count(self) -> None:
        """A race stays known where only its kind has another name."""
        tasks = [records.task("a", (), (), ("x",)), records.task("b", (), ("x",))]
        baseline = self.baseline(records.write(self.room / "r", tasks, {}))
        tasks[1]["writes"] = ["x"]
        self.assertEqual(0, self.shown(records.write(self.room / "s", tasks, {}), "text", "--baseline", baseline)[0])

    def test_ignored(self) -> None:
        print_ = json.loads(self.shown(self.project("p"), "json")[1])["races"][0]["fingerprint"]
        for at, entry in enumerate(("build/*.h", "build/keywords.h lex.o", "lex.o build/*", print_)):
            record = self.project(f"q{at}", f"# all of them\n\n{entry}  # nobody reads it\n")
            status, text = self.shown(record, "text")
            self.assertEqual(0, status, entry)
            self.assertIn("\nignored 1  build/keywords.h: build/keywords.h and lex.o  # nobody reads it\n\n0 new, 0 known, 0 fixed, 0 not seen, 1 ignored\n", text)
            self.assertTrue(text.startswith("RACE  1 race on 1 file."), text)
        self.assertIn("::notice file=src/rules.mk", self.shown(record, "github")[1])
        (result,) = json.loads(self.shown(record, "sarif")[1])["runs"][0]["results"]
        self.assertEqual([{"kind": "external", "justification": "nobody reads it"}], result["suppressions"])
        race = json.loads(self.shown(record, "json")[1])["races"][0]
        self.assertEqual(("ignored", "nobody reads it"), (race["state"], race["reason"]))

    def test_lines_that_are_about_nothing(self) -> None:
        record = self.project("p", "*.log # old\nlex.o main.o # other\n")
        status, text = self.shown(record, "text")
        self.assertEqual(1, status)
        for at, entry in ((1, "*.log"), (2, "lex.o main.o")):
            self.assertIn(f"note: no race meets this line: {self.room / 'p' / 'race-ignore'}:{at}: {entry}\n", text)

    def test_lines_that_are_wrong(self) -> None:
        for at, (text, says) in enumerate((("*.log\n", "this entry has no reason"), ("*.log #\n", "this entry has no reason"), ("a b c # x\n", "3 words"))):
            said = self.refused(str(self.project(f"p{at}", f"# first\n{text}")))
            self.assertIn(f"race-ignore:2: {says}: an entry is a pattern of files, two targets, or a fingerprint, and behind # a reason\n", said)

    def test_baselines_that_cannot_be_read(self) -> None:
        record, baseline = str(records.header(self.room / "r")), self.room / "base.json"
        how = f"; to make it anew: race-report --format json -o {baseline}\n"
        for text, says in (
            (None, f"the baseline {baseline}: No such file or directory"),
            (b"{", f"the baseline {baseline} is no report in JSON (JSONDecodeError: Expecting property name"),
            (b"\xff", f"the baseline {baseline} is no report in JSON (UnicodeDecodeError: "),
            (b"{}", f"the baseline {baseline} is no report in JSON (KeyError: 'schema')"),
            (b'{"schema": "race-report", "version": "2", "races": [], "missing": []}', f"the baseline {baseline} is no report in JSON (AttributeError: "),
            (b'{"schema": "race-report", "version": "1"}', f"the baseline {baseline} is a race-report of version 1, and version 2 is read here"),
        ):
            if text is not None:
                baseline.write_bytes(text)
            said = self.refused(record, "--baseline", str(baseline))
            self.assertEqual((True, True), (said.startswith("race-report: " + says), said.endswith(how)), said)
