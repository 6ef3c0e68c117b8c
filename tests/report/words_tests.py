"""One word for one thing, in each form: a fix is lines to write, advice is prose, and names that stand for something else are said in words."""

from __future__ import annotations

import json
from pathlib import Path

import records
from support import Reporting

FORMS = ("text", "json", "sarif", "github", "html")


class Words(Reporting):
    """What ends a race, and who asks."""

    def project(self, makefile: str, tasks: list, places: dict, **about: object) -> Path:
        """A record of a project whose makefile is there."""
        top = self.room / "p"
        top.mkdir()
        (top / "Makefile").write_text(makefile)
        record = records.write(top / ".race", tasks, {it: ("Makefile", line) for it, line in places.items()}, folder=str(top))
        records.changed(record, tool="make", **about)
        return record

    def test_two_outputs(self) -> None:
        tasks = [records.task("a.h", (), (), ("a.h", "b.h")), records.task("b.h", (), (), ("b.h",))]
        record = records.write(self.room / "r", tasks, dict.fromkeys(("a.h", "b.h"), ("Makefile", 3)))
        race = json.loads(self.shown(record, "json")[1])["races"][0]
        self.assertEqual(("two-outputs", "", "write it as a b &: c (GNU make 4.3), or as a: c with its recipe, and b: a ;"), (race["kind"], race["fix"], race["advice"]))

    def test_a_name_that_is_spelled_in_another_way(self) -> None:
        tasks = [records.task("../include/gen.h", (), (), ("/home/dev/shell/include/gen.h",)), records.task("u", (), ("/home/dev/shell/include/gen.h",))]
        race = json.loads(self.shown(records.write(self.room / "r", tasks, {}, inner="src"), "json")[1])["races"][0]
        self.assertEqual(("forgotten-prerequisite", "../include/gen.h", "include/gen.h"), (race["kind"], race["path"], race["name"]))

    def test_rule_with_two_colons(self) -> None:
        record = self.project("x:: y z ; touch x\n", [records.task("g", (), (), ("f",)), records.task("x", (), ("f",))], {"x": 1})
        records.labelled(record, "x", colons=1)
        race = json.loads(self.shown(record, "json")[1])["races"][0]
        self.assertEqual(("x:: g", "checked: ends this race"), (race["fix"], race["note"]))
        self.assertTrue(race["advice"].startswith("write it into that very rule"), race["advice"])

    def test_what_leaves_no_file_is_waited_for_alone(self) -> None:
        tasks = [records.task("dir", (), (), ("d/~seen/0",)), records.task("d/a", (), ("d/~seen/0",)), records.task("gen", (), (), ("f",)), records.task("u", (), ("f",))]
        record = records.write(self.room / "r", tasks, {}, meanings={"d/~seen/0": "that the folder d is there"})
        records.changed(record, tool="make")
        records.labelled(record, "gen", order_only=True)
        self.assertEqual(["d/a: | dir", "u: | gen"], json.loads(self.shown(record, "json")[1])["fixes"]["lines"])

    def test_lines_that_are_not_needed(self) -> None:
        """b waits for a, and c for b: so c waits for a."""
        tasks = [records.task("a", (), (), ("x",)), records.task("b", (), ("x",), ("x", "y")), records.task("c", (), ("x", "y"))]
        record = records.write(self.room / "r", tasks, {})
        found = json.loads(self.shown(record, "json")[1])
        self.assertEqual((["b: a", "c: b"], 1), (found["fixes"]["lines"], sum(not it["fix"] for it in found["races"])))
        self.assertIn("  the lines of other races end this one too\n", self.shown(record, "text")[1])
        self.assertIn("The lines of other races end this one too.", self.shown(record, "github")[1])

    def test_blocks(self) -> None:
        """Races of one kind by one writer stand together, and ten such groups are shown."""
        record = records.large(self.room / "r")
        text = self.shown(record, "text")[1]
        self.assertEqual(10, text.count("\nRACE "))
        self.assertIn("  and 9 races of this kind by the same writer: 2, 3, 4", text)
        self.assertIn("\n200 races in 20 groups more: --all shows each\n", text)
        self.assertEqual(300, self.shown(record, "text", "--all")[1].count("\nRACE "))
        self.assertIn("    obj/module-0.o obj/module-30.o", text)

    def test_the_reason_comes_first(self) -> None:
        text = self.shown(records.header(self.room / "r", holes=("a hole",)), "text")[1]
        self.assertLess(text.index("  - a hole"), text.index("RACE 1"))
