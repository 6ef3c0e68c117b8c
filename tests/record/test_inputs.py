"""How `race missing` is read, and what is shown of it: on small texts."""

import tempfile
import unittest
from pathlib import Path
import support  # noqa: F401  (it finds the recorder)
from record.missing.inputs import Answer, Found, judge_missing, read_answer
from record.missing.report import Judged, build_text
from record.report import Colours

class Answers(unittest.TestCase):
    """The report of `race missing`."""

    def test_lines(self) -> None:
        text = ("missing x\\x20y : a.o reads", "add a.o: x\\x20y", "missing g : a.o reads g.h writes", "late t : b reads c writes",
                "shared u : b writes c writes", "add c: b")
        wanted = [Found("missing", "x y", "A", "", "x y"), Found("missing", "g", "A", "g.h"), Found("late", "t", "b", "c"),
                  Found("shared", "u", "b", "c", "b")]
        self.assertEqual(wanted, list(read_answer(list(text), {"a.o": "A"}, set())))

    def test_text(self) -> None:
        labels = {name: {"target": name, "kind": "recipe", "file": "m", "line": at} for at, name in enumerate("abc", 1)}
        found = [Found("missing", "/p/h", "a"), Found("late", "t", "a", "c"), Found("shared", "u", "a", "c", "a"), Found("shared", "u", "b", "c", "b")]
        judged = Judged("001", {"folder": "/p/s", "labels": labels, "words": "", "meanings": {}}, Answer(found), "/p")
        self.assertEqual([
            "MISSING  ../h", "  a  m:1  reads it, and is not made again", "  add: a: ../h", "",
            "LATE  t", "  a  m:1  reads it", "  c  m:3  writes it, and need not come first", "",
            "SHARED  u", "  a  m:1  writes it", "  b  m:2  writes it", "  c  m:3  writes it too, later, and may not run then", "  add: c: a b", "",
        ], build_text(judged, True, Colours()))

    def test_report_that_is_cut(self) -> None:
        heads = [word + " 0\n" for word in ("missing", "late", "shared", "present", "tree", "races")]
        for lines, status, wanted in ((heads, 0, False), (heads[:-1], 0, True), ([], 1, True), (heads, 1, True), (["missing 1\n", *heads[1:]], 1, True)):
            with self.subTest(lines), tempfile.TemporaryDirectory() as folder:
                Path(folder, "missing-tasks").write_text("")
                Path(folder, "race").write_text("#!/bin/sh\ncat << E\n%swaits 0\nE\nexit %d\n" % ("".join(lines), status))
                Path(folder, "race").chmod(0o755)
                self.assertEqual(wanted, bool(judge_missing(folder + "/race", Path(folder), "/").refused))
