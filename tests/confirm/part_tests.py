"""Parts of race-confirm by themselves: points and schedules, targets in makefiles, differences of trees."""

from __future__ import annotations

import os
import tempfile
import unittest
from pathlib import Path

from confirm.schedules import Points, inner
from confirm.uses import is_it
from record.orders.trees import difference, passing


class Parts(unittest.TestCase):
    """Modules by themselves."""

    def test_points(self) -> None:
        points = Points()
        rows = (("start", "-", "sh"), ("before", "open-to-write", "sh"), ("after", "open-to-write", "sh"), ("start", "-", "mv"),
                ("before", "rename", "mv"), ("after", "rename", "mv"))
        for row in rows:
            points.add("first", *row)
        wanted = ["before `mv` renames it", "before `mv` begins", "after `sh` opens it to write"]
        self.assertEqual(wanted, [str(it) for it in inner(points.all)])
        self.assertEqual("before `sh` begins, time 2", str(points.add("first", "start", "-", "sh")))

    def test_file_of_the_race(self) -> None:
        self.assertEqual([True, False, True, True, False], [is_it(*it) for it in (("/p/f", "/p/f"), ("/p/f/x", "/p/f"), ("/p/d", "/p/d/"), ("/p/d/x", "/p/d/"), ("/p/dx", "/p/d/"))])

    def test_names_that_differ_from_run_to_run(self) -> None:
        found = passing({"out/tmp.abcd", "d1x/y", "a"}, {"out/tmp.acde", "d2x/y", "bc"})
        self.assertEqual(["d[^/]{1}x/y", "out/tmp\\.a[^/]{3}"], [it.pattern for it in found])
        self.assertEqual([], passing({"a/b"}, {"cxd"}))

    def test_differences(self) -> None:
        with tempfile.TemporaryDirectory() as room:
            serial, parallel = Path(room, "serial"), Path(room, "parallel")
            for tree, text in ((serial, b"one\ntwo\n"), (parallel, b"one\nthree\n")):
                tree.mkdir()
                (tree / "text").write_bytes(text)
                (tree / "bytes").write_bytes(text + b"\0")
            (serial / "gone").touch()
            os.symlink("text", serial / "link")
            os.symlink("bytes", parallel / "link")
            found = [difference(serial / it, parallel / it) for it in ("text", "bytes", "gone", "link")]
        wanted = ["line 2 is `three`, and `two` after a serial build", "other bytes (11 bytes, 9 after a serial build)",
                  "is missing", "leads elsewhere"]
        self.assertEqual(wanted, found)
