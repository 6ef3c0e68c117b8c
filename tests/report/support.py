"""What the tests of race-report have in common: a room of their own, and a report of a record in it."""

from __future__ import annotations

import contextlib
import io
import tempfile
import unittest
from pathlib import Path

from report.main import main as race_report

TOP = Path(__file__).resolve().parents[2]
PROGRAMS = [TOP / "crates" / "race" / "out" / "race"]  # the first one is asked


class Reporting(unittest.TestCase):
    """A test with a room."""

    def setUp(self) -> None:
        self.room = Path(self.enterContext_(tempfile.TemporaryDirectory(prefix="report-")))

    def enterContext_(self, manager: contextlib.AbstractContextManager) -> str:
        """`enterContext` of Python 3.11."""
        self.addCleanup(manager.__exit__, None, None, None)
        return manager.__enter__()

    def shown(self, record: Path, form: str, *words: str) -> tuple[int, str]:
        """The status and the text of a report."""
        out = self.room / "out"
        status = race_report([str(record), "--format", form, "--race", str(PROGRAMS[0]), "-o", str(out), *words])
        return status, out.read_text(encoding="utf-8")

    def refused(self, *words: str) -> str:
        """What a report says that is none."""
        with contextlib.redirect_stderr(io.StringIO()) as errors:
            self.assertEqual(3, race_report([*words, "--race", str(PROGRAMS[0])]))
        return errors.getvalue()
