"""Hard makefiles: each folder of cases/ is built, recorded and judged; cases/README.md says what it holds."""

import unittest
from pathlib import Path
from typing import Callable, List

import support

CASES = support.HERE / "cases"
STATUSES = {"safe": 0, "race": 1, "no verdict": 2}


def words_of(folder: Path) -> List[str]:
    """The command of a case."""
    if (folder / "command").exists():
        return (folder / "command").read_text().split()
    goals = (folder / "goals").read_text().split() if (folder / "goals").exists() else []
    return ["make", *goals]


def test_of(folder: Path) -> Callable[[unittest.TestCase], None]:
    """The test of one case."""

    def test(self: unittest.TestCase) -> None:
        with support.Project() as project:
            project.copy(folder / "tree")
            project.sh((folder / "setup").read_text())
            options = (folder / "options").read_text().split() if (folder / "options").exists() else []
            outcome = project.record(words_of(folder), options, once=not (folder / "tried").exists())
        about = (folder / "about").read_text()
        wanted = (folder / "want").read_text().strip()
        self.assertEqual(STATUSES[wanted], outcome.status, "%s%s%s" % (about, outcome.text()[-1500:], outcome.stderr.decode()[-800:]))
        for line in (folder / "says").read_text().splitlines() if (folder / "says").exists() else ():
            self.assertIn(line, outcome.text(), about)

    return test


class Cases(unittest.TestCase):
    """A test for each folder."""


for case in sorted(p.parent for p in CASES.glob("*/want")):
    setattr(Cases, "test_" + case.name.replace("-", "_"), test_of(case))
