"""examples/gnu-make does what its README says."""

import unittest

import support

EXAMPLE = support.TOP / "examples" / "gnu-make"


class Example(unittest.TestCase):
    """The makefile that forgets a rule, and the fixed one."""

    def test_forgotten(self) -> None:
        with support.Project() as project:
            project.copy(EXAMPLE)
            outcome = project.record(["make"])
        self.assertEqual(1, outcome.status, outcome.text())
        self.assertRegex(outcome.text(), r"(?m)^RACE  build/table\.h")
        self.assertIn("fix: build/util.o: build/table.h", outcome.text())

    def test_fixed(self) -> None:
        with support.Project() as project:
            project.copy(EXAMPLE)
            outcome = project.record(["make", "-f", "Makefile-fixed"])
            ran = project.plain(["build/app"])
        self.assertEqual(0, outcome.status, outcome.text())
        self.assertEqual(b"3 words, the first is apple\n", ran.stdout)

    def test_they_differ_in_one_rule(self) -> None:
        texts = [set((EXAMPLE / name).read_text().splitlines()) for name in ("Makefile", "Makefile-fixed")]
        self.assertEqual({"build/main.o build/util.o: build/table.h"}, {t for t in texts[1] - texts[0] if not t.startswith("#")})
