"""`--footprints`: a POSIX makefile read by race itself, with what was recorded, gives the verdict that the tasks give."""

import json
import os
import subprocess
import unittest
from pathlib import Path
from typing import Dict, List, Tuple

import support

# What stands for race in tests/record/run --race PROGRAM, or the program of the checkout.
PROGRAM = os.environ.get("RACE_MAKEFILE") or str(support.TOP / "crates" / "race" / "out" / "race")
PROJECTS: Dict[str, Tuple[int, str]] = {
    "forgotten": (1, "all: table.h a.o b.o\ntable.h: words\n\tcp words table.h\na.o: a.c table.h\n\tcat a.c table.h > a.o\nb.o: b.c\n\tcat b.c table.h > b.o\n"),
    "named": (0, "all: table.h a.o b.o\ntable.h: words\n\tcp words table.h\na.o: a.c table.h\n\tcat a.c table.h > a.o\nb.o: b.c table.h\n\tcat b.c table.h > b.o\n"),
    "temporary": (1, "all: a b\na: words\n\tsort words > tmp\n\tmv tmp a\nb: words\n\tsort -r words > tmp\n\tmv tmp b\n"),
    "own temporaries": (0, "all: a b\na: words\n\tsort words > a.tmp\n\tmv a.tmp a\nb: words\n\tsort -r words > b.tmp\n\tmv b.tmp b\n"),
    "second output": (1, "all: one two\none: words\n\tcp words one\n\tcp words map\ntwo: words\n\ttest -f map && cp map two || cp words two\n"),
    "log": (1, "all: a b\na: words\n\techo a >> build.log\n\tcp words a\nb: words\n\techo b >> build.log\n\tcp words b\n"),
    "ordered log": (0, "all: a b\na: words\n\techo a >> build.log\n\tcp words a\nb: a\n\techo b >> build.log\n\tcp words b\n"),
    "folder": (1, "all: o/a o/b\no/a: words\n\tmkdir -p o\n\tcp words o/a\no/b: words\n\tcp words o/b\n"),
    "made folder": (0, "all: o/a o/b\no:\n\tmkdir o\no/a: o words\n\tcp words o/a\no/b: o words\n\tcp words o/b\n"),
    "listed": (1, "all: a b\na: words\n\tcp words part.1\n\tcp words a\nb: words\n\tls > b\n"),
    "behind cd": (1, "all: a b\na: words\n\tcd sub && cp ../words out\n\tcp words a\nb: words\n\tcat sub/out > b || true\n"),
    "macros and inference": (0, "OBJ = a.o b.o\n.SUFFIXES:\n.SUFFIXES: .c .o\nprogram: $(OBJ)\n\tcat $(OBJ) > program\n.c.o:\n\tcp $< $@\n"),
    "phony": (0, ".PHONY: all clean\nall: a\na: words\n\tcp words a\nclean:\n\trm -f a\n"),
    "up to date": (0, "all: a\na: b\n\tcp b a\nb: words\n\tcp words b\n"),
}
FILES = {"words": "x\n", "a.c": "a\n", "b.c": "b\n", "sub/keep": ""}


class Texts(unittest.TestCase):
    """What the two texts hold."""

    def test_listing_and_footprints(self) -> None:
        with support.Project({"Makefile": PROJECTS["temporary"][1], **FILES}) as project:
            project.record(options=["--footprints"])
            folder = project.folder / ".race" / "builds" / "001"
            lines = [json.loads(line) for line in (folder / "footprints").read_text().splitlines()]
            self.assertEqual(["Makefile", "a.c", "b.c", "sub", "sub/keep", "words"], (folder / "listing").read_text().splitlines())
        self.assertEqual(["a", "b"], [line["target"] for line in lines])
        self.assertLessEqual({"tmp", "a"}, set(lines[0]["writes"]))
        self.assertIn("words", lines[0]["reads"])

    def test_names_of_a_folder_that_a_recipe_lists(self) -> None:
        with support.Project({"Makefile": PROJECTS["listed"][1], **FILES}) as project:
            project.record(options=["--footprints"])
            lines = (project.folder / ".race" / "builds" / "001" / "footprints").read_text().splitlines()
        self.assertIn("part.1", json.loads(lines[1])["reads"])

    def test_none_without_the_option(self) -> None:
        with support.Project({"Makefile": "all: ; touch all\n"}) as project:
            project.record()
            self.assertEqual(["build.json", "tasks"], sorted(p.name for p in (project.folder / ".race" / "builds" / "001").iterdir()))


class Agreement(unittest.TestCase):
    """Both ways over one record."""

    def verdicts(self, name: str) -> Tuple[int, int, str]:
        """The status of race-record, that of race check, and what it printed."""
        with support.Project({"Makefile": PROJECTS[name][1], **FILES}) as project:
            recorded = project.record(options=["--footprints"], once=False)
            folder = project.folder / ".race" / "builds" / "001"
            checked = self.check(project.folder, folder)
        return recorded.status, checked.returncode, checked.stdout.decode()[:600]

    @staticmethod
    def check(top: Path, folder: Path) -> "subprocess.CompletedProcess[bytes]":
        words: List[str] = [PROGRAM, "check", "--makefile", "Makefile", "--listing", str(folder / "listing")]
        words += ["--footprints", str(folder / "footprints"), "--root", os.path.realpath(top)]
        return subprocess.run(words, cwd=top, capture_output=True, stdin=subprocess.DEVNULL, check=False, timeout=support.SECONDS)

    @unittest.skipUnless(os.access(PROGRAM, os.X_OK), "race is not built")
    def test_both_ways_give_one_verdict(self) -> None:
        for name, (wanted, _) in PROJECTS.items():
            with self.subTest(name):
                recorded, checked, text = self.verdicts(name)
                self.assertEqual((wanted, wanted), (recorded, checked), text)
