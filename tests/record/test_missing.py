"""`--missing`: what recipes read and make does not know of. Each answer is held against make: a file is edited, and make runs."""

import json
import os
import subprocess
import time
import unittest
from pathlib import Path
from typing import Dict, Set, Tuple
from unittest import mock

import support
from record.missing.old_tree import OldTree

PARTS = 4
Pairs = Set[Tuple[str, str]]  # a target, and what it reads and make does not know of
PROJECTS: Dict[str, Tuple[str, Pairs]] = {
    "forgotten header": ("all: a.o b.o\na.o: a.c\n\tcat a.c h.h > a.o\nb.o: b.c h.h\n\tcat b.c h.h > b.o\n", {("a.o", "h.h")}),
    "named headers": ("all: a.o b.o\na.o: a.c h.h\n\tcat a.c h.h > a.o\nb.o: b.c h.h\n\tcat b.c h.h > b.o\n", set()),
    "a rule that names less later": ("all: b.o a.o\nifeq ($(wildcard a.o),)\nb.o: b.c\nendif\nb.o:\n\tcat b.c > b.o\na.o: a.c\n\tcat a.c > a.o\n", {("b.o", "b.c")}),
    "files of dependencies": (
        "all: a.o b.o\n%.o: %.c\n\tcat $< h.h > $@\n\techo '$@: $< h.h' > $*.d\n-include a.d b.d\n", set()),
    "files of dependencies that are not read": (
        "all: a.o\n%.o: %.c\n\tcat $< h.h > $@\n\techo '$@: $< h.h' > $*.d\n", {("a.o", "h.h")}),
    "dependencies by a rule": (
        "all: a.o\n%.d: %.c\n\techo '$*.o $@: $< h.h' > $@\na.o: a.c\n\tcat a.c h.h > $@\ninclude a.d\n", set()),
    "a generated header": (
        "all: a.o g.h\ng.h: list gen.sh\n\tsh gen.sh list > g.h\na.o: a.c g.h\n\tcat a.c g.h > a.o\n", set()),
    "a generated header in order alone": (
        "all: a.o\ng.h: list\n\tcp list g.h\na.o: a.c | g.h\n\tcat a.c g.h > a.o\n", {("a.o", "g.h")}),
    "a generated header that its dependencies name": (
        "all: a.o\ng.h: list\n\tcp list g.h\na.o: a.c | g.h\n\tcat a.c g.h > a.o\n\techo 'a.o: g.h' > a.d\n-include a.d\n", set()),
    "a folder in order alone": ("all: o/a\no:\n\tmkdir o\no/a: a.c | o\n\tcp a.c o/a\n", set()),
    "a script": ("all: g.h\ng.h: list\n\tsh gen.sh list > g.h\n", {("g.h", "gen.sh")}),
    "a program of the project": ("all: g.h\ntool: gen.sh\n\tcp gen.sh tool\ng.h: list\n\tsh ./tool list > g.h\n.NOTPARALLEL:\ng.h: | tool\n", {("g.h", "tool")}),
    "extra prerequisites": ("all: a\n.EXTRA_PREREQS = h.h\na: list\n\tcat list h.h > a\n", set()),
    "extra prerequisites of a target": ("all: a b\na: .EXTRA_PREREQS = h.h\na: list\n\tcat list h.h > a\nb: list\n\tcat list h.h > b\n", {("b", "h.h")}),
    "a chain": ("all: b\na: list h.h\n\tcat list h.h > a\nb: a\n\tcat a h.h list > b\n", set()),
    "a chain without a recipe": ("all: b\nh.h: list\nb: h.h\n\tcat list > b\n", {("b", "list")}),
    "phony": (".PHONY: all show\nall: show a\nshow:\n\tcat list h.h > shown\na: list\n\tcp list a\n", set()),
    "behind a phony target": (".PHONY: all force\nall: a\nforce:\na: force\n\tcat list > a\n", set()),
    "a file that is kept where nothing has changed": (
        "all: a b\nv.h: FORCE\n\techo 1 > v.tmp\n\tcmp -s v.tmp v.h || cp v.tmp v.h\nFORCE:\na: v.h list\n\tcat v.h list h.h > a\n"
        "b: v.h\n\tcat v.h > b\n", {("a", "h.h")}),
    "a file that is always new": ("all: a\nv.h: FORCE\n\techo 1 > v.h\nFORCE:\na: v.h\n\tcat v.h h.h > a\n", set()),
    "a target without a file": ("all: a\na: stamp\n\tcp list a\nstamp:\n\tcat h.h > other\n", set()),
    "two outputs": ("all: a c\na b &: list\n\tcp list a\n\tcp list b\nc: b h.h\n\tcat b list h.h > c\n", set()),
    "two outputs, and one forgotten": ("all: c\na b &: list\n\tcat list h.h > a\n\tcp list b\nc: b\n\tcat b > c\n", {("b", "h.h")}),
    "a second output": ("all: c\na: list\n\tcp list a\n\tcp list b\nb: a ;\nc: b\n\tcat b h.h > c\n", {("c", "h.h")}),
    "a second output that no rule names": ("all: c\na: list\n\tcp list a\n\tcp list b\nc: a\n\tcat b > c\n", set()),
    "an intermediate file": (".SUFFIXES:\nall: a.o\n%.o: %.m\n\tcat $< h.h > $@\n%.m: %.c\n\tcat $< list > $@\n", {("a.o", "h.h"), ("a.m", "list")}),
    "a temporary": (".NOTPARALLEL:\nall: a b\na: list\n\tcp list tmp\n\tmv tmp a\nb: list\n\tsort list > tmp\n\tmv tmp b\n", set()),
    "vpath": ("VPATH = sub\nall: x.o\nx.o: x.c\n\tcat $< sub/x.h > x.o\n", {("x.o", "sub/x.h")}),
    "double colons": ("all: a\na:: list\n\tcp list a\n", set()),
    "a make inside a rule": ("all: in/x\nin/x:\n\t$(MAKE) -C in\n", {("in/x", "in/Makefile"), ("in/x", "in/y")}),
    "a make inside a phony rule": (".PHONY: all in\nall: a\nin:\n\t$(MAKE) -C in\na: in/x h.h\n\tcat in/x h.h list > a\nin/x: | in\n", {("a", "list"), ("a", "in/x")}),
    "a make inside a phony rule, and a rule behind it": (
        ".PHONY: all in\nall: a\nin:\n\t$(MAKE) -C in\na: in/x h.h\n\tcat in/x h.h list > a\nin/x: in ;\n", {("a", "list")}),
    "links": ("all: app\nl.1: list\n\tcp list l.1\nl: l.1\n\tln -sf l.1 l\napp: l\n\tcat l h.h > app\n", {("app", "h.h")}),
    "a pattern with two targets": (
        ".SUFFIXES:\nall: z\n%.c1 %.h1: %.y1\n\tcp $< $*.c1\n\tcp $< $*.h1\nz: p.c1 p.h1\n\tcat p.c1 p.h1 > z\n", set()),
    "a target that is forced": ("all: a b\na: FORCE\n\tcat h.h > a\nFORCE:\nb: a\n\tcat a list > b\n", set()),
    "what a makefile calls while it is read": ("X := $(shell cat h.h)\n-include none.mk\nall: a\na: list\n\tcat list > a\n", set()),
    "blanks": ("all: a\na: my\\ file\n\tcat h.h 'my file' > a\nmy\\ file:\n\techo x > 'my file'\n", set()),
    "modules of Python": ("all: a b\na: list\n\tpython3 gen.py list > a\nb: list gen.py mod.py | a\n\tpython3 gen.py list > b\n", {("a", "gen.py"), ("a", "mod.py")}),
    "a phony target that is a file": ("all: a\n.PHONY: list\na: list\n\tcat list h.h > a\n", set()),
    "a make inside that always runs": ("all: b\nin/x: FORCE\n\t$(MAKE) -C in\nFORCE:\nb: in/x\n\tcat in/x h.h > b\n", {("b", "h.h")}),
    "a make inside that waits for another file": (
        "all: b\nin/x: list\n\t$(MAKE) -C in\nb: in/x\n\tcat in/x list > b\n", {("in/x", "in/Makefile"), ("in/x", "in/y"), ("b", "list")}),
    "a file that is written where it differs": (
        "all: a\nv.h: FORCE\n\ttest \"`cat v.h 2>/dev/null`\" = 1 || echo 1 > v.h\nFORCE:\na: v.h list\n\tcat v.h list h.h > a\n", {("a", "h.h")}),
    "a recipe that asks what is newer": (
        "new = $(filter-out FORCE,$?)\nall: a\na: list FORCE\n\t$(if $(new),cat list h.h > a)\nFORCE:\n", {("a", "h.h")}),
    "a folder that is a target": ("all: a\no: list\n\tmkdir -p o\n\tcp list o/x\na: o\n\tcat o/x > a\n", {("a", "o/x")}),
    "a folder that is made new": ("all: a\no: list\n\trm -rf o\n\tmkdir o\n\tcp list o/x\na: o\n\tcat o/x > a\n", set()),
    "a second output that its dependencies name": (
        "all: a\ns: list\n\tcp list g.h\n\ttouch s\na: a.c | s\n\tcat a.c g.h > a\n\techo 'a: g.h' > a.d\n-include a.d\n", {("a", "g.h")}),
    "a second output whose rule has no recipe": ("all: c\na: list\n\tcp list a\n\tcp list t.h\nt.h: a\nc: t.h\n\tcat t.h > c\n", {("c", "t.h")}),
    "another name of a generated header": (
        "all: a\ng.h: list\n\tcp list g.h\na: a.c | g.h\n\tcat a.c g.h > a\n\techo 'a: $(CURDIR)/g.h' > a.d\n-include a.d\n", {("a", "g.h")}),
    "a file that another recipe changes": ("all: b\na: list\n\tcp list a\nb: | a\n\tsed -i s/x/y/ a\n\tcat a h.h > b\n", {("b", "a"), ("b", "h.h")}),
    "a name that make has to search": ("VPATH = sub\nall: a\na: list\n\tcat list h.h > a\n\techo 'a: x.h' > a.d\n-include a.d\n", {("a", "h.h")}),
    "a file that a later recipe makes": (
        "all: a b\na: list\n\tcat list o.h > a 2>/dev/null || true\nb: a h.h\n\tcp h.h o.h\n\tcp h.h b\n", {("a", "o.h")}),
    "a file that a later recipe removes": (
        "all: s a z\ns: list\n\ttouch flag; cp list s\na: s list\n\tif test -f flag; then cp list a; else echo > a; fi\nz: a h.h\n\trm flag; cp h.h z\n", {("a", "flag")}),
    "a recipe of functions that call a process": (
        "all: a\nv.h: FORCE\n\t$(if $(filter 1,$(shell cat v.h 2>/dev/null)),,echo 1 > v.h)\nFORCE:\na: v.h list\n\tcat v.h list h.h > a\n", {("a", "h.h")}),
    "a recipe of functions that look for a file": (
        "all: a\nv.h: FORCE\n\t$(if $(wildcard v.*),,echo 1 > v.h)\nFORCE:\na: v.h list\n\tcat v.h list h.h > a\n", {("a", "h.h")}),
    "a canned recipe that asks what is newer": (
        "define cat\n@:\n$(if $(filter-out FORCE,$?),cat list h.h > $@)\nendef\nall: a\na: list FORCE\n\t$(cat)\nFORCE:\n", {("a", "h.h")}),
    "a macro of a made name that asks what is newer": (
        "K = at\ncat = $(if $(filter-out FORCE,$?),cat list h.h > $@)\nall: a\na: list FORCE\n\t$(c$(K))\nFORCE:\n", {("a", "h.h")}),
    "a state that is opened to read and to write": (
        "all: a\nv.h: FORCE\n\tpython3 -c \"f = open('state', 'a+'); f.seek(0); f.read() or (f.write('1'), open('v.h', 'w').write('1'))\"\nFORCE:\n"
        "a: v.h list\n\tcat v.h list h.h > a\n", {("a", "h.h")}),
}
FILES = {"a.c": "a\n", "b.c": "b\n", "h.h": "h\n", "list": "x\n", "gen.sh": "cat $1\n", "sub/x.c": "x\n", "sub/x.h": "h\n", "p.y1": "y\n",
         "in/Makefile": "x: y\n\tcp y x\n", "in/y": "y\n",
         "gen.py": "import mod\nmore = mod.more\n", "mod.py": "more = 0\n"}


def violations(text: str) -> Dict[str, Pairs]:
    """The targets and files of a report, by the folder of their make."""
    found: Dict[str, Pairs] = {}
    path = folder = ""
    for line in text.partition("Missing inputs\n")[2].splitlines():
        if line.startswith("make ") and "  in " in line:
            folder = os.path.basename(line.partition("  in ")[2])
        elif line.startswith(("MISSING  ", "SHARED  ")):
            path = line.split("  ", 1)[1]
        elif line.startswith("  ") and ("is not made again" in line or "may not run then" in line):
            found.setdefault(folder, set()).add((line.split()[0], path))
    return found


def is_made_again(folder: Path, target: str, path: str) -> bool:
    """Whether a target is made again where a file is edited, and make runs."""
    make(folder)
    before = os.stat(folder / target).st_mtime_ns
    time.sleep(0.02)  # the clock of a file system has steps of some milliseconds
    with open(folder / path, "a") as file:
        file.write("more\n")
    make(folder)
    return os.stat(folder / target).st_mtime_ns != before


def make(folder: Path) -> None:
    """Builds, as a user does."""
    subprocess.run(["make", "-C", str(folder)], stdout=subprocess.DEVNULL, stdin=subprocess.DEVNULL, check=True, timeout=support.SECONDS)


class Table(unittest.TestCase):
    """Small projects, each in a folder with a make of its own below one that runs them all."""

    def hold(self, folder: Path, record: Path, missing: Pairs) -> None:
        """Edits each source that a recipe reads: its target is made again exactly where the file is not missing."""
        listing = set((record / "missing-listing").read_text().splitlines())
        tasks = [one for one in map(json.loads, (record / "missing-tasks").read_text().splitlines()) if "makes" in one]
        for target, path in ((one["makes"], path) for one in tasks for path in one["reads"] if path in listing):
            if (folder / target).exists():
                self.assertEqual((target, path) not in missing, is_made_again(folder, target, path), (target, path))

    def part(self, number: int) -> None:
        """Each PARTS-th project, all in one record, that has also what each recipe names which reads it."""
        part = {name.replace(" ", "-"): PROJECTS[name] for name in list(PROJECTS)[number::PARTS]}
        files = {"Makefile": "all:\n" + "".join("\t$(MAKE) -C %s\n" % folder for folder in part)}
        for folder, (makefile, _) in part.items():
            files.update({"%s/%s" % (folder, name): text for name, text in {"Makefile": makefile, **FILES}.items()})
        with support.Project(files) as project, mock.patch.object(OldTree, "drop_named", lambda tree: None):
            outcome = project.record(options=["--missing"])
            self.assertEqual(1, outcome.status, outcome.text() + outcome.stderr.decode())
            found = violations(outcome.text())
            records = {os.path.basename(one["folder"]): number for one, number in zip(outcome.builds, (outcome.record or {})["builds"])}
            for folder, (_, missing) in part.items():
                with self.subTest(folder):
                    self.assertEqual(missing, found.get(folder, set()), outcome.text())
                    self.hold(project.folder / folder, project.folder / ".race" / "builds" / records[folder], missing)

    def test_part_0(self) -> None:
        self.part(0)

    def test_part_1(self) -> None:
        self.part(1)

    def test_part_2(self) -> None:
        self.part(2)

    def test_part_3(self) -> None:
        self.part(3)

    def alone(self, name: str) -> None:
        """A project by itself, as it is judged; `part` builds it again."""
        makefile, missing = PROJECTS[name]
        with support.Project({"Makefile": makefile, **FILES}) as project:
            outcome = project.record(options=["--missing"])
        found = violations(outcome.text())
        self.assertIn(outcome.status, (0, 1), outcome.text() + outcome.stderr.decode())
        self.assertEqual(missing, found.get("", set()) | found.get("project", set()), outcome.text())

    def test_status(self) -> None:
        for name, wanted in (("files of dependencies", 0), ("forgotten header", 1)):
            with self.subTest(name), support.Project({"Makefile": PROJECTS[name][0], **FILES}) as project:
                outcome = project.record(options=["--missing"])
                self.assertEqual(wanted, outcome.status, outcome.text() + outcome.stderr.decode())


support.add_tests(Table, {"alone": PROJECTS})


class Products(unittest.TestCase):
    """What is missing and is made itself: its maker runs, and the reader does not."""

    def test_in_order_alone(self) -> None:
        with support.Project({"Makefile": PROJECTS["a generated header in order alone"][0], **FILES}) as project:
            self.assertFalse(is_made_again(project.folder, "a.o", "list"))

    def test_intermediate(self) -> None:
        with support.Project({"Makefile": PROJECTS["an intermediate file"][0], **FILES}) as project:
            self.assertFalse(is_made_again(project.folder, "a.o", "list"))
            self.assertTrue(is_made_again(project.folder, "a.o", "a.c"))


class Reports(unittest.TestCase):
    """`race-report` of a record with missing inputs."""

    def report(self, project: support.Project, *words: str) -> Tuple[int, str]:
        """Its status, and what it prints."""
        ran = project.plain([str(support.TOP / "report" / "race-report"), "--race", support.race_program(), *words])
        return ran.returncode, ran.stdout.decode()

    def test_forms(self) -> None:
        with support.Project({"Makefile": PROJECTS["forgotten header"][0], **FILES}) as project:
            recorded = project.record(options=["--missing"])
            said = {form: self.report(project, "--format", form) for form in ("text", "json", "github", "html", "sarif")}
            (project.folder / "base").write_text(said["json"][1])
            known = self.report(project, "--baseline", "base", "--format", "github")
        self.assertEqual([1] * 5, [status for status, _ in said.values()])
        self.assertIn(said["text"][1].partition("Missing inputs\n")[2], recorded.text())
        missing = json.loads(said["json"][1])["missing"]
        self.assertEqual(("missing", 2, []), (missing["verdict"], missing["judged"], missing["holes"]))
        one = missing["inputs"][0]
        self.assertEqual(("missing", "h.h", "a.o", "Makefile", 3, "", "a.o: h.h"), tuple(one[key] for key in ("kind", "path", "target", "file", "line", "maker", "add")))
        self.assertIn("::error file=Makefile,line=3,title=missing input h.h::a.o reads h.h", said["github"][1])
        self.assertIn("a.o  Makefile:3  reads it", said["html"][1])
        self.assertEqual(0, known[0])
        self.assertIn("::warning file=Makefile,line=3,title=missing input", known[1])


class Verdicts(unittest.TestCase):
    """What `race-record` ends with."""

    def test_nothing_without_the_option(self) -> None:
        with support.Project({"Makefile": PROJECTS["forgotten header"][0], **FILES}) as project:
            outcome = project.record()
            names = sorted(path.name for path in (project.folder / ".race" / "builds" / "001").iterdir())
        self.assertEqual(0, outcome.status, outcome.text())
        self.assertNotIn("Missing", outcome.text())
        self.assertEqual(["build.json", "tasks"], names)
        self.assertNotIn("missing", outcome.record or {})

    def test_races_and_missing(self) -> None:
        makefile = "all: a b\na: list\n\tcat h.h > a\n\tcp list t\nb: list\n\tcp list b\n\ttest ! -f t || cp t b\n"
        with support.Project({"Makefile": makefile, **FILES}) as project:
            outcome = project.record(options=["--missing"])
        self.assertEqual(1, outcome.status, outcome.text())
        self.assertEqual({("a", "h.h")}, violations(outcome.text()).get("", set()) - {("b", "t")})

    def test_warm(self) -> None:
        with support.Project({"Makefile": PROJECTS["named headers"][0], **FILES}) as project:
            project.sh("make -s a.o")
            outcome = project.record(options=["--missing"])
        self.assertEqual(2, outcome.status, outcome.text())
        self.assertIn("NO VERDICT  on missing inputs:", outcome.text())

    def test_premises(self) -> None:
        makefile = ("V := $(shell cat v)\nall: a b c\ninclude m.mk\nm.mk: list\n\techo 'X = 1' > m.mk\n"
                    "a: list h.h\n\tcat list h.h > a\n\ttouch -r list a\nb: a\n\tcp a b\nc: list\n\tcp list c\n")
        with support.Project({"Makefile": makefile, "v": "1\n", **FILES}) as project:
            outcome = project.record(options=["--missing"])
        found = {one["kind"]: one["example"] for one in (outcome.record or {})["missing"]["premises"]}
        self.assertEqual(0, outcome.status, outcome.text())
        self.assertEqual(("a", "m.mk"), tuple(found.get(key) for key in ("times", "called")), outcome.text())

    def test_line_that_does_not_help(self) -> None:
        """Make knows no rule of the file: one with an empty recipe, beside that line, lets it look behind who makes the file."""
        makefile, _ = PROJECTS["a folder that is a target"]
        with support.Project({"Makefile": makefile, **FILES}) as project:
            outcome = project.record(options=["--missing"])
        self.assertIn("  add: a: o/x\n  add: o/x: o ;\n", outcome.text())
        with support.Project({"Makefile": makefile + "a: o/x\no/x: o ;\n", **FILES}) as project:
            self.assertTrue(is_made_again(project.folder, "a", "list"))

    def test_makefile_from_standard_input(self) -> None:
        makefile = "all: a\na: list ; cat list h.h > a\n"
        with support.Project({"m": makefile, **FILES}) as project:
            outcome = project.record(["sh", "-c", "make -f - < m"], ["--missing"])
        self.assertEqual({("a", "h.h")}, violations(outcome.text()).get("", set()), outcome.text())

    def test_setup(self) -> None:
        """What runs before the build is no part of a later one."""
        files = {"Makefile": "a: conf\n\tcat conf h.h > a\n", "setup.mk": "conf:\n\tcp list conf\n", **FILES}
        with support.Project(files) as project:
            outcome = project.record(options=["--missing", "--fresh", "--setup", "make -f setup.mk"])
        self.assertEqual((1, {("a", "h.h")}), (outcome.status, violations(outcome.text()).get(project.folder.name, set())), outcome.text())

    def test_example(self) -> None:
        with support.Project() as project:
            project.copy(support.TOP / "examples" / "gnu-make")
            outcome = project.record(["make", "-f", "Makefile-fixed"], ["--missing"])
            project.sh("make -s clean; sed -i '/^-include/d' Makefile")
            without = project.record(options=["--missing"])
        self.assertEqual(0, outcome.status, outcome.text())
        self.assertIn("NOTHING MISSING", outcome.text())
        said = (support.TOP / "examples" / "gnu-make" / "README.md").read_text().partition("    MISSING")[2].split("\n\n")[0]
        self.assertIn("MISSING" + said.replace("\n    ", "\n"), without.text())
