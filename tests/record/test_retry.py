"""Words with a number of jobs, what a failed build leaves, and fixes in the words of a generator."""

import os
import unittest
from typing import Dict

import support
from record.command import named_folders, source_of, tops_of, with_jobs
from record.fixes import remedy
from record.judge import Race
from record.ninja.fix import owner_of, pool_text
from record.facts import first_tree
from record.ninja.manifest import Manifest, read_manifest
from record.ninja.retry import undo
from record.ninja.runs import options_of
from record.trace.lives import Life

HEAD = "# ninja log v5\n"


def manifest_of(text: str) -> Manifest:
    """A manifest of one file."""
    return read_manifest("/d", "build.ninja", lambda _: text)


class Words(unittest.TestCase):
    """What is added to a command, and what it says of itself."""

    def test_commands_that_surely_run_ninja(self) -> None:
        for words, wanted in (("ninja", "ninja -j1"), ("/usr/bin/ninja -C b all", "/usr/bin/ninja -C b all -j1"), ("ninja -- x", "ninja -j1 -- x"),
                              ("meson compile -C b", "meson compile -C b -j1"), ("meson test", "meson test"), ("make -j4", "make -j4"), ("./build.sh", "./build.sh")):
            self.assertEqual(wanted.split(), with_jobs(words.split(), 1), words)

    def test_cmake_where_ninja_builds(self) -> None:
        cache = "# x\nCMAKE_GENERATOR:INTERNAL=%s\n"
        with support.Project({"b/CMakeCache.txt": cache % "Ninja", "m/CMakeCache.txt": cache % "Unix Makefiles", "m/build.ninja": ""}) as project:
            ninja, make = str(project.folder / "b"), str(project.folder / "m")
            self.assertEqual(["cmake", "--build", ninja, "-j1"], with_jobs(["cmake", "--build", ninja], 1))
            self.assertEqual(["cmake", "--build", ninja, "--", "-v", "-j1"], with_jobs(["cmake", "--build", ninja, "--", "-v"], 1))
            self.assertEqual(["cmake", "--build", ninja, "--", "-j8", "-j1"], with_jobs(["cmake", "--build", ninja, "--", "-j8"], 1))
            self.assertEqual(["cmake", "--build", make], with_jobs(["cmake", "--build", make], 1))

    def test_folders(self) -> None:
        with support.Project({"b/CMakeCache.txt": "CMAKE_HOME_DIRECTORY:INTERNAL=/usr/share\n", "m/meson-info/meson-info.json": "{\"directories\": {\"source\": \"/usr\"}}",
                              "bad/meson-info/meson-info.json": "[1]"}) as project:
            base = os.path.realpath(project.folder)
            self.assertEqual(["/usr/share", "/usr", ""], [source_of(base + "/" + name) for name in ("b", "m", "bad")])
            words = ["x", "-C", base + "/b", "-C" + base + "/none", "--directory", "/usr", "--directory=" + base, "--build", "/"]
            self.assertEqual([base + "/b", base + "/none", "/usr", base, "/", os.path.realpath(".")], named_folders(words))
            self.assertEqual([os.path.realpath("."), base, "/usr/share"], tops_of(["ninja", "-C", base + "/b"], [base]))

    def test_options_of_ninja(self) -> None:
        self.assertEqual(({"-C": "b", "-v": ""}, ["all"]), options_of(["ninja", "all", "-vCb"]))
        for words in ("ninja -n", "ninja -t clean", "ninja --version", "ninja -Z"):
            self.assertIsNone(options_of(words.split()), words)


class Undone(unittest.TestCase):
    """A tree as it was before a build that failed."""

    def both(self, events: Dict[str, str]) -> "tuple[list[str], set[str]]":
        """What cannot be set right, and the names that are left."""
        with support.Project({"old": "x", ".ninja_log": HEAD}) as project:
            top = os.path.realpath(project.folder)
            names, kept = first_tree([top], ())
            project.sh("mkdir -p d/e; touch d/e/f .ninja_deps; echo more >> .ninja_log; echo y > old")
            life = Life(1)
            life.events = {(kind, top + "/" + path): 1 for path, kinds in events.items() for kind in kinds}
            lost = undo(names, [life], kept)
            log = (project.folder / ".ninja_log").read_text()
            self.assertEqual(HEAD, log if not lost else HEAD)
            return [os.path.basename(path) for path in lost], {str(p.relative_to(project.folder)) for p in project.folder.rglob("*")}

    def test_what_was_made_is_taken_away(self) -> None:
        made = {"d": "T", "d/e": "M", "d/e/f": "CW", ".ninja_deps": "CW", ".ninja_log": "W"}
        self.assertEqual(([], {"old", ".ninja_log"}), self.both(made))

    def test_what_was_there_and_changed_stops_it(self) -> None:
        self.assertEqual(["old"], self.both({"d/e/f": "CW", "old": "W"})[0])


class Fixes(unittest.TestCase):
    """In the words of CMake, of Meson, and of a person."""

    CMAKE = ("cmake_ninja_workdir = /b/\nrule CC\n  command = cc\nrule C_EXECUTABLE_LINKER__my_prog_Debug\n  command = ld\nrule CUSTOM_COMMAND\n  command = gen\n"
             "build CMakeFiles/my_prog.dir/src/a.c.o: CC a.c\nbuild my_prog: C_EXECUTABLE_LINKER__my_prog_Debug CMakeFiles/my_prog.dir/src/a.c.o\n"
             "build gen.h: CUSTOM_COMMAND\nbuild CMakeFiles/header: phony gen.h\nbuild lone.h: CUSTOM_COMMAND\n")

    def fix(self, text: str, first: str, second: str) -> str:
        manifest = manifest_of(text)
        labels = {edge.label: {"owner": owner_of(edge, manifest)} for edge in manifest.edges}
        found = remedy({"tool": "ninja", "labels": labels}, Race(first, first, "writes", second, "reads"))
        return "\n".join(found.lines) or found.advice

    def test_cmake(self) -> None:
        self.assertEqual("add_dependencies(my_prog header)", self.fix(self.CMAKE, "gen.h", "CMakeFiles/my_prog.dir/src/a.c.o"))
        self.assertEqual("add_dependencies(my_prog header)", self.fix(self.CMAKE, "gen.h", "my_prog"))
        self.assertTrue(self.fix(self.CMAKE, "lone.h", "my_prog").startswith("target_sources(my_prog PRIVATE lone.h)"))

    def test_makefiles_of_cmake(self) -> None:
        labels = {it: {"target": it, "file": "CMakeFiles/Makefile2"} for it in ("CMakeFiles/core.dir/all", "sub/CMakeFiles/my-app.dir/all", "CMakeFiles/app.dir/clean")}
        core, app, clean = labels
        about = {"tool": "make", "labels": {**labels, "app.o": {"target": "CMakeFiles/app.dir/all", "file": "Makefile"}}}
        lines = [remedy(about, Race("gen.h", core, "writes", it, "reads")).lines[0] for it in (app, clean, "app.o", "nothing")]
        self.assertEqual(["add_dependencies(my-app core)", "%s: %s" % (clean, core), "CMakeFiles/app.dir/all: " + core, "nothing: " + core], lines)

    def test_cmake_with_a_user(self) -> None:
        used = self.CMAKE + "build cmake_object_order_depends_target_user: phony gen.h lone.h\nbuild CMakeFiles/other.dir/b.c.o: CC b.c || cmake_object_order_depends_target_user\n"
        before = used.replace("build CMakeFiles/header", "build cmake_object_order_depends_target_first: phony gen.h\nbuild CMakeFiles/header")
        for text in (used, before):
            self.assertEqual("add_dependencies(my_prog header)", self.fix(text, "gen.h", "my_prog"))
        self.assertEqual("add_custom_target(make_lone_h DEPENDS lone.h)\nadd_dependencies(my_prog make_lone_h)\nadd_dependencies(user make_lone_h)", self.fix(used, "lone.h", "my_prog"))

    def test_meson(self) -> None:
        text = "rule REGENERATE_BUILD\n  command = meson\nrule c\n  command = cc\nbuild liblate.so.1.p/a.c.o: c a.c\nbuild gen.h: c g\n"
        self.assertIn("into the sources of 'late'", self.fix(text, "gen.h", "liblate.so.1.p/a.c.o"))

    def test_person(self) -> None:
        self.assertEqual("build a: .. || g", self.fix("rule r\n  command = x\nbuild a: r\nbuild g: r\n", "g", "a"))

    def test_pools(self) -> None:
        labels = {"a": {"pool": "p"}, "b": {"pool": "p"}, "c": {"pool": ""}, "d": {"pool": ""}}
        self.assertIn("in the pool p", pool_text(labels, "a", "b"))
        self.assertEqual("", pool_text(labels, "c", "d") + pool_text(labels, "a", "c"))
