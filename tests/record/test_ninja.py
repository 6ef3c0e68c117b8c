"""Records small projects that ninja builds; ninja_table.py says what each must come to."""

import os
import re
import shutil
import unittest
from typing import Callable, Dict, List, Tuple

import support
from ninja_table import CASES, CC, NONE, RULES, Case


def test_of(case: Case) -> Callable[[unittest.TestCase], None]:
    """The test of one case."""

    def test(self: unittest.TestCase) -> None:
        if case.is_new and not support.is_new_ninja():
            self.skipTest("ninja 1.11 has that, and later versions")
        with support.Project({"build.ninja": RULES + case.manifest, **case.files} if case.manifest else case.files) as project:
            project.sh(case.setup)
            outcome = project.record(case.words.split(), case.options, once=not case.is_tried)
            found = support.missing(project.folder) if (project.folder / ".ninja_deps").exists() else []
        text = outcome.text() + outcome.stderr.decode()[-800:]
        self.assertEqual(case.want, outcome.status, text)
        for one in case.says:
            self.assertIn(one, outcome.text())
        if case.races >= 0:
            self.assertEqual(case.races, len(re.findall(r"(?m)^RACE", outcome.text())), text)
        if any(one.startswith("WARM") for one in case.says):
            self.assertRegex(outcome.text(), r"(?m)^WARM")
        elif case.want != NONE and not case.is_lie:
            self.assertLessEqual(set(found), set(support.races_of(outcome.text())), "what ninja finds is among the races")
        if case.missing >= 0:
            wanted = case.missing if support.is_new_ninja() else 0
            self.assertEqual(wanted, len(found), text)

    return test


@unittest.skipUnless(shutil.which("ninja"), "ninja is missing (Debian: apt-get install ninja-build)")
class Ninja(unittest.TestCase):
    """A test for each case."""

    @unittest.skipUnless(support.is_new_ninja(), "ninja 1.11 has that, and later versions")
    def test_ninja_behind_another_one(self) -> None:
        """They come in the order of the script, whatever ninja itself finds."""
        manifest = "rule g\n  command = echo x > $out\nrule c\n  command = cat g.h > $out && echo '$out: g.h' > $out.d\n  depfile = $out.d\n  deps = gcc\nbuild g.h: g\nbuild a: c\n"
        for words, status in (("ninja g.h && ninja", 0), ("ninja", 1)):
            with support.Project({"build.ninja": manifest}) as project:
                outcome = project.record(["sh", "-c", words])
            self.assertEqual(status, outcome.status, outcome.text())


@unittest.skipUnless(shutil.which("ninja"), "ninja is missing (Debian: apt-get install ninja-build)")
class Companions(unittest.TestCase):
    """What reads a record of ninja."""

    def test_report_and_confirmation(self) -> None:
        manifest = RULES + "build g: sh\n  c = echo 1 > g\nbuild a: sh\n  c = cat g > a\n"
        with support.Project({"build.ninja": manifest}) as project:
            project.record(["ninja"])
            report = project.plain([str(support.TOP / "report" / "race-report"), "--race", support.race_program()])
            confirmed = project.plain([str(support.TOP / "confirm" / "race-confirm"), "--race", support.race_program()])
        self.assertIn("  fix: build a: .. || g          (checked: ends this race)\n", report.stdout.decode(), report.stderr.decode())
        self.assertIn("All fixes, with these lines the build is safe (checked):\n    build a: .. || g\n", report.stdout.decode())
        self.assertIn("CONFIRMED  all of a before g:\n", (confirmed.stdout + confirmed.stderr).decode())


@unittest.skipUnless(shutil.which("ninja"), "ninja is missing (Debian: apt-get install ninja-build)")
class Hints(unittest.TestCase):
    """What is said of a build that fails with one command at a time."""

    def failed(self, needs: str) -> support.Outcome:
        """A reader that always fails, and that waits for what it reads or does not."""
        manifest = RULES + "build g: sh\n  c = echo 1 > g\nbuild a: sh %s\n  c = cat g h; false\nbuild h: sh\n  c = echo 2 > h\n" % needs
        with support.Project({"build.ninja": manifest}) as project:
            return project.record(["ninja"])

    def test_absent_files_first(self) -> None:
        outcome = self.failed("")
        self.assertEqual(2, outcome.status)
        found = re.findall(r"(?m)^HINT  (.*)", re.sub(r"\n +", " ", outcome.text()))
        self.assertEqual(["a looks for h, which h makes, and does not wait for it", "a looks for g, which g makes, and does not wait for it"], found)
        self.assertIn(b"recording again with -j4 (3 of 3)", outcome.stderr)
        self.assertNotIn(b"(4 of", outcome.stderr)

    def test_last_build_stays(self) -> None:
        """What was made before the last of these builds failed is there, as after a build that nobody recorded."""
        with support.Project({"build.ninja": RULES + "build g: sh\n  c = echo 1 > g\nbuild a: sh g\n  c = false\n"}) as project:
            self.assertEqual((2, True), (project.record(["ninja"]).status, (project.folder / "g").is_file()))

    def test_none_where_it_waits(self) -> None:
        outcome = self.failed("|| g h")
        self.assertEqual((2, False), (outcome.status, "looks for" in outcome.text()))


@unittest.skipUnless(shutil.which("ninja"), "ninja is missing (Debian: apt-get install ninja-build)")
class Parallel(unittest.TestCase):
    """A record of commands side by side says what a serial one says."""

    def test_same_tasks(self) -> None:
        rows = "".join("build o%d: sh h%d\n  c = cat h%d > o%d; echo x >> log%d\nbuild h%d: sh\n  c = echo > h%d\n" % (n, n, n, n, n % 3, n, n) for n in range(9))
        with support.Project({"build.ninja": RULES + rows}) as project:
            first = project.record(["ninja"])
            serial = support.tasks_of(project.folder)
            project.sh("rm -rf o? h? log? .ninja* .race")
            second = project.record(["sh", "-c", "ninja -j4"])
            parallel = support.tasks_of(project.folder)
        self.assertEqual((1, 1), (first.status, second.status), first.text() + second.text())
        self.assertEqual(serial.keys(), parallel.keys())
        for label, task in serial.items():
            self.assertEqual({k: sorted(v) for k, v in task.items()}, {k: sorted(v) for k, v in parallel[label].items()})


@unittest.skipUnless(shutil.which("ninja"), "ninja is missing (Debian: apt-get install ninja-build)")
class Fresh(unittest.TestCase):
    """`--fresh`: a clean copy is recorded, and the folder stays as it was."""

    def state(self, project: support.Project) -> Dict[str, Tuple[int, str]]:
        """Times and contents of all files besides the record."""
        paths = [p for p in sorted(project.folder.rglob("*")) if ".race" not in p.parts]
        return {str(p): (p.lstat().st_mtime_ns, p.read_text() if p.is_file() else "") for p in paths if p.name != "project"}

    def both(self, words: List[str], below: str) -> None:
        """A warm folder with a race that only a cold build shows."""
        manifest = RULES + "build d/g: sh\n  c = echo 1 > d/g\nbuild a: sh\n  c = cat d/g > a; echo x >> left\n"
        with support.Project({below + "build.ninja": manifest, "x": ""}) as project:
            project.sh("cd ./%s; ninja -j1 > /dev/null; rm a" % below)
            warm = project.record(words)
            self.assertEqual(2, warm.status, warm.text())
            before = self.state(project)
            outcome = project.record(words, ["--fresh"])
            self.assertEqual(before, self.state(project))
            self.assertEqual(1, outcome.status, outcome.text() + outcome.stderr.decode())
            self.assertNotIn("WARM", outcome.text())
            self.assertEqual([], list(project.folder.parent.rglob("*.race-saved")))

    def test_folder_below(self) -> None:
        self.both(["ninja", "-C", "b"], "b/")

    def test_own_folder(self) -> None:
        self.both(["ninja"], "")

    def test_logs_go(self) -> None:
        """What an earlier build knows of headers orders nothing in the copy: the reader may come first, and is seen to."""
        manifest = RULES + CC + "build a.o: cc a.c\n" + "build g.h: late\n  c = echo > g.h\n"
        with support.Project({"build.ninja": manifest, "a.c": "#if __has_include(\"g.h\")\n#include \"g.h\"\n#endif\nint a;\n"}) as project:
            project.sh("ninja g.h a.o > /dev/null; test -f .ninja_deps; cp .ninja_deps kept")
            project.record(["sh", "-c", "test ! -s .ninja_deps && ninja -j1"], ["--fresh"])
            record, _ = project.left()
        self.assertEqual([], (record or {"holes": ["none"]})["holes"])

    def test_pipe_and_socket_with_names(self) -> None:
        for text in ("import os; os.mkfifo('b/deep/x')", "import socket; socket.socket(socket.AF_UNIX).bind('b/deep/x')"):
            with support.Project({"b/build.ninja": RULES + "build a: sh\n  c = touch a\n", "b/deep/.keep": ""}) as project:
                project.plain(["python3", "-c", text])
                self.assertEqual(0, project.record(["ninja", "-C", "b"], ["--fresh"]).status)
                self.assertTrue(os.path.lexists(project.folder / "b" / "deep" / "x"))

    def test_outputs_outside_come_back(self) -> None:
        """What `ninja -t clean` takes away outside of the folder, also where the recorded build does not make it again."""
        manifest = RULES + "build ../g: sh\n  c = echo 1 > ../g\nbuild ../h: sh\n  c = echo 2 > ../h\nbuild a: sh ../g\n  c = cat ../g > a\n"
        with support.Project({"b/build.ninja": manifest}) as project:
            project.sh("ninja -C b -j1 > /dev/null; touch -d 2001-01-01 g h")
            before = self.state(project)
            outcome = project.record(["ninja", "-C", "b", "a"], ["--fresh"])
            self.assertEqual((before, 0), (self.state(project), outcome.status), outcome.text() + outcome.stderr.decode())

    def test_folder_that_holds_something(self) -> None:
        """An output that is a folder is not removed, and its statement runs all the same."""
        manifest = RULES + "build d: sh\n  c = mkdir -p d; echo 1 > d/f\nbuild a: sh\n  c = cat d/f > a\n"
        with support.Project({"build.ninja": manifest}) as project:
            project.sh("ninja -j1 > /dev/null")
            outcome = project.record(["ninja"], ["--fresh"])
        self.assertEqual(1, outcome.status, outcome.text() + outcome.stderr.decode())
        self.assertIn("RACE  d/f", outcome.text())

    def says(self, project: support.Project, text: str, *words: str) -> None:
        """What is said where nothing can be recorded, in lines."""
        outcome = project.record(words, ["--fresh"])
        self.assertEqual((3, text), (outcome.status, outcome.stderr.decode()))

    def test_folder_of_a_run_that_was_killed(self) -> None:
        with support.Project({"b c/build.ninja": RULES, "b c.race-saved/kept": "k"}) as project:
            own = "'%s'" % os.path.realpath(project.folder / "b c")
            saved = own[:-1] + ".race-saved'"
            text = ("race-record: %s is there: another --fresh runs now, or was killed before it put it back\n  it is your folder as it was: rm -rf %s && mv %s %s\n"
                    "  %s is a copy of it. If you have worked in the copy since, keep that, and remove %s\n" % (saved, own, saved, own, own, saved))
            self.says(project, text, "ninja", "-C", "b c")
            project.sh("rm 'b c/build.ninja'")
            self.says(project, text, "ninja", "-C", "b c")
            project.sh("rmdir 'b c'")
            self.says(project, text, "ninja", "-C", "b c")
            self.assertEqual("k", (project.folder / "b c.race-saved" / "kept").read_text())

    def test_folder_that_cannot_be_cleaned(self) -> None:
        with support.Project({"b/build.ninja": "build a: none\n"}) as project:
            outcome = project.record(["ninja", "-C", "b"], ["--fresh"])
            self.assertEqual((3, "race-record: %s/b cannot be cleaned: build.ninja: no manifest of ninja: 'none'" % os.path.realpath(project.folder)),
                             (outcome.status, outcome.stderr.decode().splitlines()[-1]))
            self.assertEqual(["b"], sorted(path.name for path in project.folder.iterdir()))


for case in CASES:
    setattr(Ninja, "test_" + case.name.replace("-", "_"), test_of(case))
