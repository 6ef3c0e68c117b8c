"""`--fresh` where ninja builds: what stands outside of the folder, files with several names, and folders that cannot be moved or removed."""

import os
import shutil
import subprocess
import unittest
from pathlib import Path
from typing import Dict, Tuple
from unittest import mock

import support
from ninja_table import RULES, sh

from record import fresh
from record.ninja import clean

NOBODY = 65534
BUILD = ["ninja", "-C", "b"]


def state(project: support.Project) -> Dict[str, Tuple[int, int, str]]:
    """Numbers, times of files and contents of all names besides the record."""
    paths = [p for p in sorted(project.folder.rglob("*")) if ".race" not in p.parts]
    return {str(p): (p.lstat().st_ino, p.lstat().st_mtime_ns if p.is_file() else 0, p.read_text() if p.is_file() else "") for p in paths}


@unittest.skipUnless(shutil.which("ninja"), "ninja is missing (Debian: apt-get install ninja-build)")
class Copies(unittest.TestCase):
    """What the recorded build of a copy shows."""

    def recorded(self, manifest: str, setup: str, *words: str) -> support.Outcome:
        """Of a folder that is warm; it must be as it was behind that."""
        with support.Project({"b/build.ninja": RULES + manifest, "x.in": ""}) as project:
            project.sh("%s\nninja -C b -j1 > /dev/null" % setup)
            before = state(project)
            outcome = project.record(words or BUILD, ["--fresh"])
            self.assertEqual((before, ["project"]), (state(project), os.listdir(project.folder.parent)), outcome.stderr.decode())
        return outcome

    def test_folder_outside_that_ninja_makes(self) -> None:
        looks = "(cd ../gen/d) 2> /dev/null && echo 1 > z; touch z"
        outcome = self.recorded(sh("../gen/d/a", "", "echo 1 > ../gen/d/a") + sh("z", "", looks), "")
        self.assertEqual(1, outcome.status, outcome.text() + outcome.stderr.decode())
        self.assertEqual(0, self.recorded(sh("../gen/d/a", "", "echo 1 > ../gen/d/a") + sh("z", "|| ../gen/d/a", looks), "").status)
        self.assertEqual(0, self.recorded(sh("../gen/d/a", "", "echo 1 > ../gen/d/a") + sh("z", "", looks), "mkdir -p gen/d; touch gen/d/kept").status)

    def test_file_with_two_names(self) -> None:
        setup = "echo 0 > b/x; ln b/x b/y"
        outcome = self.recorded(sh("a", "", "echo 1 >> x; touch a") + sh("z", "", "cat y > z"), setup)
        self.assertEqual(1, outcome.status, outcome.text() + outcome.stderr.decode())
        self.assertEqual(0, self.recorded(sh("a", "", "echo 1 >> x; touch a") + sh("z", "a", "cat y > z"), setup).status)

    def test_name_outside_of_the_folder(self) -> None:
        setup = "echo 0 > b/x; ln b/x y"
        outcome = self.recorded(sh("a", "", "echo 1 >> x; touch a") + sh("z", "", "cat ../y > z"), setup)
        self.assertEqual(2, outcome.status, outcome.text() + outcome.stderr.decode())
        self.assertIn("b/x, which has a name outside of the folder too, and the build writes it", " ".join(outcome.text().split()))
        self.assertEqual(0, self.recorded(sh("z", "", "cat x ../y > z"), setup).status)

    def test_build_that_looks_everywhere(self) -> None:
        """It does not see the folder that is kept."""
        outcome = self.recorded(sh("a", "", "find .. -name '*.in' | sort; touch a"), "touch b/y.in")
        self.assertEqual(["../b/y.in", "../x.in"], [line for line in outcome.text().splitlines() if line.endswith(".in") and line.startswith("..")])

    def test_folder_inside_that_was_built_too(self) -> None:
        """What its ninja made goes too, and what that knows of headers."""
        inner = "mkdir b/c; printf 'rule sh\\n  command = $c\\nbuild i: sh\\n  c = touch i\\n' > b/c/build.ninja"
        outcome = self.recorded(sh("a", "", "ninja -C c; touch a"), inner)
        self.assertEqual(0, outcome.status, outcome.text())
        self.assertIn(", without 1 file that an earlier build left (c/i)\n", outcome.text())


@unittest.skipUnless(shutil.which("ninja"), "ninja is missing (Debian: apt-get install ninja-build)")
class Places(unittest.TestCase):
    """Where the folder is meanwhile, and what stands in its place."""

    def test_folder_that_cannot_be_moved(self) -> None:
        with self.assertRaisesRegex(clean.CannotClean, r"/proc/sys, and the folder cannot get another name meanwhile \(.*\): run it as root"):
            with fresh.moved("/nowhere", "/proc/sys"):
                self.fail("it was moved")

    def test_outputs_beside_the_home_folder(self) -> None:
        with support.Project({"b/build.ninja": RULES + sh("../g", "", "echo 1 > ../g"), "home/x": ""}) as project, mock.patch.dict(os.environ, HOME=str(project.folder / "home")):
            project.sh("ninja -C b > /dev/null")
            outcome = project.record(BUILD, ["--fresh"])
        self.assertEqual(3, outcome.status)
        self.assertIn("/g, and --fresh does not copy all of %s for that: clean the folder" % os.path.realpath(project.folder), outcome.stderr.decode())

    def test_signal_at_each_step(self) -> None:
        """Behind each change of a name there is a signal once. All comes back, also where nobody may mount."""
        bare = ["setpriv", "--bounding-set=-sys_admin"] if os.geteuid() == 0 else []
        with support.Project({"b/build.ninja": RULES + sh("../gen/a", "", "echo 1 > ../gen/a")}) as project:
            project.sh("ninja -C b > /dev/null")
            before = state(project)
            words = [str(support.RECORDER), "--once", "--race", support.race_program(), "--fresh", "--", *BUILD]
            for number in range(1, 19):
                inject = [*bare, "strace", "-o", os.devnull, "-e", "inject=rename,renameat,renameat2:signal=TERM:when=%d" % number]
                ended = subprocess.run([*inject, *words], cwd=project.folder, capture_output=True, timeout=support.SECONDS, check=False)
                self.assertEqual((before, ["project"]), (state(project), os.listdir(project.folder.parent)), (number, ended.stderr.decode()))
                if ended.returncode != 3:
                    break
            self.assertEqual((0, True), (ended.returncode, number > 4), ended.stderr.decode())

    def test_folders_that_may_not_be_written(self) -> None:
        """They go too, and the project comes back."""
        with support.Project({"b/d/e/f": "", "kept/g": ""}) as project:
            folder = project.folder / "b"
            for path in (folder / "d" / "e", folder / "d"):
                path.chmod(0o555)
            if os.geteuid() == 0:
                for path in (project.folder.parent, project.folder, folder, folder / "d", folder / "d" / "e"):
                    os.chown(path, NOBODY, NOBODY)
            child = os.fork()
            if child == 0:
                try:
                    if os.geteuid() == 0:
                        os.setuid(NOBODY)
                    fresh.come_back(str(folder), str(project.folder / "kept"))
                finally:
                    os._exit(0)
            os.waitpid(child, 0)
            self.assertEqual(["b", "b/g"], sorted(str(path.relative_to(project.folder)) for path in project.folder.rglob("*")))
