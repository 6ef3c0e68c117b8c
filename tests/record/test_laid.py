"""Builds that are recorded by the library in make: whichever way make is called, and whatever a recipe sees."""

import os
import re
import shutil
import sys
import tempfile
import unittest
from pathlib import Path
from typing import Dict, Sequence, Tuple
from unittest import mock

import support
from support import races_of

from record.watch.lay import Watch, makes_of

MAKE = str(shutil.which("make"))
RACE, ORDERED = "all: a b\na: ; echo a > a\nb: ; cat a > b\n", "all: a b\na: ; echo a > a\nb: a ; cat a > b\n"
RULES = "#!%s -f\n" % MAKE
PAST = "a make ran past the recorder: "
READ_IT = "a program read make itself, and found the recorder's copy in its place: "
PRELOADED = "recipes do the same where LD_PRELOAD"


def may_lay() -> bool:
    """Whether the system gives a process mounts of its own."""
    watch = Watch(tempfile.gettempdir())
    watch.prepare(makes_of(os.environ["PATH"]))
    watch.remove()
    return bool(watch.covered)


class Secret(unittest.TestCase):
    """Values of the environment are in nothing that stays."""

    def test_record(self) -> None:
        secret = "s3cr3t-0f-the-3nv1r0nm3nt"
        files = {"Makefile": "all: a b\na: ; @echo > a\nb: ; @cat a > b; $(MAKE) -s -f in.mk\n", "in.mk": "all: ; @echo > c\n"}
        with support.Project(files) as project:
            options = ["--race", support.race_program(), "--keep-trace", "--footprints"]
            found = project.run([*options, "--", "make"], {**os.environ, "TOKEN": secret, "LINES": secret + "\nendef\n" + secret})
            kept = {path: path.read_bytes() for path in project.folder.rglob("*") if path.is_file()}
        self.assertEqual(1, found.status, found.text())
        self.assertTrue(any(path.suffix == ".make" for path in kept))
        self.assertEqual([], [path for path, data in kept.items() if secret.encode() in data])
        self.assertNotIn(secret.encode(), found.stdout + found.stderr)


class Silent(unittest.TestCase):
    """A make that cannot say what it does."""

    def test_static_program(self) -> None:
        with support.Project({"Makefile": ORDERED, "x.c": "int main(void) { return 0; }\n"}) as project:
            project.sh("mkdir bin; cc -static -o bin/gmake x.c; cc -o bin/bmake x.c")
            for name, why in (("gmake", "linked statically"), ("bmake", "shows no names")):
                with self.subTest(name):
                    found = project.record([str(project.folder / "bin" / name)])
                    self.assertEqual((3, True), (found.status, why in found.stderr.decode()), found.stderr)
            self.assertEqual(["Makefile", "bin", "x.c"], sorted(os.listdir(project.folder)))

    def test_other_make_inside(self) -> None:
        """It is no make that says anything: there is no verdict."""
        with support.Project({"Makefile": "all: ; bin/make\n", "x.c": "int main(void) { return 0; }\n"}) as project:
            project.sh("mkdir bin; cc -static -o bin/make x.c")
            found = project.record()
        self.assertEqual((2, True), (found.status, PAST + "bin/make" in found.text()), found.text())


class NoCompiler(unittest.TestCase):
    """The library of a checkout."""

    def test_no_compiler(self) -> None:
        with tempfile.TemporaryDirectory() as room, support.Project({"Makefile": ORDERED}) as project:
            tools = Path(room, "tools")
            tools.mkdir()
            for name in ("make", "strace", "sh", "env", "cat", "python3"):
                (tools / name).symlink_to(str(shutil.which(name)))
            found = project.run(["--race", support.race_program(), "--", "make"], {"XDG_CACHE_HOME": room, "HOME": room, "PATH": str(tools)})
            self.assertEqual((3, ["Makefile"]), (found.status, os.listdir(project.folder)), found.text())
        self.assertIn("cc is missing", found.stderr.decode())


class Recorded(unittest.TestCase):
    """A makefile `in.mk` or a script `rules`, with a race and in order, and the makefile above it."""

    def outcome(self, recipe: str, text: str, words: Sequence[str] = ("make",), more: Sequence[Tuple[str, str]] = ()) -> support.Outcome:
        """What a recorded build says whose one recipe calls a make."""
        files: Dict[str, str] = {"Makefile": "all: ; +%s\n" % recipe, "in.mk": text, "rules": RULES + text, **dict(more)}
        with support.Project(files) as project:
            project.sh("chmod +x rules %s" % " ".join(name for name, _ in more))
            return project.record(words)

    def wants(self, recipe: str, words: Sequence[str] = ("make",), more: Sequence[Tuple[str, str]] = ()) -> None:
        """The race is found, and the same project in order is safe."""
        for text, wanted in ((RACE, (1, ["a"])), (ORDERED, (0, []))):
            found = self.outcome(recipe, text, words, more)
            self.assertEqual(wanted, (found.status, races_of(found.text())), found.text()[-1500:] + found.stderr.decode()[-800:])

    def test_path(self) -> None:
        self.wants(MAKE + " -f in.mk")

    def test_script(self) -> None:
        self.wants("./rules all")

    def test_script_that_a_program_calls(self) -> None:
        self.wants("python3 -c 'import subprocess; subprocess.check_call([\"./rules\", \"all\"])'")

    def test_another_path(self) -> None:
        self.wants("env PATH=/usr/bin:/bin make -f in.mk")

    def test_script_as_the_command(self) -> None:
        self.wants("true", ["./build"], [("build", "#!/bin/sh\n%s -s -f in.mk\n" % MAKE)])

    def test_make_as_the_command(self) -> None:
        self.wants("$(MAKE) -f in.mk", [MAKE])

    def test_script_in_the_place_of_make(self) -> None:
        """One that stands first on PATH, and runs the make by its whole path."""
        files = {"Makefile": ORDERED, "bin/make": "#!/bin/sh\necho mine\nexec %s \"$@\"\n" % MAKE}
        with support.Project(files) as project:
            project.sh("chmod +x bin/make")
            env = {**os.environ, "PATH": "%s/bin:%s" % (project.folder, os.environ["PATH"])}
            found = project.run(["--race", support.race_program(), "--", "make", "-s"], env)
        self.assertEqual((0, "mine\nSAFE"), (found.status, found.text()[:9]), found.text())


@unittest.skipUnless(may_lay(), "the system gives no mounts of one's own")
class Covered(Recorded):
    """A copy of make lies over make."""

    def test_what_a_recipe_sees(self) -> None:
        """PATH, MAKEFLAGS and the number of jobs are the user's; nothing is left behind."""
        files = {"Makefile": "all: ; +@./rules -s\n\t+@%s -s -f in.mk\n\t@env | sort; ls -l /proc/self/fd | sed 's/.* //' | wc -l; command -v make\n" % MAKE,
                 "in.mk": "all: ; @echo $(MAKE) $(MAKEFLAGS) in.mk\n", "rules": RULES + "all: ; @echo $(MAKE)\n"}
        for words in (["make"], ["make", "-j3"], ["make", "-k", "A=b"]):
            with self.subTest(words), support.Project(files) as project:
                project.sh("chmod +x rules")
                plain, found = project.plain(words), project.record(words)
                wanted, said = (re.sub(rb"GMfifo\d+", b"GMfifo", one.stdout) for one in (plain, found))  # since GNU make 4.4 with its process
                self.assertEqual((wanted, plain.stderr), (said[:len(wanted)], found.stderr), found.text())
        self.assertEqual(b"\x7fELF", Path(MAKE).read_bytes()[:4])

    def test_make_without_an_environment(self) -> None:
        self.wants("env -i %s -j2 -f in.mk" % MAKE)

    def test_copy_of_make(self) -> None:
        """What read the make has another file, so there is no verdict; the copy says what it does all the same."""
        found = self.outcome("cp %s own; ./own -f in.mk" % MAKE, RACE)
        self.assertEqual((2, False), (found.status, PAST in found.text()), found.text())

    def test_script_whose_interpreter_a_recipe_makes(self) -> None:
        """The kernel goes by a link that nothing else reads."""
        with support.Project({"Makefile": "all: mk use\nmk: ; ln -s %s mk\nuse: ; +./rules > /dev/null || true\n" % MAKE, "rules": "#!./mk -f\nall: ; echo x > x\n"}) as project:
            project.sh("chmod +x rules")
            found = project.record()
        self.assertEqual((1, ["mk"]), (found.status, races_of(found.text())), found.text())

    def test_make_that_is_read(self) -> None:
        """It is another file than without the recorder. Who asks whether it is there sees the same."""
        for recipe, status in (("cat %s > x" % MAKE, 2), ("test -x %s && stat -c %%A %s > x" % (MAKE, MAKE), 0)):
            found = self.outcome(recipe, "all: ;\n")
            self.assertEqual((status, status == 2), (found.status, READ_IT + "cat " + MAKE in found.text()), found.text())

    def test_cover_that_is_gone(self) -> None:
        if os.geteuid() == 0:
            found = self.outcome("umount -l %s; %s -f in.mk > log" % (os.path.realpath(MAKE), MAKE), ORDERED)
            self.assertEqual((2, True), (found.status, PAST + MAKE in found.text()), found.text())

    @unittest.skipUnless(os.geteuid() == 0, "not root runs this")
    def test_another_user(self) -> None:
        for text, wanted in ((RACE, 1), (ORDERED, 0)):
            with support.Project({"Makefile": "all: ; +@chmod 777 .; %s -c \"import os; os.setuid(65534); os.execvp('make', ['make', '-f', 'in.mk'])\"\n" % sys.executable, "in.mk": text}) as project:
                project.folder.parent.chmod(0o755)
                found = project.record(once=False)
            self.assertEqual(wanted, found.status, found.text())
            self.assertNotIn("whatever the order", found.text())
            self.assertNotIn("not built in other orders", found.text())


class Preloaded(Recorded):
    """The system gives no mounts: programs load the library by LD_PRELOAD."""

    def setUp(self) -> None:
        patched = mock.patch.object(Watch, "can_be_laid", return_value=False)
        patched.start()
        self.addCleanup(patched.stop)

    def test_premise(self) -> None:
        found = self.outcome("true", ORDERED)
        self.assertEqual((0, True), (found.status, PRELOADED in " ".join(found.text().split())), found.text())

    def test_make_without_an_environment(self) -> None:
        """It has not the library: there is no verdict."""
        found = self.outcome("env -i %s -f in.mk > log" % MAKE, ORDERED)
        self.assertEqual((2, True), (found.status, PAST + MAKE in found.text()), found.text())

    def test_other_programs(self) -> None:
        """The library is not at work in them."""
        with support.Project({"Makefile": "all: ; @seq 20000; printf '%s\\n' x; python3 -c 'print(1)'\n"}) as project:
            plain, found = project.plain(["make"]), project.record()
        self.assertEqual((0, plain.stdout), (found.status, found.stdout[:len(plain.stdout)]))
