"""What a make says by the library that it has while a build is recorded, and copies of programs that need a library."""

import os
import shutil
import subprocess
import tempfile
import unittest
from pathlib import Path
from typing import List, Sequence, Tuple
from unittest import mock

import support

from record.watch import library
from record.watch.elf import NotElf, Program
from record.make.words import read_words
from record.watch.files import files_in, open_file, read_start, without_values
from record.watch.lay import Watch, makes_of, why_silent

MAKE = str(shutil.which("make"))


class Said(unittest.TestCase):
    """The file of a make."""

    def run_make(self, makefile: str, words: Sequence[str] = ("-s",), given: bytes = b"", **more: str) -> Tuple[List[List[str]], "subprocess.CompletedProcess[bytes]"]:
        """The lines of each make that runs over a makefile, and what is printed."""
        watch = Watch(tempfile.gettempdir())
        self.addCleanup(watch.remove)
        watch.prepare(makes_of(os.environ["PATH"]))
        with support.Project({"Makefile": makefile}) as project:
            env = {**watch.environment(dict(os.environ)), **more}
            words = [str(watch.covered[os.path.realpath(MAKE)]) if watch.covered else MAKE, *words]
            ran = subprocess.run(words, cwd=project.folder, env=env, input=given, capture_output=True, check=False)
        self.place = watch.said
        found = []
        for _, _, path in files_in(watch.said):
            with open_file(path) as lines:
                found.append(lines.read().split("\n"))
        return found, ran

    def test_start(self) -> None:
        """Its words and its environment; a newline in one of them ends no line."""
        (lines,), _ = self.run_make("all: ;\n", ["-s", "X=a\nb\\n"], NAME="c\nEXIT 7")
        start = read_start(line + "\n" for line in lines)
        self.assertEqual((["-s", "X=a\nb\\n"], "c\nEXIT 7", True), (start.args, start.environment["NAME"], start.says))
        self.assertEqual("EXIT 0", lines[-2])

    def test_what_it_considers_and_runs(self) -> None:
        (lines,), ran = self.run_make("all: a b\na b: ; @echo $@\n")
        self.assertEqual(b"a\nb\n", ran.stdout)
        for text in ("Reading makefile 'Makefile'...", "Considering target file 'all'.", "Must remake target 'a'.", "# Make data base, printed on", "# Finished Make data base on"):
            self.assertIn(text, [line.strip() for line in lines])
        self.assertEqual(["(a)", "(b)"], [line.split()[3] for line in lines if line.startswith("Putting child ")])

    def test_targets_that_it_goes_over_again(self) -> None:
        """With several jobs that is whenever a child ends: it is written once, and what is new below what needs it."""
        names = ["t%d" % number for number in range(30)]
        rules = "all: {0} last\n{0}: ; @sleep .1\nlast: {0} new ; @sleep .1\nnew: t1 ; @sleep .1\n".format(" ".join(names))
        (lines,), _ = self.run_make(rules, ["-s", "-j40"])
        self.assertEqual(dict.fromkeys(names, 1), {name: sum(line.strip() == "Considering target file '%s'." % name for line in lines) for name in names})
        goals = read_words(1, 0, lines).rounds[-1]
        self.assertEqual({**dict.fromkeys(names, []), "all": [*names, "last"], "last": [*names, "new"], "new": ["t1"]}, {name: [*node.prerequisites] for name, node in goals.nodes.items()})

    def test_patterns(self) -> None:
        (lines,), _ = self.run_make("F = *.$(1)\nX := $(call F,c)\nall: $(wildcard $(X) [ab]) $(foreach d,x y,$(wildcard $d/*)) ;\n")
        self.assertEqual(["*.c", "[ab]", "x/*", "y/*"], [line[len("GLOB "):] for line in lines if line.startswith("GLOB ")])

    def test_make_that_begins_again(self) -> None:
        """It says all in one file, with a data base for each time."""
        (lines,), ran = self.run_make("include a.mk\nall: ; @echo $(A)\na.mk: ; @echo A=1 > $@\n")
        self.assertEqual((b"1\n", 2, 2), (ran.stdout, lines.count("Reading makefiles..."), lines.count("# Finished Make data base on")))

    def test_another_language(self) -> None:
        """What it says to people stays theirs."""
        (lines,), ran = self.run_make("all: ;\n", [], LANGUAGE="de", LC_ALL="C.UTF-8")
        self.assertIn("Considering target file 'all'.", lines)

    def test_makefile_that_can_be_read_once(self) -> None:
        for words, text in ((["-f", "-"], b"all: ; @echo one\n"), (["-f", "/dev/stdin"], b"all: ; @echo two\n" + b"#" * 200000)):
            with self.subTest(words):
                _, ran = self.run_make("", ["-s", *words], text)
                self.assertEqual(text[13:16], ran.stdout.strip())

    def test_makes_that_only_answer(self) -> None:
        """They print what they print without the library, and say why they are silent."""
        for words, asks in ((["-n"], "just_print_flag"), (["-q"], "question_flag"), (["-p"], "print_data_base_flag"), (["-v"], ""), (["--debug=b"], "db_level"), (["-h"], "")):
            with self.subTest(words), support.Project({"Makefile": "all: ; echo x\n"}) as project:
                (lines,), ran = self.run_make("all: ; echo x\n", words)
                start = read_start(line + "\n" for line in lines)
                self.assertEqual((False, asks), (start.says, start.asks))
                if words != ["-p"]:  # which has the time in it
                    self.assertEqual(project.plain(["make", *words]).stdout, ran.stdout.replace(b"make-0", b"make"))

    def test_recipe_that_prints_words_of_make(self) -> None:
        text = "Considering target file 'z'."
        (lines,), ran = self.run_make("all: ; @echo \"%s\"\n$(info %s)\n" % (text, text))
        self.assertEqual(((text + "\n") * 2).encode(), ran.stdout)
        self.assertNotIn(text, lines)

    def test_intermediate_files(self) -> None:
        """The line about those that make removes is one of several pieces."""
        makefile = "all: x.c\n%.c: %.b ; cp $< $@\n%.b: %.a ; cp $< $@\nx.a: ; touch $@\n.PRECIOUS: x.a\n"
        (lines,), ran = self.run_make(makefile, [])
        with support.Project({"Makefile": makefile}) as project:
            self.assertEqual(project.plain(["make"]).stdout, ran.stdout)
        self.assertIn("Removing intermediate files...", lines)

    def test_limit_on_the_size_of_files(self) -> None:
        """Make goes on as without the library, and the file says that it is cut."""
        _, ran = self.run_make("all: ; @sh -c 'ulimit -f 1; exec $(MAKE) -s -f in.mk'\n$(file >in.mk,all: ; @echo done)\n")
        self.assertEqual((0, b"done\n"), (ran.returncode, ran.stdout))
        self.assertEqual(1, len(list(self.place.glob("*.cut"))))


class Lines(unittest.TestCase):
    """The lines of a file."""

    def test_without_values(self) -> None:
        text = "ENV A=x\nENV C=x\\nendef\nSAYS 4.3\n# environment\nA = x\n# makefile\nB = x\n# environment under -e\ndefine C\nx\nendef\nendef\nD = x\n"
        self.assertEqual("ENV A=\nENV C=\nSAYS 4.3\n# environment\nA =\n# makefile\nB = x\n# environment under -e\ndefine C\nendef\nD = x\n", "".join(without_values(text.splitlines(True))))


class Elf(unittest.TestCase):
    """Copies of programs that need one more library."""

    def test_copy(self) -> None:
        with tempfile.TemporaryDirectory() as room:
            source, made, copy = Path(room, "x.c"), Path(room, "x"), Path(room, "y")
            source.write_text("#include <stdio.h>\nint shown = 7;\nint main(void) { puts(\"plain\"); return shown; }\n")
            Path(room, "l.c").write_text("#include <unistd.h>\nint puts(const char *s) { (void)s; write(1, \"library\\n\", 8); return 1; }\n")
            for words in (["-rdynamic", "-o", str(made), str(source)], ["-shared", "-fPIC", "-o", room + "/l.so", room + "/l.c"]):
                subprocess.run(["cc", "-fno-builtin", *words], check=True)
            program = Program(made.read_bytes())
            self.assertEqual((True, False), (program.shows(["shown", "main"]), program.shows(["hidden"])))
            copy.write_bytes(program.with_library(room + "/l.so"))
            copy.chmod(0o755)
            for path, text in ((made, b"plain\n"), (copy, b"library\n")):
                ran = subprocess.run([str(path)], capture_output=True, check=False)
                self.assertEqual((7, text), (ran.returncode, ran.stdout))
            again = Program(Program(copy.read_bytes()).with_library(room + "/l.so")) if sum(one.kind == 4 for one in program.segments) > 1 else program
            self.assertTrue(again.shows(["shown"]))

    def test_what_is_none(self) -> None:
        for data in (b"", b"#!/bin/sh\n", b"\x7fELF\x09\x01" + b"\0" * 60):
            with self.assertRaises(NotElf):
                Program(data)

    def test_make(self) -> None:
        self.assertEqual("", why_silent(os.path.realpath(MAKE)))


class Built(unittest.TestCase):
    """The library of a checkout."""

    def test_kept(self) -> None:
        with tempfile.TemporaryDirectory() as room, mock.patch.dict(os.environ, {"XDG_CACHE_HOME": room}), mock.patch.object(library, "INSTALLED", Path("/nowhere")):
            library.put_library(Path(room, "one.so"))
            self.assertTrue(library.kept().is_file())
            with mock.patch.object(library, "build", side_effect=AssertionError):
                library.put_library(Path(room, "two.so"))
            self.assertEqual(Path(room, "one.so").read_bytes(), Path(room, "two.so").read_bytes())
