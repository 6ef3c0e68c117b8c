"""Projects of CMake and Meson that ninja builds, each with a fault and without, and one of CMake for make; `ninja -t missingdeps` finds no more than we do."""

import os
import re
import shutil
import unittest
from typing import Dict, List

import support
from support import is_new_ninja, missing, races_of

GENERATOR = "#!/bin/sh\necho '#define N 1' > \"$1\"\necho hidden > \"$(dirname \"$1\")/hidden.txt\"\n"
SLOW = "#!/bin/sh\ncase \"$*\" in *main.c*) sleep 2;; esac\nexec cc \"$@\"\n"
MAIN = "#include \"gen.h\"\nint main(void) { return N - 1; }\n"
CMAKE = """cmake_minimum_required(VERSION 3.13)
project(p C)
add_custom_command(OUTPUT gen.h COMMAND sh ${CMAKE_SOURCE_DIR}/gen.sh ${CMAKE_BINARY_DIR}/gen.h DEPENDS gen.sh)
add_custom_target(header DEPENDS ${CMAKE_BINARY_DIR}/gen.h)
add_executable(good good.c ${CMAKE_BINARY_DIR}/gen.h)
add_executable(prog main.c)
target_include_directories(prog PRIVATE ${CMAKE_BINARY_DIR})
target_include_directories(good PRIVATE ${CMAKE_BINARY_DIR})
add_custom_target(use ALL COMMAND cp hidden.txt use.txt)
add_dependencies(use FIRST)
"""
OUTER = """cmake_minimum_required(VERSION 3.13)
project(outer NONE)
include(ExternalProject)
ExternalProject_Add(ext SOURCE_DIR ${CMAKE_SOURCE_DIR}/ext BINARY_DIR ext INSTALL_COMMAND "")
"""
EXTERNAL = """cmake_minimum_required(VERSION 3.13)
project(inner NONE)
add_custom_command(OUTPUT gen.h COMMAND echo 1 > gen.h)
add_custom_target(header ALL DEPENDS ${CMAKE_BINARY_DIR}/gen.h)
add_custom_target(user ALL COMMAND cat gen.h > use.txt || echo none > use.txt)
"""
MESON = """project('p', 'c')
gen = custom_target('gen', output: 'gen.h', input: 'gen.sh', command: ['sh', '@INPUT@', '@OUTPUT@'], build_by_default: true)
executable('prog', 'main.c'SOURCES, include_directories: '.')
custom_target('use', output: 'use.txt', command: ['cp', '@PRIVATE@', '@OUTPUT@']FIRST, build_by_default: true)
"""


GEN_IS_MISSING: List[str] = ["gen.h"] if is_new_ninja() else []  # what `ninja -t missingdeps` finds


def files(name: str, text: str) -> Dict[str, str]:
    """The files of a project."""
    return {name: text, "gen.sh": GENERATOR, "main.c": MAIN, "good.c": MAIN, "slow": SLOW}


@unittest.skipUnless(shutil.which("cmake"), "cmake is missing (Debian: apt-get install cmake)")
class Makefiles(unittest.TestCase):
    """CMake runs make by its whole path. Which of two targets it names first differs with its version: the fix is about who came second."""

    CUSTOM = "add_custom_command(OUTPUT gen.h COMMAND sh ${CMAKE_SOURCE_DIR}/gen.sh ${CMAKE_BINARY_DIR}/gen.h)\nadd_custom_target(header ALL DEPENDS ${CMAKE_BINARY_DIR}/gen.h)\n"
    USE = "add_custom_target(use ALL COMMAND cp hidden.txt use.txt || true)\n"
    HEAD = "cmake_minimum_required(VERSION 3.13)\nproject(p NONE)\n"

    def test_forgotten_and_ordered(self) -> None:
        for use, wanted in ((self.USE, (1, ["hidden.txt"])), (self.USE + "add_dependencies(use header)\n", (0, []))):
            with support.Project(files("CMakeLists.txt", self.HEAD + self.CUSTOM + use)) as project:
                project.sh("cmake -G 'Unix Makefiles' -S . -B b > log; cp -a b kept")
                first, later = re.findall(r"^all: CMakeFiles/(\w+)\.dir/all$", (project.folder / "b/CMakeFiles/Makefile2").read_text(), re.MULTILINE)
                plain = project.plain(["cmake", "--build", "b", "--target", "all", "-j", "1"])
                project.sh("rm -r b; mv kept b")
                outcome = project.record(["cmake", "--build", "b", "--target", "all", "-j", "1"])
            self.assertEqual(wanted, (outcome.status, races_of(outcome.text())), outcome.text() + outcome.stderr.decode()[-800:])
            self.assertEqual(plain.stdout, outcome.stdout[:len(plain.stdout)])
            self.assertEqual(wanted[0], outcome.text().count("  fix: add_dependencies(%s %s)          (checked" % (later, first)), outcome.text())

    def test_targets_side_by_side(self) -> None:
        """CMake counts what is built in files that both targets touch, and takes these away at the end."""
        text = self.HEAD + self.CUSTOM + "add_custom_command(OUTPUT other COMMAND echo 1 > other)\nadd_custom_target(use ALL DEPENDS ${CMAKE_BINARY_DIR}/other)\n"
        with support.Project(files("CMakeLists.txt", text)) as project:
            project.sh("cmake -G 'Unix Makefiles' -S . -B b > log")
            outcome = project.record(["cmake", "--build", "b"])
        self.assertEqual((0, []), (outcome.status, races_of(outcome.text())), outcome.text() + outcome.stderr.decode()[-800:])
        self.assertIn("CMakeFiles/Progress", outcome.text())


@unittest.skipUnless(shutil.which("ninja") and shutil.which("cmake"), "cmake or ninja is missing (Debian: apt-get install cmake ninja-build)")
class CMake(unittest.TestCase):
    """A header and a file of a custom command, which targets use."""

    def test_forgotten(self) -> None:
        with support.Project(files("CMakeLists.txt", CMAKE.replace("FIRST", "good"))) as project:
            project.sh("cmake -G Ninja -S . -B b > log")
            outcome = project.record(["cmake", "--build", "b"])
            found = missing(project.folder / "b")
        text = outcome.text() + outcome.stderr.decode()[-800:]
        self.assertEqual(1, outcome.status, text)
        self.assertEqual(["gen.h"], races_of(text), text)
        self.assertIn("add_dependencies(prog ", text)
        self.assertEqual(GEN_IS_MISSING, found)

    def test_hidden_file_forgotten(self) -> None:
        text = CMAKE.replace("add_dependencies(use FIRST)\n", "").replace("cp hidden.txt use.txt", "sh -c 'cp hidden.txt use.txt || true'") + "add_dependencies(prog header)\n"
        with support.Project(files("CMakeLists.txt", text)) as project:
            project.sh("cmake -G Ninja -S . -B b > log")
            outcome = project.record(["cmake", "--build", "b"])
            found = missing(project.folder / "b")
        self.assertEqual((1, ["hidden.txt"], []), (outcome.status, races_of(outcome.text()), found), outcome.text())

    def test_external_project(self) -> None:
        """A ninja that a statement starts is a build of its own, and one task of the build above."""
        for text, wanted in ((EXTERNAL, (1, ["gen.h"])), (EXTERNAL + "add_dependencies(user header)\n", (0, []))):
            with support.Project({"CMakeLists.txt": OUTER, "ext/CMakeLists.txt": text}) as project:
                project.sh("cmake -G Ninja -S . -B b > log")
                outcome = project.record(["cmake", "--build", "b"])
            self.assertEqual(wanted, (outcome.status, races_of(outcome.text())), outcome.text() + outcome.stderr.decode()[-800:])
            self.assertEqual({"ninja"}, {it["tool"] for it in outcome.builds})
            self.assertEqual(["b", "b/ext"], sorted(os.path.relpath(it["folder"], os.path.realpath(project.folder)) for it in outcome.builds))

    def test_ordered(self) -> None:
        with support.Project(files("CMakeLists.txt", CMAKE.replace("FIRST", "header") + "add_dependencies(prog header)\n")) as project:
            project.sh("cmake -G Ninja -S . -B b > log")
            outcome = project.record(["cmake", "--build", "b"])
            again = project.record(["cmake", "--build", "b", "--clean-first"])
        self.assertEqual(0, outcome.status, outcome.text())
        self.assertNotIn("WARM", outcome.text())
        self.assertEqual(0, again.status, again.text())  # what an earlier build made is removed before ninja builds, or written before it is read


@unittest.skipUnless(shutil.which("ninja") and shutil.which("meson"), "meson or ninja is missing (Debian: apt-get install meson ninja-build)")
class Meson(unittest.TestCase):
    """A header of a custom target, which a program includes, and a file that its command leaves besides."""

    @staticmethod
    def text(sources: str, first: str) -> str:
        return MESON.replace("SOURCES", sources).replace("FIRST", first).replace("'cp', '@PRIVATE@', '@OUTPUT@'", "'sh', '-c', 'cp hidden.txt use.txt || echo none > use.txt'")

    def test_forgotten(self) -> None:
        with support.Project(files("meson.build", self.text("", ""))) as project:
            project.sh("chmod +x slow; CC=$PWD/slow meson setup b > log")
            outcome = project.record(["meson", "compile", "-C", "b"])
            found = missing(project.folder / "b")
        text = outcome.text() + outcome.stderr.decode()[-800:]
        self.assertEqual((1, {"gen.h", "hidden.txt"}), (outcome.status, set(races_of(text))), text)
        self.assertIn("into the sources of 'prog'", text)
        self.assertEqual(GEN_IS_MISSING, found)

    def test_ordered(self) -> None:
        with support.Project(files("meson.build", self.text(", gen", ", depends: gen"))) as project:
            project.sh("meson setup b > log")
            outcome = project.record(["ninja", "-C", "b"])
            found = missing(project.folder / "b")
        self.assertEqual((0, []), (outcome.status, found), outcome.text() + outcome.stderr.decode()[-800:])
