"""Races of ninja's commands: those that do harm are confirmed, also where a recipe of make runs ninja; their fixes are not."""

from __future__ import annotations

import os
import shutil
import unittest
from collections.abc import Callable, Mapping
from pathlib import Path
from unittest import mock

HEAD = "rule sh\n  command = $c\nrule cc\n  command = cc -I. -c $in -o $out -MD -MF $out.d\n  depfile = $out.d\n  deps = gcc\n"
GEN = "build g: sh\n  c = echo 1 > g\n"
USE = "build a: sh\n  c = cat g > a || echo none > a\n"
TEMPORARY = "".join(f"build {it}: sh\n  c = echo {it} > t; mv t {it}\n" for it in "ab")
HARMLESS = "".join(f"build {it}: sh\n  c = echo same > shared; touch {it}\n" for it in "xy")
INNER = {"Makefile": "all: x y\nx: ; ninja\ny: ; cat a > y || touch y\n", "build.ninja": HEAD + GEN + USE.replace("sh\n", "sh g\n")}
HEADER = {"main.c": '#if __has_include("g.h")\n#include "g.h"\n#endif\nint main(void) { return N; }\n'}
CMAKE = """cmake_minimum_required(VERSION 3.13)
project(p C)
add_custom_command(OUTPUT gen.h COMMAND echo "int n;" > gen.h)
add_custom_target(header ALL DEPENDS ${CMAKE_BINARY_DIR}/gen.h)
add_custom_target(user ALL COMMAND cat gen.h > use.txt || echo none > use.txt)
"""


@unittest.skipUnless(shutil.which("ninja"), "ninja is missing")
class NinjaTests:
    """The tests; the runner mixes them with what runs them."""

    project: Path
    record: Callable[..., None]
    check: Callable[..., str]
    assertEqual: Callable[..., None]

    def manifest(self, text: str, others: Mapping[str, str] | None = None) -> None:
        """The files of a project."""
        for name, it in {"build.ninja": HEAD + text, **(others or {})}.items():
            (self.project / name).write_text(it)

    def test_forgotten(self) -> None:
        self.manifest(GEN + USE)
        self.record("ninja")
        self.check(1, "CONFIRMED  all of a before g:\n", "a: line 1 is `none`, and `1` after a serial build", "fix: build a: .. || g",
                   "not where the two ran in the order of the serial build")

    def test_the_fix_is_not_confirmed(self) -> None:
        self.manifest(GEN + USE)
        self.record("ninja")
        self.manifest(GEN + USE.replace("sh\n", "sh || g\n"))
        self.check(0, "NOT CONFIRMED in ", "the schedule did not come about")

    def test_overlapping(self) -> None:
        self.manifest(TEMPORARY)
        self.record("ninja")
        self.check(1, "CONFIRMED  all of b while a is held before `mv` renames it:\n", "mv: cannot stat 't'")

    def test_overlapping_fixed(self) -> None:
        self.manifest(TEMPORARY)
        self.record("ninja")
        self.manifest(TEMPORARY.replace("> t; mv t", "> $out.t; mv $out.t"))
        self.check(2, "cannot be held")

    def test_harmless(self) -> None:
        self.manifest(HARMLESS)
        self.record("ninja")
        self.check(0, "NOT CONFIRMED in 2 tries: each left what the serial build leaves", words=("--runs", "2"))

    def test_a_harmful_race_beside_a_harmless_one(self) -> None:
        self.manifest(HARMLESS + TEMPORARY + "build late: sh x y a b\n  c = cat a b > late\n")
        self.record("ninja")
        self.check(0, "race 1 of 2: shared\n", "NOT CONFIRMED", words=("shared", "--runs", "3"))
        self.check(1, "race 2 of 2: t\n", words=("t",))

    def test_header_that_the_log_of_an_earlier_build_knows(self) -> None:
        self.manifest("build g.h: sh\n  c = echo '#define N 0' > g.h\nbuild main.o: cc main.c\n", HEADER)
        self.record("ninja")
        self.assertEqual(True, (self.project / ".ninja_deps").exists())
        self.check(1, "CONFIRMED  all of main.o before g.h:\n", "the build fails with status 1")

    def test_ninja_by_its_path_with_jobs_of_its_own(self) -> None:
        self.manifest(GEN + USE + "".join(f"build r{it}: sh\n  c = echo {it} >> rest; touch r{it}\n" for it in range(6)),
                      {"all": f"{shutil.which('ninja')} -j4 a g\n"})
        self.record("sh", "./all")
        # (with four jobs nothing says which of the two is first in the build that is recorded)
        self.check(1, "\nCONFIRMED  all of ")

    def test_pool_of_one(self) -> None:
        self.manifest("pool one\n  depth = 1\n" + "".join(f"build {it}: sh\n  c = echo {it} > t; mv t {it}\n  pool = one\n" for it in "ab"))
        self.record("ninja")
        self.check(0, "NOT CONFIRMED", "the schedule did not come about", words=("--runs", "3"))

    def test_recipe_of_make_that_runs_ninja(self) -> None:
        self.manifest(GEN + USE, {"Makefile": "all: x y\nx: ; ninja\ny: ; touch y\n"})
        self.record("make")
        self.check(1, "CONFIRMED  all of a before g:\n")

    def test_recipe_of_make_beside_one_that_runs_ninja(self) -> None:
        for name, it in INNER.items():
            (self.project / name).write_text(it)
        self.record("make")
        self.check(1, "CONFIRMED  all of y before x:\n", "line 1 is missing")

    def test_ninja_below_ninja(self) -> None:
        (self.project / "sub").mkdir()
        self.manifest("build x: sh\n  c = ninja -C sub && touch x\nbuild z: sh\n  c = touch z\n", {"sub/build.ninja": HEAD + GEN + USE})
        self.record("ninja")
        self.check(1, "CONFIRMED  all of a before g:\n", "sub/a: line 1 is `none`")

    def test_without_mounts(self) -> None:
        with mock.patch("confirm.room.can_enter", return_value=False):
            self.manifest(GEN + USE)
            self.record("ninja")
            self.check(1, "CONFIRMED  all of a before g:\n")

    @unittest.skipUnless(shutil.which("cmake"), "cmake is missing")
    def test_cmake(self) -> None:
        (self.project / "CMakeLists.txt").write_text(CMAKE)
        assert os.system(f"cmake -G Ninja -S '{self.project}' -B '{self.project}/b' > /dev/null") == 0
        self.record("cmake", "--build", "b")
        self.check(1, "CONFIRMED  all of ", "fix: add_dependencies(user header)")  # (which of the two is first differs with the version of CMake)
