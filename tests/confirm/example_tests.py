"""The examples with a race, built with programs that stand in for compilers: each race does harm, and its fix has none to confirm."""

from __future__ import annotations

import os
from collections.abc import Callable
from pathlib import Path
from unittest import mock

TOP = Path(__file__).resolve().parents[2]
EXAMPLES = TOP / "examples"
CC = """#!/bin/sh
out= object= files=
while [ $# -gt 0 ]; do
  case $1 in -c) object=yes ;; -o) out=$2; shift ;; -*) ;; *) files="$files $1" ;; esac
  shift
done
[ "$object" ] && : "${out:=$(basename $files .c).o}"
for file in $files; do
  echo "$file: a warning" >&2
  cat $file $(sed -n 's/^#include "\\(.*\\)"/\\1/p' $file) || exit 1
done > "$out"
"""
YACC = """#!/bin/sh
name=y header= file=
while [ $# -gt 0 ]; do
  case $1 in -b) name=$2; shift ;; -p) shift ;; -d) header=yes ;; *) file=$1 ;; esac
  shift
done
cat $file > $name.tab.c
[ ! "$header" ] || cat $file > $name.tab.h
"""
FORMAT = """#!/bin/sh
if [ "$1" = -i ]; then shift; for file; do sed 's/^/  /' $file > $file.t && mv $file.t $file; done; else sed 's/^/  /' "$1"; fi
"""
TOOLS = {"cc": CC, "yacc": YACC, "clang-format": FORMAT}
TEXTS = {"lex.c": '#include "keywords.h"\n', "tools/table.awk": '{ print "x " $0 }\n', "tests/run.sh": "test -s $1\n"}
HEADERS = {"generated-header": "keywords.h", "two-outputs": "gram.h"}


class ExampleTests:
    """The tests; the runner mixes them with what runs them."""

    project: Path
    record: Callable[..., None]
    check: Callable[..., str]

    def lay(self, name: str, makefile: str) -> None:
        """The files of an example before a build, with one of its makefiles."""
        for path in (EXAMPLES / name / "listing").read_text().split():
            text = f'#include "{HEADERS[name]}"\n' if path == "main.c" and name in HEADERS else TEXTS.get(path, f"text of {path}\n")
            (self.project / path).parent.mkdir(parents=True, exist_ok=True)
            (self.project / path).write_text(text)
        (self.project / "makefile").write_text((EXAMPLES / name / makefile).read_text())

    def try_both(self, name: str, race: str, makefile: str = "makefile", fixed: str = "makefile-fixed", goals: tuple[str, ...] = (),
                 prepare: str = "") -> None:
        """A race of an example is confirmed; its fix has none."""
        tools = self.project.parent / "tools"
        tools.mkdir()
        for tool, text in TOOLS.items():
            (tools / tool).write_text(text)
            (tools / tool).chmod(0o755)
        with mock.patch.dict(os.environ, {"PATH": f"{tools}:{os.environ['PATH']}", "CC": "gcc"}):
            self.lay(name, makefile)
            self.record("make", *goals)
            self.check(1, "CONFIRMED  ", words=(race, "--prepare", prepare) if prepare else (race,))
            for path in sorted(self.project.rglob("*"), reverse=True):
                path.rmdir() if path.is_dir() else path.unlink()
            self.lay(name, fixed)
            self.record("make", *goals, wanted=0)
            self.check(0, "The record has no race: there is nothing to confirm.")

    def test_example_generated_header(self) -> None:
        self.try_both("generated-header", "keywords.h", "makefile-forgotten", "makefile")

    def test_example_shared_temporary(self) -> None:
        self.try_both("shared-temporary", "y.tab.c")

    def test_example_two_outputs(self) -> None:
        self.try_both("two-outputs", "1")

    def test_example_made_folder(self) -> None:
        self.try_both("made-folder", "1")

    def test_example_archive(self) -> None:
        self.try_both("archive", "libutil.a")

    def test_example_shared_log(self) -> None:
        self.try_both("shared-log", "1")

    def test_example_install_before_build(self) -> None:
        self.try_both("install-before-build", "hello", goals=("all", "install"))

    def test_example_formatter(self) -> None:
        self.try_both("formatter", "1", prepare="rm -f main.o greet.o hello")
