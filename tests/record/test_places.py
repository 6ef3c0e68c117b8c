"""Where a person edits what a generator wrote: lines of CMakeLists.txt, and files of Meson."""

import json
import shutil
import tempfile
import unittest
from pathlib import Path
from typing import Dict

from record.places import Places

TARGET = {"backtrace": 2, "backtraceGraph": {"files": ["CMakeLists.txt", "x/own.cmake"], "nodes": [{"file": 0}, {"file": 1, "line": 3, "parent": 0}, {"file": 1, "line": 7, "parent": 1}]}}


class Spots(unittest.TestCase):
    """Folders with what a generator leaves."""

    def setUp(self) -> None:
        self.top = Path(tempfile.mkdtemp(prefix="spots-"))
        self.addCleanup(shutil.rmtree, self.top)

    def write(self, files: Dict[str, str]) -> None:
        for name, text in files.items():
            (self.top / name).parent.mkdir(parents=True, exist_ok=True)
            (self.top / name).write_text(text)

    def cmake(self, owner: str, name: str) -> object:
        """The place of what a statement of ninja writes that a target of CMake has."""
        found = Places(str(self.top / "b")).of(name, {"file": "build.ninja", "owner": {"by": "cmake", "target": owner}})
        return found and (str(Path(found[0]).relative_to(self.top)), found[1])

    def test_answers_of_cmake(self) -> None:
        """Its file API names the line, whatever macros stand there; of makefiles, too."""
        reply = "b/.cmake/api/v1/reply/"
        self.write({"b/CMakeCache.txt": "", reply + "t.json": json.dumps(TARGET),
                    reply + "codemodel-v2-1.json": json.dumps({"paths": {"source": str(self.top)}, "configurations": [{"targets": [{"name": "prog", "jsonFile": "t.json"}]}]})})
        self.assertEqual(("x/own.cmake", 7), self.cmake("prog", "m.c.o"))
        self.assertIsNone(self.cmake("other", "m.c.o"))
        places = Places(str(self.top / "b/sub"))
        for name, file in (("sub/CMakeFiles/prog.dir/all", "CMakeFiles/Makefile2"), ("gen.h", "CMakeFiles/prog.dir/build.make")):
            self.assertEqual((str(self.top / "x/own.cmake"), 7), places.of(name, {"file": file}))
        self.assertIsNone(places.of("all", {"file": "Makefile"}))

    def test_files_of_meson(self) -> None:
        self.write({"meson.build": "project('p', 'c')\nexecutable('prog', 'm.c')\n", "b/meson-info/intro-targets.json": json.dumps([
            {"name": "prog", "defined_in": str(self.top / "meson.build"), "filename": [str(self.top / "b/prog")]},
            {"name": "gen", "defined_in": str(self.top / "meson.build"), "filename": [str(self.top / "b/gen.h")]}])})
        places = Places(str(self.top / "b"))
        owners = [places.of(name, {"file": "build.ninja", "owner": {"by": "meson", "target": target}}) for name, target in (("m.c.o", "prog"), ("gen.h", ""), ("x", ""))]
        self.assertEqual([(str(self.top / "meson.build"), 1)] * 2 + [None], owners)
