"""The reader of build.ninja, compared with ninja itself: commands with `-t compdb`, inputs with `-t query`."""

import json
import re
import shutil
import subprocess
import unittest
from pathlib import Path
from typing import Dict, List, Set

import support
from record.ninja.manifest import Edge, Manifest, Unreadable, read_manifest

RULES = "rule cc\n  command = cc $flags -c $in -o $out\n  depfile = $out.d\nrule cp\n  command = cp $in $out\n"
MANIFESTS: Dict[str, Dict[str, str]] = {
    "sections": {"build.ninja": RULES + "build a.o x.log | y.log: cc a.c b.c | h1 h2 || gen |@ check\nbuild gen: cp g\nbuild check: cp c\nbuild all: phony a.o\n"},
    "scopes": {"build.ninja": "flags = -O\n" + RULES + "flags = -O1\nbuild a.o: cc a.c\nbuild b.o: cc b.c\n  flags = $flags -g\nflags = -O2\nbuild c.o: cc c.c\n  other = 1\n"},
    "files": {"build.ninja": "v = top\nflags = 1\ninclude sub/rules.ninja\nsubninja sub/other.ninja\nsubninja $v.ninja\nbuild z: cp y\nbuild w.o: cc w.c\n",
              "sub/rules.ninja": RULES + "flags = $v-2\n", "sub/other.ninja": "flags = mine\nrule cp\n  command = ln $in $out\nbuild o.o: cc o.c\nbuild o2: cp o1\n",
              "top.ninja": "v = low\nbuild t.o: cc t.c\n  flags = $flags $v\n"},
    "escapes": {"build.ninja": RULES + "d = dollar\nbuild a$ b.o c$:d.o: cc in$ 1 $d$$x it's ${d}.c p$:q\nbuild (x): cp y&z\nrule sh\n  command = echo $$HOME $\n      '$in' $ two\n"
                "build long: sh one $\n    two $\n  three\nbuild q: sh \"q\n"},
    "newlines": {"build.ninja": "rule r\n  command = tool @$out.rsp $in_newline\n  rspfile = $out.rsp\n  rspfile_content = $in_newline\nbuild 'o': r a b$ c\n"},
    "paths": {"build.ninja": RULES + "build ./d//x/../a.o: cc ../s/./a.c /abs//b.c\nbuild e/: cp d/a.o\nbuild f: cp ./d/./a.o\n"},
    "overridden": {"build.ninja": "command = echo from the file\nrule r\n  command = echo $description\n  description = of $out\nbuild a: r b\nbuild c: r d\n  description = mine\n"},
    "comments": {"build.ninja": "# one $\nrule r\n  # two\n  command = echo # $in\n\nbuild a: r b # c\n"},
    "cleared": {"build.ninja": "rule r\n  command = x $in\n  pool = p\npool p\n  depth = 2\nbuild a: r b\nbuild c: r d\n  pool =\nbuild e: phony a || c\ndefault e\n"},
}


def manifest_of(folder: Path) -> Manifest:
    """What our reader makes of a folder."""
    return read_manifest(str(folder), "build.ninja", lambda path: Path(path).read_text(encoding="utf-8", errors="surrogateescape"))


def ninja(folder: Path, *words: str) -> str:
    """What ninja prints."""
    ran = subprocess.run(["ninja", "-C", str(folder), *words], capture_output=True, text=True, errors="surrogateescape", check=False, timeout=60)
    if ran.returncode:
        raise AssertionError(ran.stdout + ran.stderr)
    return ran.stdout


def asked(text: str) -> Dict[str, Set[str]]:
    """The inputs that `-t query` shows, by section."""
    found: Dict[str, Set[str]] = {"": set(), "| ": set(), "|| ": set()}
    inside = False
    for line in text.splitlines():
        if line.startswith("  "):
            match = re.match(r"    (\|\|? |)(.*)", line)
            inside = line.startswith("  input:") or inside and match is not None
            if match and inside:
                found[match.group(1)].add(match.group(2))
    return found


def compare(test: unittest.TestCase, folder: Path) -> int:
    """Holds our reader against ninja; how many commands were compared."""
    manifest = manifest_of(folder)
    shown = json.loads(ninja(folder, "-t", "compdb"), strict=False)  # (ninja 1.10 writes the ends of lines as they are)
    test.assertEqual(sorted((e.label, e.command) for e in manifest.edges if e.waits() and not e.is_phony),
                     sorted((one["output"], one["command"]) for one in shown if one["command"] or manifest.makers[one["output"]].rule != "phony"))
    targets: List[Edge] = list({id(e): e for e in manifest.makers.values()}.values())
    for start in range(0, len(targets), 200):
        some = targets[start:start + 200]
        for edge, text in zip(some, re.split(r"(?m)^(?=\S)", ninja(folder, "-t", "query", *(e.label for e in some)))[1:]):
            test.assertEqual({"": set(edge.inputs), "| ": set(edge.implicit), "|| ": set(edge.order_only)}, asked(text), edge.label)
    return len(shown)


@unittest.skipUnless(shutil.which("ninja"), "ninja is missing (Debian: apt-get install ninja-build)")
class Beside(unittest.TestCase):
    """Small manifests, read by both."""

    def test_all(self) -> None:
        for name, files in MANIFESTS.items():
            known = files if support.is_new_ninja() else {path: text.replace(" |@ check", "") for path, text in files.items()}
            with self.subTest(name), support.Project(known) as project:
                self.assertGreater(compare(self, project.folder), 0)

    @unittest.skipUnless(shutil.which("cmake"), "cmake is missing (Debian: apt-get install cmake)")
    def test_cmake(self) -> None:
        text = ("cmake_minimum_required(VERSION 3.13)\nproject(p C)\nadd_custom_command(OUTPUT g.h COMMAND echo \"a b\" '$<1:x>' > g.h DEPENDS in VERBATIM)\n"
                "add_library(l SHARED a.c g.h)\nadd_executable(m m.c)\ntarget_link_libraries(m l)\ntarget_compile_definitions(m PRIVATE \"S=\\\"a b$\\\"\")\n"
                "add_custom_target(t COMMAND echo done)\nadd_dependencies(m t)\n")
        with support.Project({"CMakeLists.txt": text, "a.c": "int a;", "m.c": "int main(void) { return 0; }", "in": ""}) as project:
            project.sh("cmake -G Ninja -S . -B b > log")
            self.assertGreater(compare(self, project.folder / "b"), 4)

    @unittest.skipUnless(shutil.which("meson"), "meson is missing (Debian: apt-get install meson)")
    def test_meson(self) -> None:
        text = ("project('p', 'c')\ng = custom_target('g', input: 'in', output: ['g.h', 'g 2.h'], command: ['cp', '@INPUT@', '@OUTPUT0@'])\n"
                "l = shared_library('l', 'a.c', g)\nexecutable('m', 'm.c', link_with: l, c_args: '-DS=\"a b\"')\n")
        with support.Project({"meson.build": text, "a.c": "int a;", "m.c": "int main(void) { return 0; }", "in": ""}) as project:
            project.sh("meson setup b > log")
            self.assertGreater(compare(self, project.folder / "b"), 4)


class Texts(unittest.TestCase):
    """What the tools of ninja do not show."""

    @staticmethod
    def read(text: str) -> Manifest:
        return read_manifest("/d", "build.ninja", lambda _: text)

    def test_response_file_and_its_names_are_not_quoted(self) -> None:
        edge = self.read("rule r\n  command = t @$out.rsp\n  rspfile = $out.rsp\nbuild a$ b: r c\n").edges[0]
        self.assertEqual(("t @'a b'.rsp", "a b.rsp"), (edge.command, edge.path("rspfile")))

    def test_goals(self) -> None:
        manifest = self.read("rule r\n  command = t\nbuild a: r b\nbuild b: r\nbuild c: r || a\nbuild d: r\ndefault c\n")
        goals = manifest.goals([])
        assert goals is not None
        self.assertEqual(({0, 1, 2}, None), (manifest.below(goals), manifest.goals(["nobody"])))

    def test_defaults_are_what_nobody_asks_for(self) -> None:
        manifest = self.read("rule r\n  command = t\nbuild a: r b\nbuild b: r\nbuild d: r\n")
        self.assertEqual([manifest.makers["a"], manifest.makers["d"]], manifest.goals([]))

    def test_dyndep_file(self) -> None:
        (one,) = self.read("ninja_dyndep_version = 1\nbuild a | b c: dyndep | d $\n  e\n  restat = 1\n").edges
        self.assertEqual(("a", ["b", "c"], ["d", "e"], True), (one.label, one.implicit_outputs, one.implicit, one.is_restat))

    def test_faults(self) -> None:
        for text in ("build a: r b\n", "rule r\n  command\n", "  x = y\n", "what is this\n", "rule r\n command = a\nbuild a r\n", "include build.ninja\n"):
            with self.assertRaises(Unreadable, msg=text):
                self.read(text)
