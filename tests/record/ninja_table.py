"""Small manifests, and what `race-record -- ninja` must say of each; most stand beside one with the order that settles it."""

from dataclasses import dataclass, field
from typing import Dict, List

RULES = "rule sh\n  command = $c\nrule late\n  command = sleep 0.3; $c\n"
SAFE, RACE, NONE = 0, 1, 2


@dataclass
class Case:
    """A project, the command that is recorded, the wanted status, and texts that the report must hold."""

    name: str
    want: int
    manifest: str
    says: List[str] = field(default_factory=list)
    words: str = "ninja"
    options: List[str] = field(default_factory=list)
    setup: str = ""
    files: Dict[str, str] = field(default_factory=dict)
    races: int = -1  # lines that begin with RACE, where that is asked
    missing: int = -1  # what `ninja -t missingdeps` finds, where that is asked
    is_new: bool = False  # it is about what ninja 1.11 has, and no older one
    is_tried: bool = False  # built in other orders too
    is_lie: bool = False  # a depfile names what nobody reads, and ninja believes it


def sh(outputs: str, inputs: str, command: str, *more: str, rule: str = "sh") -> str:
    """A build statement; `$out` and `$in` stand for the first output and the inputs."""
    command = command.replace("$out", outputs.split(" ")[0]).replace("$in", inputs.replace("$ ", "\\ "))
    return "build %s: %s %s\n  c = %s\n%s" % (outputs, rule, inputs, command, "".join("  %s\n" % line for line in more))


GEN = sh("g", "", "echo 1 > g")
USE = "cat g > a"
LOG = "echo $out >> log; touch $out"
DYNDEP = "printf 'ninja_dyndep_version = 1\\nbuild a%s: dyndep%s\\n' > dd"
INNER = {"sub/build.ninja": RULES + GEN + sh("a", "", USE), "sub2/build.ninja": RULES + GEN + sh("a", "g", USE)}
MAKEFILE = "all: g a\ng: ; echo 1 > g\na: ; cat g > a\n"
HAS = "#if __has_include(\"g.h\")\n#include \"g.h\"\n#endif\nint a;\n"
CC = "rule cc\n  command = cc -Ia -Ib -c $in -o $out -MD -MF $out.d\n  depfile = $out.d\n  deps = gcc\n"
REMADE = "rule again\n  command = cp next.ninja build.ninja\n  generator = 1\nbuild build.ninja: again next.ninja\n"


def named(name: str, outputs: str) -> str:
    """Two statements with one name for a file that ninja itself writes or removes."""
    return "rule r\n  command = cp $in $out; echo $out: $in > $d\n  deps = gcc\n  depfile = $d\nrule s\n  command = cp $f $out\n  rspfile = $f\n  rspfile_content = $in\n" + outputs


CASES = [
    Case("forgotten", RACE, GEN + sh("a", "", USE), ["RACE  g", "build.ninja:5  writes it", "fix: build a: .. || g"], races=1),
    Case("explicit", SAFE, GEN + sh("a", "g", USE)),
    Case("implicit", SAFE, GEN + sh("a", "| g", USE)),
    Case("order-only", SAFE, GEN + sh("a", "|| g", USE)),
    Case("phony", SAFE, GEN + "build p: phony g\nbuild q: phony || p\n" + sh("a", "| q", USE)),
    Case("validation", RACE, GEN + sh("a", "|@ g", USE), is_new=True),
    Case("implicit-output", SAFE, sh("g | h", "", "echo 1 > g; echo > h") + sh("a", "h", USE)),
    Case("two-outputs", RACE, sh("h", "", "echo 1 > g; echo > h") + sh("a", "", USE)),
    Case("pool", RACE, "pool one\n  depth = 1\n" + sh("a", "", LOG, "pool = one") + sh("b", "", LOG, "pool = one"), ["both are in the pool one, in an order"]),
    Case("console", RACE, sh("a", "", LOG, "pool = console") + sh("b", "", LOG, "pool = console"), ["both are in the pool console"]),
    Case("response-file", RACE, named("f", "build a: s x\n  f = r\nbuild b: s y\n  f = r\n"), files={"x": "", "y": ""}),
    Case("response-file-own", SAFE, named("f", "build a: s x\n  f = r1\nbuild b: s y\n  f = r2\n"), files={"x": "", "y": ""}),
    Case("dep-file", RACE, named("d", "build a: r x\n  d = m\nbuild b: r y\n  d = m\n"), files={"x": "", "y": ""}),
    Case("dep-file-own", SAFE, named("d", "build a: r x\n  d = m1\nbuild b: r y\n  d = m2\n"), files={"x": "", "y": ""}),
    Case("one-command", NONE, sh("b", "a", "echo x >> log") + sh("a", "", "echo x >> log"), ["several build statements have one command: echo x >> log"]),
    Case("folder-of-outputs", SAFE, sh("d/e/a", "", "echo > $out") + sh("d/e/b", "", "echo > $out") + sh("d/f/c", "", "echo > $out")),
    Case("folder-of-another", RACE, sh("d/e/a", "", "echo > $out") + sh("b", "", "echo > d/e/b; touch b"), ["that the folder"]),
    Case("folder-of-another-ordered", SAFE, sh("d/e/a", "", "echo > $out") + sh("b", "|| d/e/a", "echo > d/e/b; touch b")),
    Case("mkdir", RACE, sh("a", "", "mkdir d 2> $out; echo > d/a") + sh("b", "", "mkdir d 2> $out; echo > d/b"), is_tried=True),
    Case("mkdir-p", SAFE, sh("a", "", "mkdir -p d; echo > d/a; touch a") + sh("b", "", "mkdir -p d; echo > d/b; touch b")),
    Case("folder-removed", RACE, sh("d/a", "", "echo > $out") + sh("b", "", "rm -rf d; touch b")),
    Case("restat", SAFE, sh("a", "", "touch a", "restat = 1") + sh("b", "a", "cat a > b")),
    Case("restat-of-another", RACE, sh("a", "", "true", "restat = 1") + sh("b", "", "touch a b")),
    Case("dyndep", SAFE, sh("dd", "", DYNDEP % ("", " | g")) + GEN + sh("a", "|| dd", USE, "dyndep = dd")),
    Case("dyndep-without", RACE, sh("dd", "", DYNDEP % ("", "")) + GEN + sh("a", "|| dd", USE, "dyndep = dd")),
    Case("dyndep-output", SAFE, sh("dd", "", DYNDEP % (" | x", "") + "; echo 'build b: dyndep | x' >> dd") + sh("a", "|| dd", "touch a x", "dyndep = dd") + sh("b", "|| dd", "cat x > b", "dyndep = dd")),
    Case("dyndep-output-forgotten", RACE, sh("dd", "", DYNDEP % (" | x", "") + "; echo 'build b: dyndep' >> dd") + sh("a", "|| dd", "touch a x", "dyndep = dd") + sh("b", "|| dd", "cat x > b; true", "dyndep = dd")),
    Case("subninja", RACE, "c = no\nsubninja sub/other.ninja\n" + sh("a", "", "cat 'g h' > a"), ["RACE  g h"], files={"sub/other.ninja": sh("g$ h", "", "echo > 'g h'")}),
    Case("subninja-ordered", SAFE, "subninja sub/other.ninja\n" + sh("a", "g$ h", "cat $in > a"), files={"sub/other.ninja": sh("g$ h", "", "echo > 'g h'")}),
    Case("listing", RACE, GEN + sh("a", "", "ls . > a"), is_tried=True),
    Case("listing-ordered", SAFE, GEN + sh("a", "g", "ls . > a")),
    Case("listing-by-python", RACE, GEN + sh("a", "", "python3 list.py > a"), files={"list.py": "import os\nprint(sorted(os.listdir('.')))\n"}, is_tried=True),
    Case("listing-by-python-ordered", SAFE, GEN + sh("a", "g", "python3 list.py > a"), files={"list.py": "import os\nprint(sorted(os.listdir('.')))\n"}),
    Case("glob", RACE, sh("g.x", "", "touch $out") + sh("a", "", "cat *.x > a; touch a"), files={"h.x": ""}),
    Case("glob-of-other-names", SAFE, sh("g.y", "", "touch $out") + sh("a", "", "cat *.x > a"), files={"h.x": ""}),
    Case("failed-look", RACE, sh("a", "", "if test -f g; then echo 1; fi > a") + GEN),
    Case("failed-look-ordered", SAFE, sh("a", "|| g", "if test -f g; then echo 1; fi > a") + GEN),
    Case("header", RACE, CC + sh("b/g.h", "", "echo > $out") + "build a.o: cc a.c\n", ["RACE  b/g.h"], files={"a.c": "#include \"g.h\"\nint a;\n", "b/x": ""}, missing=1),
    Case("header-ordered", SAFE, CC + sh("b/g.h", "", "echo > $out") + "build a.o: cc a.c || b/g.h\n", files={"a.c": "#include \"g.h\"\nint a;\n"}, missing=0),
    Case("header-shadowed", RACE, CC + "build a.o: cc a.c\n" + sh("a/g.h", "", "echo > $out"), ["RACE  a/g.h"], files={"a.c": "#include \"g.h\"\nint a;\n", "b/g.h": "", "a/x": ""}, missing=0),
    Case("header-asked-for", RACE, CC + "build a.o: cc a.c\n" + sh("g.h", "", "echo > $out"), ["RACE  g.h"], files={"a.c": HAS}),
    Case("temporary", RACE, sh("a", "", "echo a > t; mv t a") + sh("b", "", "echo b > t; mv t b"), ["advice: give each recipe a name of its own"]),
    Case("temporary-own", SAFE, sh("a", "", "echo a > t.$out; mv t.$out a") + sh("b", "", "echo b > t.$out; mv t.$out b")),
    Case("two-writers", RACE, sh("a", "", "touch a; echo a > x") + sh("b", "", "touch b; echo b > x")),
    Case("long-command", RACE, GEN + sh("a", "", "cat g > a; : " + "x" * 20000)),
    Case("absolute", SAFE, "w = $w\ninclude here.ninja\n", setup="{ printf 'build %s/g: sh\\n  c = echo 1 > g\\nbuild a: sh %s/g\\n  c = cat g > a\\n' $PWD $PWD; } > here.ninja"),
    Case("builddir", RACE, "builddir = logs\n" + GEN + sh("a", "", USE)),
    Case("inner-ninja", RACE, sh("x", "", "ninja -C sub && touch x"), files=INNER, races=1),
    Case("inner-ninja-ordered", SAFE, sh("x", "", "ninja -C sub2 && touch x"), ["2 builds"], files=INNER),
    Case("inner-ninja-and-outer", RACE, sh("x", "", "ninja -C sub2 && touch x") + sh("y", "", "cat sub2/a > y; touch y"), ["RACE  sub2/a"], files=INNER),
    Case("make-below", RACE, sh("x", "", "$$MAKE -j2 -f Makefile && touch x"), files={"Makefile": MAKEFILE}, words="env MAKE=make ninja"),
    Case("make-below-serial", SAFE, sh("x", "", "make -f Makefile && touch x"), files={"Makefile": MAKEFILE}),
    Case("make-above", RACE, GEN + sh("a", "", USE), ["ninja ", "RACE  g"], files={"Makefile": "all: x y\nx: ; ninja -j1\ny: ; touch y\n"}, words="make"),
    Case("make-above-ordered", SAFE, GEN + sh("a", "g", USE), ["2 builds"], files={"Makefile": "all: x y\nx: ; ninja\ny: ; touch y\n"}, words="make"),
    Case("make-above-meets", RACE, GEN + sh("a", "g", USE), files={"Makefile": "all: x y\nx: ; ninja\ny: ; cat a > y; true\n"}, words="make"),
    Case("remade-manifest", RACE, REMADE + sh("a", "", "touch a"), ["RACE  g"], files={"next.ninja": REMADE + "rule sh\n  command = $c\n" + GEN + sh("a", "", USE)}, setup="touch -d 2001-01-01 build.ninja"),
    Case("remade-manifest-ordered", SAFE, REMADE + sh("a", "", "touch a"), files={"next.ninja": REMADE + "rule sh\n  command = $c\n" + GEN + sh("a", "g", USE)}, setup="touch -d 2001-01-01 build.ninja"),
    Case("manifest-that-nobody-kept", NONE, "", ["nobody kept"], words="sh ./all", files={"next": RULES + sh("a", "", "cp next build.ninja; echo '#' >> build.ninja; touch a"), "all": "cp next build.ninja; exec ninja\n"}),
    Case("warm", NONE, GEN + sh("a", "", USE), ["WARM  1 file"], setup="ninja -j1 > /dev/null; rm a"),
    Case("warm-accepted", SAFE, GEN + sh("a", "", USE), ["WARM  1 file", "builds start from this tree"], setup="ninja -j1 > /dev/null; rm a", options=["--warm"]),
    Case("cold-link-to-a-source", SAFE, sh("l", "", "ln -sf s $out") + sh("a", "l", "cat l > a"), files={"s": "1"}),
    Case("warm-link-to-a-source", NONE, sh("l", "", "ln -sf s $out") + sh("a", "l", "cat l > a"), ["WARM  1 file"], setup="ninja -j1 > /dev/null; rm a", files={"s": "1"}),
    Case("warm-made-again", RACE, sh("g", "s", "cp s g") + sh("a", "s", USE), ["WARM", "RACE  g"], setup="touch -d 2001-01-01 s; ninja -j1 > /dev/null; sleep 0.1; touch s", files={"s": "1"}),
    Case("warm-by-log-of-headers", RACE, CC + sh("b/g.h", "s", "cp s $out") + "build a.o: cc a.c\n", ["WARM", "RACE  b/g.h"],
         setup="touch -d 2001-01-01 s a.c; ninja -j1 b/g.h a.o > /dev/null; sleep 0.1; touch s", files={"a.c": "#include \"g.h\"\nint a;\n", "s": ""}),
    Case("through-what-is-clean", SAFE, sh("x", "s", "cat s > x") + sh("y", "|| x", "touch y") + sh("z", "s || y", "cat x > z"), ["WARM"],
         setup="touch -d 2001-01-01 s; ninja -j1 > /dev/null; sleep 0.1; touch s", files={"s": ""}, options=["--warm"]),
    Case("part", SAFE, GEN + sh("a", "", USE) + sh("b", "g", "cat g > b"), ["recipes that nothing asked for are not judged", "(1, such as a)"], words="ninja b"),
    Case("other-names", RACE, "", words="ninja -C sub -f my.ninja", files={"sub/my.ninja": RULES + GEN + sh("a", "", USE)}),
    Case("failing", NONE, sh("a", "", "false"), ["the build ended with status 1", "the serial build failed; this is build 3 with -j4"]),
    Case("serial-build-fails", RACE, sh("a", "", "for i in 1 2 3 4 5 6 7 8 9; do test -s g || sleep 0.1; done; " + USE) + GEN, ["HINT  a looks for g, which g makes", "the serial build failed"]),
    Case("dry-run", NONE, GEN, ["no make and no ninja ran"], words="ninja -n"),
    Case("several-at-once", RACE, GEN + sh("a", "", "sleep 1; " + USE), words="sh ./all", files={"all": "ninja -j4\n"}),
    Case("several-at-once-ordered", SAFE, GEN + sh("a", "g", USE) + sh("b", "", "sleep 0.3; touch b"), words="sh ./all", files={"all": "ninja -j4\n"}),
    Case("link-through", RACE, sh("s", "", "mkdir -p real; ln -s real s; touch $out") + sh("a", "s", "echo > s/f; touch a") + sh("b", "s", "cat real/f > b; true")),
]
CASES += [
    Case("ages-of-two-inputs", SAFE, sh("x", "", "touch x") + sh("y", "", "sleep 0.1; touch y") + sh("z", "x y", "ninja -C sub && touch z"),
         files={"sub/build.ninja": RULES + sh("out", "../x ../y", "cat ../x ../y > out")}),
    Case("beside-each-other", SAFE, sh("g", "", "timeout 60 sh -c 'until test -e sub/began; do sleep 0.02; done'; echo 1 > g"), ["two makes or ninjas that ran at once"], words="sh ./all",
         files={"all": "ninja & ninja -C sub; wait\n", "sub/build.ninja": RULES + sh("h", "", "touch began h")}),
    Case("inner-ninja-that-fails", NONE, sh("x", "", "ninja -C sub || touch x"), ["a ninja failed, so it may run more commands another time: ninja -C sub"], files={"sub/build.ninja": RULES + sh("h", "", "false")}),
]
CASES += [
    Case("process-that-its-command-leaves", RACE, sh("a", "", "(sleep 0.5; echo > late) > /dev/null 2>&1 & touch a") + sh("b", "a", "sleep 1; cat late > b"), ["late"]),
    Case("processes-of-one-command", RACE, sh("a", "", "(sleep 0.1; echo 1 >> log) & (echo 2 >> log); wait; touch a"), ["log"]),
    Case("process-that-its-command-leaves-alone", SAFE, sh("a", "", "(sleep 0.5; echo > late) > /dev/null 2>&1 & touch a") + sh("b", "a", "sleep 1; touch b")),
]
LIAR = "rule liar\n  command = echo '$out: g' > $out.d; touch $out\n  deps = gcc\n  depfile = $out.d\n"
CASES += [
    Case("script-that-becomes-ninja", RACE, GEN + sh("a", "", USE), words="sh ./all", files={"all": "true > x; cp x y; exec ninja -j1\n"}, races=1),
    Case("dyndep-of-two", RACE, sh("dd", "", DYNDEP % ("", " | g") + "; echo 'build b: dyndep' >> dd") + GEN + sh("a", "|| dd", USE, "dyndep = dd") + sh("b", "|| dd", "cat g > b", "dyndep = dd"), races=1),
    Case("restat-by-dyndep", RACE, sh("dd", "", DYNDEP % ("", "") + "; echo '  restat = 1' >> dd") + sh("a", "|| dd", "true", "dyndep = dd") + sh("b", "", "touch a b"), ["RACE  a"]),
    Case("dep-file-that-another-writes", RACE, "rule n\n  command = touch $out\n  deps = gcc\n  depfile = m\nbuild a: n\n" + sh("b", "", "echo 'a: x' > m; touch b", ), ["RACE  m"], files={"x": ""}),
    Case("dep-file-that-lies", SAFE, LIAR + GEN + "build a: liar\n", is_lie=True),
    Case("phony-that-nobody-makes", SAFE, CC + "build g.h: phony\nbuild a.o: cc a.c\n", files={"a.c": "#include \"g.h\"\nint a;\n", "g.h": ""}),
    Case("phony-that-somebody-makes", SAFE, LIAR + sh("b", "", "touch b g") + "build g: phony\nbuild a: liar\n", is_lie=True),
    Case("phony-with-an-input", SAFE, LIAR + "build g: phony b\n" + sh("b", "", "touch b") + "build a: liar\n", files={"g": ""}, is_lie=True),
    Case("manifest-that-changed-twice", NONE, GEN + sh("a", "g", "cat g > a; echo '#' >> build.ninja"), ["nobody kept"], words="sh ./all",
         files={"next": RULES + GEN + sh("a", "", "cat g > a; echo '#' >> build.ninja"), "all": "cp next build.ninja; exec ninja -j1\n"}),
    Case("manifest-that-a-script-changes-twice", NONE, "", ["nobody kept"], words="sh ./all",
         files={"next": RULES + GEN + sh("a", "", USE), "last": RULES + GEN + sh("a", "g", USE),
                "all": "printf '%s\\n' \"$(cat next)\" > build.ninja; ninja -j1; printf '%s\\n' \"$(cat last)\" > build.ninja\n"}),
    Case("dyndep-that-changes", NONE, sh("dd", "", DYNDEP % ("", "")) + GEN + sh("a", "|| dd", USE, "dyndep = dd") + sh("c", "|| a", DYNDEP % ("", " | g") + "; touch c"),
         ["nobody kept"], words="ninja -j1"),
]
GENERATOR = "rule gen\n  command = $c\n  generator = 1\nbuild h: gen s\n  c = cp s h\n"
TRY = "set -e; d=CMakeFiles/CMakeScratch/TryCompile-aB1; mkdir -p $d; cp next $d/build.ninja; ninja -C $d; rm -r CMakeFiles\n"
FILES = DYNDEP.replace("build a", "build m") % (" | m.x", "") + "a"
CASES += [
    Case("warm-generator-that-is-up-to-date", NONE, GENERATOR + sh("a", "", "cat h > a"), ["WARM  1 file", "  h"], setup="touch -d 2001-01-01 s; cp s h", files={"s": ""}),
    Case("warm-made-again-ordered", NONE, sh("g", "s", "cp s g") + sh("a", "g", USE), ["WARM  2 files"], setup="touch -d 2001-01-01 s; ninja -j1 > /dev/null; sleep 0.1; touch s", files={"s": "1"}),
    Case("warm-folder-that-is-up-to-date", NONE, sh("d", "", "mkdir -p d; echo 1 > d/f") + sh("a", "", "cat d/f > a"), ["WARM  1 file", "  d"], setup="ninja -j1 > /dev/null; rm a"),
    Case("folder-that-was-there", SAFE, sh("d", "", "mkdir -p d; echo 1 > d/f") + sh("a", "d", "cat d/f > a"), setup="mkdir d"),
    Case("dyndep-input-of-nobody", RACE, sh("x", "", "echo 1 > h; touch x") + sh("dd", "", DYNDEP % ("", " | h")) + sh("a", "|| dd x", "cat h > a", "dyndep = dd"), ["missing and no known rule to make it"], is_tried=True),
    Case("dyndep-input-of-nobody-ordered", SAFE, sh("x", "", "echo 1 > h; touch x") + sh("dd", "x", DYNDEP % ("", " | h")) + sh("a", "|| dd", "cat h > a", "dyndep = dd")),
    Case("dyndep-output-of-another-file", RACE, sh("dda", "", FILES) + sh("dd", "", DYNDEP % ("", " | m.x")) + sh("m", "|| dda", "touch m m.x", "dyndep = dda") + sh("a", "|| dd m", "cat m.x > a", "dyndep = dd"),
         ["missing and no known rule to make it"], is_tried=True),
    Case("dyndep-output-of-another-file-ordered", SAFE, sh("dda", "", FILES) + sh("dd", "dda", DYNDEP % ("", " | m.x")) + sh("m", "|| dda", "touch m m.x", "dyndep = dda") + sh("a", "|| dd", "cat m.x > a", "dyndep = dd"), is_tried=True),
    Case("path", SAFE, sh("a", "", "echo $$PATH > a")),
    Case("tried-by-cmake", SAFE, sh("x", "", "./cmake && touch x"), setup="chmod +x cmake", files={"cmake": "#!/bin/sh\n" + TRY, "next": RULES + GEN + sh("a", "g", USE)}),
    Case("another-name", NONE, GEN + sh("a", "", USE), ["a ninja of another name ran past the recorder: ./n2"], setup="cp $(command -v ninja) n2", files={"Makefile": "x: ; ./n2 -j1\n"}, words="make"),
    Case("tried-by-another", NONE, sh("x", "", "sh ./try && touch x"), ["nobody kept"], files={"try": TRY, "next": RULES + GEN + sh("a", "g", USE)}),
]
CASES += [
    Case("log-that-is-read", RACE, sh("a", "", "touch a") + sh("b", "", "cut -f4 .ninja_log > b"), ["RACE  b"], is_tried=True),
    Case("log-that-is-read-ordered", SAFE, sh("a", "", "touch a") + sh("b", "| a", "cut -f4 .ninja_log > b"), is_tried=True),
    Case("folder-that-was-removed-first", RACE, sh("a", "", "mkdir -p d; touch a") + sh("b", "", "echo > d/b; touch b"), ["that the folder"], words="sh ./all", files={"all": "rm -r d; ninja -j1\n", "d/x": ""}),
    Case("folder-that-a-stage-removed", RACE, REMADE.replace("next.ninja\n", "next.ninja | r\n") + sh("r", "", "rm -r d; touch r"), ["that the folder"], setup="touch -d 2001-01-01 build.ninja",
         files={"next.ninja": RULES + REMADE + sh("a", "", "mkdir -p d; touch a") + sh("b", "", "echo > d/b; touch b"), "d/x": ""}),
    Case("outputs-that-were-removed-first", SAFE, GEN + sh("a", "g", USE), words="sh ./all", files={"all": "ninja -t clean; ninja -j1\n"}, setup="ninja -j1 > /dev/null"),
    Case("outputs-that-a-command-removes", NONE, GEN + sh("a", "g", USE) + sh("c", "", "ninja -t clean g a"), ["WARM"], words="sh ./all", files={"all": "ninja -j1 a; ninja c; ninja -j1 a\n"}, setup="ninja -j1 a > /dev/null"),
]
GLOBS = ("rule look\n  command = %s\n  restat = 1\nrule remake\n  command = touch $out\n  generator = 1\nbuild f: phony\nbuild v: look | f\n"
         "build build.ninja: remake | v w\nbuild w: remake s\n")
HEADS = (REMADE.replace("next.ninja\n", "next.ninja | h0 x\n") + sh("h0", "", "touch h h0")
         + "rule r\n  command = echo ran >> log; echo 'x: h' > x.m; touch x\n  deps = gcc\n  depfile = x.m\nbuild x: r\n")
OLD = "touch -d 2001-01-01 s; touch -d 2002-01-01 w v; touch -d 2003-01-01 build.ninja"
CASES += [
    Case("what-the-manifest-needs-is-read", SAFE, GLOBS % "echo 1 > z" + "build d/a: sh\n  c = cat z > d/a\ndefault d/a\n", files={"v": "", "w": "", "s": "", "d/x": ""}, setup=OLD),
    Case("statement-for-the-manifest-that-runs-later", RACE, (GLOBS % "touch s").replace("touch $out", "touch $out z") + "build a: sh\n  c = test -f z && echo 1 > a; touch a\ndefault w a\n",
         ["RACE  z"], files={"v": "", "w": "", "s": ""}, setup=OLD, races=1),
    Case("ages-of-a-log-of-headers-ordered", SAFE, HEADS.replace("build x: r", "build x: r | h0"), files={"next.ninja": RULES + HEADS.replace("build x: r", "build x: r | h0")},
         setup="touch -d 2001-01-01 build.ninja"),
]
