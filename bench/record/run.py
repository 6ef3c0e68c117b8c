#!/usr/bin/env python3
"""Times what recording costs: a build as it is, the same under race-record, reading the record, and judging it.

    bench/record/run.py [--runs N] [--race PROGRAM] [--only NAME] [--part P]

    bench/record/run.py --only c-files --runs 1     one project, once
    bench/record/run.py --part 0.1                  each project that is made a tenth as large

Projects that are made here: lua-like, zlib-like and musl-like (10, 50 and 1,500 recipes of a library in C: a file takes 0.2 s
in the first two, and 0.03 s in the last, where each needs 66 headers), c-files (200 C files, 40 headers, one of them generated,
four libraries, a program), recipes (1,500 recipes that share 55 prerequisites), inner (40 makes inside one make, 5 recipes each),
ninja (the files of c-files, built by ninja, where that is there). Projects of this machine: the examples of Debian's liblzma-dev and libxmlsec1-dev, where they are there. Seconds are those of the clock, and of the
processors in parentheses; the best of N runs (three). Nothing here is a test.
"""

import argparse
import json
import os
import resource
import shutil
import subprocess
import sys
import tempfile
import time
from dataclasses import dataclass
from pathlib import Path
from typing import Callable, Dict, List, Tuple

TOP = Path(__file__).resolve().parents[2]
sys.path.insert(0, str(TOP))

from record.judge import judge  # noqa: E402

RECORDER = TOP / "record" / "race-record"
STAND_IN = TOP / "tests" / "record" / "race_tasks.py"
EXAMPLES = {"liblzma": "/usr/share/doc/liblzma-dev/examples", "xmlsec": "/usr/share/doc/libxmlsec1-dev/examples"}
# A function that takes a compiler a hundredth of a second: the numbers of its file and its own, and two that make it another one.
FUNCTION = """int f%d_%d(const char *s, int *a, int n) {
    int i, t = %d;
    for (i = 0; i < n && s[i]; i++)
        switch (s[i] & 7) {
        case 0: t += a[i]; break;
        case 1: t ^= a[n - i] << 3; break;
        case 2: if (t > %d) t /= 3; else t = s[t & 7]; break;
        default: t = t * 31 + s[i];
        }
    return t;
}
"""
# The Makefile of liblzma's examples names a program whose source Debian leaves out.
GOALS = {"liblzma": ["01_compress_easy", "02_decompress", "03_compress_custom", "04_compress_easy_mt"]}


@dataclass
class Times:
    """Seconds of the clock and of the processors, for each step of one run."""

    plain: Tuple[float, float]
    recorded: Tuple[float, float]
    traced: float
    judged: float
    recipes: int
    trace: float

    def row(self, name: str) -> str:
        """A line of the table."""
        read = self.recorded[0] - self.traced - self.judged
        return "| %s | %d | %.2f (%.2f) | %.2f | %.2f | %.2f | %.2f (%.2f) | %.1f MB |" % (
            name, self.recipes, *self.plain, self.traced, read, self.judged, *self.recorded, self.trace)


def sources(folder: Path, part: float) -> int:
    """The files of a C project; how many there are besides the main one."""
    count = max(8, int(200 * part))
    (folder / "src").mkdir(parents=True)
    for n in range(40):
        (folder / "src" / ("h%d.h" % n)).write_text("#ifndef H%d\n#define H%d\n#include <stdio.h>\n#include <stdlib.h>\nstruct s%d { int a[%d]; };\n#endif\n" % (n, n, n, n + 1))
    for n in range(count):
        heads = "".join('#include "h%d.h"\n' % ((n * 7 + k) % 40) for k in range(3))
        body = "".join("int f%d_%d(int x) { struct s%d s = {{x}}; return s.a[0] * %d + printf(\"%%d\", x); }\n" % (n, k, n * 7 % 40, k) for k in range(20))
        (folder / "src" / ("f%d.c" % n)).write_text('%s#include "table.h"\n%s' % (heads, body))
    (folder / "src" / "main.c").write_text('#include "table.h"\nint main(void) { return TABLE; }\n')
    return count


def c_files(folder: Path, part: float) -> None:
    """A C project as people write them."""
    sources(folder, part)
    (folder / "Makefile").write_text(
        "SRC := $(wildcard src/f*.c)\nOBJ := $(SRC:src/%.c=o/%.o)\nLIBS := o/lib0.a o/lib1.a o/lib2.a o/lib3.a\nCFLAGS = -O1 -Isrc -Io -MMD\n"
        "all: o/main\no/main: src/main.c $(LIBS) o/table.h\n\t$(CC) $(CFLAGS) -o $@ src/main.c $(LIBS)\n"
        "o/table.h: | o\n\techo '#define TABLE 0' > $@\no: ; mkdir -p $@\n$(OBJ): o/%.o: src/%.c | o/table.h\n\t$(CC) $(CFLAGS) -c -o $@ $<\n"
        + "".join("o/lib%d.a: $(filter %s,$(OBJ))\n\t$(AR) rcs $@ $^\n" % (n, " ".join("%%%d.o" % d for d in range(10) if d % 4 == n)) for n in range(4))
        + "-include $(OBJ:.o=.d)\n")


def ninja(folder: Path, part: float) -> None:
    """The same project for ninja."""
    count = sources(folder, part)
    rules = {"cc": "cc -O1 -Isrc -Io -MD -MF $out.d -c $in -o $out\n  deps = gcc\n  depfile = $out.d", "ar": "ar rcs $out $in",
             "ld": "cc -o $out $in", "gen": "echo '#define TABLE 0' > $out"}
    lines = ["rule %s\n  command = %s" % rule for rule in rules.items()] + ["build o/table.h: gen"]
    lines += ["build o/%s.o: cc src/%s.c || o/table.h" % (name, name) for name in ["main"] + ["f%d" % n for n in range(count)]]
    lines += ["build o/lib%d.a: ar %s" % (k, " ".join("o/f%d.o" % n for n in range(count) if n % 4 == k)) for k in range(4)]
    lines += ["build o/main: ld o/main.o %s" % " ".join("o/lib%d.a" % k for k in range(4))]
    (folder / "build.ninja").write_text("\n".join(lines) + "\n")


def library(count: int, functions: int, heads: int) -> Callable[[Path, float], None]:
    """A library in C and a program: so many files, each with so many functions, whose rules name so many headers."""

    def make(folder: Path, part: float) -> None:
        files = max(2, int(count * part))
        for n in range(heads):
            (folder / ("h%d.h" % n)).write_text("#ifndef H%d\n#define H%d %d\n#include <stddef.h>\n#endif\n" % (n, n, n))
        for n in range(files):
            first = "".join("#include <%s.h>\n" % name for name in ("stdio", "stdlib", "string")[:functions]) + '#include "h%d.h"\n' % (n % heads)
            (folder / ("f%d.c" % n)).write_text(first + "".join(FUNCTION % (n, k, k, k * 7) for k in range(functions)))
        (folder / "main.c").write_text("int main(void) { return 0; }\n")
        objects = " ".join("f%d.o" % n for n in range(files))
        (folder / "Makefile").write_text("CFLAGS = -O2\nmain: main.c lib.a ; $(CC) $(CFLAGS) -o $@ main.c lib.a\nlib.a: %s ; $(AR) rcs $@ $?\n%s: %s\n" % (
            objects, objects, " ".join("h%d.h" % n for n in range(heads))))

    return make


def recipes(folder: Path, part: float) -> None:
    """Many short recipes with many edges."""
    count = int(1500 * part)
    (folder / "in").mkdir(parents=True)
    for n in range(55):
        (folder / "in" / ("h%d" % n)).write_text("h\n")
    names = " ".join("out/t%d" % n for n in range(count))
    heads = " ".join("in/h%d" % n for n in range(50)) + " " + " ".join("gen%d" % n for n in range(5))
    (folder / "Makefile").write_text("all: %s\n%s: %s | out\n\t@echo $@ > $@\nout: ; @mkdir out\ngen0 gen1 gen2 gen3 gen4: in/h0\n\t@cp $< $@\n" % (names, names, heads))


def inner(folder: Path, part: float) -> None:
    """Makes inside a make, each with a few recipes."""
    count = max(2, int(40 * part))
    for n in range(count):
        (folder / ("d%d" % n)).mkdir(parents=True)
        (folder / ("d%d" % n) / "Makefile").write_text("all: a b c d e\na b c d e: ; @echo $@ > $@\n")
    rows = "".join("d%d/all: %s\n\t@$(MAKE) --no-print-directory -C d%d\n" % (n, "d%d/all" % (n - 1) if n % 4 else "", n) for n in range(count))
    (folder / "Makefile").write_text(".PHONY: all\nall: %s\n%s" % (" ".join("d%d/all" % n for n in range(count)), rows))


def example(path: str) -> Callable[[Path, float], None]:
    """A project of this machine."""

    def make(folder: Path, part: float) -> None:
        shutil.copytree(path, folder, dirs_exist_ok=True)
        for packed in folder.rglob("*.gz"):
            subprocess.run(["gzip", "-d", str(packed)], check=True)

    return make


PROJECTS: Dict[str, Callable[[Path, float], None]] = {
    "lua-like": library(8, 15, 5), "zlib-like": library(48, 12, 5), "musl-like": library(1498, 1, 66),
    "c-files": c_files, "recipes": recipes, "inner": inner, **{k: example(v) for k, v in EXAMPLES.items() if os.path.isdir(v)}}
if shutil.which("ninja"):
    PROJECTS["ninja"] = ninja


def timed(words: List[str], folder: Path, ends: Tuple[int, ...]) -> Tuple[float, float]:
    """Seconds of a command, by the clock and of the processors."""
    kept = {name: value for name, value in os.environ.items() if name != "PYTHONDONTWRITEBYTECODE"}  # the recorder is not compiled each time
    before, began = resource.getrusage(resource.RUSAGE_CHILDREN), time.monotonic()
    ran = subprocess.run(words, cwd=folder, stdin=subprocess.DEVNULL, capture_output=True, check=False, env=kept)
    clock, after = time.monotonic() - began, resource.getrusage(resource.RUSAGE_CHILDREN)
    if ran.returncode not in ends:
        sys.exit("%s ended with %d:\n%s" % (" ".join(words), ran.returncode, (ran.stdout + ran.stderr).decode(errors="replace")[-2000:]))
    return clock, after.ru_utime + after.ru_stime - before.ru_utime - before.ru_stime


def once(name: str, part: float, race: str) -> Times:
    """All steps, each in a fresh copy."""
    words = ["ninja", "-j1"] if name == "ninja" else ["make", "-j1", *GOALS.get(name, [])]
    with tempfile.TemporaryDirectory(prefix="race-bench-") as room:
        first, second = Path(room) / "a" / "project", Path(room) / "b" / "project"
        for folder in (first, second):
            folder.mkdir(parents=True)
            PROJECTS[name](folder, part)
        plain = timed(words, first, (0,))
        recorded = timed([sys.executable, str(RECORDER), "--once", "--race", race, "--keep-trace", "--", *words], second, (0, 1))
        record = json.loads((second / ".race" / "record.json").read_text())
        began, count = time.monotonic(), 0
        for number in record["builds"]:
            about = json.loads((second / ".race" / "builds" / number / "build.json").read_text())
            count += about["counts"]["recipes"]
            judge(race, second / ".race" / "builds" / number / "tasks", about["folder"])
        judged = time.monotonic() - began
        size = (second / ".race" / "trace" / "trace").stat().st_size / 1e6
    return Times(plain, recorded, record["seconds"], judged, count, size)


def main() -> None:
    """The program."""
    parser = argparse.ArgumentParser(description=__doc__, formatter_class=argparse.RawDescriptionHelpFormatter)
    parser.add_argument("--runs", type=int, default=3, metavar="N", help="the best of N runs (3)")
    parser.add_argument("--race", default=str(STAND_IN), metavar="PROGRAM", help="the program race, where it reads tasks (the model of the tests)")
    parser.add_argument("--only", choices=sorted(PROJECTS), action="append", help="one project; may be repeated")
    parser.add_argument("--part", type=float, default=1.0, metavar="P", help="the size of projects that are made (1)")
    args = parser.parse_args()
    print("| project | recipes | plain | under strace | read | judged | race-record in all | trace |\n|---|---|---|---|---|---|---|---|")
    for name in args.only or PROJECTS:
        runs = [once(name, args.part, args.race) for _ in range(args.runs)]
        print(min(runs, key=lambda it: it.recorded[0]).row(name), flush=True)


if __name__ == "__main__":
    main()
