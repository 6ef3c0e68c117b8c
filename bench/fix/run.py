#!/usr/bin/env python3
"""Times `race list` and `race fix` beside `race check` on builds with many races.

    bench/fix/run.py [--runs N] [PROGRAM]

PROGRAM is the built program (crates/race/out/race). The builds are those of BUILDS, as bench/builds.py has them. Printed are, for each,
the best wall times of N runs (three) and the greatest peak memory of `race check`, `race list` and `race fix`, and of `race check` with
the lines behind the makefile where there are some, and the bytes that `fix` prints. What was answered goes to standard error. Nothing
here is a test.
"""
import argparse
import os
import pathlib
import sys
import tempfile

TOP = pathlib.Path(__file__).resolve().parents[2]
sys.dont_write_bytecode = True
sys.path.insert(0, str(TOP / "bench"))

from builds import lay_free, lay_headers, lay_many_headers, lay_readers, lay_temporaries
from measure import Run, about, best, head, note, row, size

BUILDS = {"log": lay_free, "header": lay_readers, "temporaries": lay_temporaries, "440": lay_headers, "1,000": lay_many_headers}
INPUTS = ("--makefile", "makefile", "--listing", "listing", "--footprints", "footprints", "--root", "/w")


def bench_build(program, runs, folder) -> list[Run]:
    """`check`, `list` and `fix` on a build, and `check` with the lines of `fix` behind its makefile."""
    answers = [best(runs, folder, [program, it, *INPUTS]) for it in ("check", "list", "fix")]
    lines = answers[2].out
    if lines.startswith(b"# race fix"):
        with open(folder / "makefile", "ab") as makefile:
            makefile.write(lines)
        answers.append(best(runs, folder, [program, "check", *INPUTS]))
    return answers


def main():
    parser = argparse.ArgumentParser(description=__doc__, formatter_class=argparse.RawDescriptionHelpFormatter)
    parser.add_argument("program", nargs="?", default=str(TOP / "crates/race/out/race"))
    parser.add_argument("--runs", type=int, default=3)
    args = parser.parse_args()
    program = os.path.abspath(args.program)
    head("build", "`race check`", "`race list`", "`race fix`", "`race check` with the lines", "lines")
    for name, lay_out in BUILDS.items():
        with tempfile.TemporaryDirectory(prefix="race-bench-") as folder:
            lay_out(pathlib.Path(folder))
            answers = bench_build(program, args.runs, pathlib.Path(folder))
        note(name, *answers)
        costs = [it.cost() for it in answers]
        row(about(lay_out), *costs[:3], *(costs[3:] or ["none"]), size(len(answers[2].out)))


if __name__ == "__main__":
    sys.exit(main())
