#!/usr/bin/env python3
"""Times `race missing` beside `race list`.

    bench/missing/run.py [--runs N] [PROGRAM]

PROGRAM is the built program (crates/race/out/race). The builds are those of BUILDS, as bench/builds.py has them, where the files that recipes
read and none writes are listed. Printed are, for each, the best wall time of N runs (three) and the greatest peak memory of `race list`
and of `race missing`, and the bytes that they print. What was answered goes to standard error. Nothing here is a test.
"""
import argparse
import json
import os
import pathlib
import sys
import tempfile

TOP = pathlib.Path(__file__).resolve().parents[2]
sys.dont_write_bytecode = True
sys.path.insert(0, str(TOP / "bench"))

from builds import lay_dense, lay_free, lay_paths, lay_readers, lay_sparse, lay_trees
from measure import about, best, head, note, row, size

BUILDS = {"sparse": lay_sparse, "paths": lay_paths, "dense": lay_dense, "readers": lay_readers, "log": lay_free, "trees": lay_trees}
INPUTS = ("--makefile", "makefile", "--listing", "listing", "--footprints", "footprints", "--root", "/w")


def list_sources(folder: pathlib.Path) -> None:
    """Lists the files that recipes read and none writes, so that those which no rule names are missing, and not unlisted."""
    lines = [json.loads(it) for it in (folder / "footprints").read_text().splitlines()]
    made = {name for it in lines for name in it["writes"]}
    read = {name for it in lines for name in it["reads"] if not name.endswith("/")}
    (folder / "listing").write_text("".join(f"{name}\n" for name in sorted(read - made)))


def main() -> None:
    parser = argparse.ArgumentParser(description=__doc__, formatter_class=argparse.RawDescriptionHelpFormatter)
    parser.add_argument("program", nargs="?", default=str(TOP / "crates/race/out/race"))
    parser.add_argument("--runs", type=int, default=3)
    args = parser.parse_args()
    program = os.path.abspath(args.program)
    head("build", "`race list`", "`race missing`")
    for name, lay_out in BUILDS.items():
        with tempfile.TemporaryDirectory(prefix="race-bench-") as folder:
            lay_out(pathlib.Path(folder))
            list_sources(pathlib.Path(folder))
            answers = [best(args.runs, pathlib.Path(folder), [program, it, *INPUTS]) for it in ("list", "missing")]
        note(name, *answers)
        row(about(lay_out), *(f"{it.cost()}, {size(len(it.out))}" for it in answers))


if __name__ == "__main__":
    main()
