#!/usr/bin/env python3
"""Times `race check`, `race list` and `race verify` on a text of tasks at the limits, beside a makefile of the same size.

    bench/tasks/run.py [--runs N] [PROGRAM]

PROGRAM is the built program (crates/race/out/race). The builds have 20,000 recipes and 1,000,000 paths in 2,000 layers of 10,
each recipe behind all 10 of the layer before it: 199,900 edges. In `apart` nobody shares a path; in `shared` all recipes of a
layer read the folder that one recipe of the layer before it writes a file in, so that 17,991 pairs conflict, and all are in
order; in `races` the recipes of a layer write one log, so that 90,000 pairs race. Each is laid out as tasks and as a makefile
with footprints.

It prints, for each, the bytes of its texts, the best user time of N runs (three) of each command, the greatest peak memory of `race check`,
and what Python's json module takes to read the tasks or the footprints. What was answered, which is the same for both, goes to standard
error. Nothing here is a test.

    bench/tasks/run.py --runs 1 crates/race/out/race
"""
from __future__ import annotations

import argparse
import os
import pathlib
import sys
import tempfile

TOP = pathlib.Path(__file__).resolve().parents[2]
sys.dont_write_bytecode = True
sys.path.insert(0, str(TOP / "bench"))

from builds import LAYER_KINDS, lay_layers
from measure import Run, best, head, note, read_by_python, row, size

MAKEFILE = ("--makefile", "makefile", "--listing", "listing", "--footprints", "footprints", "--root", "/w")
TASKS = ("--tasks", "tasks", "--root", "/w")


def commands(runs: int, program: str, folder: pathlib.Path, inputs: list[str]) -> list[Run]:
    """`check`, `list` and `verify` with the proof of `check --print-proof` on the same inputs."""
    proof = best(1, folder, [program, "check", "--print-proof", *inputs])
    (folder / "proof").write_bytes(proof.out)
    words = (["check"], ["list"], ["verify", "--proof", "proof"])
    return [best(runs, folder, [program, *it, *inputs]) for it in words]


def bench_build(runs: int, program: str, folder: pathlib.Path, kind: str) -> None:
    """The two rows of a build."""
    goals = lay_layers(folder, kind)
    for form, inputs, texts in (("makefile", [*MAKEFILE, *goals], ("makefile", "footprints")), ("tasks", [*TASKS], ("tasks",))):
        answers = commands(runs, program, folder, inputs)
        note(f"{kind}, {form}", *answers)
        check, *others = answers
        row(f"{kind}, {form}", size(sum((folder / it).stat().st_size for it in texts)), f"{check.user:.2f} s, {check.memory:,.0f} MiB",
            *(f"{it.user:.2f} s" for it in others), f"{read_by_python(folder / texts[-1]):.2f} s")


def main() -> int:
    parser = argparse.ArgumentParser(description=__doc__, formatter_class=argparse.RawDescriptionHelpFormatter)
    parser.add_argument("program", nargs="?", default=str(TOP / "crates/race/out/race"), help="the built program")
    parser.add_argument("--runs", type=int, default=3, help="how many runs of each command (three)")
    args = parser.parse_args()
    program = os.path.abspath(args.program)
    head("build", "inputs", "`race check`", "`race list`", "`race verify`", "Python")
    for kind in LAYER_KINDS:
        with tempfile.TemporaryDirectory(prefix="race-bench-") as folder:
            bench_build(args.runs, program, pathlib.Path(folder), kind)
    return 0


if __name__ == "__main__":
    sys.exit(main())
