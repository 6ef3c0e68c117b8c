#!/usr/bin/env python3
"""Times `race check` and `race verify` on large builds.

    bench/check/run.py [--runs N] [--keep FOLDER] [PROGRAM]

PROGRAM is the built program (crates/race/out/race). The builds are those of BUILDS, as bench/builds.py has them, and a certificate of a
million chains through 1,415 of 20,000 nodes, of which none clash, for `race verify`.

Printed are, for each, the best wall time of N runs (three) and the greatest peak memory of `race check`, and its user time; the wall
time of the part that makes the jobs (`race verify` with a proof that is none, which is refused once the jobs are made), of `race verify`
with the proof that `race check --print-proof` gives, and of Python's json module on the footprints alone; the user time of a Rust
program without a proof that reads the footprints and sorts their paths, or makes the chains of `log` (bench/peer; it wants cargo
and Debian's package librust-serde-json-dev, and is left out without). What was answered goes to standard error. With --keep the inputs
are left in FOLDER. Nothing here is a test.
"""
import argparse
import math
import os
import pathlib
import sys
import tempfile

TOP = pathlib.Path(__file__).resolve().parents[2]
sys.dont_write_bytecode = True
sys.path.insert(0, str(TOP / "bench"))

from builds import BEHIND, lay_dense, lay_free, lay_hostile, lay_log, lay_paths, lay_sparse, lay_trees
from measure import Run, about, best, built_peer, head, note, read_by_python, row, size

BUILDS = {"log": lay_log, "free": lay_free, "sparse": lay_sparse, "paths": lay_paths, "dense": lay_dense, "trees": lay_trees}


# What the peer in Rust does for a build, where it is not the sort of its footprints.
CHAINS = {"log": ["chains", "1414", str(BEHIND)]}


class Bench:
    def __init__(self, program, runs, peer):
        self.program, self.runs, self.peer = program, runs, peer

    def best(self, folder, *words) -> Run:
        """The best of the runs of a command on the build of a folder."""
        inputs = ["--makefile", "makefile", "--listing", "listing", "--footprints", "footprints", "--root", "/w"]
        return best(self.runs, folder, [self.program, words[0], *inputs, *words[1:]])

    def peer_seconds(self, name, folder) -> float:
        """The user time of the peer in Rust; not a number where it is not there."""
        words = CHAINS.get(name, ["sort", "footprints"])
        return best(self.runs, folder, [str(self.peer), *words]).user if self.peer else math.nan


def bench_build(bench, name, lay_out, folder):
    """Prints the row of a build."""
    lay_out(folder)
    inputs = sum((folder / it).stat().st_size for it in ("makefile", "footprints"))
    check = bench.best(folder, "check")
    (folder / "none").write_text("")
    jobs = bench.best(folder, "verify", "--proof", "none")
    (folder / "proof").write_bytes(bench.best(folder, "check", "--print-proof").out)
    verify = bench.best(folder, "verify", "--proof", "proof")
    note(name, check, jobs, verify)
    times = (check.user, jobs.seconds, verify.seconds, read_by_python(folder / "footprints"), bench.peer_seconds(name, folder))
    proof = (folder / "proof").stat().st_size
    row(about(lay_out), size(inputs), size(proof), check.cost(), *("" if math.isnan(it) else f"{it:.2f} s" for it in times))


def main():
    parser = argparse.ArgumentParser(description=__doc__, formatter_class=argparse.RawDescriptionHelpFormatter)
    parser.add_argument("program", nargs="?", default=str(TOP / "crates/race/out/race"))
    parser.add_argument("--runs", type=int, default=3)
    parser.add_argument("--keep", type=pathlib.Path)
    args = parser.parse_args()
    head("build", "inputs", "proof", "`race check`", "user", "of which the jobs", "`race verify`", "Python", "Rust")
    with tempfile.TemporaryDirectory(prefix="race-bench-") as scratch:
        bench = Bench(os.path.abspath(args.program), args.runs, built_peer(pathlib.Path(scratch)))
        for name, lay_out in BUILDS.items():
            folder = (args.keep or pathlib.Path(scratch)) / name
            folder.mkdir(parents=True, exist_ok=True)
            bench_build(bench, name, lay_out, folder)
        folder = (args.keep or pathlib.Path(scratch)) / "hostile"
        folder.mkdir(parents=True, exist_ok=True)
        lay_hostile(folder)
        run = bench.best(folder, "verify", "--proof", "proof")
        note("hostile", run)
        row(about(lay_hostile), "", size((folder / "proof").stat().st_size), "", "", "", run.cost(), "", "")


if __name__ == "__main__":
    sys.exit(main())
