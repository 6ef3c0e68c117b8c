#!/usr/bin/env python3
"""Times `race serialise` on long logs of parallel builds, beside `race replay` on the same logs.

    bench/serialise/run.py [--runs N] [--events N] [PROGRAM]

PROGRAM is the built program (crates/race/out/race). The build has 9,999 sources, a recipe for each, and a goal that needs
what they make: 19,999 nodes. In the log nine recipes run at a time: they start, look at their sources and put their targets
in turn, again and again, each time newer than every file, and finish; the events are 1,000,000 without --events. So
in the log that is written nearly every event stands elsewhere, and each put has another time. It prints, at an eighth,
a quarter, a half and the whole of the events, the best wall times of N runs (three) of both, the user time and the greatest
peak memory of `race serialise`, the bytes that it writes, and what Python's json module alone takes to read the log, since
the speed of a machine may change from one minute to the next. Nothing here is a test.
"""
import argparse
import json
import os
import pathlib
import sys
import tempfile

TOP = pathlib.Path(__file__).resolve().parents[2]
sys.dont_write_bytecode = True
sys.path.insert(0, str(TOP / "bench"))

from measure import Run, best, head, read_by_python, row, size

RECIPES = 9_999
TOGETHER = 9


def lay_out(folder):
    """Writes the makefile, the listing and the footprints."""
    targets = [f"out/t{i:04}.o" for i in range(RECIPES)]
    rules = [f"{target}: src/t{i:04}.c\n\tcc\n" for i, target in enumerate(targets)]
    goals = [f"all: {' '.join(targets[i:i + 4_000])}\n" for i in range(0, RECIPES, 4_000)]
    pathlib.Path(folder, "makefile").write_text("".join(goals + rules))
    pathlib.Path(folder, "listing").write_text("".join(f"src/t{i:04}.c\n" for i in range(RECIPES)))
    lines = [{"target": t, "reads": [f"src/t{i:04}.c"], "writes": [t]} for i, t in enumerate(targets)]
    pathlib.Path(folder, "footprints").write_text("".join(json.dumps(line) + "\n" for line in lines))


def events(count):
    """The events of the log: those of nine recipes in turn, and then of the next nine; at the end the goal's."""
    puts = (count - 4 * RECIPES - 1) // RECIPES
    time_of_put = 1
    for first in range(0, RECIPES, TOGETHER):
        pairs = [(f"src/t{i:04}.c", f"out/t{i:04}.o") for i in range(first, first + TOGETHER)]
        for source, _target in pairs:
            yield {"do": "skip", "node": source}
        for _source, target in pairs:
            yield {"do": "start", "node": target}
        for source, target in pairs:
            yield {"bytes": "69", "do": "look", "node": target, "path": source}
        for _ in range(puts):
            for _source, target in reversed(pairs):
                time_of_put += 1
                yield {"bytes": "6f", "do": "put", "node": target, "path": target, "time": time_of_put}
        for _source, target in pairs:
            yield {"do": "finish", "node": target}
    yield {"do": "skip", "node": "all"}


def write_log(folder, count):
    """Writes the log, and returns how many events it has."""
    written = 0
    with open(pathlib.Path(folder, "log"), "w") as log:
        for i in range(RECIPES):
            file = {"bytes": "69", "do": "file", "path": f"src/t{i:04}.c", "time": 1}
            log.write(json.dumps(file, separators=(",", ":")) + "\n")
        for event in events(count):
            log.write(json.dumps(event, separators=(",", ":")) + "\n")
            written += 1
    return written


def run(args, subcommand, folder) -> Run:
    """The best of the runs of a command on the log of a folder."""
    inputs = "--makefile makefile --listing listing --footprints footprints --log log --root /w --limit".split()
    found = best(args.runs, pathlib.Path(folder), [os.path.abspath(args.program), subcommand, *inputs, str(TOGETHER)])
    if found.status != 0:
        sys.exit(f"{subcommand}: {found.out[:200]}")
    return found


def main():
    parser = argparse.ArgumentParser(description=__doc__, formatter_class=argparse.RawDescriptionHelpFormatter)
    parser.add_argument("program", nargs="?", default=str(TOP / "crates/race/out/race"))
    parser.add_argument("--runs", type=int, default=3)
    parser.add_argument("--events", type=int, default=1_000_000)
    args = parser.parse_args()
    head("events", "log", "`race replay`", "`race serialise`", "its user time", "it writes", "Python")
    with tempfile.TemporaryDirectory(prefix="race-bench-") as folder:
        lay_out(folder)
        for part in (8, 4, 2, 1):
            count = write_log(folder, args.events // part)
            log = pathlib.Path(folder, "log")
            python = min(read_by_python(log) for _ in range(args.runs))
            replay, new = run(args, "replay", folder), run(args, "serialise", folder)
            row(f"{count:,}", size(log.stat().st_size), replay.cost(), new.cost(), f"{new.user:.2f} s", size(len(new.out)), f"{python:.2f} s")


if __name__ == "__main__":
    sys.exit(main())
