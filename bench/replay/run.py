#!/usr/bin/env python3
"""Times `race replay` on long logs over 20,000 files.

    bench/replay/run.py [--runs N] [--events N] [PROGRAM]

PROGRAM is the built program (crates/race/out/race). The build has 9,999 sources, a recipe for each, and a goal that needs
what they make: 19,999 nodes. In the log each recipe starts, looks at its source, puts its target again and again, each time
newer than every file, and finishes; the events are 1,000,000 without --events. It prints the best wall time and user time
of N runs (three) and the greatest peak memory of a run, at an eighth, a quarter, a half and the whole of the events,
and what Python's json module alone takes to read the same log. Nothing here is a test.
"""
import argparse
import json
import os
import pathlib
import sys
import tempfile

TOP = pathlib.Path(__file__).resolve().parents[2]
sys.dont_write_bytecode = True
sys.path.insert(0, str(TOP / "bench"))

from measure import best, head, note, read_by_python, row, size

RECIPES = 9_999
INPUTS = "--makefile makefile --listing listing --footprints footprints --log log --root /w".split()


def lay_out(folder):
    """Writes the makefile, the listing and the footprints."""
    targets = [f"out/t{i:04}.o" for i in range(RECIPES)]
    rules = [f"{target}: src/t{i:04}.c\n\tcc\n" for i, target in enumerate(targets)]
    goals = [f"all: {' '.join(targets[i:i + 4_000])}\n" for i in range(0, RECIPES, 4_000)]
    pathlib.Path(folder, "makefile").write_text("".join(goals + rules))
    pathlib.Path(folder, "listing").write_text("".join(f"src/t{i:04}.c\n" for i in range(RECIPES)))
    lines = [{"target": t, "reads": [f"src/t{i:04}.c"], "writes": [t]} for i, t in enumerate(targets)]
    pathlib.Path(folder, "footprints").write_text("".join(json.dumps(line) + "\n" for line in lines))


def events(count):
    """The events of the log: each recipe's, and then the goal's."""
    puts = (count - 4 * RECIPES - 1) // RECIPES
    time_of_put = 1
    for i in range(RECIPES):
        source, target = f"src/t{i:04}.c", f"out/t{i:04}.o"
        yield {"do": "skip", "node": source}
        yield {"do": "start", "node": target}
        yield {"bytes": "69", "do": "look", "node": target, "path": source}
        for _ in range(puts):
            time_of_put += 1
            yield {"bytes": "6f", "do": "put", "node": target, "path": target, "time": time_of_put}
        yield {"do": "finish", "node": target}
    yield {"do": "skip", "node": "all"}


def write_log(folder, count):
    """Writes the log, and returns how many events it has."""
    written = 0
    with open(pathlib.Path(folder, "log"), "w") as log:
        for i in range(RECIPES):
            file = {"bytes": "69", "do": "file", "path": f"src/t{i:04}.c", "time": 1}
            log.write(json.dumps(file, separators=(",", ":")) + "\n")
        for event in events(count):
            log.write(json.dumps(event, separators=(",", ":")) + "\n")
            written += 1
    return written


def main():
    parser = argparse.ArgumentParser(description=__doc__, formatter_class=argparse.RawDescriptionHelpFormatter)
    parser.add_argument("program", nargs="?", default=str(TOP / "crates/race/out/race"))
    parser.add_argument("--runs", type=int, default=3)
    parser.add_argument("--events", type=int, default=1_000_000)
    args = parser.parse_args()
    program = os.path.abspath(args.program)
    head("events", "log", "`race replay`", "user", "Python")
    with tempfile.TemporaryDirectory(prefix="race-bench-") as folder:
        lay_out(folder)
        for part in (8, 4, 2, 1):
            count = write_log(folder, args.events // part)
            log = pathlib.Path(folder, "log")
            python = read_by_python(log)
            run = best(args.runs, pathlib.Path(folder), [program, "replay", *INPUTS])
            note(f"{count}", run)
            row(f"{count:,}", size(log.stat().st_size), run.cost(), f"{run.user:.2f} s", f"{python:.2f} s")


if __name__ == "__main__":
    sys.exit(main())
