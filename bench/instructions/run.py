#!/usr/bin/env python3
"""Counts the instructions that `race` runs on the inputs of the other benches, and says which counts moved.

    bench/instructions/run.py [--only NAME ..] [--jobs N] [--times N] [--peers] [--keep-counts] [PROGRAM]

    bench/instructions/run.py --only order-wide       the one input, beside its count in the file
    bench/instructions/run.py --only order            all inputs whose names begin so
    bench/instructions/run.py --times 5 --peers       all columns: counts, times and memory, of the peers too
    bench/instructions/run.py --keep-counts           all inputs, and their counts into the file

PROGRAM is the built program (crates/race/out/race). Times differ by half from one minute to the next on a busy machine; an
instruction count is the same in each run of one program on one input. `counts` beside this script has a line for each
input: its name and its count in millions. The script runs valgrind's callgrind (Debian's package `valgrind`) on each
input, prints the count in millions and the change from the one in the file, and ends with status 1 where a count moved by more than two
percent, and 3 where valgrind is missing. Run it before a change that claims speed lands. Nothing here is a test.

With --times N each cell has the best user time of N runs and the greatest peak memory too. With --peers each input has a cell for each
peer that is on this machine: GNU make and bmake that read the same makefile (`-n -r`), or Python's json module that reads the
footprints, the tasks or the log. The instructions of a peer that takes more than two seconds are not counted.

An instruction count is no time: an ordered map looks dear and is cheap on rising names. docs/MEASUREMENTS.md has both.
"""
from __future__ import annotations

import argparse
import os
import pathlib
import re
import shutil
import subprocess
import sys
import tempfile
from concurrent.futures import ThreadPoolExecutor
from dataclasses import dataclass

sys.dont_write_bytecode = True
TOP = pathlib.Path(__file__).resolve().parents[2]
sys.path.insert(0, str(pathlib.Path(__file__).resolve().parent))

from inputs import INPUTS, ORDER, Input, Words
from measure import Run, best, head, row

COUNTS = pathlib.Path(__file__).resolve().parent / "counts"
SHARE = 0.02
# Where Python keeps its own files, and the order of its sets, may change what it runs: both are set for the peers.
ENVIRONMENT = {"PATH": os.environ["PATH"], "PYTHONHASHSEED": "0", "PYTHONDONTWRITEBYTECODE": "1"}
LONG = 2.0
WITH_STACK = ORDER.WITH_STACK


@dataclass(frozen=True)
class Line:
    """What was measured of one tool on one input: millions of instructions, and its times and memory; None where it was not."""

    tool: str
    count: float | None
    run: Run | None


def kept_counts() -> dict[str, float]:
    """The counts of the file, in millions, by the name of their input."""
    lines = COUNTS.read_text().splitlines() if COUNTS.is_file() else []
    return {name: float(count) for name, count in (line.split() for line in lines)}


def count(folder: pathlib.Path, command: Words) -> float:
    """The instructions of one run of a command in a folder, in millions."""
    valgrind = ["valgrind", "--tool=callgrind", "--callgrind-out-file=/dev/null"]
    ran = subprocess.run([*valgrind, *command], cwd=folder, env=ENVIRONMENT, stdin=subprocess.DEVNULL,
                         stdout=subprocess.DEVNULL, stderr=subprocess.PIPE, text=True, errors="replace", check=False)
    found = re.search(r"Collected : (\d+)", ran.stderr)
    if not found:
        sys.exit(f"instructions: valgrind counted nothing for {' '.join(command)[:200]}:\n{ran.stderr[-2000:]}")
    return int(found[1]) / 1e6


def measured(args: argparse.Namespace, chosen: Input) -> list[Line]:
    """The lines of an input: that of the program, and those of its peers."""
    with tempfile.TemporaryDirectory(prefix="race-bench-") as scratch:
        laid = chosen.lay_out(pathlib.Path(scratch))
        commands = {"race": [args.program, *laid.words]}
        if args.peers:
            commands |= {tool: words for tool, words in laid.peers.items() if shutil.which(words[0])}
        return [line_of(args, tool, laid.folder, words) for tool, words in commands.items()]


def line_of(args: argparse.Namespace, tool: str, folder: pathlib.Path, command: Words) -> Line:
    """Times a command as often as asked, and counts its instructions where that is no matter of minutes."""
    timed = command if tool == "race" else [*WITH_STACK, *command]
    run = best(args.times, folder, timed) if args.times else None
    is_long = tool != "race" and (run or best(1, folder, timed)).user > LONG
    return Line(tool, None if is_long else count(folder, command), run)


def change_of(line: Line, kept: float | None) -> str:
    """By how much the program's count moved from the one that is kept."""
    return "new" if kept is None or line.count is None else f"{100 * (line.count / kept - 1):+.1f} %"


def cell_of(lines: list[Line], tool: str) -> str:
    """What was measured of a tool on an input; nothing where it was not."""
    for line in lines:
        if line.tool == tool:
            timed = [f"{line.run.user:.3f} s", f"{line.run.memory:,.1f} MiB"] if line.run else []
            return ", ".join(["not counted" if line.count is None else f"{line.count:,.1f}", *timed])
    return ""


def arguments() -> argparse.Namespace:
    """The words of the command line."""
    parser = argparse.ArgumentParser(description=__doc__, formatter_class=argparse.RawDescriptionHelpFormatter)
    parser.add_argument("program", nargs="?", default=str(TOP / "crates/race/out/race"), help="the built program")
    parser.add_argument("--only", metavar="NAME", action="append", help="the inputs whose names begin so; may be repeated")
    parser.add_argument("--jobs", type=int, default=2, help="how many inputs to run at once (2); with --times one")
    parser.add_argument("--times", metavar="N", type=int, default=0, help="take times and memory too, of N runs")
    parser.add_argument("--peers", action="store_true", help="measure the peers of each input too")
    parser.add_argument("--keep-counts", action="store_true", help="write the counts of this run into the file")
    args = parser.parse_args()
    args.program = os.path.abspath(args.program)
    return args


def main() -> int:
    args = arguments()
    if not shutil.which("valgrind"):
        print("instructions: valgrind is not here: install Debian's package valgrind", file=sys.stderr)
        return 3
    chosen = [it for it in INPUTS if not args.only or it.name.startswith(tuple(args.only))]
    before, now = kept_counts(), {}
    peers = {"make": "GNU make", "bmake": "bmake", "python": "Python"} if args.peers else {}
    head("input", "`race`", "change", *peers.values())
    with ThreadPoolExecutor(1 if args.times else args.jobs) as pool:
        for it, lines in zip(chosen, pool.map(lambda it: measured(args, it), chosen)):
            now[it.name] = lines[0].count
            row(f"`{it.name}`", cell_of(lines, "race"), change_of(lines[0], before.get(it.name)), *(cell_of(lines, tool) for tool in peers))
    if args.keep_counts:
        names = [it.name for it in INPUTS]
        counts = {name: found for name, found in {**before, **now}.items() if name in names}
        COUNTS.write_text("".join(f"{name} {counts[name]:.3f}\n" for name in names if name in counts))
        return 0
    moved = [name for name, found in now.items() if abs(found / before.get(name, found) - 1) > SHARE]
    print(f"moved by more than {SHARE:.0%}: {' '.join(moved) or 'none'}")
    return 1 if moved else 0


if __name__ == "__main__":
    sys.exit(main())
