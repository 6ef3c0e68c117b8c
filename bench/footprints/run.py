#!/usr/bin/env python3
"""Times `race check` on footprints of a million paths, beside Python's json module on the same text.

    bench/footprints/run.py [--runs N] [--keep FOLDER] [PROGRAM]

    bench/footprints/run.py --runs 5          best of five
    bench/footprints/run.py --keep /tmp/it    leaves the makefile, the listing and the footprints there

PROGRAM is the built program (crates/race/out/race). The build has 1,000 recipes, each with a line of 1,000 paths out of
100,000. Python reads each line and unites the lines of a target in sets, which is the work of reading footprints without
the spelling of paths. `race check` does that, and all else: it reads the makefile, attaches the paths, and looks for races.
Printed are, for a quarter, a half and all of the lines, the bytes, the user times, and the peak memory of `race check`. With
valgrind there (Debian's package) the last line has the share of the instructions that the reading of footprints takes.
"""
from __future__ import annotations

import argparse
import json
import os
import pathlib
import re
import shutil
import subprocess
import sys
import tempfile

TOP = pathlib.Path(__file__).resolve().parents[2]
sys.dont_write_bytecode = True
sys.path.insert(0, str(TOP / "bench"))

from measure import best, head, note, row, size

LINES, PATHS, NAMES = 1_000, 1_000, 100_000
WORDS = ["check", "--makefile", "makefile", "--listing", "listing", "--footprints", "footprints", "--root", "/w"]
UNITE = """
import json, sys
united = {}
with open(sys.argv[1], encoding="utf-8") as text:
    for line in text:
        said = json.loads(line)
        reads, writes = united.setdefault(said["target"], (set(), set()))
        reads.update(said["reads"])
        writes.update(said["writes"])
result = {target: (sorted(reads), sorted(writes)) for target, (reads, writes) in united.items()}
"""
READS = re.compile(r"^ *([\d,]+) \([ \d.]+%\).*mk_foot::\S*read_footprints", re.M)
ALL = re.compile(r"^ *([\d,]+) \(100", re.M)


def write_inputs(folder: pathlib.Path, lines: int) -> None:
    """A build of so many recipes, each with a line of a thousand paths."""
    folder.mkdir(parents=True, exist_ok=True)
    targets = [f"out/t{number:04}" for number in range(lines)]
    rules = "".join(f"{target}: src/s\n\tcc\n" for target in targets)
    (folder / "makefile").write_text("all: " + " ".join(targets) + "\n" + rules)
    (folder / "listing").write_text("src/s\n")
    with open(folder / "footprints", "w") as footprints:
        for number, target in enumerate(targets):
            reads = [f"include/h{(number * 7 + k * 13) % NAMES:05}" for k in range(PATHS - 1)]
            footprints.write(json.dumps({"target": target, "reads": reads, "writes": [target]}) + "\n")


def share_of_reading(folder: pathlib.Path, program: str) -> str:
    """How much of a check's instructions reads the footprints, as callgrind counts them."""
    with tempfile.TemporaryDirectory(prefix="race-bench-") as room:
        kept = pathlib.Path(room) / "counted"
        subprocess.run(["valgrind", "--tool=callgrind", f"--callgrind-out-file={kept}", program, *WORDS], cwd=folder, check=True,
                       stdout=subprocess.DEVNULL, stderr=subprocess.DEVNULL)
        listed = subprocess.run(["callgrind_annotate", "--inclusive=yes", "--threshold=100", str(kept)], check=True, stdout=subprocess.PIPE, text=True).stdout
    part, whole = READS.search(listed), ALL.search(listed)
    if not part or not whole:
        return "the reading is not in the profile"
    reading, total = (int(found[1].replace(",", "")) for found in (part, whole))
    return f"{reading / 1e6:.0f} of {total / 1e6:.0f} million instructions ({reading / total:.0%}) read the footprints"


def main() -> int:
    parser = argparse.ArgumentParser(description=__doc__, formatter_class=argparse.RawDescriptionHelpFormatter)
    parser.add_argument("program", nargs="?", default=str(TOP / "crates/race/out/race"), help="the built program")
    parser.add_argument("--runs", type=int, default=3, help="how many runs (3)")
    parser.add_argument("--keep", metavar="FOLDER", type=pathlib.Path, help="where to leave the inputs")
    args = parser.parse_args()
    program = os.path.abspath(args.program)
    head("paths", "footprints", "`race check`", "Python")
    with tempfile.TemporaryDirectory(prefix="race-bench-") as scratch:
        folder = args.keep or pathlib.Path(scratch)
        for lines in (LINES // 4, LINES // 2, LINES):
            write_inputs(folder, lines)
            check = best(args.runs, folder, [program, *WORDS])
            python = best(args.runs, folder, [sys.executable, "-c", UNITE, "footprints"])
            note(f"{lines * PATHS}", check)
            row(f"{lines * PATHS:,}", size((folder / "footprints").stat().st_size), f"{check.user:.2f} s, {check.memory:,.0f} MiB", f"{python.user:.2f} s")
        if shutil.which("valgrind"):
            print(share_of_reading(folder, program))
    return 0


if __name__ == "__main__":
    sys.exit(main())
