#!/usr/bin/env python3
"""Times the calls that make jobs, put them in order, find what clashes, decide, and accept certificates, one by one.

    bench/order-of-jobs/run.py [--runs N] [--only BUILD] [--large] [--keep FOLDER] [PROGRAM]

The calls are timed in a small program of their own, whose text stands in timed/. It is no crate of the repository, so that
the gate need not prove it; as the gate takes no .rt file outside crates/, the files there end in .rattle. Without
PROGRAM it is built: the libraries that it uses are proved where they stand (`rt lib`, which takes a while where nothing is
proved yet, and no time where all is) and copied beside it, and `rt run` proves and builds it. With --keep all this and
the inputs stay in FOLDER, and the program can be given again: FOLDER/repository/crates/timed/out/timed.

The calls, in this order: `read` (Listing::read, lines and read_rules), `plan`, `footprints` (read_footprints), `attach`; and of
the jobs that these made, each in a run of its own: `rows` (Rows::new), `least` (least_race, with rows), `pairs`
(clashing_pairs), `decide`, and `accept` behind `proof` (read_proof). Where a build has no certificate, one of no chains is
asked about, which is refused where anything clashes.

A row for each build and call says the seconds (the best of N runs, three, by the program's clock; reading the files and freeing what
was found are not counted) with the greatest peak memory of a run up to that call (with the texts and the jobs; as GNU time reports it),
the bound that is asked, where one is, and what was found: rules, nodes, bytes, nodes, whether the first node is before the last, the
race, pairs, the verdict with its chains, chains, whether they are accepted. With --large only those calls are printed that take a
second, or more than half of what is asked. Nothing here is a test.
"""
import argparse
import pathlib
import shutil
import subprocess
import sys
import tempfile

TOP = pathlib.Path(__file__).resolve().parents[2]
sys.dont_write_bytecode = True
sys.path.insert(0, str(TOP / "bench"))

from measure import head, once, row
from sizes import READING, SIZES

LIBRARIES = "mk_decide mk_cert mk_proof mk_foot mk_graph mk_rules mk_include mk_macro mk_lines mk_jobs mk_text mk_name".split()
CALLS = ["read", "plan", "footprints", "attach", "rows", "least", "pairs", "decide", "accept"]


def uses():
    """The libraries of the repository that each crate uses, as crates.txt has them."""
    lines = [line.partition("#")[0].partition(":") for line in (TOP / "crates.txt").read_text().splitlines()]
    return {name.strip(): libraries.split() for name, _, libraries in lines if name.strip()}


def reached(crates, names):
    """These crates and all that they use, lowest first."""
    found = {}
    for name in names:
        if name in crates:
            found.update(dict.fromkeys([*reached(crates, crates[name]), name]))
    return [*found]


def build(room):
    """Builds the program beside a copy of the libraries that it uses, and returns where it lies."""
    top, crates = room / "repository", uses()
    shutil.rmtree(top, ignore_errors=True)
    libraries = reached(crates, LIBRARIES)
    for name in libraries:
        subprocess.run(["rt", "lib", "--jobs", "1"], cwd=TOP / "crates" / name, check=True)
        shutil.copytree(TOP / "crates" / name, top / "crates" / name, ignore=shutil.ignore_patterns("incremental"))
    timed = top / "crates/timed"
    (timed / "src").mkdir(parents=True)
    for path in (TOP / "bench/order-of-jobs/timed").glob("*.rattle"):
        shutil.copyfile(path, timed / "src" / f"{path.stem}.rt")
    lines = [f"{name}: {' '.join(crates[name])}\n" for name in libraries]
    (top / "crates.txt").write_text("".join(lines) + f"timed: {' '.join(LIBRARIES)}\n")
    subprocess.run(["rt", "run", "--jobs", "1"], cwd=timed, check=True)
    return timed / "out/timed"


def measured(program, folder, runs):
    """The best seconds, the greatest peak memory and the last finding of each call, over that number of runs up to each."""
    seconds, memory, found = {}, {}, {}
    for last in [it for it in CALLS for _ in range(runs)]:
        run = once(folder, [str(program), last])
        memory[last] = max(memory.get(last, 0), run.memory)
        for line in run.out.decode().splitlines():
            call, micros, found[call] = line.split(" ", 2)
            seconds[call] = min(seconds.get(call, float("inf")), int(micros) / 1e6)
        if last not in found:
            sys.exit(f"{folder}: the program stopped before `{last}`")
    return seconds, memory, found


def is_large(seconds, call, bound):
    """Whether a call takes a second, or more than half of what is asked."""
    half = seconds["footprints"] if bound == READING else float(bound[:-2]) / 2 if bound.endswith(" s") else 1
    return seconds[call] >= min(half, 1)


def bench_build(program, runs, size, folder, is_large_only):
    """Prints the rows of a build."""
    folder.mkdir(parents=True, exist_ok=True)
    size.lay(folder)
    seconds, memory, found = measured(program, folder, runs)
    for call in seconds:
        if is_large_only and not is_large(seconds, call, size.asked.get(call, "")):
            continue
        peak = f", {memory[call]:,.0f} MiB" if call in memory else ""
        row(size.name, call, f"{seconds[call]:.4f} s{peak}", size.asked.get(call, ""), found[call])


def main():
    names = [size.name for size in SIZES]
    parser = argparse.ArgumentParser(description=__doc__, formatter_class=argparse.RawDescriptionHelpFormatter)
    parser.add_argument("program", nargs="?", metavar="PROGRAM", type=pathlib.Path)
    parser.add_argument("--runs", metavar="N", type=int, default=3)
    parser.add_argument("--only", metavar="BUILD", action="append", choices=names, help=f"one of {', '.join(names)}")
    parser.add_argument("--large", action="store_true")
    parser.add_argument("--keep", metavar="FOLDER", type=pathlib.Path)
    args = parser.parse_args()
    with tempfile.TemporaryDirectory(prefix="race-bench-") as scratch:
        room = (args.keep or pathlib.Path(scratch)).resolve()
        program = args.program.resolve() if args.program else build(room)
        head("build", "call", "it takes", "asked", "found")
        for size in SIZES:
            if size.name in (args.only or names):
                bench_build(program, args.runs, size, room / size.name, args.large)


if __name__ == "__main__":
    sys.exit(main())
