#!/usr/bin/env python3
"""Times `race order` beside `make -n -r` and `bmake -n -r` on the same large makefiles.

    bench/order/run.py [--runs N] [--only NAME ..] [PROGRAM]

PROGRAM is the built program (crates/race/out/race). Each input is made in a folder of its own, with every listed file
present, so that all three tools look at the same build. It prints, for each tool that is on this machine, the best wall time of N runs
(five) and the greatest peak memory, as GNU time reports it (Debian's package `time`), and the seconds of `race` at an eighth, a quarter
and a half of the input. Nothing here is a test.
"""
import argparse
import os
import pathlib
import random
import shutil
import sys
import tempfile

TOP = pathlib.Path(__file__).resolve().parents[2]
sys.dont_write_bytecode = True
sys.path.insert(0, str(TOP / "bench"))

from measure import about, best, head, row

# GNU make goes down a chain by calls, and needs more stack than it is given.
WITH_STACK = ("sh", "-c", 'ulimit -s unlimited; exec "$@"', "sh")


def chain(part):
    """20,000 names, each of which needs the next; the last is a file."""
    names = [f"n{i:05}" for i in range(int(20_000 * part))]
    rules = [f"{a}: {b}\n\ttouch {a}\n" for a, b in zip(names, names[1:])]
    return "".join(rules), names[-1:], []


def dense(part):
    """One entry of 400 targets with 499 prerequisites, and a goal that needs the targets: 200,000 edges."""
    targets = [f"t{i:03}" for i in range(int(400 * part))]
    leaves = [f"l{i:03}" for i in range(499)]
    text = f"all: {' '.join(targets)}\n{' '.join(targets)}: {' '.join(leaves)}\n\ttouch x\n"
    return text, leaves, []


def wide(part):
    """9,500 targets of one listed source each, and a goal that needs them, in entries that an expansion may have."""
    objects = [f"o{i:04}.o" for i in range(int(9_500 * part))]
    rules = [f"{o}: {o[:-1]}c\n\tcc -c {o[:-1]}c\n" for o in objects]
    goals = [f"all: {' '.join(objects[i:i + 4_000])}\n" for i in range(0, len(objects), 4_000)]
    return "".join(goals + rules), [o[:-1] + "c" for o in objects], []


def long(part):
    """4,700 targets whose names have 51 bytes, each behind one source, and a goal that needs them, in a text of 1 MiB."""
    stems = [f"build_subsystem_component_module_number_{i:05}_objs" for i in range(int(4_700 * part))]
    rules = [f"{stem}: {stem}.c\n\tcc -c x\n" for stem in stems]
    goals = [f"all: {' '.join(stems[i:i + 1_200])}\n" for i in range(0, len(stems), 1_200)]
    return "".join(goals + rules), [f"{stem}.c" for stem in stems], []


def scattered(part):
    """4,600 targets whose names have 40 to 60 bytes and come in no order, each behind one source, in a text of 1 MiB."""
    source = random.Random(1)
    stems = [f"{source.getrandbits(160):040x}{'_object_of_a_component'[:source.randrange(21)]}" for _ in range(int(4_600 * part))]
    rules = [f"{stem}: {stem[::-1]}\n\tcc -c x\n" for stem in source.sample(stems, len(stems))]
    goals = [f"all: {' '.join(stems[i:i + 1_000])}\n" for i in range(0, len(stems), 1_000)]
    return "".join(goals + rules), [stem[::-1] for stem in stems], []


def headers(part):
    """700 objects that each need the same 280 headers, in an entry each, and a goal that needs the objects: 196,700 edges."""
    names = [f"include/project/h{i:03}.h" for i in range(280)]
    objects = [f"src/module/o{i:03}.o" for i in range(int(700 * part))]
    rules = [f"{name}: $(HEADERS)\n\tcc -c x\n" for name in objects]
    return f"HEADERS = {' '.join(names)}\nall: {' '.join(objects)}\n" + "".join(rules), names, []


def short(part):
    """A makefile of 1 MiB of short rules, of which the goal needs one."""
    rules, size, i = [], 0, 0
    while True:
        rule = f"x{i}: y\n"
        if size + len(rule) > 1_048_576 * part:
            return "".join(rules), ["y"], ["x0"]
        rules.append(rule)
        size += len(rule)
        i += 1


def macros(part):
    """40 targets of nearly 10,000 references each: 8,990 to an empty macro, 1,000 nested ones, and a value of 30,000 bytes."""
    nested = [f"N{i} = $(N{i + 1})\n" for i in range(999)] + ["N999 = y\n"]
    targets = [f"t{i}" for i in range(int(40 * part))]
    rules = [f"{t}: {'$e' * 8_990} $(N0) $(L:y=y)\n\ttouch {t}\n" for t in targets]
    text = "e =\n" + "".join(nested) + "L = " + "y " * 15_000 + "\n" + f"all: {' '.join(targets)}\n" + "".join(rules)
    return text, ["y"], ["all"]


def many_macros(part, lines):
    """100,000 macros, some lines, and one rule."""
    return "".join(f"M{i}=\n" for i in range(int(100_000 * part))) + "".join(lines) + "all: y\n"


def includes(part):
    """1,000 include lines of two words below 100,000 macros: a text of one assignment, and a name that no text has."""
    names = [f"t{i}.mk" for i in range(int(1_000 * part))]
    lines = [f"-include {name} none\n" for name in names]
    return many_macros(part, lines), ["y"], [], {name: f"M{i} = x\n" for i, name in enumerate(names)}


def joined(part):
    """100,000 macros, with the lines of 1,000 such texts in their places."""
    return many_macros(part, [f"M{i} = x\n" for i in range(int(1_000 * part))]), ["y"], []


INPUTS = {
    "chain": chain,
    "dense": dense,
    "wide": wide,
    "long": long,
    "scattered": scattered,
    "headers": headers,
    "short": short,
    "macros": macros,
    "includes": includes,
    "joined": joined,
}


def lay_out(folder, make_input, part):
    """Writes an input of that part of its full size, and returns the goals."""
    text, listed, goals, *texts = make_input(part)
    pathlib.Path(folder, "makefile").write_text(text)
    for path, included in [pair for pairs in texts for pair in pairs.items()]:
        pathlib.Path(folder, path).write_text(included)
    pathlib.Path(folder, "includes").write_text("".join(path + "\n" for pairs in texts for path in pairs))
    pathlib.Path(folder, "listing").write_text("".join(path + "\n" for path in listed))
    for path in listed:
        pathlib.Path(folder, path).parent.mkdir(parents=True, exist_ok=True)
        pathlib.Path(folder, path).touch()
    return goals


def commands(program, folder, goals):
    return {
        "race": [program, "order", "--makefile", "makefile", "--listing", "listing", "--includes", "includes", "--root", folder, *goals],
        "make": ["make", "-n", "-r", "-f", "makefile", *goals],
        "bmake": ["bmake", "-n", "-r", "-f", "makefile", *goals],
    }


def cost_of(args, folder, words):
    """The cell of a tool; one that takes long runs once."""
    if shutil.which(words[0]) is None:
        return ""
    run = best(1, pathlib.Path(folder), [*WITH_STACK, *words])
    return (run if run.seconds >= 10 else best(args.runs, pathlib.Path(folder), [*WITH_STACK, *words])).cost()


def compare(args, make_input):
    """The row of an input."""
    with tempfile.TemporaryDirectory(prefix="race-bench-") as folder:
        goals = lay_out(folder, make_input, 1)
        costs = [cost_of(args, folder, words) for words in commands(args.program, folder, goals).values()]
    row(about(make_input), *costs, ", ".join(f"{it:.3f}" for it in growth(args, make_input)))


def growth(args, make_input):
    """The program's seconds at an eighth, a quarter and a half of the input."""
    for part in (1 / 8, 1 / 4, 1 / 2):
        with tempfile.TemporaryDirectory(prefix="race-bench-") as folder:
            words = commands(args.program, folder, lay_out(folder, make_input, part))["race"]
            yield best(args.runs, pathlib.Path(folder), [*WITH_STACK, *words]).seconds


def main():
    parser = argparse.ArgumentParser(description=__doc__, formatter_class=argparse.RawDescriptionHelpFormatter)
    parser.add_argument("program", nargs="?", default=str(TOP / "crates/race/out/race"))
    parser.add_argument("--runs", type=int, default=5)
    parser.add_argument("--only", action="append", choices=INPUTS)
    args = parser.parse_args()
    args.program = os.path.abspath(args.program)
    head("makefile", "`race order`", "GNU make", "bmake", "`race` at an eighth, a quarter, a half")
    for name in args.only or INPUTS:
        compare(args, INPUTS[name])


if __name__ == "__main__":
    sys.exit(main())
