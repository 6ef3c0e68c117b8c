#!/usr/bin/env python3
"""Times the built program on inputs that were made to cost it much time or memory.

    bench/hostile/run.py [--only NAME ..] [--large] [--seconds N] [--gigabytes N] [PROGRAM]

PROGRAM is the built program (crates/race/out/race). Each input is as large as a limit allows, or as its line in docs/SAFETY.md
says, and is made at half of that size first. Printed are the size of the texts, the seconds of a processor and the peak
memory of one run of each, as GNU time reports them (Debian's package `time`), the power of the size that the time grows with, the
status, and whether the whole is over its bound: five seconds and a twentieth for each megabyte of the texts, and 64 MiB with 24 times the texts; and besides, for
inputs that are named in LINES, what a line of the makefile is allowed there. A run that takes more than N seconds (100) is
stopped, and one that wants more than N gigabytes (6) is refused memory. With --large only those inputs are printed that take three seconds
or 500 MiB, or are over their bound. Nothing here is a test.
"""
import argparse
import json
import math
import os
import pathlib
import random
import subprocess
import sys
import tempfile

TOP = pathlib.Path(__file__).resolve().parents[2]
MEGABYTE = 1_048_576
DIGITS = "0123456789abcdefghijklmnopqrstuvwxyz"


def short(number):
    """A name of four letters."""
    return "".join(DIGITS[number // 36**k % 36] for k in (3, 2, 1, 0))


def entries(head, words, room=65_000):
    """Lines that give a target these words as prerequisites, none of them longer than an expansion may be."""
    lines, size = [[]], 0
    for word in words:
        if size + len(word) + 1 > room:
            lines.append([])
            size = 0
        lines[-1].append(word)
        size += len(word) + 1
    return "".join(f"{head}: {' '.join(line)}\n" for line in lines)


def many(line, times):
    """A text of equal lines."""
    return line * int(times)


def suffixes(names, count):
    """Listed names that no inference rule serves, under suffixes that each have a rule."""

    def make(part):
        listed = [f"n{short(i)}" for i in range(int(names * part))]
        ends = ["." + short(i) for i in range(int(count * part))]
        return {
            "base": entries(".SUFFIXES", ends),
            "makefile": entries("all", listed) + "".join(f"{end}:;\n" for end in ends),
            "listing": "".join(f"{name}\n" for name in listed),
        }

    return make


def one_stem(part):
    """Listed names of one stem, to each of whose suffixes three rules lead from suffixes that no name has."""
    ends = ["." + short(i) for i in range(int(100_000 * part))]
    count = int(19_999 * part)
    listed = ["s" + end for end in ends[:count]]
    rules = [f"{ends[count + i]}{ends[i % count]}:;\n" for i in range(3 * count)]
    return {
        "base": entries(".SUFFIXES", ends),
        "makefile": entries("all", listed) + "".join(rules),
        "listing": "".join(f"{name}\n" for name in listed),
    }


def one_suffix(part):
    """Listed names of one suffix, to which 77,000 rules lead from suffixes that no name has."""
    ends = ["." + short(i) for i in range(int(99_999 * part))]
    listed = [f"n{short(i)}.o" for i in range(int(19_999 * part))]
    return {
        "base": entries(".SUFFIXES", [*ends, ".o"]),
        "makefile": entries("all", listed) + "".join(f"{end}.o:;\n" for end in ends[: int(77_000 * part)]),
        "listing": "".join(f"{name}\n" for name in listed),
    }


def never_met(part):
    """499 stems under 40 suffixes, to each of which 1,900 rules lead, and 2,000 listed names of each stem between them."""
    stems, olds = [f"s{short(i)[1:]}" for i in range(499)], ["." + short(i)[2:] for i in range(40)]
    ends = ["." + short(i)[1:] for i in range(int(4_000 * part))]
    listed = [stem + old for stem in stems for old in olds]
    rules = [f"{end}{old}:;\n" for old in olds for end in ends[: int(3_800 * part) : 2]]
    return {
        "base": entries(".SUFFIXES", olds + ends),
        "makefile": entries("all", listed) + "".join(rules),
        "listing": "".join(f"{name}\n" for name in listed) + "".join(f"{stem}{end}\n" for stem in stems for end in ends[1::2]),
    }


def nested(part):
    """Macros whose values stand in one another, each beside a text of 60,000 bytes."""
    count = int(4_990 * part)
    lines = [f"M{i} = $(T)$(M{i + 1})\n" for i in range(count)]
    return {"makefile": "T = " + "x" * 60_000 + "\n" + "".join(lines) + f"M{count} = y\nall: $(M0)\n", "listing": ""}


def immediate(part):
    """70,000 macros that are expanded at once, each to 65,535 bytes."""
    lines = [f"{short(i)}::=$A\n" for i in range(int(70_000 * part))]
    return {"makefile": "A=" + "x" * 65_535 + "\n" + "".join(lines) + "all:\n", "listing": ""}


def additions(part):
    """One macro to which 65,535 bytes are added 40,000 times."""
    return {"makefile": "A=" + "x" * 65_535 + "\nB::=\n" + many("B+=$A\n", 40_000 * part) + "all:\n", "listing": ""}


def repeated(part):
    """1,600 short entries, each of which expands to 65,535 bytes of words."""
    return {"makefile": "A=" + "y " * 32_767 + "\n" + many("x:$A\n", 1_600 * part), "listing": "y\n"}


def references(part):
    """10,000 short entries, each of which takes 10,000 references and gives nothing."""
    return {"makefile": "e=\nA=" + "$e" * 9_999 + "\n" + many("x:$A\n", 10_000 * part) + "x: y\n", "listing": "y\n"}


def long_word(part):
    """20 short entries, each of which goes 4,999 times through a long word that a substitution takes away."""
    word = "x" * 65_000
    macros = f"A={word}\nV=$(A:{word}=)\nW=" + "$V" * 4_999 + "\n"
    return {"makefile": macros + many("x:$W\n", 20 * part) + "x: y\n", "listing": "y\n"}


def long_value(part):
    """A short entry that goes 65 times through a value of 1,000 such words, which additions made."""
    word = "x" * 64_000
    macros = f"A={word}\nB::=$A\n" + many("B+=$A\n", 999 * part) + f"V=$(B:{word}=)\nW=" + "$V" * 65 + "\n"
    return {"makefile": macros + "x:$W\nx: y\n", "listing": "y\n"}


def nested_words(part):
    """Macros whose values stand in one another, each beside 30,000 words that a substitution changes: the line is refused."""
    count = int(4_990 * part)
    lines = [f"M{i} = $(T)$(M{i + 1}:x=)\n" for i in range(count)]
    return {"makefile": "T = " + "x " * 30_000 + "\n" + "".join(lines) + f"M{count} = y\nall: $(M0)\n", "listing": ""}


def long_listing(part):
    """A listing of 10,000,000 lines."""
    return {"makefile": "all: f0000000\n", "listing": "".join(f"f{i:07}\n" for i in range(int(10_000_000 * part)))}


def footprints(rows):
    """A build of recipes whose footprints have these reads, a row each, and an empty log."""
    targets = [f"t{i:04}" for i in range(len(rows))]
    lines = (json.dumps({"target": t, "reads": reads, "writes": [t]}) + "\n" for t, reads in zip(targets, rows))
    makefile = entries("all", targets) + "".join(f"{t}: s\n\tc\n" for t in targets)
    return {"makefile": makefile, "listing": "s\n", "footprints": "".join(lines), "log": '{"do":"file","path":"s","bytes":"","time":1}\n'}


def shared_prefix(part):
    """1,000,000 footprint paths that share a prefix of 200 bytes."""
    prefix = "p/" * 100
    return footprints([[f"{prefix}{k * 1_000 + i}" for i in range(999)] for k in range(int(1_000 * part))])


def below_one_another(part):
    """1,000,000 footprint paths, each a folder below the one before it, 199 levels deep."""
    row = ["a/" * depth for depth in range(1, 200)]
    return footprints([row for _ in range(int(5_000 * part))])


def deep_trees(part):
    """A recipe with 5,000 trees and 5,000 files, all 1,990 folders deep."""
    folder = "d/" * 1_989
    count = int(5_000 * part)
    return footprints([[f"{folder}t{i}/" for i in range(count)] + [f"{folder}u{i}" for i in range(count)]])


def deep_looks(part):
    """12,000 looks of a recipe below 2,000 trees that are 1,990 folders deep."""
    folder = "d/" * 1_989
    looks = [{"do": "look", "node": "t0000", "path": f"{folder}t{i % 2_000}/{i}", "bytes": None} for i in range(int(12_000 * part))]
    log = [{"do": "skip", "node": "s"}, {"do": "start", "node": "t0000"}, *looks, {"do": "finish", "node": "t0000"}]
    texts = footprints([[f"{folder}t{i}/" for i in range(2_000)]])
    return {**texts, "log": texts["log"] + "".join(json.dumps(it) + "\n" for it in log)}


def trees_beside(part):
    """5,000 files 1,990 folders deep, and beside each folder a tree that stands right before it in order."""
    folder = "d/" * 1_989
    beside = ["d/" * depth + "d$/" for depth in range(1_988)]
    return footprints([beside + [f"{folder}u{i}" for i in range(int(5_000 * part))]])


def looks_beside(part):
    """5,000 looks 1,990 folders deep, of a recipe that reads the outermost folder and a tree beside each of the others."""
    folder = "d/" * 1_989
    beside = ["d/" * depth + "d$/" for depth in range(1_988)]
    looks = [{"do": "look", "node": "t0000", "path": f"{folder}u{i}", "bytes": None} for i in range(int(5_000 * part))]
    log = [{"do": "skip", "node": "s"}, {"do": "start", "node": "t0000"}, *looks, {"do": "finish", "node": "t0000"}]
    texts = footprints([["d/", *beside]])
    return {**texts, "log": texts["log"] + "".join(json.dumps(it) + "\n" for it in log)}


def in_no_order(part):
    """Nearly 1,000,000 footprint paths of 19,990 recipes, each of four letters and in no order."""
    numbers = random.Random(7)
    return footprints([[short(numbers.randrange(36**4)) for _ in range(49)] for _ in range(int(19_990 * part))])


def one_line(part):
    """A makefile whose one line is a megabyte of continued lines."""
    return {"makefile": "a:\\\n" + many("\\\n", (MEGABYTE * part - 20) // 2) + "\n", "listing": "a\n"}


def one_command(part):
    """A makefile with one command of a megabyte, and a listing and a footprint line of a hundred."""
    text = "x" * int(100 * MEGABYTE * part)
    line = json.dumps({"target": "a", "reads": [], "writes": [], "further": text}) + "\n"
    return {**footprints([]), "makefile": "a:\n\t" + text[: int(MEGABYTE * part) - 10] + "\n", "listing": "s\n", "footprints": line}


def listing_line(part):
    """A listing of one line of a hundred megabytes."""
    return {"makefile": "a:\n", "listing": "x" * int(100 * MEGABYTE * part)}


def operands(part):
    """100,000 operands that define macros."""
    return {"makefile": "all: a\n", "listing": "a\n", "words": [f"{short(i)}=x" for i in range(int(100_000 * part))]}


def goals(part):
    """100,000 goals."""
    listed = [f"g{short(i % 10_000)}" for i in range(int(100_000 * part))]
    return {"makefile": "", "listing": "".join(f"{name}\n" for name in listed), "words": listed}


def json_line(part, value):
    """One footprint line of ten megabytes, in which a further key has such a value."""
    size = int(10 * MEGABYTE * part)
    made = {
        "nested": "[" * size,
        "keys": "{" + ",".join(f'"{i}":0' for i in range(size // 9)) + "}",
        "long key": '{"' + "k" * size + '":0}',
        "escapes": '"' + "\\u0041" * (size // 6) + '"',
        "number": "1" * size,
    }[value]
    return {**footprints([["s"]]), "footprints": '{"further":' + made + ',"target":"t0000","reads":[],"writes":[]}\n'}


def trees_read(part):
    """3,000 recipes that read a folder as a tree, and one that reads 3,000 files below it."""
    files = [f"d/{short(i)[1:]}" for i in range(int(3_000 * part))]
    texts = footprints([files, *[["d/"]] * len(files)])
    return {name: texts[name] for name in ("makefile", "footprints")} | {"listing": "".join(f"{it}\n" for it in ["s", *files])}


def dense(part):
    """20,000 nodes and 200,000 edges, each node with the ten before it."""
    names = [short(i) for i in range(int(19_999 * part))]
    rules = [f"{name}: {' '.join(names[max(0, i - 10):i])}\n\tc\n" for i, name in enumerate(names)]
    half = len(rules) // 2
    lines = [json.dumps({"target": name, "reads": ["shared"], "writes": [name]}) + "\n" for name in names]
    makefile = f"all: {names[-1]}\n" + "".join(rules[half:])
    texts = {"base": "".join(rules[:half]), "makefile": makefile, "listing": "", "footprints": "".join(lines), "log": ""}
    return {**texts, "words": ["all"]}


def puts(part):
    """A recipe that puts one file a million times, and a store of 100,000 files."""
    files = [f"f{i:06}" for i in range(int(100_000 * part))]
    log = [json.dumps({"do": "file", "path": it, "bytes": "", "time": 1}) for it in files]
    log += ['{"do":"skip","node":"s"}', '{"do":"start","node":"t0000"}']
    log += [json.dumps({"do": "put", "node": "t0000", "path": "t0000", "bytes": "", "time": i + 2}) for i in range(int(1_000_000 * part))]
    log += ['{"do":"finish","node":"t0000"}']
    listing = "".join(f"{it}\n" for it in files) + "s\n"
    log.insert(0, '{"do":"file","path":"s","bytes":"","time":1}')
    return {**footprints([["s"]]), "listing": listing, "log": "\n".join(log) + "\n"}


def large_file(part):
    """A file of 50 megabytes that a log lists, puts and looks at."""
    data = "61" * int(50 * MEGABYTE * part)
    log = ['{"do":"file","path":"s","bytes":"%s","time":1}' % data, '{"do":"skip","node":"s"}', '{"do":"start","node":"t0000"}']
    log += ['{"do":"look","node":"t0000","path":"s","bytes":"%s"}' % data]
    log += ['{"do":"put","node":"t0000","path":"t0000","bytes":"%s","time":2}' % data, '{"do":"finish","node":"t0000"}']
    return {**footprints([["s"]]), "log": "\n".join(log) + "\n"}


def ordered_pairs(part):
    """20,000 nodes, each behind the ten before it, in groups of 101 that append to one log, and 99 that read a file of the first
    node: 1,000,000 pairs conflict, all in order, and the longest chain has 2,000 nodes."""
    names = [short(i)[1:] for i in range(int(20_000 * part))]
    rules = [f"{name}: {' '.join(names[max(0, i - 10):i])}\n\tc\n" for i, name in enumerate(names)]
    lines = [{"target": name, "reads": [], "writes": [name, f"log{i // 101}"]} for i, name in enumerate(names)]
    lines[0]["writes"].append("first")
    for line in lines[-102:-3]:
        line["reads"].append("first")
    return {"makefile": "".join(rules), "listing": "", "footprints": "".join(json.dumps(it) + "\n" for it in lines), "words": names[-1:]}


def one_row(part):
    """1,414 recipes in a row that write one log: 998,991 pairs conflict, all in order, and 1,413 are neighbours."""
    names = [short(i)[1:] for i in range(int(1_414 * part))]
    rules = (f"{name}: {before}\n\tc\n" for name, before in zip(names, ["", *names]))
    lines = ({"target": name, "reads": [], "writes": [name, "log"]} for name in names)
    return {"makefile": "".join(rules), "listing": "", "footprints": "".join(json.dumps(it) + "\n" for it in lines), "words": names[-1:]}


def proof_of_row(part):
    """The short certificate of these."""
    last = int(1_414 * part) - 1
    return {**one_row(part), "proof": f"certificate {last}\n" + "".join(f"{i} {i + 1}\n" for i in range(last))}


def shared_log(part):
    """1,414 recipes that write one log, in no order."""
    names = [short(i) for i in range(int(1_414 * part))]
    rules = "".join(f"{name}:\n\tc\n" for name in names)
    lines = ({"target": name, "reads": [], "writes": [name, "log"]} for name in names)
    return {"makefile": entries("all", names) + rules, "listing": "", "footprints": "".join(json.dumps(it) + "\n" for it in lines)}


def log_of_tasks(part):
    """1,414 tasks that write one log, in no order."""
    lines = ({"task": f"t{i}", "after": [], "reads": [], "writes": ["log"]} for i in range(int(1_414 * part)))
    return {"tasks": "".join(json.dumps(it) + "\n" for it in lines)}


def asked(command, make_input):
    """The same input, with another command and its flags."""
    return lambda part: {"command": command, **make_input(part)}


def included(lines, texts, before=""):
    """A makefile with these lines, and texts that its include lines may name."""
    return {"makefile": before + lines + "all:\n", "listing": "", "includes": "".join(f"{name}\n" for name in texts), "aside": texts}


# A macro of 60,000 bytes, and one whose value is kept as it expands; and a line that adds the first to the second.
VALUES, ADD = "B = " + "b" * 60_000 + "\nA ::= a\n", "A += $(B)\n"


def values_in_one_another(part):
    """16 texts inside one another, each of which adds to a macro of 30 megabytes, before a word that names an empty text."""
    texts = {f"t{i}": f"A += x\ninclude t{i + 1} e\n" for i in range(15)}
    return included("include t0 e\n", {**texts, "t15": "A += x\n", "e": ""}, VALUES + many(ADD, 500 * part))


INPUTS = {
    "suffixes, 5,000 names, 2,000 suffixes": suffixes(5_000, 2_000),
    "suffixes, 19,999 names, 100,000 suffixes": suffixes(19_999, 100_000),
    "suffixes, 19,999 names of one stem": one_stem,
    "suffixes, 19,999 names of one suffix": one_suffix,
    "suffixes, rules and names that never meet": never_met,
    "nested values": nested,
    "nested values of many words": nested_words,
    "immediate macros": immediate,
    "additions to one macro": additions,
    "one entry of many words, repeated": repeated,
    "one entry of many references, repeated": references,
    "references through a long word": long_word,
    "references through a long value": long_value,
    "listing of 10^7 lines": long_listing,
    "paths with one prefix": shared_prefix,
    "paths below one another": below_one_another,
    "trees and files that lie deep": deep_trees,
    "looks below trees that lie deep": deep_looks,
    "trees beside each folder of deep files": trees_beside,
    "looks where a tree lies beside each folder": looks_beside,
    "paths in no order": in_no_order,
    "one line of continued lines": one_line,
    "one long command and further key": one_command,
    "one long line of the listing": listing_line,
    "100,000 macro operands": operands,
    "100,000 goals": goals,
    "JSON that nests": lambda part: json_line(part, "nested"),
    "JSON of a million keys": lambda part: json_line(part, "keys"),
    "JSON with a long key": lambda part: json_line(part, "long key"),
    "JSON of escapes": lambda part: json_line(part, "escapes"),
    "JSON with a long number": lambda part: json_line(part, "number"),
    "a folder that 3,000 recipes read, missing": asked("missing", trees_read),
    "200,000 edges": dense,
    "a million pairs in order": ordered_pairs,
    "a million pairs in order, list": asked("list", ordered_pairs),
    "a million pairs in order, missing": asked("missing", ordered_pairs),
    "1,414 recipes in a row, check --short": asked("check --short", one_row),
    "1,414 recipes in a row, verify --short": asked("verify --short", proof_of_row),
    "a log of 1,414 recipes": shared_log,
    "a log of 1,414 recipes, list": asked("list", shared_log),
    "a log of 1,414 recipes, missing": asked("missing", shared_log),
    "a log of 1,414 recipes, fix": asked("fix", shared_log),
    "a log of 1,414 tasks, fix": asked("fix", log_of_tasks),
    "a million puts, 100,000 files": puts,
    "a file of 50 megabytes": large_file,
    "include lines of large values": lambda part: included(many("include a\n", 1_000 * part), {"a": ADD}, VALUES),
    "the same lines of large values, by hand": lambda part: included(many(ADD, 1_000 * part), {}, VALUES),
    "include lines inside one another, of large values": values_in_one_another,
    "the same lines of those, by hand": lambda part: included(many("A += x\n", 16), {}, VALUES + many(ADD, 500 * part)),
    "an include line of large values that is refused": lambda part: included(f"include{' a' * int(999 * part)} missing\n", {"a": ADD}, VALUES),
    "include lines of large texts": lambda part: included(many("include a\n", 50 * part), {"a": many("x:\n", 100_000)}),
}

# What docs/SAFETY.md allows a line of these makefiles, an entry that is named, or a pair that is reported: how many there are, and for
# each seconds of a processor and KiB.
LINES = {
    "immediate macros": (70_000, 0.0002, 72),
    "additions to one macro": (40_000, 0.0002, 72),
    "one entry of many words, repeated": (1_600, 0.015, 2_560),
    "one entry of many references, repeated": (10_000, 0.002, 0),
    "references through a long word": (20, 0.2, 0),
    "references through a long value": (1, 2, 72 * 1_000),
    "include lines of large texts": (5_000_000, 0.000002, 0.3),
    "a million pairs in order": (1_000_000, 0.000002, 0.07),
    "a log of 1,414 recipes, list": (998_991, 0.000002, 0.07),
}


def run(args, make_input, part):
    """One run: the size of its texts in bytes, the seconds, the peak memory in MiB, and how it ended."""
    with tempfile.TemporaryDirectory(prefix="race-bench-") as folder:
        texts = make_input(part)
        operands_of, command = texts.pop("words", []), texts.pop("command", "")
        for name, text in texts.pop("aside", {}).items():
            pathlib.Path(folder, name).write_text(text)
        for name, text in texts.items():
            pathlib.Path(folder, name).write_text(text)
        size = sum(path.stat().st_size for path in pathlib.Path(folder).iterdir()) + sum(len(it) + 1 for it in operands_of)
        command = command or ("replay" if "log" in texts else "check" if "footprints" in texts else "order")
        words = [*command.split(), "--root", "/w"]
        words += [word for name in texts for word in ("--" + name, name)] + operands_of
        del texts
        limits = f"ulimit -v {int(args.gigabytes * MEGABYTE)}; ulimit -t {args.seconds};"
        limits += ' exec time -q -f "%M %U %S" -o memory "$@"'
        how = {"stdin": subprocess.DEVNULL, "stdout": subprocess.DEVNULL, "stderr": subprocess.DEVNULL}
        status = subprocess.run(["sh", "-c", limits, "sh", args.program, *words], cwd=folder, check=False, **how).returncode
        memory, *seconds = pathlib.Path(folder, "memory").read_text().split()[-3:]
    return size, sum(map(float, seconds)), int(memory) / 1024, str(status) if 0 <= status < 4 else "stopped"


def is_over(name, size, seconds, memory, end):
    megabytes = size / MEGABYTE
    lines, each_seconds, each_kibibytes = LINES.get(name, (0, 0, 0))
    most_seconds = 5 + megabytes / 20 + lines * each_seconds
    most_memory = 64 + 24 * megabytes + lines * each_kibibytes / 1024
    return end not in "012" or seconds > most_seconds or memory > most_memory


def main():
    parser = argparse.ArgumentParser(description=__doc__, formatter_class=argparse.RawDescriptionHelpFormatter)
    parser.add_argument("program", nargs="?", default=str(TOP / "crates/race/out/race"))
    parser.add_argument("--only", action="append", metavar="NAME", help="the inputs whose name begins so")
    parser.add_argument("--large", action="store_true")
    parser.add_argument("--seconds", type=int, default=100)
    parser.add_argument("--gigabytes", type=float, default=6)
    args = parser.parse_args()
    args.program = os.path.abspath(args.program)
    print("| input | size | half | whole | growth | status | bound |\n|---|---|---|---|---|---|---|")
    for name, make_input in INPUTS.items():
        if args.only and not any(name.startswith(it) for it in args.only):
            continue
        half, whole = run(args, make_input, 1 / 2), run(args, make_input, 1)
        is_over_bound = is_over(name, *whole)
        if args.large and whole[1] < 3 and whole[2] < 500 and not is_over_bound:
            continue
        times = " | ".join(f"{seconds:.2f} s, {memory:,.0f} MiB" for _, seconds, memory, _ in (half, whole))
        print(f"| {name} | {whole[0] / MEGABYTE:.1f} MB | {times} | {math.log2(max(whole[1], 0.01) / max(half[1], 0.01)):.1f} | {whole[3]} | {'over' if is_over_bound else ''} |", flush=True)


if __name__ == "__main__":
    sys.exit(main())
