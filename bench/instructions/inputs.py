"""The inputs whose instructions are counted: those of the other benches, the runs of examples/, and some that only counting needs.

An input lays its files out in a folder, and says which words run `race` there, and which run a peer on the same files.
"""
from __future__ import annotations

import importlib.util
import pathlib
import random
import sys
from dataclasses import dataclass, field
from types import ModuleType
from typing import Callable

BENCH = pathlib.Path(__file__).resolve().parents[1]
EXAMPLES = BENCH.parent / "examples"
sys.path.insert(0, str(BENCH))

import builds
from measure import READ_BY_PYTHON

Words = list[str]
EVENTS = 125_000
BUILD = ["--makefile", "makefile", "--listing", "listing", "--root", "/w"]
FOOTPRINTS = ["--footprints", "footprints"]


@dataclass(frozen=True)
class Laid:
    """What runs on the files of an input: the words of `race`, the commands of its peers by name, and in which folder."""

    words: Words
    folder: pathlib.Path
    peers: dict[str, Words] = field(default_factory=dict)


@dataclass(frozen=True)
class Input:
    """A name, and what lays the input out in a folder."""

    name: str
    lay_out: Callable[[pathlib.Path], Laid]


def bench(folder: str) -> ModuleType:
    """The script of another bench, as a module."""
    spec = importlib.util.spec_from_file_location(f"bench_{folder}", BENCH / folder / "run.py")
    if spec is None or spec.loader is None:
        raise ImportError(folder)
    module = importlib.util.module_from_spec(spec)
    spec.loader.exec_module(module)
    return module


ORDER, REPLAY, SERIALISE = bench("order"), bench("replay"), bench("serialise")


def order(name: str) -> Input:
    """An input of bench/order, with both makes as peers."""

    def lay_out(folder: pathlib.Path) -> Laid:
        goals = ORDER.lay_out(folder, ORDER.INPUTS[name], 1)
        peers = {tool: words for tool, words in ORDER.commands("race", str(folder), goals).items() if tool != "race"}
        return Laid(["order", *BUILD, "--includes", "includes", *goals], folder, peers)

    return Input(f"order-{name}", lay_out)


def python(text: str) -> dict[str, Words]:
    """Python's json module, which reads a text of lines."""
    return {"python": [*READ_BY_PYTHON, text]}


def build(command: str, name: str, lay: Callable[[pathlib.Path], Words | None]) -> Input:
    """A build of bench/builds.py, or one of this module, under a command; the goals are those that laying it out gives."""

    def lay_out(folder: pathlib.Path) -> Laid:
        return Laid([command, *BUILD, *FOOTPRINTS, *(lay(folder) or [])], folder, python("footprints"))

    return Input(f"{command}-{name}", lay_out)


def lay_verify(folder: pathlib.Path) -> Laid:
    """The proof of the build whose recipes append to one log."""
    builds.lay_log(folder)
    pairs = [(a, b) for a in range(1_414) for b in range(a + 1, 1_414)]
    builds.write_certificate(folder, pairs, builds.BEHIND)
    return Laid(["verify", *BUILD, *FOOTPRINTS, "--proof", "proof"], folder)


def lay_tasks(folder: pathlib.Path) -> Laid:
    """A text of tasks at the limits."""
    builds.lay_layers(folder)
    return Laid(["check", "--tasks", "tasks", "--root", "/w"], folder, python("tasks"))


def log(module: ModuleType, command: str, limit: int) -> Input:
    """The log of bench/replay or bench/serialise, an eighth of its events, with as many jobs as it has at a time."""

    def lay_out(folder: pathlib.Path) -> Laid:
        module.lay_out(folder)
        module.write_log(folder, EVENTS)
        return Laid([command, *BUILD, *FOOTPRINTS, "--log", "log", "--limit", str(limit)], folder, python("log"))

    return Input(command, lay_out)


def lay_headers(folder: pathlib.Path) -> None:
    """700 objects that each need the same 280 headers: 196,000 edges."""
    text, headers, _goals = ORDER.headers(1)
    (folder / "makefile").write_text(text)
    (folder / "listing").write_text("".join(f"{name}\n" for name in headers))
    write_footprints(folder, [(name, headers, [name]) for name in (f"src/module/o{number:03}.o" for number in range(700))])


def lay_many_lines(folder: pathlib.Path) -> None:
    """One recipe whose footprint is said by 20,000 lines of five paths each."""
    (folder / "makefile").write_text("all:\n\tcc\n")
    (folder / "listing").write_text("")
    lines = [("all", [f"in/{number:05}/{path}" for path in range(4)], ["all"]) for number in range(20_000)]
    write_footprints(folder, lines)


def lay_shuffled(folder: pathlib.Path) -> None:
    """9,000 recipes whose names come in no order, each behind one of the names before it."""
    source = random.Random(1)
    names = [f"x{source.randrange(16 ** 6):06x}" for _ in range(9_000)]
    names = list(dict.fromkeys(names))
    rules = [(name, [source.choice(names[:at])] if at else []) for at, name in enumerate(names)]
    builds.write(folder, [*rules, ("all", names)], [*builds.own(names), ("all", [], ["all"])])


def lay_scattered(folder: pathlib.Path) -> None:
    """4,600 recipes whose names have 40 to 60 bytes and come in no order, with a read each of 10 more such names."""
    text, listed, _goals = ORDER.scattered(1)
    (folder / "makefile").write_text(text)
    (folder / "listing").write_text("".join(f"{name}\n" for name in listed))
    names = [name[::-1] for name in listed]
    write_footprints(folder, [(name, [f"{name}/{other[:40]}" for other in listed[at:at + 10]], [name]) for at, name in enumerate(names)])


def write_footprints(folder: pathlib.Path, lines: list[tuple[str, list[str], list[str]]]) -> None:
    """Writes a line for each target, its reads and its writes."""
    with open(folder / "footprints", "w", encoding="utf-8") as out:
        for target, reads, writes in lines:
            out.write(builds.json.dumps({"target": target, "reads": reads, "writes": writes}) + "\n")


def example(cmd: pathlib.Path) -> Input:
    """A run of examples/, where it stands."""
    run = cmd.parent
    place = run / (run / "run-in").read_text().strip() if (run / "run-in").is_file() else run
    words = cmd.read_text().splitlines()
    return Input(f"example-{run.parent.name}/{run.name}", lambda folder: Laid(words, place))


INPUTS = [
    Input("version", lambda folder: Laid(["--version"], folder)),
    *[order(name) for name in ORDER.INPUTS],
    build("check", "sparse", builds.lay_sparse),
    build("check", "paths", builds.lay_paths),
    build("check", "dense", builds.lay_dense),
    build("check", "trees", builds.lay_trees),
    build("check", "log", builds.lay_log),
    build("check", "free", builds.lay_free),
    build("check", "layers", builds.lay_layers),
    Input("check-tasks", lay_tasks),
    Input("verify-log", lay_verify),
    build("check", "headers", lay_headers),
    build("check", "many-lines", lay_many_lines),
    build("check", "shuffled", lay_shuffled),
    build("check", "scattered", lay_scattered),
    build("list", "free", builds.lay_free),
    build("list", "temporaries", builds.lay_temporaries),
    build("fix", "header", builds.lay_readers),
    build("fix", "temporaries", builds.lay_temporaries),
    log(REPLAY, "replay", 1),
    log(SERIALISE, "serialise", SERIALISE.TOGETHER),
    *[example(cmd) for cmd in sorted(EXAMPLES.glob("*/*/cmd"))],
]
