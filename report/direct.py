"""The report of a makefile without a record: `race` reads it, with a listing and footprints, and says which recipes race."""

from __future__ import annotations

import argparse
import os
import re
import subprocess
from collections.abc import Iterator, Sequence
from dataclasses import dataclass
from pathlib import Path
from typing import Any

from record.folder import top_of
from record.fixes import merged
from record.judge import RACE_LINE, Race, Verdict, explained, unshown
from record.messages import page
from report.model import Assumption, BadRecord, Build, Report

ORDER = re.compile(r"^\d+ (plain|recipe|inferred) ([^ ]+)(?: :((?: [^ ]+)*))?$")
# What is taken for granted where footprints are written by hand: README, "Premises".
PREMISES = (
    "the makefile, the goals, the macros and the base are those that the build uses",
    "the listing has just the files that are there when the build begins",
    "the footprints have all that the recipes read and write",
    "what a recipe does next depends on the bytes that it saw, and on nothing else",
    "two names are two files, and a file that is written is newer than all others",
)
NEEDED = {
    "listing": "the files that are there, one a line (find . > FILE)",
    "footprints": f'what each recipe reads and writes ("How footprints are recorded" in {page("FORMATS.md")})',
}


@dataclass(frozen=True)
class Inputs:
    """The words of `race` for one makefile; `graph` are those that every command takes."""

    makefile: Path
    root: str
    graph: tuple[str, ...]
    footprints: Path
    operands: tuple[str, ...]

    def words(self, command: str) -> list[str]:
        """The command line of one command."""
        of_recipes = [] if command == "order" else ["--footprints", str(self.footprints)]
        return [command, *self.graph, *of_recipes, *self.operands]


def inputs(args: argparse.Namespace) -> Inputs:
    """The inputs that a command line names; the root is the working folder where none is given."""
    for name, holds in NEEDED.items():
        if not getattr(args, name):
            raise BadRecord(f"--makefile needs --{name} FILE too: {holds}")
    for name in ("makefile", *NEEDED, "base", "includes"):
        path = getattr(args, name)
        if path and not os.access(path, os.R_OK):
            raise BadRecord(f"--{name} names {path}, which {'cannot be read' if path.exists() else 'is not there'}")
    root = os.path.abspath(args.root or ".")
    graph = ["--makefile", str(args.makefile), "--listing", str(args.listing), "--root", root]
    graph += ["--base", str(args.base)] if args.base else ["--posix-base"] if args.posix_base else []
    graph += ["--includes", str(args.includes)] if args.includes else []
    return Inputs(args.makefile, root, tuple(graph), args.footprints, tuple(args.words))


def run(program: Path, words: Sequence[str]) -> subprocess.CompletedProcess[str]:
    """Runs `race` with these words."""
    return subprocess.run([str(program), *words], capture_output=True, text=True, errors="replace", stdin=subprocess.DEVNULL, check=False)


def asked(program: Path, words: Sequence[str]) -> subprocess.CompletedProcess[str]:
    """What `race` answers; a file that cannot be read, an invalid command line or a lack of memory is an error."""
    done = run(program, words)
    if done.returncode not in (0, 1, 2):
        raise BadRecord(f"race {words[0]}: {done.stderr.strip() or f'status {done.returncode}'}")
    return done


def refusal(done: subprocess.CompletedProcess[str], command: str) -> str:
    """Why `race` refused its input; nothing where it did not."""
    said = " ".join(done.stdout.split())
    return f"race {command}: {explained(said) or 'no reason given'}" if done.returncode == 2 else ""


def rules(makefile: Path) -> Iterator[tuple[str, int, str]]:
    """The rules of a makefile whose targets stand there as they are: each target, its line, and the first line of its recipe."""
    open_at = 0
    targets: list[str] = []
    for number, line in enumerate(makefile.read_text(encoding="utf-8", errors="surrogateescape").split("\n"), 1):
        if line.startswith("\t") and open_at:
            yield from ((it, open_at, line.strip()) for it in targets)
            open_at = 0
        elif found := re.match(r"([^\s#:=][^#:=]*):(?![:=])([^;]*);?(.*)", line):
            targets, open_at = found[1].split(), number
            yield from ((it, number, found[3].strip()) for it in targets)


def graph_of(order: str, given: Inputs) -> Build:
    """The graph that `race order` prints, with places in the makefile."""
    labels: dict[str, dict[str, Any]] = {}
    after: dict[str, list[str]] = {}
    for found in filter(None, map(ORDER.match, order.split("\n"))):
        name = unshown(found[2])
        labels[name] = {"target": name, "kind": found[1]}
        after[name] = [unshown(it) for it in (found[3] or "").split(" ") if it]
    for target, line, recipe in rules(given.makefile):
        about = labels.get(os.path.normpath(target))
        if about and (recipe or "line" not in about):
            about.update(file=os.path.abspath(given.makefile), line=line, recipe=recipe)
    return Build("makefile", given.root, top_of(given.root), {"tool": "posix", "folder": given.root, "project": given.root, "top": top_of(given.root), "labels": labels, "counts": {}, "meanings": {}}, after,
                 first=(os.path.relpath(given.makefile, top_of(given.root)), 1))


def judge_makefile(given: Inputs, program: Path) -> Report:
    """The report of a makefile: what `race list` and `race fix` say of it."""
    report = Report(given.root, top_of(given.root), ["race", *given.words("list")], "safe", is_fixed=True, builds=1, is_direct=True)
    order, listed = asked(program, given.words("order")), asked(program, given.words("list"))
    report.holes = [*filter(None, [refusal(order, "order") or refusal(listed, "list")])]
    report.assumptions = [Assumption(it, 1, "") for it in PREMISES]
    build = graph_of(order.stdout, given)
    report.ran = {build.name(it) for it, about in build.about["labels"].items() if about["kind"] != "plain"}
    report.considered = {build.name(it) for it in build.about["labels"]}
    verdict = Verdict(listed.returncode)
    for line in listed.stdout.split("\n"):
        word, _, rest = line.partition(" ")
        if found := RACE_LINE.match(line):
            verdict.races.append(Race(*map(unshown, found.groups())))
        elif word in ("pairs", "recipes"):
            setattr(report, word, int(rest))
    is_whole = f"races {len(verdict.races)}" in listed.stdout.split("\n") and (listed.returncode == 1) == bool(verdict.races)
    if not report.holes and not is_whole:
        report.holes = [f"{program} does not answer as race does: install race again, or name another by --race"]
    lines = fixed(verdict, given, program) if verdict.races else []
    report.races = [build.race(it, verdict) for it in verdict.races]
    report.is_fixed, report.fixes = verdict.is_fixed, lines or merged(it.remedy for it in report.races)
    report.verdict = "none" if report.holes else "race" if report.races else "safe"
    return report


def fixed(verdict: Verdict, given: Inputs, program: Path) -> list[str]:
    """The lines that fix the makefile, as `race fix` checked them; none where it has none, or `race` lacks that command. Where names are spelled
    in another way, so that nobody knows whose line is which, each race has its own."""
    done = run(program, given.words("fix"))
    verdict.is_fixed = done.returncode == 0
    lines = [it.partition(" #")[0].rstrip() for it in done.stdout.split("\n") if ": " in it and it[:1] != "#"] if verdict.is_fixed else []
    edges = [f"{it.second}: {it.first}" for it in verdict.races]
    verdict.fix = lines if {*lines} <= {*edges} else edges
    return lines
