"""A record as it is reported: recipes with their places, races with their fixes, assumptions, and the verdict."""

from __future__ import annotations

import hashlib
import json
import os
import re
from collections import Counter
from collections.abc import Iterator
from dataclasses import dataclass, field
from pathlib import Path
from typing import Any

from record.messages import reason
from record.fixes import Remedy, is_needed, remedy
from record.folder import name_from
from record.judge import Race as Found
from record.judge import Verdict
from record.kinds import Kind, Meeting
from record.missing.report import Question
from record.report import group_of, name_of, rows, spot, verb

# What a path ends with that stands for something else than a file, and for two tasks by their numbers.
NUMBERS = re.compile(r"(/\d+)+$")


class BadRecord(Exception):
    """A record that cannot be read; what is wrong with it."""


@dataclass(frozen=True)
class Recipe:
    """A recipe: its label in the tasks, its target as it is spelled and by its name from the project's top on, the place of its rule from there on,
    its first line, and whether it is none: only what `make` itself asks for."""

    label: str
    target: str
    name: str
    file: str
    line: int
    text: str
    is_look: bool = False

    @property
    def place(self) -> str:
        """`Makefile:26`, or nothing."""
        return f"{self.file}:{self.line}" if self.file else ""


@dataclass(frozen=True)
class Side:
    """One of the two recipes of a race, what it does to the path, what it needs and what needs it."""

    recipe: Recipe
    does: str  # reads or writes
    needs: tuple[str, ...] = ()
    needed_by: tuple[str, ...] = ()
    verb: str = ""  # what it does to the path, in words


@dataclass(frozen=True)
class Race:
    """Two recipes that nothing orders, the path on which they meet, and what ends that. `rows` are both in words;
    `is_needed`: the lines of other races do not end it; `is_fixed`: `race fix` found the build safe with all lines."""

    build: str
    path: str
    sign: str  # what of it stays the same from build to build
    shown: str  # the path as people know it: of one that stands for something else the file that it is about
    name: str  # the same from the project's top on
    meaning: str
    first: Side
    second: Side
    kind: Kind
    remedy: Remedy
    rows: tuple[str, ...]
    folder: str  # of the recorded command
    group: tuple[str, str, str]  # its build, its kind and the writer: such races stand together
    is_needed: bool
    is_fixed: bool

    @property
    def before(self) -> tuple[str, ...]:
        """What the two need, each once."""
        return tuple(dict.fromkeys(self.first.needs + self.second.needs))

    @property
    def behind(self) -> tuple[str, ...]:
        """What needs one of the two, each once."""
        return tuple(dict.fromkeys(self.first.needed_by + self.second.needed_by))

    @property
    def fix(self) -> tuple[str, ...]:
        """The lines to write; none where no line ends the race, or those of other races do."""
        return self.remedy.lines if self.is_needed or not self.remedy.is_edge else ()

    @property
    def note(self) -> str:
        """Whether the lines were checked."""
        return "checked: ends this race" if self.is_fixed and self.remedy.is_edge else ""

    @property
    def about(self) -> str:
        """The path, and what it stands for if it is no file."""
        return self.shown + (f" ({self.meaning})" if self.meaning else "")

    @property
    def to_do(self) -> str:
        """What ends it, in one text: the lines, and advice."""
        fix = [f"Fix: {'; '.join(self.fix)}"] if self.fix else []
        ended = ["The lines of other races end this one too."] if self.remedy.lines and not self.fix else []
        return " ".join([*fix, *ended, *([f"Advice: {self.remedy.advice}."] if self.remedy.advice else [])])

    @property
    def fingerprint(self) -> str:
        """What stays the same where lines move and where the project does: the path, without numbers of tasks, and the two targets."""
        parts = (self.sign, *sorted((self.first.recipe.name, self.second.recipe.name)))
        return hashlib.sha256("\0".join(parts).encode(errors="surrogateescape")).hexdigest()[:32]


@dataclass(frozen=True)
class Assumption:
    """What was taken for granted: how often, with an example."""

    text: str
    count: int
    example: str


@dataclass(frozen=True)
class Gone:
    """What a baseline has and the report has not: what to call it, and whether its recipes ran, so that it is fixed."""

    text: str
    is_fixed: bool


# What makes a race or a missing input another one: its fingerprint, and by their names from the project's top on its file and two targets.
Item = tuple[str, str, tuple[str, str]]


@dataclass
class Report:
    """All that the forms show. `verdict` is safe, race or none."""

    folder: str
    top: str  # of the project, from which names count
    words: list[str]
    verdict: str
    races: list[Race] = field(default_factory=list)
    fixes: list[str] = field(default_factory=list)
    is_fixed: bool = False
    assumptions: list[Assumption] = field(default_factory=list)
    holes: list[str] = field(default_factory=list)
    hints: list[str] = field(default_factory=list)  # what to try
    jobs: list[str] = field(default_factory=list)  # what differs with several jobs, whatever the order of recipes is
    builds: int = 0
    recipes: int = 0
    pairs: int = 0
    ran: set[str] = field(default_factory=set)  # the names of targets whose recipes ran
    considered: set[str] = field(default_factory=set)  # and of those that make or ninja looked at
    known: set[str] | None = None  # the fingerprints of a baseline
    gone: list[Gone] = field(default_factory=list)  # what the baseline has alone
    ignored: dict[str, str] = field(default_factory=dict)  # by fingerprint: why race-ignore hides it
    unmet: list[str] = field(default_factory=list)  # entries of race-ignore that are about nothing
    shows_all: bool = False  # each race has a block of its own in the text
    is_direct: bool = False  # of a makefile, without a record
    tree: str = ""  # what the build started from
    tool: str = "make"  # what ran the recipes: ninja where no make did, tasks where nobody knows
    missing: Question | None = None  # of a record with --missing: what recipes read and make does not know of
    seconds: float = 0.0  # of the recorded build
    is_unread: bool = False  # of a record that cannot be read; its hole says why

    @property
    def troubles(self) -> list[str]:
        """What bars a yes and is no race of two recipes."""
        return self.holes + ["with several jobs, whatever the order of recipes is: " + "; ".join(self.jobs)] * bool(self.jobs)

    @property
    def is_checked(self) -> bool:
        """Whether the build was found safe with all lines; never where the record has a hole, or a line is no edge that was checked."""
        are_edges = all(it.remedy.lines and it.remedy.is_edge for it in self.races)
        return bool(self.races) and self.is_fixed and are_edges and self.verdict != "none"

    def items(self) -> Iterator[Item]:
        """All races and missing inputs."""
        for race in self.races:
            yield race.fingerprint, race.name, (race.first.recipe.name, race.second.recipe.name)
        for judged, it in self.missing.all() if self.missing else ():
            yield judged.fingerprint(it), judged.from_top(it.path), (judged.from_top(judged.target(it.reader)), judged.from_top(judged.target(it.writer)))

    def fingerprints(self) -> list[str]:
        """Those of all races and missing inputs."""
        return [it[0] for it in self.items()]

    def state(self, fingerprint: str) -> str:
        """How a race or a missing input stands: `ignored`, `known` or `new`."""
        return "ignored" if fingerprint in self.ignored else "known" if fingerprint in (self.known or ()) else "new"

    def standing(self) -> str:
        """How many there are of each state, in one line; nothing where nobody knows or ignores any."""
        if self.known is None and not self.ignored:
            return ""
        counts = Counter(map(self.state, self.fingerprints()))
        fixed = sum(it.is_fixed for it in self.gone)
        parts = [f"{counts['new']} new", f"{counts['known']} known", f"{fixed} fixed", f"{len(self.gone) - fixed} not seen"]
        return ", ".join(parts + [f"{counts['ignored']} ignored"] * bool(self.ignored))

    def by_path(self) -> Iterator[tuple[str, list[Race]]]:
        """The races in groups by their path, in the order in which paths come first."""
        groups: dict[str, list[Race]] = {}
        for race in self.races:
            groups.setdefault(race.path, []).append(race)
        yield from groups.items()

    def status(self) -> int:
        """0 safe or nothing new, 1 races or missing inputs, 2 no verdict on one of the two, 3 a record that cannot be read."""
        if self.is_unread:
            return 3
        missing = self.missing.verdict() if self.missing else "nothing"
        return 2 if "none" in (self.verdict, missing) else int(bool(self.jobs) or "new" in map(self.state, self.fingerprints()))


def read_json(path: Path) -> dict[str, Any]:
    """One file of a record."""
    try:
        found = json.loads(path.read_text(encoding="utf-8"))
    except OSError as error:
        if path.name == "record.json" and isinstance(error, (FileNotFoundError, NotADirectoryError)):
            raise BadRecord(f"there is no record in {path.parent}: record a build first (race-record -- make)") from error
        raise BadRecord(f"{reason(error)}; if the record is broken, record again") from error
    except ValueError as error:
        raise BadRecord(f"{path} cannot be read ({error}): record again") from error
    if not isinstance(found, dict):
        raise BadRecord(f"{path} is no JSON object: record again")
    return found


@dataclass
class Build:
    """One round of a make process: its tasks by label, those behind each, and what the labels stand for."""

    number: str
    folder: str
    top: str
    about: dict[str, Any]
    after: dict[str, list[str]]
    users: dict[str, list[str]] = field(default_factory=dict)
    first: tuple[str, int] = ("", 0)  # where a recipe stands whose place is not known

    def __post_init__(self) -> None:
        files = (spot(self.about, label, self.top)[0] for label in self.about["labels"])
        self.first = next(((it, 1) for it in files if it), self.first)
        for label, after in self.after.items():
            for it in after:
                self.users.setdefault(it, []).append(label)

    def name(self, path: str) -> str:
        """A path or a target of the build from the project's top on."""
        return name_from(self.top, os.path.normpath(os.path.join(self.folder, path)))

    def recipe(self, label: str) -> Recipe:
        """What a label stands for; its place counts from the project's top on."""
        found = self.about["labels"].get(label, {})
        place = spot(self.about, label, self.top)
        file, line = place if place[0] else self.first
        spelled = found.get("target") or label
        return Recipe(label, spelled, self.name(spelled), file, line, found.get("recipe", "").strip(), found.get("kind") == "group")

    def targets(self, labels: list[str]) -> tuple[str, ...]:
        """The targets of some labels, each once."""
        return tuple(dict.fromkeys(self.recipe(it).target for it in labels))

    def race(self, found: Found, verdict: Verdict) -> Race:
        """A race that `race` found."""
        targets = (self.recipe(found.first).target, self.recipe(found.second).target)
        sides = ((found.first, found.first_does), (found.second, found.second_does))

        def others(labels: list[str]) -> tuple[str, ...]:
            return tuple(it for it in self.targets(labels) if it not in targets)

        early, late = (Side(self.recipe(it), does, others(self.after.get(it, [])), others(self.users.get(it, [])), verb(self.about, it, does, found.path))
                       for it, does in sides)
        meaning = self.about.get("meanings", {}).get(found.path, "")
        sign = self.name(NUMBERS.sub("", found.path) if meaning else found.path)
        shown = name_of(self.about, found.path)
        return Race(self.number, found.path, sign, shown, self.name(shown), meaning, early, late,
                    Meeting(self.about, found).kind, remedy(self.about, found), tuple(rows(self.about, found)), self.about.get("project", self.folder),
                    (self.number, *group_of(self.about, found)),
                    is_needed(verdict, found), verdict.is_fixed)


def read_build(folder: Path, number: str, project: str, top: str) -> Build:
    """One build of a record."""
    about = read_json(folder / "build.json")
    after = {}
    try:
        with open(folder / "tasks", encoding="utf-8", errors="surrogateescape") as lines:
            for line in filter(str.strip, lines):
                task = json.loads(line)
                after[task["task"]] = task["after"]
    except OSError as error:
        raise BadRecord(f"{reason(error)}; if the record is broken, record again") from error
    except (ValueError, KeyError, TypeError) as error:
        raise BadRecord(f"{folder / 'tasks'} cannot be read ({error}): record again") from error
    return Build(number, about.get("folder", project), top, {"project": project, "top": top, **about}, after)
