"""Which races of a record are to be confirmed, and what has to be held for each."""

from __future__ import annotations

import json
import os
from collections import Counter
from collections.abc import Iterator, Sequence
from dataclasses import dataclass
from pathlib import Path
from typing import Any

from record.build.text import file_of
from record.orders.gate import Key
from record.orders.graph import Graph
from report.model import Race, Report, read_json

SIDES = ("first", "second")


class CannotConfirm(Exception):
    """No build can show the race; why."""


@dataclass(frozen=True)
class Held:
    """One side of a race: whose recipe it is, the target, the folder in which its make or ninja works, and how the gate knows the recipe."""

    side: str
    target: str
    folder: str
    is_recipe: bool
    key: Key = ()
    task: int = 0  # its place in the serial order
    is_part: bool = False  # a process of it, and not the whole recipe


@dataclass(frozen=True)
class Chosen:
    """A race, its number in the report, the file on which the two meet, and what is to be held."""

    number: int
    race: Race
    path: str
    sides: tuple[Held, Held]

    def other(self, side: str) -> Held:
        """The other one of the two."""
        return self.sides[1 - SIDES.index(side)]

    def of(self, side: str) -> Held:
        """The one on a side."""
        return self.sides[SIDES.index(side)]


def names(race: Race) -> set[str]:
    """What a race is called by: its file, its two targets, its fingerprint."""
    return {race.shown, race.path, race.first.recipe.target, race.second.recipe.target, race.fingerprint}


def chosen(report: Report, record: Path, words: Sequence[str]) -> Iterator[Chosen]:
    """The races that the words mean: one by its number, or all that have each of the names; all without words."""
    graph = Graph(record)
    for number, race in enumerate(report.races, 1):
        if list(words) == [str(number)] or set(words) <= names(race):
            yield choice(number, race, graph)


def tasks_of(record: Path, number: str) -> Iterator[dict[str, Any]]:
    """The tasks of a build."""
    with open(record / "builds" / number / "tasks", encoding="utf-8", errors="surrogateescape") as lines:
        yield from map(json.loads, filter(str.strip, lines))


def file_in(about: dict[str, Any], path: str) -> str:
    """The file that a path of a build is about."""
    return file_of(path) if path in about["meanings"] else path


def written(record: Path) -> Iterator[tuple[str, str]]:
    """What the recorded build wrote, as far as tasks have it: the folder of each make, and the path from there."""
    for number in read_json(record / "record.json").get("builds", []):
        about = read_json(record / "builds" / number / "build.json")
        yield from ((about["folder"], file_in(about, it)) for task in tasks_of(record, number) for it in task["writes"])
        yield from ((about["folder"], it) for label in about["labels"].values() for it in label.get("folders", {}).get("made", ()))


def written_outside(record: Path, folder: str) -> Iterator[str]:
    """What the recorded build wrote outside of the project's folder, and is there still: what is gone was a file of its own for a while, such
    as `/tmp/tmp.Xy12`."""
    for inner, path in written(record):
        whole = os.path.normpath(os.path.join(inner, path))
        if whole != folder and not whole.startswith(folder.rstrip("/") + "/") and os.path.lexists(whole):
            yield whole


def choice(number: int, race: Race, graph: Graph) -> Chosen:
    """A race with what its build says of it."""
    about = graph.builds[race.build]
    folder, sides = about["folder"], []
    for side, recipe in zip(SIDES, (race.first.recipe, race.second.recipe)):
        label = about["labels"].get(recipe.label, {})
        kind, key = label.get("kind", ""), graph.tasks[graph.recipe_of(race.build, recipe.label)].key or ()
        sides.append(Held(side, recipe.target, folder, kind in ("recipe", "part"), key, graph.at[race.build, recipe.label], kind == "part"))
    path = file_in(about, race.path)
    whole = os.path.normpath(os.path.join(folder, path))
    return Chosen(number, race, whole + "/" * path.endswith("/"), (sides[0], sides[1]))


def tools_of(record: Path) -> set[str]:
    """The tools that ran in a record: make, ninja."""
    numbers = read_json(record / "record.json").get("builds", [])
    return {read_json(record / "builds" / it / "build.json").get("tool", "make") for it in numbers}
