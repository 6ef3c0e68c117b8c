"""Schedules: which recipe is held, and where, until the other one has ended."""

from __future__ import annotations

from collections import Counter
from collections.abc import Iterator, Sequence
from dataclasses import dataclass

from confirm.races import SIDES, Chosen

DOES = {
    "open-to-write": "opens it to write", "open-to-read": "opens it to read", "look": "looks at it", "rename": "renames it",
    "make-folder": "makes the folder", "remove": "removes it", "change": "changes it", "link": "links it",
}


@dataclass(frozen=True)
class Point:
    """Where a recipe stands: a process of it starts, or is before or after a call that uses the file of the race. `count`
    says which of several equal ones it is."""

    side: str
    when: str  # start, before or after
    does: str
    program: str
    count: int

    @property
    def is_use(self) -> bool:
        """Whether it is at a use of the file, and not where a process starts."""
        return self.when != "start"

    def __str__(self) -> str:
        which = f", time {self.count}" if self.count > 1 else ""
        if not self.is_use:
            return f"before `{self.program}` begins{which}"
        return f"{self.when} `{self.program}` {DOES.get(self.does, self.does)}{which}"


class Points:
    """Points as they come, each with its count."""

    def __init__(self) -> None:
        self.all: list[Point] = []
        self.seen: Counter[tuple[str, ...]] = Counter()

    def add(self, side: str, when: str, does: str, program: str) -> Point:
        """The point that comes next."""
        key = (side, when, does, program)
        self.seen[key] += 1
        self.all.append(Point(*key, self.seen[key]))
        return self.all[-1]

    def of(self, side: str) -> list[Point]:
        """The points of a side."""
        return [it for it in self.all if it.side == side]


@dataclass(frozen=True)
class Schedule:
    """A recipe is held at a point until the other has ended. Both wait at their beginnings until both have come there, and the other one
    until the point is reached: so all schedules of two recipes differ in the order of these two alone. Where make is on the other side
    there is nothing to wait for."""

    at: Point
    is_start: bool

    @property
    def held(self) -> str:
        """The side that is held."""
        return self.at.side

    def text(self, race: Chosen) -> str:
        """What happens, in words."""
        held, other = race.of(self.held), race.other(self.held)
        if not other.is_recipe:
            return f"{held.target} is held {'at its beginning' if self.is_start else str(self.at)} while make goes on"
        if self.is_start:
            return f"all of {other.target} before {held.target}"
        return f"all of {other.target} while {held.target} is held {self.at}"


def inner(points: Sequence[Point]) -> list[Point]:
    """Where to hold a recipe in its middle: from its first use of the file to its last; before uses first, then where
    processes begin, then behind uses. Where no use was seen: where its processes begin."""
    uses = [at for at, it in enumerate(points) if it.is_use]
    if not uses:
        return [*points[1:]]
    between = points[uses[0] + 1: uses[-1] + 1]  # guard: from-first-use-to-last
    between = between if uses[1:] and points[uses[-1]].when == "before" else between[:-1] or between
    return sorted(between, key=lambda it: ("before", "start", "after").index(it.when))  # guard: before-uses-first


def middles(points: Points, race: Chosen, side: str) -> list[Point]:
    """Where to hold a side in its middle. While make alone is on the other side it may start any recipe, so also where processes
    of the held one begin."""
    own = points.of(side) if race.of(side).is_recipe else []
    found = inner(own)
    return found if race.other(side).is_recipe else [*found, *(it for it in own[1:] if not it.is_use and it not in found)]


def serial_order(points: Points, race: Chosen) -> Schedule | None:
    """The schedule that keeps the order of the serial build. What it leaves otherwise is no matter of these two."""
    late = "second" if not points.all or points.all[0].side == "first" else "first"
    return start_of(points, race, late)


def start_of(points: Points, race: Chosen, side: str) -> Schedule | None:
    """The schedule that holds a side at its beginning."""
    own = points.of(side)
    return Schedule(own[0], True) if own and race.of(side).is_recipe else None


def tries(points: Points, race: Chosen) -> Iterator[Schedule]:
    """The schedules to try, the likeliest first: the other order, then each recipe held in its middle."""
    early = points.all[0].side
    if reverse := start_of(points, race, early):
        yield reverse
    rows = [middles(points, race, side) for side in (early, *(it for it in SIDES if it != early))]
    for at in range(max(map(len, rows))):
        for row in rows:
            if at < len(row):
                yield Schedule(row[at], False)
