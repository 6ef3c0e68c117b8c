"""The builds of a trial: two serial ones, then those in which two recipes are held, and what differs in them."""

from __future__ import annotations

import os
import re
import time
from collections.abc import Callable, Sequence
from dataclasses import dataclass, field
from pathlib import Path

from confirm.failed import STATUS
from confirm.meeting import Meeting
from confirm.races import CannotConfirm, Chosen
from confirm.reach import Tasks
from confirm.room import Room
from confirm.schedules import Schedule
from record.orders.builds import MANY, OWN, Built, Plan
from record.orders.gate import Key
from record.orders.graph import Graph, placed
from record.orders.trees import difference, differing, passing, remove
from report.model import Race

SERIAL, PARALLEL = "serial", "parallel"  # the first build, and the last of the others
# Serial builds begin so far apart that a time of day in a file shows.
APART = 1.1
SOURCES = "If the build changes its own sources: --prepare 'git checkout . && make clean'"
BY_RACE = "It failed when it was recorded, too: with one job the race itself breaks the build. Write the line after fix: of race-report"
SHOWN_LINES = re.compile(r"(?i)\b(error|fatal|cannot|no such|not found|failed|no rule)\b|\*\*\*")


@dataclass
class Left:
    """What a build left: its status, its files, and of those that differ from what the serial build left, how."""

    built: Built
    gate: Meeting
    how: dict[str, str] = field(default_factory=dict)

    @property
    def status(self) -> int | None:
        """The status of the build; None where it did not end in time."""
        return self.built.status

    @property
    def files(self) -> dict[str, str]:
        """What stands in its tree."""
        return self.built.held[0]


@dataclass
class Trial:
    """Builds of one project, of whose record these are the tasks and the races. `say` gets a line before each build."""

    room: Room
    graph: Graph
    tasks: Tasks
    races: Sequence[Race]
    say: Callable[[str], None]
    is_parallel: bool = False  # whether the record is of several jobs at once, since the serial build failed
    most: int = 0  # builds; 0 where nobody counts them
    serial: Left | None = None
    unstable: set[str] = field(default_factory=set)
    passing: list[re.Pattern[str]] = field(default_factory=list)  # names that differ from run to run
    builds: int = 0

    def tries_left(self) -> int:
        """How many schedules of one more race may be tried: it also takes a second serial build, and two builds more where something differs."""
        return self.most - self.builds - 3

    def forget(self) -> None:
        """Forgets what differs between serial builds, before another race."""
        self.unstable.clear()
        self.passing.clear()

    def left(self, what: str, plan: Plan, race: Chosen | None = None, schedule: Schedule | None = None) -> Left:
        """One build, and what it left."""
        self.builds += 1
        self.say(f"build {self.builds}{f' of at most {self.most}' if self.most else ''}: {what}")
        remove(self.room.place(plan))
        gate = Meeting(self.room.place(plan), plan.places, plan.after, race=race, schedule=schedule, folder=self.room.folder, tree=self.room.where(plan))
        return Left(self.room.run(plan, gate), gate)

    def begin(self) -> None:
        """The serial build: what the others are compared with."""
        self.serial = self.left("serial", Plan(SERIAL, {}, OWN))
        if self.serial.status != 0:
            raise failed("the serial build of the copy", self.serial.built, BY_RACE if self.is_parallel else "")
        self.room.bound(self.serial.built.seconds)

    def plan(self, race: Chosen, schedule: Schedule) -> Plan:
        """The order in which recipes begin: those two one right behind the other, as the schedule says. One that is held beside make alone is the last
        that begins, or goes on."""
        late, early = race.of(schedule.held), race.other(schedule.held)
        after: dict[Key, set[Key]] = {}
        if not early.is_recipe:
            places = placed([it.key for it in self.graph.tasks])
            places.update({late.key: float("-inf")} if late.key and schedule.is_start else {})
        else:
            places = self.graph.beside(*((early.task, late.task) if schedule.is_start else (late.task, early.task)))
            after.update({late.key: {early.key}} if late.key and early.key and schedule.is_start else {})
        return Plan(PARALLEL, places, MANY, after)

    def marked(self, race: Chosen) -> Left:
        """A second serial build, in which the two recipes say where they are; what it leaves in another way is left out."""
        assert self.serial
        name = os.path.relpath(race.path, self.room.folder)
        if name in self.room.taken - self.serial.files.keys():
            raise CannotConfirm(f"the build changes {name}, and does not make it: what it was before nobody has kept. {SOURCES}")
        time.sleep(max(0.0, APART - self.serial.built.seconds))
        again = self.left("serial once more", Plan(PARALLEL, {}, OWN), race)
        if again.status != 0:
            raise failed("a second serial build of the copy", again.built)
        self.unstable |= differing(self.serial.files, again.files)
        self.passing += passing(self.serial.files.keys() - again.files.keys(), again.files.keys() - self.serial.files.keys())
        missing = [it.target for it in race.sides if it.is_recipe and not again.gate.points.of(it.side)]
        if missing or not again.gate.points.all:
            whose = " and ".join(missing) or race.race.first.recipe.target
            raise CannotConfirm(f"the recipe of {whose} cannot be held: in the copy it does not run, or make starts no process for it. "
                                "If it does not run, such as where a folder that it makes is still there: --prepare 'make clean'")
        return again

    def differs(self, left: Left) -> set[str]:
        """The files that a build left in another way than the serial one, and `STATUS` where it ended otherwise. A build that was stopped
        says nothing."""
        assert self.serial
        if left.status is None:
            return set()
        found = differing(self.serial.files, left.files) - self.unstable
        found = {it for it in found if not any(one.fullmatch(it) for one in self.passing)}
        return found | ({STATUS} if left.status != self.serial.status else set())

    def held(self, race: Chosen, schedule: Schedule) -> tuple[Left, set[str]]:
        """A build with a schedule, and what differs in it."""
        left = self.left(schedule.text(race), self.plan(race, schedule), race, schedule)
        found = self.differs(left)
        left.how = {it: f"{it}: {difference(self.tree(SERIAL) / it, self.tree(PARALLEL) / it)}" for it in sorted(found - {STATUS})}
        return left, found

    def tree(self, name: str) -> Path:
        """What the last build of a kind left."""
        return self.room.trees(Plan(name, {}))[0]


def how_ended(status: int | None, errors: Sequence[str]) -> list[str]:
    """How a build failed, in lines."""
    return [f"the build fails with status {status}; the serial build ends with 0", *(f"  {it[:160]}" for it in errors)]


def errors_of(built: Built) -> list[str]:
    """The lines of a build's output that say what went wrong."""
    lines = [it.strip() for it in built.output.splitlines() if SHOWN_LINES.search(it)]
    return lines[:6]


def failed(what: str, built: Built, advice: str = "") -> CannotConfirm:
    """A serial build that fails in the copy, with what it said."""
    ended = "did not end in time" if built.status is None else f"ends with status {built.status}"
    said = [it.strip() for it in built.output.splitlines() if it.strip()]
    advice = advice or f"If it lacks files that were there before the recorded build: --prepare 'make clean'. {SOURCES}"
    return CannotConfirm("\n    ".join([f"{what} {ended}. {advice}", *(errors_of(built) or said)[-3:]]))


def some(names: set[str]) -> str:
    """A few names, in order."""
    shown = sorted("its status" if it == STATUS else it for it in names)
    return ", ".join(shown[:3]) + (f" and {len(shown) - 3} more" if len(shown) > 3 else "")
