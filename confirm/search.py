"""Whether a race happens: schedules are tried until one of them shows it."""

from __future__ import annotations

from collections.abc import Iterator
from dataclasses import dataclass, field

from confirm.failed import STATUS
from confirm.races import CannotConfirm, Chosen
from confirm.reach import Reach
from confirm.schedules import Schedule, serial_order, tries
from confirm.trial import Left, Trial, errors_of, how_ended, some


@dataclass
class Finding:
    """What is found of a race. Without a schedule nothing differed that is a matter of it: `others` is what differed besides, and
    `other_race` the number of a race that may do that. `why` says why no build can show the race."""

    race: Chosen
    why: str = ""
    schedule: Schedule | None = None
    number: int = 0
    status: int | None = 0
    errors: list[str] = field(default_factory=list)
    differences: list[str] = field(default_factory=list)
    builds: int = 0
    reached: int = 0
    stuck: int = 0
    has_order: bool = False
    is_cut: bool = False
    others: list[str] = field(default_factory=list)
    other_race: int = 0

    @property
    def is_confirmed(self) -> bool:
        """Whether a schedule shows the race."""
        return self.schedule is not None


@dataclass
class Search:
    """The tries of one race. `usual` is what differs also where the two recipes run in the order of the serial build, once that is known."""

    trial: Trial
    finding: Finding
    serial: Left
    reach: Reach
    usual: set[str] | None = None

    @property
    def race(self) -> Chosen:
        """The race that is tried."""
        return self.finding.race

    def run(self, runs: int, only: int) -> None:
        """Tries at most so many schedules, or one alone, until one of them leaves something else, twice."""
        for number, schedule in numbered(tries(self.serial.gate.points, self.race), only):
            if self.finding.builds >= runs:
                self.finding.is_cut = True
                break
            left, found = self.trial.held(self.race, schedule)
            self.finding.builds += 1
            self.finding.reached += left.gate.is_reached
            self.finding.stuck += left.status is None
            harm = self.harm(left, found) if found else set()
            if harm and (again := self.again(schedule, harm)):
                self.confirmed(number, schedule, *again)
                return
        if self.usual and (found := self.reach.blame(self.usual, (), "").harm):
            raise clouded(found)

    def harm(self, left: Left, found: set[str]) -> set[str]:
        """What of `found` is the matter of the race; where nothing is, what differs is noted."""
        if self.usual is None:
            self.usual = self.in_order()
        blame = self.reach.blame(found - self.usual, left.files, left.built.output)
        if not blame.harm:
            self.note(left, blame.others)
        return blame.harm

    def in_order(self) -> set[str]:
        """What a parallel build leaves otherwise where the two run in the order of the serial build: others do that."""
        order = serial_order(self.serial.gate.points, self.race)
        if order is None:
            return set()
        self.finding.has_order = True
        left, found = self.trial.held(self.race, order)
        self.note(left, found)
        if STATUS in found:
            raise clouded({STATUS})
        return found

    def again(self, schedule: Schedule, harm: set[str]) -> tuple[Left, set[str]] | None:
        """The same schedule once more: what does harm both times."""
        left, found = self.trial.held(self.race, schedule)
        both = harm & self.reach.blame(found - (self.usual or set()), left.files, left.built.output).harm
        return (left, both) if both else None

    def confirmed(self, number: int, schedule: Schedule, left: Left, found: set[str]) -> None:
        """Notes what a schedule does."""
        self.finding.schedule, self.finding.number = schedule, number
        if STATUS in found:
            self.finding.status, self.finding.errors = left.status, errors_of(left.built)
        self.finding.differences = [left.how[it] for it in sorted(found - {STATUS})]

    def note(self, left: Left, found: set[str]) -> None:
        """Notes what differs besides, the first time that something does, and which race may do that."""
        if self.finding.others or not found:
            return
        self.finding.others = how_ended(left.status, errors_of(left.built)) if STATUS in found else [left.how[it] for it in sorted(found)]
        others = ((number, race) for number, race in enumerate(self.trial.races, 1) if number != self.race.number)
        can = (number for number, race in others if Reach(self.trial.tasks, race).blame(found, left.files, left.built.output).own)
        self.finding.other_race = next(can, 0)


def search(trial: Trial, race: Chosen, runs: int, only: int = 0) -> Finding:
    """What is found of a race in at most so many tries, or in the try with one number."""
    finding = Finding(race)
    try:
        if race.sides[0].target == race.sides[1].target and race.sides[0].folder == race.sides[1].folder:
            raise CannotConfirm("both recipes have the same target, so neither can be held alone: fix the race without it")
        if part := [it.target for it in race.sides if it.is_part]:
            raise CannotConfirm(f"a process of the recipe of {part[0]} races by itself, and only whole recipes can be held")
        serial = trial.marked(race)
        Search(trial, finding, serial, Reach(trial.tasks, race.race, trial.races)).run(runs, only)
    except CannotConfirm as error:
        finding.why = str(error)
    return finding


def numbered(schedules: Iterator[Schedule], only: int) -> Iterator[tuple[int, Schedule]]:
    """The schedules with their numbers; one alone where it is asked for."""
    return ((at, it) for at, it in enumerate(schedules, 1) if only in (0, at))


def clouded(found: set[str]) -> CannotConfirm:
    """Others spoil what would show the race."""
    return CannotConfirm(f"parallel builds differ also where the two run in the order of the serial build ({some(found)}): another race "
                         "may do that. Fix that one first")
