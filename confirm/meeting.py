"""The gate at which the two recipes of a race meet: it notes where they use the file of the race, and holds one of them there while the other one runs.

Of a recipe that is held in its middle the kernel reports each call that uses a path (reported.py). While it is held, no recipe begins but the other one, and
what runs inside of the two; it goes on when the other one has ended, or when nothing else can happen.
"""

from __future__ import annotations

import socket
from collections.abc import Collection, Iterator
from dataclasses import dataclass, field
from functools import partial

from confirm.races import Chosen, Held
from confirm.schedules import Point, Points, Schedule
from confirm.uses import FILTER, program_of, use_of
from record.orders.gate import Gate, Key
from record.orders.processes import parent_of, words_of
from record.orders.reported import Call, go_on, reports_of

LATEST = -1e9  # recipes that the record has not begin behind all others, except one that is held at its beginning


@dataclass
class Meeting(Gate):
    """A build of one race. Without a schedule both recipes are reported, and none is held."""

    unknown: float = LATEST
    race: Chosen | None = None
    schedule: Schedule | None = None
    folder: str = ""  # where the project lies,
    tree: str = ""  # and where the build has it
    points: Points = field(default_factory=Points)
    held: dict[int, tuple[int, int]] = field(default_factory=dict)  # by process: the descriptor by which the kernel reports it, and the number of the report
    behind: dict[int, tuple[str, str]] = field(default_factory=dict)  # by process: what its last call did to the file, and its program
    has_come: bool = False
    is_reached: bool = False

    @property
    def late(self) -> Held:
        """The one of the two that is held."""
        assert self.race and self.schedule
        return self.race.of(self.schedule.held)

    @property
    def early(self) -> Held:
        """The other one."""
        assert self.race and self.schedule
        return self.race.other(self.schedule.held)

    def folder_of(self, make: int) -> str:
        found = super().folder_of(make)
        return self.folder + found[len(self.tree):] if (found + "/").startswith(self.tree + "/") else found

    @property
    def path(self) -> str:
        """The file of the race, as the build sees it."""
        assert self.race
        return self.tree + self.race.path[len(self.folder):] if self.race.path.startswith(self.folder + "/") else self.race.path

    def reported(self) -> Collection[Held]:
        """Those whose calls are reported."""
        if self.race is None or self.schedule and self.schedule.is_start:
            return ()
        return [self.late] if self.schedule else self.race.sides

    def let_go(self, pid: int, channel: socket.socket) -> None:
        key = self.owners[pid]
        if self.schedule and self.schedule.is_start and key == self.late.key:
            self.is_reached |= not self.early.is_recipe or self.early.key in self.over
        for side in self.reported():
            if key == side.key:
                self.ask_for_reports(pid, channel, side.side)
        super().let_go(pid, channel)

    def ask_for_reports(self, pid: int, channel: socket.socket, side: str) -> None:
        """Has the kernel report the calls of a process that waits, and of those below it. Where it cannot, only the beginning of a line is known."""
        listener = reports_of(pid, channel, FILTER)
        if listener < 0:
            self.points.add(side, "start", "-", program_of(pid))
        else:
            self.expect(listener, partial(self.take, listener, side))

    def take(self, listener: int, side: str, call: Call) -> None:
        """The kernel reports a call: it happens, or is where the recipe is held."""
        found = [*self.points_of(side, call)]
        if self.schedule and self.schedule.at in found and not self.has_come:
            self.has_come = True
            self.held[call.pid] = listener, call.number
        else:
            go_on(listener, call.number)

    def points_of(self, side: str, call: Call) -> Iterator[Point]:
        """Where a recipe stands at a call: behind the last one of its process, and before this one."""
        if last := self.behind.pop(call.pid, None):
            yield self.points.add(side, "after", *last)
        does, program = use_of(call, self.path)
        if does == "begin":
            yield self.points.add(side, "start", "-", program)
        elif does:
            self.behind[call.pid] = does, program
            yield self.points.add(side, "before", does, program)

    def still(self) -> Collection[int]:
        lent = {above for above in map(parent_of, self.held) if words_of(above)[0] == "D"}  # until a child of vfork begins its program
        return {*self.waiting, *self.held, *lent}

    def may_begin(self, key: Key) -> bool:
        if not self.held or not self.early.is_recipe:
            return super().may_begin(key)
        return any(it.key and key[:len(it.key)] == it.key for it in (self.early, self.late))

    def turn(self, root: int) -> bool:
        if not self.held:
            return super().turn(root)
        if not self.is_idle(root):
            return False
        self.hear_makes()
        is_over = self.early.is_recipe and self.early.key in self.over
        rows = [self.came(pid) for pid in self.waiting]
        if not is_over and any(self.goes_on(one) or self.may_begin(one.key) for one in rows):
            return super().turn(root)
        self.is_reached |= is_over or not self.early.is_recipe
        for listener, number in self.held.values():
            go_on(listener, number)
        self.held.clear()
        return True
