"""The gate of a build in which recipes meet at a folder that one of them makes.

Where the folder stays, the first recipe is held where it makes it until the others have come so far, and these until it has ended. Where one of two
removes it, the first is held when it has made it, and the second runs meanwhile: until it ends, or tries to make the folder once more, as who takes it for a lock.
"""

from __future__ import annotations

import os
import socket
import time
from collections import Counter
from collections.abc import Container, Iterable, Mapping, Sequence
from dataclasses import dataclass, field
from functools import partial
from typing import NamedTuple

from record.build.tasks import grouped
from record.orders.gate import LAST, Came, Gate, Key
from record.orders.reported import Call, filter_of, go_on, reports_of

# By machine: the numbers of calls that make a folder, each with the place of its path, and of those by which a process goes on: rmdir, unlinkat, openat, exit_group.
MAKING = {"x86_64": {83: 0, 258: 1}, "aarch64": {34: 1}}.get(os.uname().machine, {})
LONGEST = 4096  # parts of a path, with those of all links on it
HERE = 0xffffff9c  # in the place of a descriptor: the folder in which a process works
OTHERS = {"x86_64": (84, 263, 257, 231), "aarch64": (35, 56, 94)}.get(os.uname().machine, ())


class Meet(NamedTuple):
    """Two recipes, the folder, and whether it goes again."""

    first: Key
    second: Key
    path: str
    goes: bool


@dataclass
class Overlap(Gate):
    """`meets`: who meets where. Where the folder stays, they come side by side; before them what they need does, and all else when that is over. Those that are held go
    on when what they were held for is over."""

    meets: Sequence[Meet] = ()
    held: dict[int, tuple[Key, int, int]] = field(default_factory=dict)  # by process: its recipe, the descriptor by which the kernel reports it, and the report
    tries: Counter[tuple[Key, Meet]] = field(default_factory=Counter)  # how often a recipe was to make the folder
    met: set[Meet] = field(default_factory=set)  # those of which the first recipe was held behind its call
    since: float = 0.0  # when the last one was held

    def __post_init__(self) -> None:
        self.of = grouped((key, meet) for meet in self.meets for key in meet[:2])  # by recipe: where it meets others
        self.around = {key[:length] for key in self.of for length in range(1, len(key))}  # recipes inside of which these run

    def let_go(self, pid: int, channel: socket.socket) -> None:
        own = self.owners[pid]
        if meets := self.of.get(own):
            reports = reports_of(pid, channel, filter_of([*MAKING, *(OTHERS if any(meet.goes for meet in meets) else ())]))
            if reports < 0:  # guard: kernel-that-reports-nothing
                raise OSError("the kernel reports no calls that make folders; Linux 5.6 and later do, on x86-64 and arm64, where no rule of a container forbids it")
            self.expect(reports, partial(self.take, own, reports))
        super().let_go(pid, channel)

    def take(self, key: Key, reports: int, call: Call) -> None:
        """A process is to make a folder, or goes on: it is held, or does so."""
        path = path_of(call) if call.call in MAKING else ""
        self.held[call.pid], last, self.since = (key, reports, call.number), self.since, time.monotonic()
        if not any([self.reach(key, meet, is_same(path, meet.path, f"/proc/{call.pid}/root")) for meet in self.of[key]]):
            self.since = last
            self.go_on(call.pid)

    def reach(self, key: Key, meet: Meet, is_there: bool) -> bool:
        """A recipe is to make the folder at which it meets another one, or does something else: whether it is held there for that."""
        if not is_there:
            waits = meet.goes and key == meet.first and self.tries[key, meet] > 0 and meet not in self.met  # guard: folders-that-go-again
            self.met |= {meet} if waits else set()
            return waits
        self.tries[key, meet] += 1
        if meet.goes and key == meet.second and self.tries[key, meet] > 1:
            for pid in [pid for pid, (other, _, _) in self.held.items() if other == meet.first]:
                self.go_on(pid)
        return not meet.goes

    def go_on(self, pid: int) -> None:
        """A process that is held goes on."""
        _, reports, number = self.held.pop(pid)
        go_on(reports, number)

    def still(self) -> Container[int]:
        return {*self.waiting, *self.held}

    def may_begin(self, key: Key) -> bool:
        held = {own for own, _, _ in self.held.values()}
        if any(key == meet.second and meet.first not in held and meet.first not in self.over for meet in self.of.get(key, ())):  # guard: second-behind-the-first
            return False
        above = (key[:length] for length in range(1, len(key) + 1))
        return super().may_begin(key) and (not held or key in self.around or any(not held.isdisjoint(meet[:2]) for one in above for meet in self.of.get(one, ())))

    def beside(self, rows: Mapping[int, Came], free: Sequence[int]) -> Sequence[int]:
        left = self.of.keys() - self.over
        if left and (not self.held or any(meet.goes for meet in self.meets)):
            first = LAST if self.held or not left.isdisjoint(self.running) else max(self.places.get(key, self.unknown) for key in left)
            free = [pid for pid in free if self.places.get(rows[pid].key, self.unknown) > first]  # guard: nothing-else-while-two-meet
        return super().beside(rows, free)

    def busy(self) -> set[Key]:
        return {one for one in self.running if not any(own[:len(one)] == one for own, _, _ in self.held.values())}

    def may_go(self, pids: Iterable[int]) -> bool:
        """Whether one of some processes that wait may begin."""
        return any(self.goes_on(one) or self.may_begin(one.key) for one in map(self.came, pids))

    def turn(self, root: int) -> bool:
        if not self.held:
            return super().turn(root)
        self.hear_makes()
        free = [pid for pid, (own, _, _) in self.held.items() if all(self.over.issuperset(meet[:1 + meet.goes]) for meet in self.of[own])]  # guard: until-the-first-has-ended
        if not free or len(self.busy()) >= self.at_once:
            if self.may_go(filter(self.is_named, self.waiting)):
                return super().turn(root)
            if not self.is_idle(root):
                if time.monotonic() < self.since + self.limit():
                    return False
                self.is_late = True  # who runs may wait for one that is held  # guard: who-is-held-for-one-that-waits
            elif self.may_go(self.waiting):
                return super().turn(root)
        self.go_on(min(free or self.held, key=lambda pid: self.began.index(self.held[pid][0])))
        return True


def path_of(call: Call) -> str:
    """The folder that a process is to make. Where its memory cannot be read, no order is tried out."""
    place = MAKING[call.call]
    with open(f"/proc/{call.pid}/mem", "rb", buffering=0) as memory:
        path = os.fsdecode(os.pread(memory.fileno(), 4096, call.given[place]).partition(b"\0")[0])
    start = call.given[0] & 0xffffffff if place else HERE
    return path if path.startswith("/") else os.path.join(os.readlink(f"/proc/{call.pid}/" + ("cwd" if start == HERE else f"fd/{start}")), path)


def is_same(path: str, other: str, root: str) -> bool:
    """Whether two paths have one last name, in one folder, as processes with that root see it."""
    (above, name), (there, wanted) = (os.path.split(one.rstrip("/")) for one in (path, other))
    return name == wanted and followed(above, root) == followed(there, root)  # guard: folders-of-one-name


def followed(path: str, root: str) -> str:
    """A path without links, as processes with that root follow them: the system would follow those that are whole from the root of this process."""
    found, left = "/", path.split("/")[::-1]
    for _ in range(LONGEST):
        if not left:
            break
        whole = os.path.normpath(os.path.join(found, left.pop()))
        link = os.readlink(root + whole) if os.path.islink(root + whole) else ""
        left += link.split("/")[::-1] if link else []
        found = "/" if link.startswith("/") else found if link else whole  # guard: links-that-are-whole
    return found
