"""The gate: of all recipes of a build that could begin, one begins at a time, and an order says which.

The first process of each recipe waits at a socket (watch/hold.c). When nothing else can happen in the build, of all makes and ninjas in it, the gate lets
the recipe begin that has the greatest place. For which target a process is stands in the file of its make (watch/files.py); of a ninja it is the sum of
its command. So nothing depends on luck, or on how fast the machine is.
"""

from __future__ import annotations

import os
import re
import selectors
import socket
import struct
import time
from collections.abc import Callable, Container, Mapping, Sequence
from dataclasses import dataclass, field
from pathlib import Path
from typing import NamedTuple

from record.build.text import shown
from record.ninja.runs import BY_NINJA, command_sum
from record.orders.processes import Stalled, born, leads_to, parent_of
from record.orders.reported import Call, is_reported, receive

Key = tuple[tuple[str, str, int], ...]  # a recipe: from the outermost make or ninja on its folder, the target, and which of those of that name it is
OF_CHILD = re.compile(rb"(?:Putting|Live) child \S+ \((.*)\) PID (\d+)|Removing child \S+ (?:\(.*\) )?PID (\d+)")
CREDENTIALS = struct.Struct("3i")  # of who has connected: process, user, group
LEAST, MOST = 0.001, 0.032  # seconds from one look at the processes to the next
LAST = float("inf")
CLOCK_OF_FILES = 5  # CLOCK_REALTIME_COARSE of Linux


def held_words(pid: int) -> list[bytes]:
    """The words of a process that waits (watch/hold.c)."""
    try:
        return Path(f"/proc/{pid}/cmdline").read_bytes().split(b"\0")
    except OSError:  # it has ended
        return []


class Came(NamedTuple):
    """Whence a process comes that waits: its make or ninja, the target or the sum of its command, its recipe, as the next of that name, and when it began."""

    make: int
    name: str
    key: Key
    born: tuple[int, int]


@dataclass
class Gate:
    """What waits, and what has begun. `places`: of each recipe its place in the order; of those that wait the one with the greatest begins. `after`: those
    that one waits for besides. `is_flipped`: of those without a place, or of one place, the last that came begins, and else the first. `at_once`: so many
    may run side by side, of those that wait for no other one."""

    top: Path  # the folder of the build: `gate` in it is the socket
    places: Mapping[Key, float]
    after: Mapping[Key, set[Key]] = field(default_factory=dict)
    is_flipped: bool = False
    at_once: int = 1
    unknown: float = LAST  # the place of recipes that have none
    waiting: dict[int, socket.socket] = field(default_factory=dict)
    began: list[Key] = field(default_factory=list)
    running: set[Key] = field(default_factory=set)
    over: set[Key] = field(default_factory=set)
    owners: dict[int, Key] = field(default_factory=dict)  # by first process of a recipe
    open: dict[tuple[int, str], Key] = field(default_factory=dict)  # by make and target
    counts: dict[Key, int] = field(default_factory=dict)
    targets: dict[int, str] = field(default_factory=dict)  # by process that a make has started: the target
    read: dict[Path, int] = field(default_factory=dict)  # how much was read of the file of each make
    come_from: dict[int, Came] = field(default_factory=dict)  # by process that waits
    stalled: Stalled = field(default_factory=Stalled)
    is_late: bool = False  # who was held for another one went on without it
    choose: selectors.BaseSelector = field(init=False, repr=False)  # by descriptor: what is done when it is ready

    def listen(self) -> socket.socket:
        """The socket at which processes wait."""
        found = socket.socket(socket.AF_UNIX)
        found.bind(str(self.top / "gate"))
        found.listen(1000)
        return found

    def enter(self) -> None:
        """What the build begins with: nothing. Makes and ninjas come by themselves."""

    def come(self, listener: socket.socket) -> None:
        """A process waits."""
        channel, _ = listener.accept()
        pid, _, _ = CREDENTIALS.unpack(channel.getsockopt(socket.SOL_SOCKET, socket.SO_PEERCRED, CREDENTIALS.size))
        self.waiting[pid] = channel
        self.come_from.pop(pid, None)

    def hear_makes(self) -> None:
        """Reads what makes have said since: which process is for which target, and which recipes have ended."""
        for path in self.top.glob("race-watch-*/said/*.make"):
            with open(path, "rb") as file:
                file.seek(self.read.get(path, 0))
                lines = file.read()
            lines = lines[:lines.rfind(b"\n") + 1]
            self.read[path] = self.read.get(path, 0) + len(lines)
            for found in filter(None, map(OF_CHILD.match, lines.split(b"\n"))):
                if found[3]:
                    self.note_end(self.open.get((int(path.name.partition(".")[0]), self.targets.get(int(found[3]), "")), ()))
                else:
                    self.targets[int(found[2])] = shown(os.fsdecode(found[1]))  # guard: names-as-a-record-has-them

    def outer(self, make: int) -> Key:
        """The recipe inside which a make or ninja runs: the process of it may be that of a further line."""
        pid = make
        while pid > 1:
            above = parent_of(pid)
            found = self.owners.get(pid) or self.open.get((above, self.targets.get(pid, "")))  # guard: further-lines-of-recipe
            if found:
                return found
            pid = above
        return ()

    def folder_of(self, make: int) -> str:
        """Where a make or ninja works."""
        return leads_to(make, "cwd")

    def came(self, pid: int) -> Came:
        """Whence a process comes that waits."""
        if pid not in self.come_from:
            make, command = parent_of(pid), next(iter(held_words(pid)[-2:-1]), b"")  # of a ninja the last of its words
            name, above, folder = self.targets.get(pid) or command_sum(command), self.outer(make), shown(self.folder_of(make))
            self.come_from[pid] = Came(make, name, (*above, (folder, name, self.counts.get((*above, (folder, name, 0)), 0) + 1)), born(pid))
        return self.come_from[pid]

    def note_end(self, key: Key) -> None:
        """A recipe has ended."""
        self.over.add(key)
        self.running.discard(key)

    def is_idle(self, root: int) -> bool:
        """Whether nothing else can happen in the build: the first of two looks may show what has happened since the last one."""
        return any(self.stalled.is_so(root, self.still()) for _ in range(2))

    def still(self) -> Container[int]:
        """The processes that do nothing until this gate lets them."""
        return self.waiting

    def goes_on(self, came: Came) -> bool:
        """Whether a process is that of a further line of a recipe: one of another rule with two colons comes when the last one has ended."""
        return self.open.get((came.make, came.name)) in self.running  # guard: recipes-of-one-name

    def may_begin(self, key: Key) -> bool:
        """Whether a recipe waits for no other one besides."""
        return self.over.issuperset(self.after.get(key, ()))

    def is_named(self, pid: int) -> bool:
        """Whether it is known for what a process waits: a make says that when it has started it."""
        return pid in self.targets or held_words(pid)[:1] == [os.fsencode(BY_NINJA)]

    def beside(self, rows: Mapping[int, Came], free: Sequence[int]) -> Sequence[int]:
        """Those of some processes that may begin beside what runs: none beside one that began before those for which it waits, since nothing else could. A recipe
        with a make in it runs what that starts."""
        outer = {key[:length] for key in (*self.running, *(one.key for one in rows.values())) for length in range(1, len(key))}
        return free if len(self.busy() - outer) < self.at_once and all(map(self.may_begin, self.running)) else []

    def busy(self) -> set[Key]:
        """The recipes that run."""
        return self.running

    def turn(self, root: int) -> bool:
        """Lets a recipe begin, if nothing else can happen, or if it may run beside others; whether one does."""
        is_idle = bool(self.waiting) and self.is_idle(root)
        if not self.waiting or not is_idle and self.at_once == 1:
            return False
        self.hear_makes()
        rows = {pid: self.came(pid) for pid in self.waiting if is_idle or self.is_named(pid)}
        further = [pid for pid, one in rows.items() if self.goes_on(one)]
        free = [pid for pid, one in rows.items() if self.may_begin(one.key)]  # guard: fixes-hold
        some = further or (free or [*rows] if is_idle else self.beside(rows, free))
        if some:
            self.begin(max(some, key=lambda pid: (self.places.get(rows[pid].key, self.unknown), *(at if self.is_flipped else -at for at in rows[pid].born))))  # guard: last-that-came
        return bool(some)

    def begin(self, pid: int) -> None:
        """Lets a process begin."""
        came = self.came(pid)
        key = self.owners[pid] = self.open[came.make, came.name] if self.goes_on(came) else came.key
        if key not in self.running:
            self.began.append(key)
            self.open[came.make, came.name] = key
            self.running.add(key)
            self.counts[(*key[:-1], (*key[-1][:2], 0))] = key[-1][2]
            self.come_from = {one: came for one, came in self.come_from.items() if came.key != key}  # the next of that name is another recipe
        wait_for_tick()
        self.hear_end(pid, lambda: None if pid in self.targets else self.note_end(key))  # of a ninja the recipe has ended then
        self.let_go(pid, self.waiting.pop(pid))

    def let_go(self, pid: int, channel: socket.socket) -> None:
        """Answers a process that waits."""
        try:
            channel.sendall(b"g")
        except OSError:
            pass
        channel.close()

    def expect(self, reports: int, take: Callable[[Call], object]) -> None:
        """Takes each call that the kernel reports by a descriptor, until no process is left."""
        def hear() -> None:
            if not is_reported(reports):
                self.leave(reports)
            elif call := receive(reports):
                take(call)

        self.choose.register(reports, selectors.EVENT_READ, hear)

    def hear_end(self, pid: int, act: Callable[[], object]) -> None:
        """Does something when a process has ended."""
        end = os.pidfd_open(pid)

        def hear() -> None:
            self.leave(end)
            act()

        self.choose.register(end, selectors.EVENT_READ, hear)

    def leave(self, descriptor: int) -> None:
        """Hears no more by a descriptor, such as that of a process that has ended."""
        self.choose.unregister(descriptor)
        os.close(descriptor)

    def serve(self, root: int, listener: socket.socket, limit: Callable[[], float]) -> bool:
        """Answers until the first process of the build has ended; false where nothing began or ended in it for so many seconds."""
        since, pause, self.limit = time.monotonic(), LEAST, limit
        with selectors.DefaultSelector() as self.choose:
            self.choose.register(listener, selectors.EVENT_READ, lambda: self.come(listener))
            ended: list[int] = []
            self.hear_end(root, lambda: ended.append(root))
            while not ended:
                found = self.choose.select(pause)
                for key, _ in found:
                    key.data()
                began = not found and self.turn(root)
                if found or began:
                    since, pause = time.monotonic(), MOST if began and self.at_once == 1 else LEAST  # the end of what begins is heard
                elif pause == MOST and time.monotonic() - since > limit():
                    return False
                else:
                    pause = min(2 * pause, MOST)
        return True


def wait_for_tick() -> None:
    """Waits some milliseconds until files get another time: what the next recipe writes is newer than what was written before."""
    now = time.clock_gettime_ns(CLOCK_OF_FILES)
    while time.clock_gettime_ns(CLOCK_OF_FILES) == now:
        time.sleep(LEAST / 2)
