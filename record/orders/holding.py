"""Holds processes at their end, in a build in a copy: so it is tried out whether another one really waits for them.

The kernel reports each process that is to end, and waits for an answer (reported.py). A process that is held ends when that which started it has ended;
when nothing else can happen in the build, so that somebody waits for it, or for its pipes; and when it was held for long, as somebody looks at it again
and again. Where it alone is held and nothing else can happen, all that comes later waits for it: that is noted.
"""

from __future__ import annotations

import os
import re
import socket
import time
from dataclasses import dataclass, field

from record.orders.gate import Gate
from record.orders.processes import born, children_of, parent_of, shown
from record.orders.reported import Call, filter_of, go_on, is_reported, report
from record.trace.lives import Address

ENDS = {"x86_64": 231, "aarch64": 94}  # by machine: the number of exit_group
WAITED = "waited"  # a file in the folder of the build: the numbers of processes for which all of it has waited
LONG, OFTEN = 10.0, 3  # seconds that one is held at most; where so many were held so long, none is any more
TRACER = re.compile(r"^TracerPid:\t(\d+)$", re.M)


@dataclass
class Held:
    """A process that is held: the number under which the kernel reported it, which process started it, and since when."""

    number: int
    above: int
    since: float


@dataclass
class Ends(Gate):
    """The processes of a build that are to end; no recipe waits to begin. `ends`: those that are held."""

    ends: frozenset[Address] = frozenset()
    held: dict[int, Held] = field(default_factory=dict)
    numbers: dict[int, dict[tuple[int, int], int]] = field(default_factory=dict)  # by process: its children, by their beginnings
    long: int = 0  # so many were held for long
    reports: int = -1  # the descriptor by which the kernel reports

    def listen(self) -> socket.socket:
        found, self.other = socket.socketpair()
        return found

    def enter(self) -> None:
        descriptor = report(filter_of([ENDS.get(os.uname().machine, 0)]))
        socket.send_fds(self.other, [b"d"], [descriptor])
        os.close(descriptor)

    def come(self, listener: socket.socket) -> None:
        """The build hands over the descriptor, or could not begin."""
        self.other.close()
        _, descriptors, _, _ = socket.recv_fds(listener, 1, 1)
        self.choose.unregister(listener)
        for self.reports in descriptors:
            self.expect(self.reports, self.take)

    def address(self, pid: int) -> Address:
        """Where a process is among those of the build, which strace follows from the first one on."""
        found = TRACER.search(shown(pid, "status"))
        row, above = [], parent_of(pid)
        while found is not None and above not in (0, int(found[1])):
            numbers = self.numbers.setdefault(above, {})
            for child in sorted(map(born, children_of(above))):
                numbers.setdefault(child, len(numbers))
            row.append(numbers.get(born(pid), -1))
            pid, above = above, parent_of(above)
        return tuple(reversed(row))

    def take(self, call: Call) -> None:
        """The kernel reports a process."""
        self.held[call.pid] = Held(call.number, parent_of(call.pid), time.monotonic())
        if self.long >= OFTEN or self.address(call.pid) not in self.ends:
            self.let_end(call.pid)

    def let_end(self, pid: int) -> None:
        """A process goes on to its end."""
        go_on(self.reports, self.held.pop(pid).number)

    def turn(self, root: int) -> bool:
        """Lets those end that are held no longer. Where nothing can happen, that comes first whose parent has no other child."""
        now = time.monotonic()
        for pid, one in [*self.held.items()]:
            self.long += now - one.since > LONG
            if parent_of(pid) != one.above or now - one.since > LONG:
                self.let_end(pid)
        if self.held and self.stalled.is_so(root, self.waiting, self.held) and not is_reported(self.reports):  # guard: ends-that-nobody-has-heard-of
            if len(self.held) == 1 and not self.stalled.is_timed():  # guard: who-alone-is-waited-for
                with open(self.top / WAITED, "a", encoding="ascii") as file:
                    print(*self.held, file=file)
            self.let_end(min(self.held, key=lambda pid: len(children_of(self.held[pid].above))))
        return False
