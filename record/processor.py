"""One processor for strace and the build that it follows, as long as one process of that runs at a time: nobody wakes up another processor then, and each stop
costs a fraction.

Who asks for the processors that it may use hears of all: strace answers that (from 5.11 on). They come back for good when several processes or threads run, or
others have this one, too.
"""

import os
from contextlib import suppress
from typing import Callable, List, Set

from record.entry import traced
from record.orders.processes import families, shown, threads_of

STEP, OFTEN = 0.05, 5  # seconds between two looks; so many that are crowded, one behind the other, are enough
WAITS = 0.12  # of that time strace waits where it is crowded
MOST = 64  # processors of which the answer has room, whoever asks
ANSWERS = (5, 11)  # the first strace that gives one
RUNS = ("R", "D", "t")  # the states of who runs, or would: strace holds who is `t`


def running(tracer: int) -> int:
    """How many threads of a build run."""
    threads = (thread for pid in dict(families(tracer)) if pid != tracer for thread in threads_of(pid))
    return sum(shown(thread, "stat").rpartition(") ")[2][:1] in RUNS for thread in threads)


def waited(pid: int) -> float:
    """Seconds in which a process could not run, as others had its processor."""
    return int((shown(pid, "schedstat").split() or ["0", "0"])[1]) / 1e9


class Processor:
    """The processor of one build. `number`: of builds that run at once each has another one; `strace`: the version of that."""

    def __init__(self, number: int, strace: str) -> None:
        self.all = sorted(os.sched_getaffinity(0))
        is_able = tuple(map(int, strace.split("."))) >= ANSWERS and self.all[-1] < MOST
        self.own: Set[int] = {self.all[number % len(self.all)]} if is_able else set()

    def words(self) -> List[str]:
        """By these strace says which processors there are."""
        mask = sum(1 << one for one in self.all).to_bytes(self.all[-1] // 8 + 1, "little")
        return ["-e", "inject=sched_getaffinity:poke_exit=@arg3=" + mask.hex()] if self.own else []

    def enter(self) -> None:
        """Takes this process, and all that it starts, to the processor."""
        if self.own:
            os.sched_setaffinity(0, self.own)

    def watch(self, tracer: int, has_ended: Callable[[float], bool]) -> None:
        """Gives back all processors when it is crowded there, if it is before the build has ended."""
        often, last = 0, waited(tracer)
        while self.own and often < OFTEN and not has_ended(STEP):
            now = waited(tracer)
            often, last = often + 1 if now - last > WAITS * STEP or running(tracer) > 1 else 0, now
        done: Set[int] = set()
        while often == OFTEN and (more := {thread for pid in (tracer, *traced(tracer)) for thread in threads_of(pid)} - done):
            done |= more
            for thread in more:
                with suppress(OSError):  # it has ended
                    if os.sched_getaffinity(thread) == self.own:
                        os.sched_setaffinity(thread, self.all)
