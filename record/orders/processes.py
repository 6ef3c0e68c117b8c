"""What the processes of a build do, as the kernel shows it: whether one of them can do anything before the gate lets a recipe begin."""

from __future__ import annotations

import os
import signal
import time
from collections.abc import Container, Iterator
from contextlib import suppress
from dataclasses import dataclass
from functools import cache

PATIENCE = 10.0  # seconds that killed processes have to end
STILL = 0.3  # seconds without a sign of life, behind which a process waits for what no process of the build will do,
TIMED = 3.0  # and where it would go on by itself, which a server does for ever
# By machine: calls that wait for something, and until some time has passed, with the place of that; no time is 0 or -1: poll, select, pselect6, ppoll, epoll_wait,
# epoll_pwait, futex, rt_sigtimedwait.
UNTIL = {"x86_64": {7: 2, 23: 4, 270: 4, 271: 2, 232: 3, 281: 3, 202: 3, 128: 2}, "aarch64": {72: 4, 73: 2, 22: 3, 98: 3, 137: 2}}.get(os.uname().machine, {})
CHILDREN, READ = {"x86_64": ({61, 247}, 0), "aarch64": ({260, 95}, 63)}.get(os.uname().machine, (set[int](), -1))  # wait4, waitid; read
SLEEPS = ("nanosleep", "hrtimer_nanosleep", "do_nanosleep")  # a process that waits for a time to pass, and not for another one


def shown(pid: int, name: str) -> str:
    """What the kernel shows of a process; nothing where it has ended."""
    try:
        with open(f"/proc/{pid}/{name}", "rb", buffering=0) as file:
            return file.read().decode(errors="replace")
    except OSError:
        return ""


def words_of(pid: int) -> list[str]:
    """The state of a process, its parent, and so on (proc(5), `stat` from its third word on); `X` where it has ended."""
    return shown(pid, "stat").rpartition(")")[2].split() or ["X", "0"]


def parent_of(pid: int) -> int:
    """Who started a process; 0 where it has ended."""
    return int(words_of(pid)[1])


def born(pid: int) -> tuple[int, int]:
    """When a process began, in hundredths of a second, and its number: who is started later has the greater ones."""
    return int((words_of(pid)[19:20] or ["0"])[0]), pid


def leads_to(pid: int, name: str) -> str:
    """Where a link of a process leads (proc(5), `cwd`, `fd/3`), from its own root on: of one with other mounts the system names the root of a chroot, too. Nothing
    where it has ended."""
    try:
        path, root = (os.readlink(f"/proc/{pid}/{it}") for it in (name, "root"))
    except OSError:
        return ""
    return path.removeprefix(root.rstrip("/")) or "/"  # guard: folders-in-a-chroot


def threads_of(pid: int) -> list[int]:
    """The threads of a process; none where it has ended."""
    try:
        return [int(thread) for thread in os.listdir(f"/proc/{pid}/task")]
    except OSError:
        return []


def children_of(pid: int) -> list[int]:
    """The processes that a process, or a thread of it, started, and that it has not waited for."""
    return [int(child) for thread in threads_of(pid) for child in shown(pid, f"task/{thread}/children").split()]


def families(root: int, but: Container[int] = ()) -> Iterator[tuple[int, list[int]]]:
    """A process, and all below it, except some and those below these, each with its children."""
    rest = [root]
    while rest:
        pid = rest.pop()
        if pid not in but:
            children = children_of(pid)
            yield pid, children
            rest += children


def patience(thread: int, has_held: bool) -> float:
    """How many seconds a thread that waits may be still: whether it does until some time has passed at most, or for a child that is held, if it has one, or its pipe."""
    call, *given = [int(word, 0) for word in shown(thread, "syscall").split() if word != "running"] or [-1]
    if call in UNTIL and given[UNTIL[call]] not in (0, 0xffffffff, 0xffffffffffffffff):  # guard: who-waits-until-a-time
        return TIMED
    return 0.0 if has_held and (call in CHILDREN or call == READ and leads_to(thread, "fd/%d" % given[0]).startswith("pipe:")) else STILL  # guard: servers-of-others


def pulse(root: int, waiting: Container[int], held: Container[int]) -> tuple[float, list[tuple[int, str]]] | None:
    """How many seconds the processes of a build may be still until they count as idle: longer where one sleeps and has none to wait for, so that it does something of
    its own, with all its threads; and how long each has run so far. Nothing where one runs, or lets a time pass. Those that wait at the gate do neither, and have
    started none; of those in `held` it is known."""
    found, still = [], 0.0
    state = cache(lambda pid: words_of(pid)[0])
    for pid, children in families(root, waiting):
        if state(pid) in "ZX" or pid in held:
            continue
        has_own = not any(one in waiting or one not in held and state(one) not in "ZX" for one in children)  # guard: who-does-something-of-its-own
        for thread in threads_of(pid) if has_own else [pid]:  # guard: threads-that-run
            if state(thread) not in "SZX" or any(one in shown(thread, "wchan") for one in SLEEPS):
                return None
            own = patience(thread, any(one in held for one in children) and not any(state(one) in "ZX" for one in children)) if has_own else 0.0  # guard: who-has-heard-of-a-child
            still = max(still, own)
            found.append((thread, "" if own == TIMED else shown(thread, "schedstat")))
    return still, found


@dataclass
class Stalled:
    """Whether nothing happens in a build until the gate lets a recipe begin: two looks at its processes are the same, and so for a while where one does something
    of its own."""

    last: tuple[float, list[tuple[int, str]]] | None = None  # the last pulse,
    since: float = 0.0  # and since when it is the same

    def is_so(self, root: int, waiting: Container[int], held: Container[int] = ()) -> bool:
        """Looks again."""
        found, now = pulse(root, waiting, held), time.monotonic()
        if found is None or found != self.last:
            self.last, self.since = found, now
            return False
        return now - self.since >= found[0]

    def is_timed(self) -> bool:
        """Whether one would go on by itself when some time has passed."""
        return self.last is not None and not all(ran for _, ran in self.last[1])


def end(root: int) -> None:
    """Ends a process, those below it, and those of its session, and what these start meanwhile."""
    until = time.monotonic() + PATIENCE
    while time.monotonic() < until:
        session = [int(name) for name in os.listdir("/proc") if name.isdigit() and words_of(int(name))[3:4] == [str(root)]]
        left = [pid for pid in {*dict(families(root)), *session} if words_of(pid)[0] not in "ZX"]
        if not left:
            return
        for pid in left:
            with suppress(OSError):  # it has ended
                os.kill(pid, signal.SIGKILL)
        time.sleep(0.002)
