"""Builds of a project in copies, side by side: each copy lies in the place of the project, and has a gate.

Each has a layer of its own over /tmp, the home folder, and each folder of `/` below which nothing is mounted: what a build writes there no other one sees.
It has ports and keys of its own, and reaches no other machine; where a serial build fails so, all have those of this machine.

The second serial build and the flipped one begin beside the recorded build, which they can only disturb where another disk is mounted, or by a server. What that
writes outside of the project they may see, as it lies below their layers. So they count only where the flipped one touched no name there that it changed (what is
drawn differs); and the flipped one only where it left the same. Else they are made anew when the recorded build has ended.
"""

from __future__ import annotations

import fcntl
import os
import pickle
import re
import resource
import signal
import socket
import struct
import subprocess
import time
from collections.abc import Callable, Mapping, Sequence
from contextlib import closing, nullcontext
from dataclasses import dataclass, field
from functools import partial
from pathlib import Path
from threading import Thread
from typing import ContextManager, Optional

from record.command import with_jobs
from record.entry import forget_coerced, in_one_step
from record.orders.gate import Gate, Key
from record.orders.holding import Ends
from record.orders.overlap import Meet, Overlap
from record.orders.processes import children_of, end
from record.orders.trees import CannotTry, copy, held_by, remove
from record.trace.lives import Address
from record.trace.names import mounts_below
from record.watch.lay import BIND, LIBC, NAMES, Watch, leave, makes_of, mount

PASSING = ("env", "nice", "ionice", "setsid", "timeout", "flock", "time", "stdbuf")  # programs that run what their words name
MANY, ONE, OWN = 1000, 1, 0  # jobs: with MANY all recipes that are ready wait at the gate; OWN: a make has as many as it has without a gate, and a ninja one
QUIET, TIMES = 20.0, 2.0  # a build hangs where nothing begins or ends for so many seconds, and so many times as long as the recorded one took
ENDING = 2.0  # seconds that the output of a build has to come, when that has ended
WITH_PARENT, TAKES_LEFT = 1, 36  # for prctl: which signal comes when the parent ends; who outlives its parent becomes a child of this process
SET_FLAGS, IS_UP = 0x8914, 1  # of a device of the network
SHARED = "/dev/shm"  # files that are memory
OWN_NET, OWN_KEYS = 0x40000000, 0x8000000  # for unshare: ports; memory and queues that have keys
SHOWN_LINES = re.compile(r"(?i)\b(error|fatal|cannot|no such|not found|failed|no rule)\b|\*\*\*")
SHOWN = 3  # so many of them


@dataclass
class Plan:
    """A build to be made: which recipe begins of those that wait, with how many jobs, and whether it is recorded. `is_flipped`: where `places` does not say,
    the last that came to wait, and not the first; `at_once`: so many may run side by side, of those that wait for no other one, also by `apart`;
    `meets`: these recipes meet at a folder; `ends`: of these processes, which are held there: no recipe waits to begin."""

    name: str
    places: Mapping[Key, float]
    jobs: int = MANY
    after: Mapping[Key, set[Key]] = field(default_factory=dict)
    is_recorded: bool = False
    is_flipped: bool = False
    at_once: int = 1
    apart: Mapping[Key, set[Key]] = field(default_factory=dict)
    meets: Sequence[Meet] = ()
    ends: frozenset[Address] = frozenset()
    processor: int = 1  # where it is recorded


SERIAL, SECOND = (Plan(name, {}, OWN) for name in ("serial", "second"))
FLIPPED = Plan("flipped", {}, is_recorded=True, is_flipped=True)


@dataclass
class Built:
    """What a build came to. `status`: none where nothing began or ended in it any more; `held`: what stands in each tree; `is_whole`: those that were to meet had time
    for it; `otherwise`: lines about what differs from the serial one, `path`: of a file that does."""

    plan: Plan
    status: Optional[int]
    seconds: float
    began: list[Key]
    output: str
    held: list[dict[str, str]]
    is_whole: bool = True
    otherwise: list[str] = field(default_factory=list)
    path: str = ""

    def message(self) -> list[str]:
        """How it ended, where it failed."""
        lines = [line.strip()[:160] for line in self.output.splitlines() if line.strip()]
        how = "does not end: all of it waits" if self.status is None else "fails with status %d" % self.status
        return ["the build %s" % how, *([line for line in lines if SHOWN_LINES.search(line)] or lines[-SHOWN:])[:SHOWN]]


@dataclass
class Room:
    """The folder of all copies. `tops`: the folders of the project, the first is that in which it builds; `setup`: words of a command that runs before `words`, and
    then those; `record`: records a build where this process is, into its folder, and says its status."""

    top: Path
    tops: Sequence[str]
    setup: Sequence[str]
    words: Sequence[str]
    record: Callable[[Path, Plan], int]
    has_net: bool = False  # builds have the ports of this machine, and reach others
    is_each: bool = False  # all lines of a recipe wait at the gate

    def bound(self, seconds: float) -> None:
        """Keeps how long the recorded build took."""
        (self.top / "limit").write_text(str(QUIET + TIMES * seconds))

    def limit(self) -> float:
        """Seconds in which something begins or ends in a build: no end is known while the recorded one runs."""
        try:
            return float((self.top / "limit").read_text())
        except (OSError, ValueError):
            return float("inf")

    def fresh(self, number: int) -> Path:
        """A copy of a folder of the project, as it was before the build."""
        return self.top / "fresh" / str(number)

    def take(self, out: str) -> None:
        """Copies the project; `out` is no part of it."""
        for number, top in enumerate(self.tops):
            copy(Path(top), self.fresh(number))
            if (out + "/").startswith(top.rstrip("/") + "/"):
                remove(self.fresh(number) / os.path.relpath(out, top))

    def place(self, plan: Plan) -> Path:
        """The folder of a build."""
        return self.top / plan.name

    def forget(self, plan: Plan) -> None:
        """Takes away what a build left."""
        remove(self.place(plan))

    def trees(self, plan: Plan) -> list[Path]:
        """What a build leaves."""
        return [self.place(plan) / "trees" / str(number) for number in range(len(self.tops))]

    def enter(self, plan: Plan) -> None:
        """Takes this process, and all that it starts, to a copy."""
        if not leave():
            raise OSError("the system gives no mounts")
        laid = [(os.open(tree, os.O_PATH), top) for tree, top in zip(self.trees(plan), self.tops)] + [(os.open(self.top, os.O_PATH), str(self.top))]
        self.lay_own(self.place(plan))
        if not self.has_net:  # guard: ports-of-their-own
            have_own_ports()
        if not all(mount("/proc/self/fd/%d" % file, path, BIND) for file, path in laid):
            raise OSError("a copy cannot be laid over the project")
        for file, _ in laid:
            os.close(file)
        os.chdir(self.folder)

    def lay_own(self, place: Path) -> bool:
        """Lays a layer over each folder of which a build has its own; whether the system let it."""
        is_done = True
        for number, path in enumerate(self.private()):
            upper, work = (place / ("own-%d-%s" % (number, name)) for name in ("upper", "work"))
            upper.mkdir()
            work.mkdir()
            is_done &= mount("overlay", path, 0, "overlay", "lowerdir=%s,upperdir=%s,workdir=%s" % (path, upper, work))
        if os.path.isdir(SHARED) and not any(top.startswith(SHARED) for top in self.tops):
            is_done &= mount("tmpfs", SHARED, 0, "tmpfs")  # guard: shared-memory-of-their-own
            self.top.mkdir(parents=True, exist_ok=True)  # it may have been there
        return is_done

    def is_apart(self) -> bool:
        """Whether builds in copies do not disturb what runs meanwhile: in their own folders, by ports and by keys."""
        place = self.top / "apart"
        place.mkdir()
        self.has_net = not is_child_able(lambda: leave() and self.lay_own(place) and have_own_ports())
        return not self.has_net

    def private(self) -> list[str]:
        """The folders outside of the project of which each build has its own."""
        found = [os.path.realpath(path) for path in ("/tmp", os.path.expanduser("~"))]
        with os.scandir("/") as names:
            found += [one.path for one in names if one.is_dir(follow_symlinks=False) and not mounts_below(one.path)]  # guard: folders-of-their-own
        found = [path for path in dict.fromkeys(found) if path != "/" and os.path.isdir(path) and not any((path + "/").startswith(top.rstrip("/") + "/") for top in self.tops)]
        return [path for path in found if not any(path.startswith(other + "/") for other in found)]

    @property
    def folder(self) -> str:
        """Where the command runs."""
        return self.tops[0]

    def run(self, plan: Plan, gate: Optional[Gate] = None) -> Built:
        """One build, in this process. `gate`: in the place of that which a plan means."""
        place = self.place(plan)
        for number, tree in enumerate(self.trees(plan)):
            copy(self.fresh(number), tree)
        gate = gate or self.gate_of(plan)
        began, before = time.monotonic(), {*children_of(os.getpid())}
        read, output = os.pipe()  # and no file, which a recipe could empty (`> /dev/stdout`)
        said: list[bytes] = []
        keeping = Thread(target=lambda: said.extend(iter(partial(os.read, read, 1 << 16), b"")), daemon=True)
        with gate.listen() as listener:
            with in_one_step() as heard:
                pid = in_child(partial(self.build_in_place, plan, gate, listener, output), heard)
            os.close(output)
            keeping.start()
            files = resource.getrlimit(resource.RLIMIT_NOFILE)
            resource.setrlimit(resource.RLIMIT_NOFILE, (files[1], files[1]))  # each that waits takes some, and the build has begun with those that it is given
            try:
                has_ended = gate.serve(pid, listener, self.limit)
            finally:
                resource.setrlimit(resource.RLIMIT_NOFILE, files)
                for one in {*children_of(os.getpid())} - before:  # and what outlived its parent
                    end(one)
        keeping.join(ENDING)
        status = os.WEXITSTATUS(os.waitpid(pid, 0)[1])
        return Built(plan, status if has_ended else None, time.monotonic() - began, gate.began, b"".join(said).decode(errors="replace"), [*map(held_by, self.trees(plan))], not gate.is_late)

    def gate_of(self, plan: Plan) -> Gate:
        """The gate that a plan means."""
        after = {late: {*plan.after.get(late, ()), *plan.apart.get(late, ())} for late in (*plan.after, *plan.apart)}
        if plan.ends:
            return Ends(self.place(plan), {}, ends=plan.ends)
        if plan.meets:
            return Overlap(self.place(plan), plan.places, after, at_once=plan.at_once, meets=plan.meets)
        return Gate(self.place(plan), plan.places, after, plan.is_flipped, plan.at_once)

    def build_in_place(self, plan: Plan, gate: Gate, listener: socket.socket, output: int) -> int:
        """Builds in this process; the status."""
        listener.close()  # guard: builds-that-are-left
        os.setsid()
        for stream, file in ((0, os.open(os.devnull, os.O_RDONLY)), (1, output), (2, output)):
            os.dup2(file, stream)
        try:
            self.enter(plan)
            gate.enter()
            return self.record(self.place(plan), plan) if plan.is_recorded else self.build(plan)
        except Exception as fault:
            os.write(2, ("race-record: %s\n" % fault).encode(errors="replace"))
            return 1

    def environment(self) -> dict[str, str]:
        """The environment of a build."""
        env = dict(os.environ)
        forget_coerced(env)
        return env

    def build(self, plan: Plan) -> int:
        """A build that is not recorded."""
        watch = Watch(str(self.place(plan)), str(self.place(plan) / "gate"), self.is_each or bool(plan.meets), plan.jobs == MANY)
        watch.prepare(makes_of(os.environ.get("PATH", os.defpath)))
        env = self.environment()
        words, env = with_many(self.words, env, plan.jobs)
        return subprocess.run([*self.setup, *words], env=watch.environment(env), preexec_fn=watch.lay, check=False).returncode


def with_many(words: Sequence[str], env: Mapping[str, str], jobs: int) -> tuple[list[str], dict[str, str]]:
    """A command and its environment, so that all makes and ninjas in it have so many jobs, whatever the load is, except makes that a ninja runs (watch/hold.c)."""
    words = with_jobs([*words], jobs or ONE)
    if jobs == OWN:
        return words, dict(env)
    name = os.path.basename(words[0])
    if name in NAMES or name in PASSING and any(os.path.basename(word) in NAMES for word in words):  # guard: makes-that-another-program-runs
        return [*words, "-j%d" % jobs, "-l"], dict(env)
    return words, {**env, "MAKEFLAGS": env.get("MAKEFLAGS") or " -j%d -l" % jobs, "CMAKE_BUILD_PARALLEL_LEVEL": str(jobs)}


@dataclass
class Running:
    """Builds that run at once, each in a process of its own."""

    room: Room
    children: dict[str, int] = field(default_factory=dict)  # by plan: its process

    def begin(self, *plans: Plan) -> None:
        """Begins builds."""
        for plan in plans:
            self.room.forget(plan)  # it may be made once more
            self.room.place(plan).mkdir()
            (self.room.place(plan) / "built").write_bytes(pickle.dumps("no end of a build"))
            with in_one_step() as heard:
                self.children[plan.name] = in_child(partial(work, self.room, plan), heard)

    def result(self, name: str) -> Built:
        """Waits for a build."""
        os.waitpid(self.children[name], 0)
        del self.children[name]
        found = pickle.loads((self.room.top / name / "built").read_bytes())
        if isinstance(found, Built):
            return found
        raise CannotTry(found)

    def close(self, *names: str) -> None:
        """Ends builds, or all for which nobody has waited, and takes away what they left."""
        with in_one_step():
            left = {name: self.children.pop(name) for name in names or [*self.children]}
            for pid in left.values():
                os.kill(pid, signal.SIGTERM)
            for name, pid in left.items():
                os.waitpid(pid, 0)
                remove(self.room.top / name)


def side_by_side(room: Room, plans: Sequence[Plan]) -> list[Built]:
    """Some builds at once."""
    with closing(Running(room)) as running:
        running.begin(*plans)
        return [running.result(plan.name) for plan in plans]


def work(room: Room, plan: Plan) -> int:
    """Makes a build in this process, and writes what it came to. An interrupt is for the recorded build, which may go on all the same."""
    if signal.getsignal(signal.SIGINT) is not signal.SIG_IGN:
        signal.signal(signal.SIGINT, lambda *_: None)
    os.dup2(os.open(os.devnull, os.O_WRONLY), 2)  # where a signal ends it, Python may have something to say
    LIBC.prctl(WITH_PARENT, signal.SIGTERM)
    LIBC.prctl(TAKES_LEFT, 1)
    try:
        found: object = room.run(plan)
    except Exception as fault:
        found = "%s: %s" % (type(fault).__name__, fault)
    (room.place(plan) / "built").write_bytes(pickle.dumps(found))
    return 0


def have_own_ports() -> bool:
    """Gives this process ports and keys of its own, where nobody else is; whether the system let it."""
    if LIBC.unshare(OWN_NET | OWN_KEYS):
        return False
    with socket.socket(socket.AF_INET, socket.SOCK_DGRAM) as one:
        fcntl.ioctl(one, SET_FLAGS, struct.pack("16sH14x", b"lo", IS_UP))
    return True


def in_child(work: Callable[[], int], heard: Callable[[], ContextManager[object]] = nullcontext) -> int:
    """Does something in a child of this process, which ends with what that gives; its number. `heard`: where it hears signals."""
    child = os.fork()
    if child == 0:
        status = 1
        try:
            with heard():
                status = work()
        finally:
            os._exit(status if status >= 0 else 128 - status)
    return child


def is_child_able(try_out: Callable[[], bool]) -> bool:
    """Whether a child of this process can do something."""
    return os.waitpid(in_child(lambda: 0 if try_out() else 1), 0)[1] == 0
