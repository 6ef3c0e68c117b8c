"""Builds in other orders: the project is copied before it is recorded, and built again in copies when it was."""

from __future__ import annotations

import json
import os
import tempfile
from collections.abc import Callable, Iterator, Sequence
from contextlib import closing, contextmanager
from functools import partial
from pathlib import Path
from typing import Any

from record.folder import Record, runs_programs
from record.judge import judge
from record.messages import say
from record.orders.builds import FLIPPED, SERIAL, Plan, Room, Running, is_child_able
from record.orders.gate import Key
from record.orders.graph import Graph
from record.orders.joined import join, judged, keep, pass_questions
from record.orders.trees import CannotTry, held_by, remove
from record.orders.trial import Trial
from record.watch.lay import leave

TMPFS = "/dev/shm"
COPIES, GROWTH = 11, 4  # so many copies are there at once, and a build may make so many times of what it begins with
MOST = 40  # builds, where nobody says how many


def has_memory(size: int) -> bool:
    """Whether the tmpfs may hold so much: half of the memory that is free, and of its own room, which a container may have little of."""
    try:
        words, room = next(line for line in Path("/proc/meminfo").read_text(encoding="ascii").splitlines() if line.startswith("MemAvailable")).split(), os.statvfs(TMPFS)
    except (OSError, StopIteration):
        return False
    return size < min(int(words[1]) * 512, room.f_bavail * room.f_frsize // 2) and runs_programs(TMPFS)  # guard: room-of-the-tmpfs


@contextmanager
def new_room(tops: Sequence[str], setup: Sequence[str], words: Sequence[str], out: str, rooms: str, record: Callable[[Path, Plan], int]) -> Iterator[Room]:
    """The folder of the copies, with the project as it is before it is recorded."""
    for top in tops:
        if not os.path.isdir(top):
            raise CannotTry("%s is not there before the build" % top)
    if not is_child_able(leave):
        raise CannotTry("the system gives no mounts of its own, by which a copy lies in the place of the project: run it as root")
    size = sum(os.lstat(os.path.join(folder, name)).st_size for top in tops for folder, _, names in os.walk(top) for name in names)
    place = TMPFS if has_memory(COPIES * GROWTH * size) else rooms
    room = Room(Path(tempfile.mkdtemp(prefix="race-orders-", dir=place)), tops, setup, words, record)
    room.top.chmod(0o711)  # makes of other users find the library  # guard: makes-of-other-users
    try:
        room.take(out)
        yield room
    finally:
        remove(room.top)


@contextmanager
def beside(room: Room, expected: float, made: int) -> Iterator[Running]:
    """Builds that begin before the recorded one, where they cannot disturb it. `expected`, `made`: seconds and builds of the former record, if there is one."""
    with closing(Running(room)) as running:
        if room.is_apart():
            last = "the last time it took %s, and %d builds in copies" % (clock(expected), made) if made else "others may follow"
            say("race-record: two builds in copies run meanwhile; " + last)
            running.begin(SERIAL, FLIPPED)
        yield running


def clock(seconds: float) -> str:
    """How long a build takes."""
    return "about %.0f seconds" % seconds if seconds > 1 else "a second or less"


def say_how_many(record: Record, more: str, count: int) -> None:
    """Says how many builds will follow, and of what kind."""
    many, each = ("s", " each") if count > 1 else ("", "")
    if count:
        say("race-record: %d build%s in copies, of %s%s%s" % (count, many, clock(record.seconds), each, more))


def explore(room: Room, record: Record, out: Path, race: str, most: int, running: Running) -> dict[str, Any]:
    """Builds in other orders; what the record keeps of them."""
    graph = Graph(out)
    after, say = fixes(graph, race, room.top / "tasks"), partial(say_how_many, record, "; one more for each step where something differs")
    trial = Trial(room, graph, [held_by(Path(top), str(out)) for top in room.tops], after, most, say, {*record.markers}, record.late is not None, record.late, record.outside)
    trial.run(running)
    if any(graph.free) and not (any(trial.turned) or trial.shown or after):  # guard: builds-that-turn-nothing-round
        raise CannotTry("no two recipes change places there, as where a script calls make with -j1")
    for other in trial.records:
        join(graph, other)
    found = trial.result()
    if trial.is_sure:
        pass_questions(graph, trial.untried)  # guard: what-is-tried-out-is-judged-no-more
    keep(graph)
    return found


def fixes(graph: Graph, race: str, text: Path) -> dict[Key, set[Key]]:
    """Which recipe has to wait for which so that no two conflict, by what `race` says, other than on what is tried out. `CannotTry` where it gives no verdict."""
    after: dict[Key, set[Key]] = {}
    for number, build in graph.builds.items():
        text.write_text("".join(json.dumps(judged(graph, number, row)) + "\n" for row in graph.rows[number]), encoding="utf-8")
        verdict = judge(race, text, build["folder"])
        if verdict.refused:
            raise CannotTry("no verdict on build %s" % number)
        for late, _, early in (line.partition(": ") for line in verdict.fix):
            keys = [graph.tasks[graph.recipe_of(number, label)].key if (number, label) in graph.at else None for label in (late, early)]
            if keys[0] and keys[1] and keys[0] != keys[1]:  # guard: fixes-inside-a-recipe
                after.setdefault(keys[0], set()).add(keys[1])
    return after
