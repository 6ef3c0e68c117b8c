"""Builds of an old tree, in copies of what the recorded build left: what each make knows then, what it runs, and what that leaves.

In the first one nothing is edited. In the second one all sources have one new time, so what comes of them is made again. Both have to leave what the recorded
build left, except for what two such builds leave in two ways: so it shows what recipes are handed otherwise, as `$(wildcard ..)` may find more then.
"""

import os
import re
import time
from dataclasses import dataclass, field
from pathlib import Path
from typing import Dict, Iterable, Iterator, List, Sequence, Set, Tuple

from record.build.tasks import Job
from record.folder import Record, room_of_programs
from record.make.database import Base
from record.make.graph import MakeBuild
from record.make.owners import Make, makes_of
from record.make.words import Words, read_logs
from record.orders.builds import OWN, Built, Plan, Room, side_by_side
from record.orders.exploring import new_room
from record.orders.trees import CannotTry, differing, held_by
from record.trace.names import Names

ANOTHER = "a later build is another one, where nothing is edited: "
TAKES_AS_OLD = re.compile(r"-[^-CfIoWjlOE]*o|--ol|--assume-o")  # words of make
UNKNOWN = "what make knows in a later build is not known: "
Call = Tuple[str, str, str]  # of a make: its folder, its words, and the flags in its environment


def call_of(words: Words) -> Call:
    """What says that the makes of two builds are the same one."""
    return words.start.folder, words.args, " ".join(word for word in words.start.environment.get("MAKEFLAGS", "").split(" ") if not word.startswith("--jobserver"))


@dataclass
class Knows:
    """What the makes of one call know and do."""

    base: Base = field(default_factory=Base)
    vpath: Dict[str, str] = field(default_factory=dict)
    nodes: Set[str] = field(default_factory=set)  # targets that they considered
    ran: Set[str] = field(default_factory=set)  # targets whose recipes ran


def known(logs: Iterable[Words]) -> Dict[Call, Knows]:
    """What all makes of a build know."""
    found: Dict[Call, Knows] = {}
    for words in logs:
        knows = found.setdefault(call_of(words), Knows())
        for one in words.rounds:
            knows.base = one.base or knows.base
            knows.vpath.update(one.vpath)
            knows.nodes.update(one.nodes)
            knows.ran.update(job.target for job in one.jobs)
    return found


class Later:
    """What builds of an old tree came to."""

    def __init__(self, makes: Sequence[Make], changed: Set[str]) -> None:
        self.makes, self.changed = makes, changed  # by the recorded build
        self.sources: Set[str] = set()
        self.callers = callers_of(makes)
        self.first = known(make.words for make in makes)  # in the recorded build
        self.idle: Dict[Call, Knows] = {}  # where nothing is edited
        self.busy: Dict[Call, Knows] = {}  # where all sources have a new time
        self.remade: Set[str] = set()  # names that have another time then, where nothing is edited
        self.renewed: Set[str] = set()  # the same, where all sources have a new time
        self.otherwise: Set[str] = set()  # names that are left in another way
        self.unstable: Set[str] = set()  # names that two such builds leave in two ways
        self.holes: List[str] = []

    def run(self, room: Room) -> None:
        """Both builds; a third one where they leave something in another way."""
        before = [held_by(room.fresh(number)) for number in range(len(room.tops))]
        idle, self.idle, self.remade = self.build(room, "nothing is edited")
        self.touch(room)
        busy, self.busy, self.renewed = self.build(room, "all sources have a new time")
        self.otherwise = changes(room, before, idle.held) | changes(room, before, busy.held)
        if self.otherwise:
            time.sleep(1.0)  # what goes by the clock differs then
            again, _, _ = self.build(room, "all sources have a new time")
            self.unstable = changes(room, busy.held, again.held)  # guard: what-differs-in-each-build
            self.otherwise -= self.unstable
        self.holes += self.compare()

    def build(self, room: Room, when: str) -> Tuple[Built, Dict[Call, Knows], Set[str]]:
        """One build in a copy: how it ended, what its makes know, and the names that have another time."""
        built, = side_by_side(room, [Plan("later", {}, OWN)])
        logs = [one for place in room.place(built.plan).glob("race-watch-*/said") for one in read_logs(place)]
        fresh, after = times([room.fresh(number) for number in range(len(room.tops))], room), times(room.trees(built.plan), room)
        found, changed = known(logs), {path for path, time in after.items() if fresh.get(path) != time}
        room.forget(built.plan)
        if built.status != 0 and not room.has_net:
            room.has_net = True
            return self.build(room, when)
        self.holes += ["a later build fails, where %s: %s" % (when, "; ".join(built.message()))] if built.status != 0 else []  # guard: later-builds-that-fail
        return built, found, changed

    def touch(self, room: Room) -> None:
        """Gives all sources one new time: what is there, and the recorded build did not change."""
        now = time.time_ns()
        for number, top in enumerate(room.tops):
            for path in (Path(folder, name) for folder, _, files in os.walk(room.fresh(number)) for name in files):
                name = os.path.join(top, path.relative_to(room.fresh(number)))
                if name not in self.changed and not path.is_symlink():
                    os.utime(path, ns=(now, now))
                    self.sources.add(name)

    def compare(self) -> Iterator[str]:
        """Why a build is another one where nothing is edited: it calls other makes, or runs another recipe."""
        for call, one in self.idle.items():
            more = one.ran - self.first[call].ran if call in self.first else set()
            if more or call not in self.first:  # guard: recipes-that-run-later-alone
                yield ANOTHER + ("the recipe of %s runs too" % min(more) if more else "it calls make %s in %s too" % (call[1], call[0]))
        for make in self.makes:
            call, caller = call_of(make.words), self.callers.get(id(make))
            above = self.idle.get(call_of(caller[0].words)) if caller is not None else None
            is_due = os.path.isdir(make.folder) and (caller is None or above is not None and caller[1].target in above.ran)
            if call not in self.idle and is_due:  # guard: makes-that-nobody-calls
                yield ANOTHER + "it does not call make %s in %s" % (call[1], call[0])
            if any(TAKES_AS_OLD.match(word) for word in " ".join(call[1:]).split(" ")):  # guard: files-that-make-takes-as-old
                yield UNKNOWN + "make %s in %s is asked to take files as old (-o)" % (call[1], call[0])


def changes(room: Room, some: List[Dict[str, str]], others: List[Dict[str, str]]) -> Set[str]:
    """The names that stand in another way in two states of the project."""
    return {os.path.join(top, name) for top, one, other in zip(room.tops, some, others) for name in differing(one, other)}


def times(trees: Sequence[Path], room: Room) -> Dict[str, int]:
    """By name in the project: its time in some copies."""
    return {os.path.normpath(os.path.join(top, os.path.relpath(path, tree))): os.lstat(path).st_mtime_ns for tree, top in zip(trees, room.tops)
            for folder, folders, files in os.walk(tree) for path in (folder, *(os.path.join(folder, name) for name in (*folders, *files)))}


def callers_of(makes: Sequence[Make]) -> Dict[int, Tuple[Make, Job]]:
    """By make: the innermost make whose recipe calls it, and that recipe."""
    found: Dict[int, Tuple[Make, Job]] = {}
    for outer in sorted(makes, key=lambda make: sum(life.is_make for life in make.life.up())):
        for job in outer.jobs:
            found.update((id(make), (outer, job)) for make in makes_of(job.work))
    return found


def look_ahead(record: Record, makes: Sequence[Make], names: Names, changed: Set[str], out: Path) -> Later:
    """Makes these builds. Where they cannot be made, nothing is known of them."""
    later = Later(makes, changed)
    try:
        if makes and record.status == 0:
            with new_room(names.tops, (), record.words, os.path.realpath(out), room_of_programs(names.tops), lambda place, plan: 1) as room:
                room.bound(record.seconds)
                later.run(room)
    except CannotTry as fault:
        later.holes.append(UNKNOWN + str(fault))
    return later


# ---------------------------------------------------------------- what make finds otherwise, with no edit at all
def another(build: MakeBuild, later: Knows, names: Names) -> Iterator[str]:
    """Why a later build is another one: the recipe of a target has another text, or that of another implicit rule was found; make finds another file for
    it; or it needs more or less, and that makes a difference."""
    base, vpath = build.graph.base, build.graph.round.vpath
    for node in (node for node in build.graph.nodes.values() if node.rule == 0 and node.name in later.nodes):
        name = node.name
        is_moved = name in base.implicit and base.places.get(name) != later.base.places.get(name)  # guard: another-rule
        if node.jobs and (is_moved or base.recipes.get(name, []) != later.base.recipes.get(name, [])):  # guard: another-recipe
            yield "the recipe of %s is another one" % name
        if vpath.get(name) != later.vpath.get(name):  # guard: another-file
            yield "make finds %s for %s" % (later.vpath.get(name, name), name)
        then, now = ([*one.prerequisites.get(name, ()), *sorted(one.order_only.get(name, ()))] for one in (base, later.base))
        gone = [one for one in then if one not in now and base.recipes.get(one)]
        for one in gone[:1]:  # guard: what-is-needed-no-more
            yield "%s does not need %s any more" % (name, one)
        met = {*then, *build.graph.round.nodes}
        new = {one: names.find(build.folder, one, False).path for one in now if one not in met and later.base.recipes.get(one)}
        for one in [one for one, path in new.items() if path in names.before or not os.path.lexists(path)][:1]:  # else another make has made it  # guard: what-is-needed-too
            yield "%s needs %s too" % (name, one)
