"""Which processes of one recipe run beside each other and conflict.

Two segments of processes (record/trace/lives.py) that nothing orders conflict where one writes, makes or removes what the other reads, writes, looks for
or uses. It is luck where a wait for any child orders them in this build alone. What a make or ninja inside the recipe orders is judged in its own build.

These do not conflict: files on which somebody took a lock, and pipes with names; a look alone at what is written; a look at a name by who has listed its folder; who makes
a folder, and who uses it but has looked for it, or tried to make it.
"""

import os
from dataclasses import dataclass
from functools import cache, lru_cache
from typing import Dict, Iterable, Iterator, List, NamedTuple, Optional, Set, Tuple

from record.trace.events import (
    ABSENT, BY_LIST, CREATED, ENTERED, FOLDER_REMOVED, HELD, LOCKED, MADE, MADE_BEFORE, OUTPUT, READ, REMOVED, SEEN, WRITTEN,
)
from record.trace.lives import Course, Life, Segment, before, forks_above

MAKE, USE, LOOKED_USE = "K", "p", "q"  # a folder was made; a name below it was used, or used by who had looked for it
KINDS = {READ: READ, SEEN: SEEN, BY_LIST: BY_LIST, ENTERED: SEEN, ABSENT: ABSENT, WRITTEN: WRITTEN, OUTPUT: OUTPUT, CREATED: CREATED, REMOVED: REMOVED,
         FOLDER_REMOVED: REMOVED, MADE: MADE_BEFORE, MADE_BEFORE: MADE_BEFORE}  # (that it came is an event of its own)
WRITES, COMES = WRITTEN + OUTPUT, CREATED + REMOVED  # of what a file holds; of the name
GIVES = WRITES + COMES + MAKE
PAIRS = {frozenset(pair) for pair in (
    *((one, other) for one in WRITES for other in READ + WRITES), *((one, other) for one in COMES for other in READ + SEEN + ABSENT + MADE_BEFORE + USE + LOOKED_USE + GIVES),
    (MAKE, USE), (MAKE, MAKE), (MAKE, READ))}


class Did(NamedTuple):
    """What was done to a path in a segment."""

    place: int
    course: Course
    number: int
    kind: str
    path: str


@dataclass(frozen=True)
class Conflict:
    """Two segments that nothing orders, or luck alone, and the path."""

    path: str
    first: Segment
    second: Segment
    is_luck: bool


@lru_cache(1 << 14)
def above(path: str) -> Tuple[str, ...]:
    """The folders that a path is in."""
    found = []
    while len(path) > 1:
        path = os.path.dirname(path)
        found.append(path)
    return tuple(found)


def courses_of(lives: Iterable[Life]) -> List[Course]:
    """The processes of some lives, each once."""
    return list({id(life.course): life.course for life in lives}.values())


def owner(course: Course, number: int) -> Segment:
    """The segment to which another one belongs: until it runs a program, what a child of `vfork` does is done by its parent."""
    while course.is_lent and number == 0 and course.parent is not None:
        course, number = course.parent, course.forked
    return course, number


def done_by(courses: List[Course], changed: Set[str]) -> Iterator[Did]:
    """All that they did that counts here: at what somebody changed, or below it."""
    counts = cache(lambda path: path in changed or not changed.isdisjoint(above(path)))
    for course in courses:
        for number, events in enumerate(course.events_by_segment()):
            who = owner(course, number)
            for (kind, path), place in events.items():
                if kind in HELD + LOCKED or kind in KINDS and counts(path.rstrip("/")):
                    yield Did(place, *who, MAKE if path.endswith("/") else KINDS.get(kind, kind), path.rstrip("/"))


def conflicts_in(lives: List[Life]) -> List[Conflict]:
    """The conflicts of the processes of one recipe, one for each pair and path."""
    courses = courses_of(lives)
    if len(courses) < 2 or not any(course.marks for course in courses):
        return []
    changed = {path.rstrip("/") for life in lives for kind, path in life.events if KINDS.get(kind, SEEN) in GIVES}
    return [*Frontier(courses, changed).found] if changed else []


class Frontier:
    """Goes over what was done in the order of the trace, and keeps of each path those segments that may still conflict with what comes."""

    def __init__(self, courses: List[Course], changed: Set[str]) -> None:
        self.changed, self.inside = changed, {id(course) for course in courses}
        self.makes = {id(course): self.make_of(course) for course in courses}
        rows = sorted(done_by(courses, changed), key=lambda row: row.place)
        self.made = {row.path for row in rows if row.kind in MAKE + REMOVED}
        self.held = {row.path for row in rows if row.kind in HELD + LOCKED}  # guard: files-of-locks-inside
        self.table: Dict[str, Dict[int, Dict[Tuple[int, str], Did]]] = {}  # by path, and make
        self.asked: Set[Tuple[int, str]] = set()  # who has looked for which folder, or tried to make it
        self.found: Dict[Conflict, None] = {}
        for row in rows:
            if row.kind not in HELD + LOCKED:
                self.take(row)

    def take(self, row: Did) -> None:
        """One thing that was done, to its path and to the folders that the path is in."""
        who = id(row.course)
        if row.path in self.changed and (row.path not in self.held or row.kind in REMOVED + ABSENT):
            self.meet(row)
        if row.kind in SEEN + ABSENT + MADE_BEFORE + MAKE:
            self.asked.update((who, path) for path in (row.path, *above(row.path)) if path in self.made)
        for folder in above(row.path) if self.made and row.kind != ABSENT else ():  # what is not there is not there without its folder either
            if folder in self.made:
                is_asked = any((id(up), folder) in self.asked for up in row.course.up())  # guard: who-tries-to-make-folder
                self.meet(row._replace(path=folder, kind=LOOKED_USE if is_asked else USE))

    def make_of(self, course: Course) -> int:
        """The outermost make or ninja inside of the recipe that a process is, or is below: what that orders is judged in its own build. 0 where there is none."""
        ups = ((id(up), up.first) for up in course.up())
        return [0, *(own for own, life in ups if own in self.inside and (life.is_make and life.number >= 0 or life.is_ninja))][-1]

    def meet(self, row: Did) -> None:
        """Holds it against what was done to its path before."""
        tables, own = self.table.setdefault(row.path, {}), self.makes.get(id(row.course), 0)
        for make, rows in tables.items():
            if make != own or own == 0:  # guard: what-make-inside-orders
                for key in [key for key, old in rows.items() if self.is_done(old, row)]:
                    del rows[key]
        tables.setdefault(own, {})[id(row.course), row.kind] = row

    def is_done(self, old: Did, row: Did) -> bool:
        """Holds one thing that was done to a path against a later one; whether all that comes behind this comes behind the first one."""
        is_pair = frozenset((old.kind, row.kind)) in PAIRS
        if old.course is row.course or not is_pair and old.kind != row.kind:
            return False
        first, second = (old.course, old.number), (row.course, row.number)
        if before(first, second, False):
            return old.kind == row.kind or row.kind in GIVES
        if is_pair and id(fork_of(first, second)) in self.inside:
            self.found[Conflict(row.path, first, second, before(first, second, True))] = None
        return False


def fork_of(first: Segment, second: Segment) -> Optional[Course]:
    """The process from which two segments come."""
    above = forks_above(*second)
    return next((course for course in first[0].up() if id(course) in above), None)
