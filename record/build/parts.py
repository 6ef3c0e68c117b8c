"""The parts of a recipe that are tasks of their own.

A recipe is one task, except where two of its processes conflict that nothing orders, and where it leaves a process running. Then each segment of the
process that started the two is a part, and each process that this one starts, with all below it. Those above are cut where that one begins and where it
has been waited for. A process that nobody waits for is a part too, after which nothing comes.
"""

import os
from bisect import bisect_left
from typing import Container, Dict, List, Optional, Set, Tuple, cast

from record.build.segments import Conflict, conflicts_in, courses_of, fork_of, owner
from record.build.work import Part, Work
from record.trace.events import CHANGES, LOOKS, MADE, OUTPUT, WRITTEN
from record.trace.lives import Course, Key, Segment, lucky_waits

WORDS = 60  # signs of a command


class Parts:
    """Divides a recipe. `written`: the files that anybody changes."""

    def __init__(self, work: Work, written: Container[str]) -> None:
        self.courses = sorted(courses_of(work.lives), key=lambda course: course.first.born)
        self.inside = {id(course) for course in self.courses}
        self.roots = {id(course) for course in self.courses if id(course.parent) not in self.inside}  # those of its lines, for which make waits
        self.conflicts: List[Conflict] = conflicts_in(work.lives)
        self.cuts: Dict[int, Set[int]] = {}  # by process: the last segments of its pieces
        self.ends: Dict[int, List[int]] = {}  # the same, sorted; of a process that is not cut its last segment alone
        self.left: Set[int] = set()
        for course in self.courses:
            # Others may see that a process is left: it changes something, or looks at what somebody changes.
            matters = (kind in CHANGES + MADE or path in written for life in course.lives for kind, path in life.events)
            if not self.is_waited(course) and any(matters):  # guard: processes-that-are-left
                self.left.add(id(course))
                self.cut_above(course)
        for one in self.conflicts:
            if not one.is_luck:  # guard: conflicts-by-luck-alone
                self.divide(fork_of(one.first, one.second))
        self.parts: List[Part] = []
        self.of: Dict[Tuple[int, int], int] = {}
        self.end = -1  # the part with which it ends
        if self.cuts:
            self.make()

    def is_waited(self, course: Course, by_luck: bool = True) -> bool:
        """Whether the recipe ends only when a process of it has ended; `by_luck`: in the recorded build, else in each."""
        while id(course) not in self.roots:
            if course.waited is None or not (by_luck or course.is_known):
                return False
            course = course.waited[0]
        return True

    def late(self) -> Dict[Key, Tuple[str, Set[Course]]]:
        """What processes did for which the recipe has waited by luck alone: their commands, and for whom it waits so."""
        lucky = {course: (command(course), lucky_waits(course, self.roots)) for course in self.courses if not self.is_waited(course, False) and self.is_waited(course)}
        done = [(key, found) for course, found in lucky.items() for life in course.lives for key in life.events]
        return {(WRITTEN if kind == OUTPUT else kind, path): found for (kind, path), found in done if kind in CHANGES + LOOKS + OUTPUT}  # guard: what-is-written-late

    # ---------------------------------------------------------------- pieces
    def divide(self, course: Optional[Course]) -> None:
        """Each segment of a process is a part."""
        if course is not None and id(course) in self.inside:
            self.cuts.setdefault(id(course), set()).update(range(course.at))
            self.cut_above(course)

    def cut_above(self, course: Course) -> None:
        """Cuts the processes above one where it begins, and where its end has been waited for."""
        while course.parent is not None and id(course.parent) in self.inside:
            cuts = self.cuts.setdefault(id(course.parent), set())
            cuts.add(course.forked)
            if course.waited is not None and course.waited[0] is course.parent:
                cuts.add(course.waited[1] - 1)
            course = course.parent

    def piece(self, course: Course, number: int) -> int:
        """The piece of a process that has a segment."""
        return bisect_left(self.ends.get(id(course), ()), number)

    def is_merged(self, course: Course) -> bool:
        """Whether a process that is not cut begins and ends in one piece of the one that started it."""
        above = course.parent
        if id(course) in self.cuts or id(course) in self.left or id(course) in self.roots or above is None:
            return False
        return not self.is_waited(course) or course.waited is not None and course.waited[0] is above and self.piece(above, course.forked) == self.piece(above, course.waited[1])

    def part_of(self, segment: Segment) -> int:
        """The part that has a segment; -1 outside of the recipe."""
        course, number = owner(*segment)
        while course.parent is not None and id(course) not in self.roots and (self.is_merged(course) or id(course) not in self.cuts and id(course.parent) not in self.cuts):
            course, number = course.parent, course.forked
        return self.of.get((id(course), self.piece(course, number)), -1)

    # ---------------------------------------------------------------- parts
    def make(self) -> None:
        """All parts."""
        self.ends = {id(course): sorted({*self.cuts.get(id(course), ()), course.at}) for course in self.courses}
        heads = [course for course in self.courses if id(course) in self.cuts or id(course) in self.roots or id(course.parent) in self.cuts and not self.is_merged(course)]
        for course in heads:
            words = command(course)
            for number in range(len(self.ends[id(course)])):
                self.of[id(course), number] = len(self.parts)
                self.parts.append(Part(words=words, is_left=id(course) in self.left))
        for course in self.courses:
            self.fill(course)
        for course in heads:
            self.connect(course)

    def fill(self, course: Course) -> None:
        """Gives what a process did to the parts."""
        for number, events in enumerate(course.events_by_segment()):
            work = self.parts[self.part_of((course, number))].work
            for (kind, path), place in events.items():
                work.add(WRITTEN if kind == OUTPUT else kind, path, place)
        for last in self.ends[id(course)]:
            self.parts[self.part_of((course, last))].work.lives += course.lives

    def connect(self, course: Course) -> None:
        """Which part comes after which."""
        row = [self.of[id(course), number] for number in range(len(self.ends[id(course)]))]
        for first, second in zip(row, row[1:]):
            self.parts[second].after.add(first)
        if id(course) in self.roots:
            begun, self.end = self.end, row[-1]  # guard: lines-of-recipe-in-order
        else:
            begun = self.part_of((cast(Course, course.parent), course.forked))
        behind = self.part_of(course.waited) if course.waited is not None else -1
        if begun >= 0:
            self.parts[row[0]].after.add(begun)
        if behind >= 0 and behind not in row:
            self.parts[behind].after.add(row[-1])

    def in_order(self) -> List[Part]:
        """The parts, that with which the recipe ends last."""
        order = [*(at for at in range(len(self.parts)) if at != self.end), self.end] if self.parts else []
        number = {at: new for new, at in enumerate(order)}
        for part in self.parts:
            part.after = {number[at] for at in part.after}
        return [self.parts[at] for at in order]


def command(course: Course) -> str:
    """What a process ran, or the first one below it that ran something, or the one above it."""
    life = course.first
    below = next((one for one in life.children if one.ran), life)
    ran = [up.ran[-1] for up in ((life, below) if life.ran else (below, *life.up())) if up.ran]
    text = " ".join(" ".join([os.path.basename(ran[0][0]), *ran[0][1:]]).split()) if ran else ""
    return text if len(text) <= WORDS else text[:WORDS] + ".."


def divide(work: Work, written: Container[str]) -> None:
    """Divides a recipe, and says where luck alone orders two of its processes."""
    found = Parts(work, written)
    for one in found.conflicts:
        if one.is_luck:
            text = "%s by %s and %s" % (one.path, command(one.first[0]), command(one.second[0]))
            work.luck.setdefault(text, set()).update(lucky_waits(one.first[0], {id(up) for up in one.second[0].up()}))
    work.late = found.late()
    work.parts = found.in_order()
