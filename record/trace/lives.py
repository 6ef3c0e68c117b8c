"""The tree of processes, what each life of a process did to files, and how each process went, with its threads.

A process number comes again, so a life is what counts. What it did are its events (events.py), by which all rules work: a kind and a path, of which the first
place in the order of the trace is kept.

How a process went is a row of segments. A segment ends where the process forks, ends, or has waited. It comes after the one before it, and after the fork that began its
process. Until a child of `vfork` runs a program, its parent waits: what it does belongs to the segment of its parent. A segment comes after the end of a
process too for which its own has waited. The wait is *known* where each build waits so: for a process by its number or descriptor, and in a row of
waits for any child that leaves none, for the last of them, and for those with which that is in one pipeline. Else it is luck: who looks whether a
child has ended, and heard of no signal, may go on without it; and a shell that waits for what it runs in front also hears of what has ended in the
background by then, and does not wait for it again.
"""

from bisect import bisect_right
from contextlib import suppress
from dataclasses import dataclass, field
from functools import cached_property, lru_cache, reduce
from typing import Container, Dict, Iterable, Iterator, List, Optional, Set, Tuple

Key = Tuple[str, str]  # an event: its kind, and a path
Segment = Tuple["Course", int]
Address = Tuple[int, ...]  # of a process: which child it is of the one that started it, behind the address of that; none of the first one
Child = Tuple[Address, str]  # a process as another build has it too: its address, and what ran above it
ALWAYS = 1 << 60  # a place behind all others


@dataclass
class Act:
    """What a make or a ninja itself read, or that it entered a folder, each time, with its place in the trace."""

    place: int
    kind: str
    path: str


@dataclass(eq=False)
class Program:
    """A program that a process has begun to run. Processes that this one starts run it too, as long as they begin no other."""

    argv: List[str]
    place: int
    name: str = ""  # as who started it named it
    file: str = ""  # what runs


@dataclass(eq=False)
class Life:
    """One life of a process."""

    pid: int
    parent: Optional["Life"] = None
    born: int = 0
    died: int = 1 << 60
    folder: str = ""
    argv: List[str] = field(default_factory=list)
    ran: List[List[str]] = field(default_factory=list)
    cut: bool = False
    events: Dict[Key, int] = field(default_factory=dict)
    changed: Dict[str, int] = field(default_factory=dict)  # names: where it last changed what stands there
    acts: List[Act] = field(default_factory=list)
    starts: List[Tuple[int, str]] = field(default_factory=list)  # where make began (again), and its folder
    is_make: bool = False
    is_ninja: bool = False
    program: str = ""  # the file that runs
    number: int = -1  # which life of this number among the makes with words
    adopted: bool = False
    has_failed: bool = False  # when it ended
    has_timer: bool = False
    is_heir: bool = False  # it was seen before the call that started it was finished, and has its folder from who began that call
    children: List["Life"] = field(default_factory=list)
    is_apart: bool = False  # a thread that has a folder of its own
    handle: Tuple[int, str] = (-1, "")  # the descriptor that it got last, and what stands behind it, where that only stands for a name
    begun: int = 0  # where the program began that runs now
    programs: List[Program] = field(default_factory=list)  # all that it ran itself

    @cached_property
    def course(self) -> "Course":
        """How it went: of a thread how its process did."""
        return Course(self)

    def enter(self, folder: str) -> None:
        """Changes the folder, that of all threads with it."""
        for life in self.course.lives:
            if life is self or not (life.is_apart or self.is_apart):  # guard: threads-change-their-folder-together
                life.folder = folder

    def up(self) -> Iterable["Life"]:
        """This life, its parent, and so on."""
        life: Optional[Life] = self
        while life is not None:
            yield life
            life = life.parent


class Course:
    """A process: its segments are numbered from 0 on."""

    def __init__(self, life: Life) -> None:
        self.lives = [life]  # the process, and its threads
        self.parent: Optional["Course"] = None
        self.waiter: Optional["Course"] = None  # whose child it is: of its parent, or of who started that; and which of these
        self.which = 0
        self.forked = 0  # it began when this segment of its parent ended
        self.is_lent = False  # its parent waits until it runs a program
        self.marks: List[int] = []  # where in the trace its later segments begin
        self.again: List[Dict[Key, int]] = []  # for each of these: what it did in it, and had done before
        self.limit = 0  # an event whose first place is before this one has to be noted
        self.children: List["Course"] = []
        self.left = 0  # so many of them may still be waited for
        self.waited: Optional[Segment] = None  # who has waited for it, in the segment that began then
        self.is_known = False  # whether it waits so in each build
        self.others: List["Course"] = []  # children for which another process has waited
        self.row: List[Tuple["Course", bool]] = []  # for whom it has waited since it did something else, and whether it slept meanwhile
        self.has_slept = False
        self.has_heard = False  # a signal, by a handler of its own
        self.pipes: Set[str] = set()  # those that are its input or output
        self.files: Dict[int, Tuple[str, bool]] = {}  # what it may write into, by descriptor; whether a program that it runs has it too

    @property
    def first(self) -> Life:
        """The process, without its threads."""
        return self.lives[0]

    @property
    def at(self) -> int:
        """The number of its segment."""
        return len(self.marks)

    def mark(self, place: int) -> None:
        """A segment ends."""
        self.marks.append(place)
        self.again.append({})
        self.limit = place

    def note(self, key: Key, first: int, place: int) -> None:
        """It does something else than to wait, perhaps what it had done before this segment."""
        self.end_row(False)
        if self.marks and first < self.marks[-1]:
            self.again[-1].setdefault(key, place)  # guard: what-is-done-again

    def events_by_segment(self) -> List[Dict[Key, int]]:
        """What it did in each segment, with the first place."""
        found: List[Dict[Key, int]] = [{}, *({**one} for one in self.again)]
        for life in self.lives:
            for key, place in life.events.items():
                table = found[bisect_right(self.marks, place)]
                table[key] = min(place, table.get(key, place))
        return found

    # ---------------------------------------------------------------- forks
    def fork(self, child: "Course", place: int, is_lent: bool, real: "Course") -> None:
        """It has started a process, which is the child of `real`: itself, or who started it."""
        self.end_row(False)
        child.parent, child.waiter, child.forked, child.is_lent = self, real, self.at, is_lent
        child.which = len(real.children)
        real.children.append(child)
        real.left += 1
        self.mark(place)

    def run(self, place: int) -> None:
        """It begins to run a program: from here on it is no part of its parent's segment, and has no file that it was to close."""
        if self.is_lent or self.parent is None and self.first.is_heir:  # or whether it is lent will be said when the call is finished
            self.mark(place)
        self.files = {number: found for number, found in self.files.items() if found[1]}  # guard: descriptors-that-are-closed

    # ---------------------------------------------------------------- waits
    def wait(self, child: "Course", place: int, is_named: bool, is_blocking: bool) -> None:
        """It has waited for the end of a process, by its number or for any child."""
        if child.waited is not None:
            return
        self.mark(place)
        child.waited, child.is_known = (self, self.at), is_named and (is_blocking or self.has_slept or self.has_heard)  # guard: looks-whether-child-has-ended
        if child.waiter is self:
            self.left -= 1  # guard: children-that-are-left
        elif child.parent is not None:
            child.parent.others.append(child)
        if not is_named:
            self.row.append((child, is_blocking or self.has_slept))
            self.limit = ALWAYS  # guard: rows-of-waits
        self.has_slept = False  # what ended in that time as well it hears of by the way  # guard: sleep-for-each

    def end_row(self, has_none: bool) -> None:
        """A row of waits for any child ends. `has_none`: no child was left."""
        if not self.row:
            return
        last, has_slept = self.row[-1]
        last.is_known = self.left == 0 and has_slept  # guard: luck
        pipes = set(last.pipes) if last.is_known else set()
        for child, _ in reversed(self.row):
            if has_none or self.first.is_make or self.first.is_ninja or pipes & child.pipes:  # make and ninja wait for each, a shell for a whole pipeline  # guard: pipelines
                child.is_known = True
                pipes |= child.pipes
        self.row = []
        self.limit = self.marks[-1]

    def wait_for_all(self, place: int) -> None:
        """It has waited until no child was left, and got the number of none, as one that ignores SIGCHLD."""
        self.end_row(True)
        for child in self.children if self.left else ():
            if child.waited is None and child.first.died <= place:
                self.wait(child, place, True, True)

    # ---------------------------------------------------------------- order
    @cached_property
    def address(self) -> Address:
        """Where it is among all processes of the build."""
        return (*self.waiter.address, self.which) if self.waiter is not None else ()

    @cached_property
    def name(self) -> Child:
        """How it is known in another build."""
        return self.address, self.waiter.words if self.waiter is not None else ""

    @cached_property
    def words(self) -> str:
        """What ran in it first, and in those above."""
        return str([up.first.ran[:1] for up in self.up()])  # guard: what-ran-in-another-build

    def up(self) -> Iterator["Course"]:
        """It, and those above it."""
        course: Optional["Course"] = self
        while course is not None:
            yield course
            course = course.parent


@lru_cache(1)
def forks_above(course: Course, number: int) -> Dict[int, int]:
    """By process: its last segment that comes before a segment of it, or of a process below it."""
    return {id(course): number, **{id(up.parent): up.forked for up in course.up()}}


def before(first: Segment, second: Segment, by_luck: bool) -> bool:
    """Whether a segment has ended when another one begins; `by_luck`: in the recorded build, else in each."""
    todo, seen, above = [first], {id(second[0]): ALWAYS}, forks_above(*second)
    while todo:
        course, at = todo.pop()
        if seen.get(id(course), ALWAYS) <= at:
            continue
        seen[id(course)] = at
        if above.get(id(course), -1) >= at:
            return True
        if course.waited is not None and (by_luck or course.is_known):  # guard: waits-that-are-luck
            todo.append(course.waited)
        todo += [(child, child.at) for child in course.others if child.forked >= at and child.waited is not None]
    return False


def lucky_waits(course: Course, until: Container[int]) -> Set[Course]:
    """The processes for which another one has waited by luck, from one on up to one of `until`; where it was by another way, one for which nobody has."""
    found: Set[Course] = set()
    while course.waited is not None and id(course) not in until:
        found.update(() if course.is_known else (course,))
        course = course.waited[0]
    return found if id(course) in until else {course}


def apart(courses: Iterable[Course]) -> List[Set[Address]]:
    """Some processes that others have waited for, in rows: of two in one row that have one parent, this has waited for the first before it started the second."""
    rows: List[Set[Address]] = []
    ends: Dict[Course, List[int]] = {}  # by parent: for each row the segment in which it has waited for the last one
    for course in sorted(courses, key=lambda one: one.forked):
        if course.waited is not None:
            row = ends.setdefault(course.waited[0], [])
            at = next((at for at, end in enumerate(row) if end <= course.forked), len(row))  # guard: one-child-at-a-time
            row[at:at + 1] = [course.waited[1]]
            rows += [set()] if at == len(rows) else []
            rows[at].add(course.address)
    return rows


def known_of(first: Course, addresses: Iterable[Address], waited: Container[int]) -> Set[Child]:
    """Those of some processes for which each build waits. `first`: the first process of the build; `waited`: the numbers of those without whose end it did nothing."""
    found: Set[Child] = set()
    for address in addresses:
        with suppress(IndexError):
            course = reduce(lambda above, number: above.children[number], address, first)
            found.update((course.name,) if course.is_known or course.first.pid in waited else ())
    return found
