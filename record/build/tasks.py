"""Tasks: what each reads and writes, what it waits for, and the order of them."""

import heapq
from collections import Counter
from dataclasses import dataclass, field
from typing import Any, Callable, Collection, Dict, Iterable, Iterator, List, Optional, Set, Tuple, TypeVar

from record.build.work import Part, Tool, Work

One = TypeVar("One")
Other = TypeVar("Other")


def reached(starts: Iterable[One], then: Callable[[One], Iterable[One]]) -> Set[One]:
    """Some things, and all to which they lead, by way of others too."""
    found: Set[One] = set()
    todo = list(starts)
    while todo:
        one = todo.pop()
        if one not in found:
            found.add(one)
            todo.extend(then(one))
    return found


def grouped(pairs: Iterable[Tuple[One, Other]]) -> Dict[One, List[Other]]:
    """For each first one of some pairs all that come second, in order."""
    found: Dict[One, List[Other]] = {}
    for first, second in pairs:
        found.setdefault(first, []).append(second)
    return found


@dataclass(eq=False)
class Job:
    """A recipe that make ran, and what it did."""

    target: str
    pids: List[int] = field(default_factory=list)
    work: Work = field(default_factory=Work)


@dataclass(eq=False)
class Node:
    """A target that make looked at, or one rule of a double-colon target."""

    name: str
    label: str
    first: int  # when make looked at it first, and when it had looked at its prerequisites; of ninja the number of its statement
    done: int
    prerequisites: Dict[str, None] = field(default_factory=dict)  # labels of other nodes
    jobs: List[Job] = field(default_factory=list)
    must: bool = False
    has_recipe: bool = False
    phony: bool = False
    path: str = ""
    rule: int = 0


@dataclass(eq=False)
class Task:
    """One line of the text of tasks."""

    label: str
    node: Node
    kind: str  # recipe, part, group
    after: Set[int] = field(default_factory=set)
    reads: Set[str] = field(default_factory=set)
    writes: Set[str] = field(default_factory=set)
    works: List[Work] = field(default_factory=list)
    asks: Set[str] = field(default_factory=set)  # names for which make alone asks, for it
    lists: Set[str] = field(default_factory=set)  # the folders that it lists
    leaves: Set[str] = field(default_factory=set)  # what it writes, and no other task touches
    folders: Dict[str, Set[str]] = field(default_factory=dict)  # those that it `made`, and that it `found` there when it tried
    part: Optional[Part] = None  # of a recipe, that is judged as this task: of one that is divided the one with which it ends
    parts: List[int] = field(default_factory=list)  # of a recipe that is divided: the tasks of its other parts, in order

    def events(self) -> Iterator[Tuple[str, str, int]]:
        """The kinds, paths and places of all that is judged as this task."""
        for work in [self.part.work] if self.part is not None else self.works:
            yield from ((kind, path, place) for (kind, path), place in work.events.items())


@dataclass
class Build:
    """The tasks of one round of a make, or of one stage of a ninja, in a serial order."""

    make: Tool
    stage: str
    words: str  # of the tool
    considered: int  # so many targets it looked at
    tasks: List[Task] = field(default_factory=list)
    bits: List[int] = field(default_factory=list)
    writers: Dict[str, Set[int]] = field(default_factory=dict)
    meanings: Dict[str, str] = field(default_factory=dict)
    tool = ""

    @property
    def folder(self) -> str:
        """Where the process works; paths are relative to it."""
        return self.make.folder

    def about(self, at: int) -> Dict[str, Any]:
        """Where the recipe of a task stands, and its first line."""
        raise NotImplementedError

    def is_before(self, first: int, second: int) -> bool:
        """Whether one task has ended before another starts."""
        return bool(self.bits[second] >> first & 1)

    def unordered(self, first: int, second: int) -> bool:
        """Whether nothing orders two tasks."""
        return first != second and not self.is_before(first, second) and not self.is_before(second, first)


def order_tasks(tasks: List[Task], after: List[Set[int]], keys: List[Tuple[int, int]]) -> Tuple[List[int], int]:
    """A serial order of tasks; edges that close a cycle are dropped and counted."""
    users = grouped((one, at) for at, earlier in enumerate(after) for one in earlier)
    left = {at: len(earlier) for at, earlier in enumerate(after)}  # of those that are not in order yet: for so many each waits
    heap = [(keys[at], at) for at, count in left.items() if not count]
    heapq.heapify(heap)
    order: List[int] = []
    dropped = 0
    while left:
        if not heap:
            at = min(left, key=lambda one: (left[one], keys[one]))
            dropped += left[at]
            after[at].difference_update(left)
            heap.append((keys[at], at))
        _, at = heapq.heappop(heap)
        order.append(at)
        del left[at]
        for user in users.get(at, ()):
            if user in left and at in after[user]:
                left[user] -= 1
                if left[user] == 0:
                    heapq.heappush(heap, (keys[user], user))
    return order, dropped


def renumber(tasks: List[Task], order: List[int], after: List[Set[int]]) -> Tuple[List[Task], Dict[int, int]]:
    """The tasks in an order, each with those that it waits for, and the new number of each old one. `after`: by the old number, the old numbers of these."""
    number = {old: new for new, old in enumerate(order)}
    for old in order:
        tasks[old].after, tasks[old].parts = {number[one] for one in after[old]}, [number[one] for one in tasks[old].parts]
    return [tasks[old] for old in order], number


def befores(tasks: List[Task]) -> List[int]:
    """For each task the set, as bits, of all that have ended before it starts. The tasks are in a serial order."""
    bits: List[int] = []
    for task in tasks:
        value = 0
        for one in task.after:
            value |= bits[one] | (1 << one)
        bits.append(value)
    return bits


def drop_lonely(tasks: List[Task], kept: Collection[str]) -> None:
    """Paths that one task alone touches say nothing, except those to keep; nor do reads of what nobody writes."""
    count = Counter(path for task in tasks for path in task.reads | task.writes)
    written = set().union(*(task.writes for task in tasks))
    for task in tasks:
        task.reads = {p for p in task.reads if p in written and count[p] > 1 and p not in task.writes}
        task.leaves = {p for p in task.writes if count[p] == 1 and p not in kept}
        task.writes -= task.leaves
