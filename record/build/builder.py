"""A build in the making: its tasks, and what each of them reads and writes, for make and for ninja.

What a task reads is what was read, and each name that it looked for and that another one changes. What make looks at, and which names a list of a folder
shows, is tried out in other orders.
"""

from typing import Collection, Dict, List, Sequence, Set, Tuple

from record.build.assumptions import Assumptions
from record.build.folders import add_folders
from record.build.locks import pass_locks
from record.build.tasks import Build, Node, Task, befores, drop_lonely, order_tasks, renumber
from record.build.work import Work, settle_parts
from record.trace.events import CHANGES, LISTED, LOOKS
from record.trace.names import Names


class Builder:
    """What is known of a build so far."""

    def __init__(self, names: Names, assumed: Assumptions, build: Build, before: Dict[str, str]) -> None:
        self.names, self.assumed, self.build, self.before = names, assumed, build, before
        self.of_node: Dict[str, int] = {}

    # ---------------------------------------------------------------- tasks and their order
    def add(self, node: Node, kind: str, works: Sequence[Work] = ()) -> None:
        """One more task, and where it is a recipe that is divided, those of its other parts behind it."""
        tasks, task = self.build.tasks, Task(node.label, node, kind, works=list(works))
        self.of_node[node.label] = len(tasks)
        tasks.append(task)
        for work in [work for work in works if work.parts][:1]:
            settle_parts(work)
            *others, task.part = work.parts
            task.parts = [len(tasks) + number for number in range(len(others))]
            tasks += [Task("%s&%d" % (task.label, number), node, "part", part=part) for number, part in enumerate(others, 1)]

    def put_in_order(self, after: List[Set[int]], keys: List[Tuple[int, int]]) -> int:
        """Orders the tasks, each part of a recipe behind all that the recipe waits for; how many edges closed a cycle. `after`, `keys`: by the number of a task."""
        tasks = self.build.tasks
        for at, task in enumerate(tasks):
            row, earlier = [*task.parts, at], after[at]
            for one in row if task.parts else ():
                part = tasks[one].part
                after[one] = earlier | {row[number] for number in (part.after if part is not None else ())}
        order, dropped = order_tasks(tasks, after, keys)
        self.arrange(order, after)
        return dropped

    def arrange(self, order: List[int], after: List[Set[int]]) -> None:
        """Puts the tasks in an order, each with those that it waits for. `after`: by the old number, the old numbers of these."""
        build = self.build
        build.tasks, number = renumber(build.tasks, order, after)
        build.bits = befores(build.tasks)
        build.writers = {path: {number[at] for at in found} for path, found in build.writers.items()}
        self.of_node = {label: number[at] for label, at in self.of_node.items()}

    # ---------------------------------------------------------------- footprints
    def note_events(self) -> None:
        """What each task reads and writes, and which folders it lists, by its events."""
        writers = self.build.writers
        for at, task in enumerate(self.build.tasks):
            task.writes = {path for kind, path, _ in task.events() if kind in CHANGES and not path.endswith("/")}
            task.lists = {path for kind, path, _ in task.events() if kind == LISTED}  # guard: listings-count
            for path in task.writes:
                writers.setdefault(path, set()).add(at)
        for task in self.build.tasks:
            task.reads = {path for kind, path, _ in task.events() if kind in LOOKS and path in writers}  # guard: failed-looks-are-reads

    def fill(self, kept: Collection[str] = ()) -> None:
        """What each task reads and writes, when all are in order. `kept`: paths that count though one task alone touches them."""
        add_folders(self.build, self.names, self.before)
        pass_locks(self.build)
        drop_lonely(self.build.tasks, kept)
        self.note_late()

    def note_late(self) -> None:
        """Files on which recipes meet that wait for a process by luck alone: it may still run beside what comes later."""
        for at, task in enumerate(self.build.tasks):
            row = [self.build.tasks[one] for one in (*task.parts, at)]
            writes, reads = set().union(*(one.writes for one in row)), set().union(*(one.reads for one in row))
            for (kind, path), (words, waits) in (found for work in task.works for found in work.late.items()):
                if kind in CHANGES and path in writes or path in reads and any(self.build.is_before(at, other) for other in self.build.writers.get(path, ())):
                    self.assumed.add_luck("%s by %s in %s" % (path, words, task.label), waits)
