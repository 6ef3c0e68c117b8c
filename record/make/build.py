"""One round as a build: its tasks, with what each reads and writes."""

import re
from typing import Dict, List, Set

from record.build.assumptions import Assumptions
from record.build.builder import Builder
from record.build.tasks import Build, Node, Task, grouped, reached
from record.make.database import Base
from record.make.graph import Graph, MakeBuild
from record.make.owners import Make
from record.make.words import LATER, Words, makefiles, numbers_of
from record.trace.names import Names

CALLED = "$(shell ..)"  # the label of what a call of make leaves running


class MakeBuilder(Builder):
    """Makes the tasks of a round."""

    def __init__(self, make: Make, number: int, names: Names, assumed: Assumptions, before: Dict[str, str]) -> None:
        self.make, self.graph = make, Graph(make, number)
        super().__init__(names, assumed, MakeBuild(make, self.graph), before)

    def run(self) -> Build:
        """All steps."""
        for node in self.graph.nodes.values():
            spelled = re.sub(r"\([^(]*\)$", "", self.graph.round.vpath.get(node.name, node.name))  # of a member of an archive the archive
            node.path = self.names.find(self.make.folder, spelled, True).path  # as it was before the build or is now
        self.make_recipes()
        self.note_events()
        self.make_questions()  # guard: targets-that-others-make
        self.connect()
        self.add_asked()
        self.fill({self.names.find(self.make.folder, name, True).path for name in makefiles(self.make.words)})  # the next build reads those that this one looked for
        return self.build

    # ---------------------------------------------------------------- tasks
    def make_recipes(self) -> None:
        """A task for each target whose recipe ran."""
        for node in self.graph.nodes.values():
            if node.jobs or node.must and node.has_recipe:
                self.add(node, "recipe", [job.work for job in node.jobs if job.work.lives])
        for part in self.make.left:
            self.build.tasks.append(Task(CALLED, Node(CALLED, CALLED, 0, 0), "part", part=part))

    def make_questions(self) -> None:
        """A task for each target that only recipes of others write: make has asked whether it is there, and for a plain file before it starts what comes later."""
        for node in self.graph.nodes.values():
            makers = self.build.writers.get(node.path, ()) if node.label not in self.of_node and not node.phony else ()
            if any(node.prerequisites or self.build.tasks[at].node.first < node.first for at in makers):  # guard: targets-that-others-make-first
                self.add(node, "group")

    # ---------------------------------------------------------------- order
    def connect(self) -> None:
        """Edges between tasks: what was asked for. Targets that stand above a task, and that others need, become tasks too."""
        users = grouped((one, node.label) for node in self.graph.nodes.values() for one in node.prerequisites)
        kept = (reached(self.of_node, lambda label: users.get(label, ())) & users.keys()) - self.of_node.keys()
        for label in sorted(kept, key=lambda n: self.graph.nodes[n].first):
            self.add(self.graph.nodes[label], "group")
        after: List[Set[int]] = [set() for _ in self.build.tasks]
        for label, at in self.of_node.items():
            after[at].update({self.of_node[p] for p in self.graph.nodes[label].prerequisites if p in self.of_node} - {at})
        of_job = {id(job): node.label for node in self.graph.nodes.values() for job in node.jobs}
        jobs = {label: place for place, label in enumerate(dict.fromkeys(of_job[id(job)] for job in self.graph.round.jobs))}
        self.put_in_order(after, [(task.node.done, jobs.get(task.node.label, 0)) for task in self.build.tasks])

    def arrange(self, order: List[int], after: List[Set[int]]) -> None:
        """Recipes that make runs one at a time, whatever the user says, come one after the other."""
        is_serial = is_row(self.graph.base, self.make.words) or self.make.has_one_slot()  # guard: notparallel
        row = [at for at in order if self.build.tasks[at].kind != "part"] if is_serial else []
        for first, second in zip(row, row[1:]):
            for at in (second, *self.build.tasks[second].parts):
                after[at].add(first)
        super().arrange(order, after)

    def add_asked(self) -> None:
        """Make asks whether a target is there, and how old it is: where that is not tried out in other orders, it meets who writes the file beside its recipe."""
        for label, at in self.of_node.items():
            task, node = self.build.tasks[at], self.graph.nodes[label]
            if not (node.phony or node.path in task.reads | task.writes) and self.build.writers.get(node.path, set()) - {at}:  # guard: names-for-which-make-asks
                task.reads.add(node.path)
                task.asks.add(node.path)


def is_row(base: Base, words: Words) -> bool:
    """Whether a makefile says that its recipes run one at a time: from a version on `.NOTPARALLEL` with names is about these alone. Where make
    has searched a rule for it, another target asks for it, and the data base does not show whether a makefile has a rule of its own."""
    return base.serial and ".NOTPARALLEL" not in base.implicit and (numbers_of(words.version) < LATER or not base.prerequisites.get(".NOTPARALLEL"))  # guard: rows-of-some-targets
