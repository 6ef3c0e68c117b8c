"""What a race can change: what its two recipes make, and what is made of that. All else is the matter of another race."""

from __future__ import annotations

import os
from collections.abc import Callable, Container, Iterable, Iterator, Sequence
from dataclasses import dataclass, field
from pathlib import Path
from typing import Any

from confirm.failed import STATUS, failed
from confirm.races import file_in, tasks_of
from report.model import Race, read_json

# A task of a record: the number of its build, and its label there.
Task = tuple[str, str]


@dataclass
class Tasks:
    """All tasks of a record: who needs whom, and what each reads and writes, as names from the project's folder on."""

    folder: str
    users: dict[Task, list[Task]] = field(default_factory=dict)
    reads: dict[Task, set[str]] = field(default_factory=dict)
    writers: dict[str, set[Task]] = field(default_factory=dict)
    targets: dict[str, set[Task]] = field(default_factory=dict)  # by the name that make or ninja has for it
    abouts: dict[str, dict[str, Any]] = field(default_factory=dict)  # by the number of a build
    of_build: dict[str, list[Task]] = field(default_factory=dict)
    builds_in: dict[Task | None, list[str]] = field(default_factory=dict)  # by the task inside which they ran

    @classmethod
    def of(cls, record: Path, folder: str) -> Tasks:
        """The tasks of a record of a project."""
        tasks = cls(folder)
        for number in read_json(record / "record.json").get("builds", []):
            tasks.add_build(number, record)
        tasks.add_targets(lambda kind: kind == "recipe")
        tasks.add_targets(lambda kind: kind != "recipe")  # guard: targets-that-no-recipe-made
        return tasks

    def name(self, build: str, path: str) -> str:
        """A path of a build from the project's folder on."""
        return os.path.relpath(os.path.join(self.abouts[build]["folder"], file_in(self.abouts[build], path)), self.folder)

    def add_build(self, number: str, record: Path) -> None:
        """The tasks of one build."""
        self.abouts[number] = read_json(record / "builds" / number / "build.json")
        self.of_build[number] = []
        self.builds_in.setdefault(self.within(number), []).append(number)
        for task in tasks_of(record, number):
            own = (number, task["task"])
            self.of_build[number].append(own)
            self.reads[own] = {self.name(number, it) for it in task["reads"]}
            for it in task["writes"]:
                self.writers.setdefault(self.name(number, it), set()).add(own)
            for it in task["after"]:
                self.users.setdefault((number, it), []).append(own)

    def add_targets(self, is_meant: Callable[[str], bool]) -> None:
        """A target is of the tasks that have its name. It stands among what they write only where other recipes touch it too; where some do
        and write it, a look at it is no reason."""
        known = {*self.writers}
        for number, about in self.abouts.items():
            for label, it in about["labels"].items():
                if it.get("target") and is_meant(it.get("kind", "")):
                    name, own = self.name(number, it["target"]), (number, label)
                    self.targets.setdefault(it["target"], set()).add(own)
                    if it.get("kind") == "recipe" or name not in known:
                        self.writers.setdefault(name, set()).add(own)

    def within(self, build: str) -> Task | None:
        """The task inside which a make or ninja ran."""
        found = self.abouts[build].get("within")
        return (found["build"], found["task"]) if found else None

    def inside(self, task: Task) -> Iterator[Task]:
        """The tasks of the makes and ninjas that ran inside a task."""
        return (it for build in self.builds_in.get(task, ()) for it in self.of_build[build])

    def later(self, build: str) -> Iterator[Task]:
        """The tasks of what began inside the same task when a build had ended: another make, or the same one when its makefiles were remade."""
        own = self.span(build)
        for number in self.builds_in[self.within(build)]:
            span = self.span(number)
            if span[0] > own[1] or span == own and number > build:  # guard: later-round-of-same-make
                yield from self.of_build[number]

    def span(self, build: str) -> tuple[int, int]:
        """Where in the trace a make or ninja began and ended."""
        began, ended = self.abouts[build].get("span", (0, 0))
        return began, ended

    def named(self, name: str, file: str) -> set[Task]:
        """The tasks of a target as make or ninja names it, in this makefile where it says which."""
        found: set[Task] = self.targets.get(name) or self.targets.get(os.path.normpath(name)) or set()
        labels = {it: self.abouts[it[0]]["labels"][it[1]] for it in found}
        makers = {it for it in found if labels[it].get("kind") == "recipe"} or found
        return {it for it in makers if labels[it].get("file") == file} or makers


@dataclass
class Blame:
    """What a build left otherwise, by who can have done it; `confirm.failed.STATUS` stands for how the build ended."""

    own: set[str] = field(default_factory=set)  # the two recipes, or who needs them
    others: set[str] = field(default_factory=set)
    unknown: set[str] = field(default_factory=set)  # what nobody wrote while the build was recorded

    @property
    def harm(self) -> set[str]:
        """What confirms the race. What nobody wrote before does so only where nothing shows that is the matter of others."""
        return self.own | (set() if self.others else self.unknown)  # guard: what-nobody-wrote-counts-alone


class Reach:
    """The tasks that a race can change. `own` are the two, and who needs one of them; `around` those inside which they ran."""

    def __init__(self, tasks: Tasks, race: Race, races: Sequence[Race] = ()) -> None:
        self.tasks, self.own, self.around = tasks, set[Task](), set[Task]()
        sides = [(race.build, it.recipe.label) for it in (race.first, race.second)]
        self.take(sides)
        build: str | None = race.build
        while build:
            self.take(tasks.later(build))  # guard: what-began-later-inside-same-recipe
            above = tasks.within(build)
            if above:
                self.around.add(above)  # guard: recipe-around-others-says-nothing
                self.take(tasks.users.get(above, ()))  # guard: who-uses-recipe-around
            build = above and above[0]
        self.doubtful = {it for it in sides if not all(map(self.is_recipe, sides)) and self.has_other(it, races)}  # guard: who-races-with-others-beside-make

    def take(self, tasks: Iterable[Task]) -> None:
        """Some tasks with all that need them, and what runs inside of those."""
        todo = [*tasks]
        while todo:
            task = todo.pop()
            if task not in self.own:
                self.own.add(task)
                todo += [*self.tasks.users.get(task, ()), *self.tasks.inside(task)]  # guard: who-needs-one-of-two

    def is_recipe(self, task: Task) -> bool:
        """Whether a recipe of a task ran."""
        return bool(self.tasks.abouts[task[0]]["labels"].get(task[1], {}).get("kind") == "recipe")

    def has_other(self, task: Task, races: Sequence[Race]) -> bool:
        """Whether a recipe races with a recipe of others too. While it is held beside make alone, that one may run before it."""
        pairs = ({(it.build, side.recipe.label) for side in (it.first, it.second)} for it in races)
        return any(task in pair and any(self.is_recipe(it) and it not in self.own for it in pair) for pair in pairs)

    def blame(self, found: set[str], there: Container[str], output: str) -> Blame:
        """Who can have left `found` otherwise, of which `there` are the files that are there. Where the build fails, that is who failed:
        files may lack since others did not run."""
        if STATUS not in found:  # guard: who-failed-not-what-lacks
            return self.blame_files(found)[0]
        return self.blame_failed(output, self.blame_files({it for it in found if it in there})[1])  # guard: files-that-lack-spoil-nothing

    def blame_files(self, found: set[str]) -> tuple[Blame, set[Task]]:
        """A file is the matter of others also where who needs the two made it of a file that is. With those who did."""
        others: set[str] = set()
        while True:
            spoilt = {it for it in self.own if self.tasks.reads.get(it, set()) & others} | self.doubtful  # guard: what-others-spoilt
            more = {it for it in found if self.is_of_others(it, spoilt)}
            if more <= others:  # guard: what-is-made-of-what-others-spoilt
                break
            others |= more
        own = {it for it in found if self.tasks.writers.get(it, set()) & self.own - spoilt}
        return Blame(own, others, found - own - others), spoilt

    def is_of_others(self, name: str, spoilt: set[Task]) -> bool:
        """Whether only others make a file, or those that they spoilt."""
        makers = self.tasks.writers.get(name, set()) - self.around
        return bool(makers) and not makers & self.own - spoilt

    def blame_failed(self, output: str, spoilt: set[Task]) -> Blame:
        """Whose recipes failed. One inside which another failed says nothing by itself. A name that several have may be of any."""
        found = [self.tasks.named(name, it.file) for it in failed(output) for name in it.names]
        above = {self.tasks.within(build) for tasks in found for build, _ in tasks}
        blame, clean = Blame(), self.own - spoilt  # guard: recipe-that-others-spoilt
        for tasks in filter(None, (it - above for it in found)):  # guard: not-recipe-around
            are = {it in clean for it in tasks - self.around}
            (blame.unknown if len(are) != 1 else blame.own if True in are else blame.others).add(STATUS)  # guard: name-that-two
        return blame if any((blame.own, blame.others, blame.unknown)) else Blame(unknown={STATUS})
