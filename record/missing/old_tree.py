"""The tasks of an old tree, for `race missing`: what each recipe reads and writes, which file it makes, and which files make it run.

A task that makes a file and whose prerequisites are known says both. Each other task always runs, so it misses nothing: it is counted.
"""

import os
from typing import Any, Dict, Iterator, List, Optional

from record.build.assumptions import Assumptions
from record.build.tasks import Node, Task, order_tasks, renumber
from record.build.text import labels_of, lines_of, relative
from record.make.graph import MakeBuild
from record.missing.footprints import Footprints
from record.missing.later import Knows, Later, call_of
from record.trace.names import Names

NEVER = "@never"  # folders that no project has: names below this one stand for targets that never have a file,
KEPT = "@kept"  # and below this one for the run of a recipe that leaves its target alone where nothing has changed


class OldTree:
    """Makes the text; see the module."""

    def __init__(self, build: MakeBuild, names: Names, later: Later, knows: Knows, premises: Assumptions) -> None:
        self.build, self.names, self.later, self.knows, self.premises = build, names, later, knows, premises
        self.first, self.again = build.graph.base, later.busy.get(call_of(build.make.words))
        self.phony = self.first.phony | self.knows.base.phony
        self.foot = Footprints(build, names)
        self.tasks = [Task(t.label, t.node, t.kind, set(t.after), r, w) for t, r, w in zip(build.tasks, self.foot.reads, self.foot.writes)]
        self.writers = self.writing()  # before any name is lent
        self.makes: Dict[int, str] = {}
        self.needs: Dict[int, List[str]] = {}
        self.paths: Dict[str, List[str]] = {}  # by prerequisite
        self.owners: Dict[int, int] = {}  # of a task that stands for an output: the recipe
        self.choose()
        touched = (self.tasks[at].node for at, needs in self.needs.items() if not later.sources.isdisjoint(needs))
        self.silent = [node.name for node in touched if node.jobs and not self.runs(self.again, node)]  # they do not run again though a source has a new time
        self.lend_names()
        self.drop_named()
        self.sort()
        self.count()

    # ---------------------------------------------------------------- which tasks say when they run
    def spelled(self, name: str) -> str:
        """A target as make looks for it: by `VPATH`, and of a member the archive."""
        found = self.knows.vpath.get(name, name)
        return found.partition("(")[0] if found.endswith(")") and "(" in found else found

    def choose(self) -> None:
        """The tasks that make a file, and what they need."""
        found: Dict[str, List[int]] = {}
        for at, task in enumerate(self.tasks):
            if task.kind == "recipe":
                path, needs = self.names.find(self.build.folder, self.spelled(task.node.name), False).path, self.paths_needed(task.node)
                why = self.why_not(at, path, needs)
                if why:
                    self.premises.add(why, task.node.name)
                else:
                    self.needs[at] = [one for one in needs or () if one != path]
                    found.setdefault(self.made(at, path), []).append(at)
        for path, who in found.items():
            if len(who) == 1:
                self.makes[who[0]] = path
                self.tasks[who[0]].writes.add(path)
            else:
                self.premises.add("unjudged", self.tasks[who[0]].node.name, len(who))
        self.needs = {at: self.needs[at] for at in self.makes}
        own = {path for at, needs in self.needs.items() for path in self.foot.changes[at].difference(needs) if self.names.before.get(path) == "f"}
        for path in sorted(own):
            self.premises.add("own", relative(self.build.folder, path))  # guard: sources-that-are-changed

    def why_not(self, at: int, path: str, needs: Optional[List[str]]) -> str:
        """Why a task has no file that says when it runs: the premise that counts it, or nothing."""
        node = self.tasks[at].node
        if node.name in self.phony or node.phony:
            return "always"
        if node.name in self.first.double or node.name.endswith(")") or not self.names.is_inside(path):
            return "unjudged"
        if not self.is_there(node.name, path):
            return "always"
        return "unjudged" if needs is None or path not in self.tasks[at].writes | self.foot.folders[at] else ""

    def is_there(self, name: str, path: str) -> bool:
        """Whether a target has a file when the build has ended; an intermediate one is removed by make alone."""
        return os.path.lexists(path) or name in self.first.intermediate  # guard: intermediate-files

    def stand_in(self, kind: str, name: str) -> str:
        """A name that no file has, in the place of another."""
        return "%s/%s/%s" % (self.build.folder.rstrip("/"), kind, name.strip("/") or "root")

    def made(self, at: int, path: str) -> str:
        """What a recipe makes: its target, or, where it may leave that alone in a build of an old tree, what stands for its run. One that runs there for no
        file that is newer, and does nothing, asks which are (`$?`)."""
        task, later, never = self.build.tasks[at], self.later, self.stand_in(NEVER, "/")[: -len("root")]
        is_forced = any(one in later.remade or one.startswith(never) for one in self.needs[at])
        is_done = path in (later.remade if is_forced else later.renewed) or not os.path.lexists(path) or not (is_forced or self.runs(self.again, task.node))
        if is_forced and not is_done and not self.runs(self.knows, task.node):  # guard: what-is-newer
            self.needs[at] = [one for one in self.needs[at] if not one.startswith(never)]
        is_kept = not is_done or any(work.makes or work.ninjas for work in task.works)  # guard: targets-that-are-left-alone
        return self.stand_in(KEPT, relative(self.build.folder, path)) if is_kept else path

    def runs(self, knows: Optional[Knows], node: Node) -> bool:
        """Whether a recipe ran in a later build, as far as its make was called there."""
        return knows is None or not knows.ran.isdisjoint({node.name, *self.first.also.get(node.name, ())})

    def paths_needed(self, node: Node) -> Optional[List[str]]:
        """The files that make a target run, those of all targets of its recipe. None where a name is none of the data base: blanks in names cut them."""
        base, names = self.knows.base, (node.name, *self.first.also.get(node.name, ()))
        needs = [one for name in names for one in base.prerequisites.get(name, ())]  # guard: what-make-knows-later
        if any(one not in base.prerequisites for one in needs):  # guard: names-with-blanks
            return None
        self.paths.update((one, self.paths_of(one)) for one in needs if one not in self.paths)
        return list(dict.fromkeys(path for one in needs for path in self.paths[one]))

    def paths_of(self, name: str) -> List[str]:
        """The names on whose ages a prerequisite comes down: its own, and what it leads to. None of them is outside of the project."""
        paths = [self.names.find(self.build.folder, self.spelled(name), follow).path for follow in (False, True)]
        if name in self.phony or not self.is_there(name, paths[0]):  # guard: phony-prerequisites
            return [self.stand_in(NEVER, name)]
        return [path for path in dict.fromkeys(paths) if self.names.is_inside(path) and self.is_behind(name, path)]

    def is_behind(self, name: str, path: str) -> bool:
        """Whether make looks at a path by this name when a recipe that writes it has ended: the name is the target of that recipe, or
        has one of its own, be it empty, that runs behind it. Else make takes the age of the file as it was before."""
        nodes = [self.build.tasks[at].node for at in self.writers.get(path, ())] if path not in self.names.before else []
        writers, seen = {one for node in nodes for one in (node.name, *self.first.also.get(node.name, ()))}, set()
        todo = [name, self.knows.vpath.get(name, name)]
        while todo and writers:
            one = todo.pop()
            if one in writers or self.first.recipes.get(one) in [text for text in map(self.first.recipes.get, writers) if text]:
                return True  # its own recipe, or one of `a b: c`
            if one not in seen and any(one in base.recipes or one in base.places for base in (self.first, self.knows.base)):  # guard: rules-without-recipe
                todo += [*self.first.prerequisites.get(one, ()), *self.knows.base.prerequisites.get(one, ())]
            seen.add(one)
        return not writers  # guard: second-outputs-without-rule

    # ---------------------------------------------------------------- one maker for each name
    def lend_names(self) -> None:
        """What is needed and is another output of a recipe gets a task of its own behind that recipe; each target has one writer."""
        makers, writing = {path: at for at, path in self.makes.items()}, self.writing()
        for path in sorted({*makers}.union(*self.needs.values())):
            writers = [at for at in writing.get(path, ()) if makers.get(path) != at]
            for at in writers:
                self.tasks[at].writes.discard(path)
                if path in makers and path in self.foot.changes[at]:  # guard: files-that-are-changed
                    self.tasks[at].reads.add(path)
            also = [at for at in writers if path in makers or path in self.needs.get(at, ())]
            if also:
                self.premises.add("rewritten", relative(self.build.folder, path))
            if len(writers) > len(also):  # guard: other-outputs
                self.lend(path, [at for at in writers if at not in also])

    def writing(self) -> Dict[str, List[int]]:
        """For each name the tasks that write it."""
        found: Dict[str, List[int]] = {}
        for at, task in enumerate(self.tasks):
            for path in task.writes:
                found.setdefault(path, []).append(at)
        return found

    def lend(self, path: str, writers: List[int]) -> None:
        """A task that stands for one more output of a recipe."""
        at, is_before = len(self.tasks), self.build.is_before
        for user, task in enumerate(self.tasks[: len(self.build.tasks)]):
            if (path in task.reads or path in self.needs.get(user, ())) and all(is_before(one, user) for one in writers):
                task.after.add(at)
        recipe = self.tasks[writers[-1]]
        self.tasks.append(Task(recipe.label + "@also", recipe.node, "file", set(writers), set(), {path}))
        self.makes[at], self.needs[at] = path, [self.makes[one] for one in writers if KEPT not in self.makes.get(one, KEPT)]
        self.owners[at] = writers[-1]
        self.premises.add("outputs", relative(self.build.folder, path))

    def drop_named(self) -> None:
        """Leaves out the sources that each of their readers names: nobody misses them, and they wake nobody else."""
        written = set().union(*(task.writes for task in self.tasks))
        unnamed = {path for at, task in enumerate(self.tasks) for path in task.reads.difference(self.needs.get(at, ())) if at in self.makes}
        needed = filter(os.path.lexists, set().union(*self.needs.values()))
        named = set().union(needed, *(task.reads for task in self.tasks)) - written - unnamed
        for task in self.tasks:
            task.reads -= named
        self.needs = {at: [one for one in needs if one not in named] for at, needs in self.needs.items()}

    def sort(self) -> None:
        """Brings the tasks in an order in which each file is made before it is needed: a later build waits for who makes what it needs."""
        makers = {path: at for at, path in self.makes.items()}
        edges = [task.after | {makers[one] for one in self.needs.get(at, ()) if one in makers} for at, task in enumerate(self.tasks)]
        keys = [(at, 0) if at < len(self.build.tasks) else (max(task.after), 1) for at, task in enumerate(self.tasks)]
        order, dropped = order_tasks(self.tasks, edges, keys)
        if dropped:
            self.premises.add("later-ring", "make %s" % self.build.words, dropped)
        labels = labels_of(self.tasks)
        self.tasks, place = renumber(self.tasks, order, edges)
        self.needs = {place[at]: [one for one in needs if one not in makers or place[makers[one]] < place[at]] for at, needs in self.needs.items()}
        self.makes = {place[at]: path for at, path in self.makes.items()}
        self.owners = {place[at]: place[recipe] for at, recipe in self.owners.items()}
        self.labels = [labels[at] for at in order]

    # ---------------------------------------------------------------- what comes out
    def count(self) -> None:
        """What is taken for granted of all that was looked at."""
        for kind, names in (("beyond", self.foot.outside), ("looks", self.foot.looks), ("unlisted", self.foot.absent)):
            if names:
                example = min(names, key=lambda path: (os.path.isdir(path) and not os.path.islink(path), not os.path.lexists(path), path))
                self.premises.add(kind, relative(self.build.folder, example), len(names))
        goals = {*self.makes.values()}.union(*self.needs.values())
        for path in sorted(self.foot.set_back):
            if not goals.isdisjoint({path, self.stand_in(KEPT, relative(self.build.folder, path))}):  # guard: times-of-goals
                self.premises.add("times", relative(self.build.folder, path))

    def lines(self) -> Iterator[str]:
        """The text of tasks."""
        root = self.build.folder
        more: Dict[int, Dict[str, Any]] = {}
        for at, path in self.makes.items():
            more[at] = {"makes": relative(root, path), "needs": list(dict.fromkeys(relative(root, one) for one in self.needs[at]))}
            outputs = {relative(root, one): one for one in (self.tasks[at].writes if at in self.owners or KEPT in path else ()) if KEPT not in one}
            loose = sorted(name for name, one in outputs.items() if not self.is_behind(name, one))
            more[at].update({"of": self.labels[self.owners[at]]} if at in self.owners else {}, **({"loose": loose} if loose else {}))
        return (line for _, line in lines_of(self.tasks, root, self.labels, more))

    def listing(self) -> List[str]:
        """The files that tasks read or need, are there, and are made by none of them, a line each."""
        named = set().union(*(task.reads for task in self.tasks), *self.needs.values()).difference(*(task.writes for task in self.tasks))
        there = (relative(self.build.folder, path) for path in named if path in self.names.before or path in self.foot.gone or os.path.lexists(path))
        return sorted(name for name in there if "\n" not in name)
