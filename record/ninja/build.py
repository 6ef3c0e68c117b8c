"""The ninjas of a trace as builds, one for each stage: a task for each build statement whose command ran, and for each that passes order on."""

import os
from pathlib import Path
from typing import Any, Dict, List, Set, Tuple

from record.build.assumptions import Assumptions
from record.build.builder import Builder
from record.build.tasks import Build, Node, order_tasks, reached
from record.build.work import Work
from record.ninja.fix import owner_of
from record.ninja.manifest import Edge
from record.ninja.runs import NEVER, Job, Ninja, Stage, command_sum
from record.trace.events import MADE, MADE_BEFORE
from record.trace.lives import Life
from record.trace.names import Names, join
from record.trace.snapshots import Past

TEXT_LIMIT = 400


class NinjaBuild(Build):
    """The tasks of one stage."""

    tool = "ninja"

    def __init__(self, ninja: Ninja, stage: Stage, name: str) -> None:
        super().__init__(ninja, name, ninja.args, len(ninja.wanted() if name == "goals" else stage.manifest.edges))
        self.ninja, self.manifest = ninja, stage.manifest

    def edge(self, at: int) -> Edge:
        """The statement of a task."""
        return self.manifest.edges[self.tasks[at].node.first]

    def about(self, at: int) -> Dict[str, Any]:
        edge = self.edge(at)
        has_run = self.tasks[at].kind == "recipe"
        return {"file": edge.file, "line": edge.line, "recipe": edge.command[:TEXT_LIMIT], "rule": edge.rule, "pool": edge.value("pool"),
                "sum": command_sum(os.fsencode(edge.command)) if has_run else "", "owner": owner_of(edge, self.manifest)}


class NinjaBuilder(Builder):
    """Makes the tasks of a stage; footprints and folders are those of make's builds."""

    build: NinjaBuild

    def __init__(self, ninja: Ninja, number: int, before: Dict[str, str], removed: Set[str], names: Names, assumed: Assumptions) -> None:
        self.ninja, self.number, self.stage, self.removed = ninja, number, ninja.stages[number], removed
        is_last = number == len(ninja.stages) - 1
        super().__init__(names, assumed, NinjaBuild(ninja, self.stage, "goals" if is_last else "manifest"), before)
        self.holes: List[str] = []

    def run(self) -> Build:
        """All steps."""
        self.make_tasks()
        self.check_order()
        self.check_folders()
        self.note_events()
        self.fill()
        self.put_makers_first()
        return self.build

    # ---------------------------------------------------------------- tasks
    def make_tasks(self) -> None:
        """The statements that ran, and all between them, in an order in which they could run one after the other. A node has the number of its statement."""
        manifest, first = self.stage.manifest, self.first()  # guard: what-manifest-needs-comes-first
        jobs = {job.edge.number: job for job in self.stage.jobs if job.edge is not None}
        place: Dict[int, int] = {}
        for edge in self.taking_part(jobs):
            job, place[edge.number] = jobs.get(edge.number), len(self.build.tasks)
            if job is not None:
                self.add_own(job, edge)
            self.add(Node(edge.label, edge.label, edge.number, edge.number), "recipe" if job else "group", [job.work] if job else [])
        after: List[Set[int]] = [set() for _ in self.build.tasks]
        for number, at in place.items():
            after[at] = {place[one.number] for one in manifest.makers_of(manifest.edges[number]) if one.number in place}  # guard: header-that-log-knows-is-no-input
            after[at] |= {place[one] for one in first} if number in jobs.keys() - first else set()
        numbers = [task.node.first for task in self.build.tasks]
        if self.put_in_order(after, [(jobs[number].life.died if number in jobs else 0, number) for number in numbers]):
            self.holes.append("build statements of %s wait for each other in a cycle" % self.ninja.file)  # guard: cycle

    def first(self) -> Set[int]:
        """The statements that ran before all others: ninja first makes its manifest. They are those at the head of the run which it needs, and which
        had to run then, as an output was absent or an input is never up to date."""
        below, found = self.ninja.below_manifest(self.number), set()
        for job in sorted(self.stage.jobs, key=lambda job: job.life.born):
            if job.edge is None or job.edge.number not in below or not self.must_run(job.edge):  # guard: only-what-had-to-run-then-comes-first
                break
            found.add(job.edge.number)
        return found

    def must_run(self, edge: Edge) -> bool:
        """Whether a statement ran in any case: a phony input without inputs of its own, and without a file, is never up to date."""
        makers = self.stage.manifest.makers
        never = (makers[path].is_phony and not makers[path].waits() and self.full(path) not in self.before for path in edge.inputs + edge.implicit if path in makers)
        return any(self.full(path) not in self.before for path in edge.makes()) or any(never)

    def taking_part(self, jobs: Dict[int, Job]) -> List[Edge]:
        """Statements that ran, and those without a command that ran which lead from one of them to another."""
        manifest = self.stage.manifest
        ran = [manifest.edges[number] for number in jobs]
        below = manifest.below(ran)
        above = reached(ran, lambda edge: (user for user in manifest.users_of(edge) if user.number in below))
        return [edge for edge in manifest.edges if edge in above]  # guard: through-phony-ones

    def check_order(self) -> None:
        """The recorded run is one of those that the tasks allow."""
        tasks, ended = self.build.tasks, [0] * len(self.build.tasks)
        for at, task in enumerate(tasks):
            lives = [work.lives[0] for work in task.works if work.lives]
            ready = max((ended[a] for a in task.after), default=0)
            if lives and lives[0].born < ready:  # guard: order-of-trace
                self.holes.append("the order of the trace is not that of the manifest: " + task.label)
            ended[at] = max([ready] + [life.died for life in lives if life.died < NEVER])

    # ---------------------------------------------------------------- what ninja itself does
    def full(self, path: str, follow: bool = True) -> str:
        """The real path of a name of the manifest."""
        return self.names.find(self.ninja.folder, path, follow).path

    def add_own(self, job: Job, edge: Edge) -> None:
        """What ninja does for a statement before its command starts, and when it has ended."""
        work, begin, end = job.work, job.life.born, job.life.died
        for path in edge.makes():
            folder = self.full(os.path.dirname(path) or ".")
            self.add_folder(work, folder, begin)  # guard: folders-of-outputs
            if edge.is_restat or edge.is_generator or edge.value("deps"):  # guard: looks-after-restat
                work.add("S", join(folder, os.path.basename(path)), end)
        response, found, dyndep = edge.path("rspfile"), edge.path("depfile"), edge.path("dyndep")
        folder = self.full(os.path.dirname(found) or ".")
        if found and ("M", folder) in self.ninja.life.events:  # later ninjas make it too
            self.add_folder(work, folder, begin)
        for kind in "CWRD" if response else "":  # guard: response-files
            work.add(kind, self.full(response), begin)
        for kind in "RD" if found and edge.value("deps") == "gcc" else "":  # guard: depfiles
            work.add(kind, self.full(found), end)
        for path in [dyndep, *edge.waits(), *edge.makes()] if dyndep else ():
            work.add("S", self.full(path), begin)

    def add_folder(self, work: Work, folder: str, place: int) -> None:
        """Ninja makes a folder, and those above it, if they are not there."""
        for above in (folder, *map(str, Path(folder).parents)):
            if self.names.is_inside(above) and (self.before.get(above) != "d" or above in self.removed):
                work.add(MADE_BEFORE, above, place)  # guard: its-folders-are-made-quietly

    def check_folders(self) -> None:
        """Each folder that ninja made while commands ran is one of a statement."""
        end = min((other.opened for other in self.ninja.stages if other.opened > self.stage.opened), default=NEVER)
        begin = min(job.life.born for job in self.stage.jobs)
        owned = {path for job in self.stage.jobs for kind, path in job.work.events if kind == MADE_BEFORE}
        for (kind, path), place in self.ninja.life.events.items():
            if kind == MADE and begin < place < end and path not in owned and self.names.is_inside(path):
                self.holes.append("ninja made the folder %s, and no statement needs it" % path)  # guard: folder-of-no-statement

    def put_makers_first(self) -> None:
        """Lists who makes a declared output before who reads it, where nothing orders the two: a fix then lets the reader wait."""
        tasks, build = self.build.tasks, self.build
        makers = {self.full(path): at for at, task in enumerate(tasks) if task.works for path in build.edge(at).makes()}
        after = [task.after | {makers[path] for path in task.reads if path in makers and build.unordered(makers[path], at)} for at, task in enumerate(tasks)]
        order, dropped = order_tasks(tasks, after, [(at, 0) for at in range(len(tasks))])
        if not dropped:
            self.arrange(order, [task.after for task in tasks])


def import_ninjas(ninjas: List[Ninja], lives: List[Life], names: Names, assumed: Assumptions, past: Past) -> Tuple[List[Build], List[str]]:
    """A build for each stage of a ninja in which commands ran, and the holes. `past`: which names were there when it began."""
    holes: List[str] = []
    builds: List[Build] = []
    removed = {path for life in lives for kind, path in life.events if kind in "XD"} if ninjas else set()
    stages = [(stage, ninja, number) for ninja in ninjas for number, stage in enumerate(ninja.stages) if stage.jobs and stage.is_read]
    for stage, ninja, number in sorted(stages, key=lambda found: found[0].opened):
        builder = NinjaBuilder(ninja, number, past.until(stage.opened), removed, names, assumed)  # guard: folders-that-were-there-when-it-began
        builds.append(builder.run())
        holes += builder.holes
    return builds, holes
