"""Cold and warm: whether something that a build makes was there before it (first_tree.py says what an earlier build left besides)."""

import os
from dataclasses import dataclass
from typing import Dict, Iterator, List, Set, Tuple

from record import machine
from record.build.tasks import Build, Node
from record.commands.shelltext import SHELLS
from record.commands.system import OF_SYSTEM, is_below
from record.make.database import Base
from record.make.graph import Graph, MakeBuild
from record.make.owners import Make
from record.make.words import DEFAULTS
from record.ninja.runs import Ninja
from record.trace.events import CREATED, MADE
from record.trace.lives import Life
from record.trace.names import Names
from record.trace.snapshots import Change

CHANGES = "WCDMX"  # kinds of events of a file or a folder
NOTHING = ("", ":", "true")  # lines of a recipe
Moves = Dict[str, List[Tuple[int, bool]]]  # by name: the places, in order, where it goes or comes, and whether it is there behind that


def start_of(life: Life) -> int:
    """When a make or a ninja began. A make begins anew where it has remade a makefile; a script may become a ninja."""
    return life.starts[0 if life.is_make else -1][0]


def moves_of(names: Names, changes: List[Change]) -> Moves:
    """Where names that were there before the build go and come again."""
    found: Moves = {}
    for place, kind, path in changes:
        name = path.rstrip("/")
        if name in names.before:
            found.setdefault(name, []).append((place, name != path or kind in CREATED + MADE))
    return found


def is_gone(moves: Moves, path: str, place: int) -> bool:
    """Whether a name that was there before the build is gone at a place, as by `rm` or `make clean` in a script."""
    return not next((is_there for at, is_there in reversed(moves.get(path, [])) if at < place), True)  # guard: what-is-removed-first


@dataclass(frozen=True)
class Target:
    """A target with a recipe that a make considered in a round. `own`: the name of its file, which may be a link."""

    make: Make
    stage: str
    base: Base
    name: str
    own: str
    path: str
    is_idle: bool  # its recipe did not run, and need not

    def does_nothing(self) -> bool:
        """Whether its recipe is the word `true` alone, or less, as for a file that the project has."""
        shells = self.base.values.get("SHELL", {""})
        is_known = all(OF_SYSTEM.match(shell) is not None and os.path.basename(shell) in SHELLS for shell in shells)  # guard: recipes-that-do-nothing-in-shell
        return is_known and all(line.strip(" \t@+-") in NOTHING for line in self.base.recipes[self.name])  # guard: recipes-that-do-something

    def is_beginning(self) -> bool:
        """Whether it is the makefile that make finds by itself when it begins, and no recipe runs that make, which might have made it: without it there is
        no such build, and where it is older than what it is made of, it is made again before all goals."""
        first = [name for start in self.make.words.read[:1] for name in start[:1]]
        return self.name in first and self.name in DEFAULTS and not is_inside(self.make.life)  # guard: makefile-that-words-name


def targets_of(makes: List[Make], names: Names) -> Iterator[Target]:
    """All targets with a recipe that makes considered. The file of a member of an archive is that archive. Where no recipe of a round ran, those of targets
    that were due came to nothing, and these do not count."""
    for make, one in ((make, one) for make in makes for one in make.words.rounds):
        ran, base = [job.target for job in one.jobs], one.base or Base()
        due = {*one.must, *ran}
        for name in dict.fromkeys((*one.nodes, *ran)):
            if name in base.recipes and (ran or name not in due):
                spelled = one.vpath.get(name, name)
                file = spelled.rpartition("(")[0] if spelled.endswith(")") else ""
                own, path = (names.find(make.folder, file or spelled, follow).path for follow in (False, True))  # guard: links-that-are-made
                yield Target(make, one.stage, base, name, own, path, name not in due)


def warm_names(makes: List[Make], builds: List[Build], ninjas: List[Ninja], names: Names, moves: Moves) -> List[str]:
    """The targets that were there before: made again, or up to date.

    What a tool makes to read it itself (makefiles, manifests) is no part of the question: configuring made it. Nor is what was gone when it began.
    """
    found = {path for build in builds for path in left_folders(build, names) if not is_gone(moves, path, start_of(build.make.life))}  # guard: folders-that-are-left
    made = {path for ninja in ninjas for path in made_by(ninja, names)}
    for path in (path for ninja in ninjas for path in outputs_of(ninja, names) if not is_gone(moves, path, start_of(ninja.life))):  # guard: what-ninja-finds-removed
        kinds = ("f", "l") if path in made else ("f", "l", "d")  # a folder too: its statement did not run  # guard: folder-that-is-up-to-date
        if names.before.get(path) in kinds or path not in made and is_beyond(path, names):  # guard: outputs-outside-of-project
            found.add(path)
    read = {node.path for build in builds if isinstance(build, MakeBuild) and build.stage == "makefiles" for node in build.graph.nodes.values()}
    written = set().union(*(build.writers for build in builds))
    for target in targets_of(makes, names):
        is_kept = target.is_idle and target.path not in written and (target.does_nothing() or target.is_beginning())  # guard: recipes-that-do-nothing
        is_out = is_gone(moves, target.own, start_of(target.make.life))  # guard: what-make-finds-removed
        was_there = names.before.get(target.own) in ("f", "l") or target.is_idle and is_beyond(target.own, names)  # guard: targets-outside-of-project
        if target.stage == "goals" and target.name not in target.base.phony and target.path not in read and was_there and not (is_kept or is_out):
            found.add(target.path)
    return sorted(found)


def is_inside(life: Life) -> bool:
    """Whether a recipe of another make or ninja runs a process."""
    return any(up.is_make or up.is_ninja for up in life.up() if up is not life)


def did_nothing(builds: List[Build], makes: List[Make]) -> bool:
    """Whether no recipe ran, except those that call a make or a ninja and change no file: such a run is evidence of nothing. Make itself may have
    changed one, by `$(file ..)`."""
    works = [work for build in builds for task in build.tasks if task.kind == "recipe" for work in task.works]
    acts = [kind for make in makes for (kind, _), place in make.life.events.items() if place > make.life.starts[0][0]]
    return all(work.makes or work.ninjas for work in works) and not any(kind in CHANGES for kind in [*acts, *(kind for work in works for kind, _ in work.events)])  # guard: make-inside


def made_unseen(makes: List[Make], ninjas: List[Ninja], names: Names, now: Dict[str, str]) -> List[str]:
    """Targets that are there, and that nobody made in this build, though they were absent before: something else builds in the same
    folder, and their recipes did not run. `now` are the names that are there as the trace has it."""
    found = {target.path for target in targets_of(makes, names) if target.is_idle}.union(*(outputs_of(ninja, names) - made_by(ninja, names) for ninja in ninjas))
    return sorted(path for path in found if path not in now and machine.isfile(path) and names.is_inside(path))  # guard: target-that-something-else-makes


def is_beyond(path: str, names: Names) -> bool:
    """Whether a file is there outside of the project: the tree before the build does not say so."""
    return not names.is_inside(path) and machine.isfile(path)


def left_folders(build: Build, names: Names) -> Iterator[str]:
    """Targets that are folders in which there were no files before the build: an earlier one may have left them."""
    for node in build.graph.nodes.values() if isinstance(build, MakeBuild) and build.stage == "goals" else ():
        if node.has_recipe and not node.phony and names.before.get(node.path) == "d" and not any(kind != "d" and is_below(path, node.path) for path, kind in names.before.items()):  # guard: folders-with-sources
            yield node.path


def outputs_of(ninja: Ninja, names: Names) -> Set[str]:
    """Outputs of the statements with commands below a ninja's goals, of all where a goal is not known; except those that generate for the
    manifest, which ninja itself reads: it, and what it needs."""
    edges = [edge for edge in ninja.wanted() if not edge.is_phony]
    below = ninja.below_manifest() if any(edge.is_generator for edge in edges) else set()
    outputs = (path for edge in edges if not (edge.is_generator and edge.number in below) for path in edge.makes())  # guard: what-generates-for-others
    return {names.find(ninja.folder, path, False).path for path in outputs}  # guard: link-that-build-makes


def made_by(ninja: Ninja, names: Names) -> Set[str]:
    """Outputs of the statements whose commands ran."""
    return {names.find(ninja.folder, path, False).path for stage in ninja.stages for edge in stage.ran() for path in edge.makes()}


def stand_alone(warm: Set[str], builds: List[Build], ninjas: List[Ninja]) -> bool:
    """Whether all targets that were there before were up to date, and none of their recipes can ever run beside another one: one make alone built, and each other
    target with a recipe needs such a target, or is needed by it."""
    goals = [build for build in builds if isinstance(build, MakeBuild) and build.stage == "goals"]
    if ninjas or len(goals) != 1 or len({id(build.make) for build in builds}) != 1:  # guard: several-makes
        return False
    graph = goals[0].graph
    nodes = [node for node in graph.nodes.values() if node.path in warm and node.has_recipe]
    return warm == {node.path for node in nodes} and all(is_alone(graph, node) for node in nodes)


def is_alone(graph: Graph, node: Node) -> bool:
    """Whether a target was up to date, and its recipe is in order with all others."""
    if node.jobs or node.must or node.phony or node.name in graph.base.double:  # guard: made-again
        return False
    below = graph.reached_from([node.label])
    others = [label for label, other in graph.nodes.items() if other.has_recipe or other.jobs]
    return all(label in below or node.label in graph.reached_from([label]) for label in others)  # guard: recipes-that-do-not-wait
