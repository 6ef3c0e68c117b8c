"""What a whole build takes for granted, found when the words of its makes and the lives of its processes are known."""

import re
from typing import Dict, Iterator, List, Set, Tuple

from record.build.assumptions import Assumptions
from record.build.work import Work
from record.make.database import Base
from record.make.owners import Make, Owners
from record.ninja.runs import Ninja
from record.trace.calls import Calls
from record.trace.events import TREE_CHANGES
from record.trace.lives import Life
from record.warm import is_inside

WIDTH = 60  # signs of a command
SPECIAL = re.compile(r"\.[A-Z_]+$")
Key = Tuple[str, str]  # folder and target


def add_granted(owners: Owners, assumed: Assumptions) -> None:
    """All that is counted over makes and their jobs."""
    for make in owners.makes:
        for job in make.jobs:
            lucky(job.work, job.target, assumed)
        features = {word for one in make.words.rounds for value in (one.base or Base()).values.get(".FEATURES", ()) for word in value.split()}
        for name in [*["$(guile ..)"] * ("guile" in features), *make.words.loaded]:  # guard: another-language
            assumed.add("loaded", name)  # guard: loaded-objects-said
    for life in beside(owners):
        assumed.add("beside", shown(life))  # guard: said


def add_granted_by_ninjas(ninjas: List[Ninja], owners: Owners, assumed: Assumptions) -> None:
    """What ninjas and their commands take for granted, whatever their tasks are; and makes and ninjas that no other one started, and that run at once."""
    tops = sorted((tool.life for tool in (*ninjas, *owners.makes) if not is_inside(tool.life)), key=lambda life: life.born)
    for life in (second for first, second in zip(tops, tops[1:]) if second.born < first.died):
        assumed.add("tops", shown(life))  # guard: two-beside-each-other
    for job in (j for ninja in ninjas for stage in ninja.stages for j in stage.jobs):
        lucky(job.work, job.edge.label if job.edge is not None else job.text[:WIDTH], assumed)
    if ninjas:
        assumed.add("ninja", "")


def add_seen(replay: Calls, assumed: Assumptions) -> None:
    """What is taken for granted of what the trace shows, whoever did it."""
    for kind, found in (("sockets", replay.sockets), ("processes", replay.watchers), ("locks", replay.locks),  # guard: sockets
                        ("hard-links", replay.hard_links),  # guard: hard-links
                        ("outside", replay.unknown()),
                        ("progress", sorted(set(replay.progress)))):  # guard: what-cmake-counts
        for example in found:
            assumed.add(kind, example)


def shown(life: Life) -> str:
    """The words of a process, or the first of them."""
    return " ".join(life.argv)[:WIDTH]


def lucky(work: Work, target: str, assumed: Assumptions) -> None:
    """Processes of one recipe that are ordered by a wait which may have been luck."""
    for text, waits in sorted(work.luck.items()):
        assumed.add_luck("%s in %s" % (text, target), waits)


def beside(owners: Owners) -> Iterator[Life]:
    """What changes files while a make runs, and was started by no recipe: nobody knows beside which recipe it runs."""
    tops = [make.life for make in owners.makes if not is_inside(make.life)]
    return (life for life in owners.lives if not (life.is_make or life.is_ninja or is_inside(life)) and any(changes_beside(life, top) for top in tops))


def changes_beside(life: Life, top: Life) -> bool:
    """Whether a process changes files while a make runs; one that is above the make may wait for it."""
    places = [place for (kind, _), place in life.events.items() if kind in TREE_CHANGES]
    if life in top.up():
        return any(top.born < place < top.died for place in places)  # guard: what-is-above
    return bool(places) and life.born < top.died and life.died > top.born


def unasked(makes: List[Make], ninjas: List[Ninja]) -> List[str]:
    """Targets with a recipe in a makefile, but no special ones and no inference rules, that no make of their folder considered, also no other target of a rule
    that is grouped; and outputs of statements with a command that no goal needs. A record says nothing about them."""
    there: Dict[Key, None] = {}
    asked: Set[Key] = set()
    for make, one, base in ((make, one, one.base or Base()) for make in makes for one in make.words.rounds):
        suffixes = base.prerequisites.get(".SUFFIXES", [])
        inference = {first + second for first in suffixes for second in ["", *suffixes]}
        there.update(((make.folder, name), None) for name in base.places if not SPECIAL.match(name) and name not in inference)
        also = (other for name in one.nodes for other in base.also.get(name, ()))
        asked.update((make.folder, name) for name in (*one.nodes, *one.vpath.values(), *also))
    for ninja in ninjas:
        if ninja.stages:
            there.update(((ninja.folder, edge.label), None) for edge in ninja.stages[-1].manifest.edges if not edge.is_phony and not edge.is_generator)  # guard: statements-that-nothing-asked
            asked.update((ninja.folder, edge.label) for edge in ninja.wanted())
    return [name for folder, name in there if (folder, name) not in asked]
