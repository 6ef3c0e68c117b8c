"""Who did what: what the processes of a recipe did, and the makes and ninjas below it."""

from dataclasses import dataclass, field
from typing import Dict, List, Set, Tuple

from record.trace.events import CHANGES
from record.trace.lives import Course, Key, Life


@dataclass
class Work:
    """What a recipe did: its processes, their events, and the makes below it."""

    events: Dict[Key, int] = field(default_factory=dict)
    lives: List[Life] = field(default_factory=list)
    makes: List["Tool"] = field(default_factory=list)
    ninjas: List["Tool"] = field(default_factory=list)
    parts: List["Part"] = field(default_factory=list)  # those that are tasks of their own (parts.py), that with which it ends last; none where it is one task
    luck: Dict[str, Set[Course]] = field(default_factory=dict)  # files on which two of its processes meet that a wait orders by luck, with the two; for whom it waits so
    late: Dict[Key, Tuple[str, Set[Course]]] = field(default_factory=dict)  # what processes did for which it has waited by luck alone: their commands, and the same

    def add(self, kind: str, path: str, place: int) -> None:
        """Takes one event; its first place counts."""
        key = (kind, path)
        if key not in self.events or self.events[key] > place:
            self.events[key] = place


@dataclass(eq=False)
class Part:
    """A part of a recipe: what it did, the parts that end before it begins, by their numbers, its command, and whether the recipe ends without it."""

    work: Work = field(default_factory=Work)
    after: Set[int] = field(default_factory=set)
    words: str = ""
    is_left: bool = False


@dataclass(eq=False)
class Tool:
    """A process that builds: a make or a ninja."""

    life: Life
    folder: str


def settle_parts(work: Work) -> None:
    """The makes and ninjas of a recipe belong to its parts, and to that with which it ends what none of them did: what ninja itself does for it."""
    done = set().union(*(part.work.events for part in work.parts))
    for part in work.parts:
        own = {id(life) for life in part.work.lives}
        part.work.makes, part.work.ninjas = ([tool for tool in tools if id(tool.life) in own] for tools in (work.makes, work.ninjas))
    for (kind, path), place in work.events.items():
        if (kind, path) not in done:
            work.parts[-1].work.add(kind, path, place)


def written_by(lives: List[Life]) -> Dict[str, Tuple[int, int]]:
    """When each file was first and last written."""
    found: Dict[str, Tuple[int, int]] = {}
    for life in lives:
        for path, last in life.changed.items():
            first = min(life.events.get((kind, path), last) for kind in CHANGES)
            known = found.get(path, (first, last))
            found[path] = (min(first, known[0]), max(last, known[1]))
    return found
