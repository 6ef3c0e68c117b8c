"""Builds in which one of two recipes is held back, for a race of the verdict that no random delay has shown.

A delay at random seldom comes between two recipes, so it says little of a race. Here one recipe waits before one of its steps until
all has run that does not need it, or until the other one has run alone. A look of make is held back by the recipes that it waits for.
"""

import json
import os
import re
import threading
from contextlib import contextmanager
from dataclasses import dataclass
from pathlib import Path
from typing import Dict, Iterator, List, Set, Tuple

from record.judge import judge
from record.orders import processes

# What stands for $N TARGET: it counts the steps of each target, and waits at some.
HOLD = """#!/bin/sh
file=$0.step.$(echo "$1" | tr / _)
echo >> "$file"
case "$1 $(wc -l < "$file")" in %s) way=late;; %s) way=early;; *) exit 0;; esac
: > "$0.$way.$$"
read line < "$0-$way"
"""
WAYS = ("early", "late")  # in the order in which they go on
LOOKS, SECONDS = 3, 0.03  # so many looks at what runs, one after another, show that all waits
LONGEST = 200  # looks after which what waits goes on in any case
PAIRS, STEPS = 6, 8
Steps = List[str]  # of each target its name and the number of a step


@dataclass(frozen=True)
class Side:
    """One of two tasks: the names of the targets that it is held back by, and whether it is a recipe, which has steps."""

    names: Tuple[str, ...]
    is_recipe: bool

    def at(self, step: int) -> Steps:
        """What to hold back for it at a step."""
        return ["%s %d" % (name, step) for name in self.names] if self.is_recipe or step == 1 else []


@dataclass(frozen=True)
class Holds:
    """What waits in a build: until all else has run, or the other one was the last that ran."""

    late: Steps
    early: Steps

    def put(self, path: Path) -> None:
        """Writes the program that holds back."""
        path.write_text(HOLD % tuple("|".join("'%s'" % one for one in some) or "''" for some in (self.late, self.early)))
        path.chmod(0o755)
        for way in WAYS:
            os.mkfifo("%s-%s" % (path, way))

    def can_come(self, room: Path) -> bool:
        """Whether what waits longest may come to its step, as far as earlier builds have shown how many steps there are."""
        return any(number == "1" or int(number) <= steps_of(room, name) for step in self.late for name, _, number in (step.rpartition(" "),))


def steps_of(room: Path, name: str) -> int:
    """The steps that a target had at most; each has left a line."""
    return max((file.stat().st_size for file in room.glob("*.step." + name.replace("/", "_"))), default=0)


class Watch:
    """Lets go what waits in a build, as soon as nothing else of it runs."""

    def __init__(self, path: Path) -> None:
        self.path, self.is_over = path, threading.Event()

    @contextmanager
    def over(self, session: int) -> Iterator[None]:
        """Watches a build while something else waits for its end."""
        thread = threading.Thread(target=self.watch, args=(session,))
        thread.start()
        try:
            yield
        finally:
            self.is_over.set()
            thread.join()

    def watch(self, session: int) -> None:
        """Looks at what runs, again and again."""
        pipes = {way: os.open("%s-%s" % (self.path, way), os.O_RDWR) for way in WAYS}
        left, idle, looks = list(WAYS), 0, 0
        while not self.is_over.wait(SECONDS):
            waiting = {way: len(list(self.path.parent.glob("%s.%s.*" % (self.path.name, way)))) for way in left}
            held = sum(waiting.values())
            looks = looks + 1 if held else 0
            idle = idle + 1 if held and is_idle(session, held) else 0
            if LOOKS == idle or LONGEST == looks:
                way, idle, looks = next(way for way in left if waiting[way]), 0, 0
                left.remove(way)
                os.write(pipes[way], b"\n" * 100)  # for all that wait in this way, and that would later
        for pipe in pipes.values():
            os.close(pipe)


def is_idle(root: int, held: int) -> bool:
    """Whether all of a build waits: its processes sleep, and no more of them have no child than are held."""
    found = [pid for pid in dict(processes.families(root)) if processes.words_of(pid)[0] not in "ZX"]
    return all(processes.words_of(pid)[0] in "SD" for pid in found) and sum(not processes.children_of(pid) for pid in found) <= held


def pairs(record: Path) -> Iterator[Tuple[Side, Side]]:
    """The two sides of each race of a record, each pair once."""
    seen: Set[Tuple[Path, str, str]] = set()
    for folder in sorted(record.glob("builds/*")):
        about = json.loads((folder / "build.json").read_text())
        after: Dict[str, List[str]] = {one["task"]: one["after"] for one in map(json.loads, (folder / "tasks").read_text().splitlines())}
        kinds = {label: one["kind"] for label, one in about["labels"].items()}
        for race in judge(os.environ["RACE"], folder / "tasks", about["folder"]).races:
            if (folder, race.first, race.second) not in seen:
                seen.add((folder, race.first, race.second))
                yield side(race.first, race.second, after, kinds), side(race.second, race.first, after, kinds)


def side(label: str, other: str, after: Dict[str, List[str]], kinds: Dict[str, str]) -> Side:
    """One side of a race. `after`: what each task waits for."""
    if kinds.get(label) in ("recipe", "decision"):  # a recipe that did not run here may run in another order
        return Side(names_of(label), True)
    waits = below(label, after) - below(other, after) - {other}
    return Side(tuple(sorted(name for one in waits if kinds.get(one) == "recipe" for name in names_of(one))), False)


def names_of(label: str) -> Tuple[str, ...]:
    """The names of a target as its recipe says them: of a member of an archive that of the archive, of two with one command that of both."""
    name = label.partition("@")[0].partition("(")[0]
    both = re.fullmatch(r"(t\d+)[ab]", name)
    return (name, both.group(1)) if both else (name,)


def below(label: str, after: Dict[str, List[str]]) -> Set[str]:
    """All that a task waits for."""
    found: Set[str] = set()
    todo = [label]
    while todo:
        for one in after.get(todo.pop(), ()):
            if one not in found:
                found.add(one)
                todo.append(one)
    return found


def schedules(record: Path) -> Iterator[Holds]:
    """What to hold back in each build: first one recipe as a whole, then in its middle while the other one comes."""
    found, given = list(pairs(record))[:PAIRS], []
    for step in range(1, STEPS + 1):
        for first, second in found:
            for one, other in ((first, second), (second, first)):
                holds = Holds(one.at(step), other.at(1) if step > 1 else [])
                if holds.late and holds not in given:
                    given.append(holds)
                    yield holds
