"""Who did what: each process works for a recipe of each make above it. What a make itself does, or calls as it expands a recipe, is no part of that recipe: it is
tried out in other orders."""

import os
import re
from bisect import bisect
from dataclasses import dataclass, field
from functools import cached_property
from typing import Dict, Iterable, Iterator, List, Optional, Set

from record.build.parts import divide
from record.build.tasks import Job
from record.build.work import Part, Tool, Work, written_by
from record.make.words import Words, makefiles
from record.trace.events import CHANGES, ENTERED, INSIDE, MAKES, READ
from record.trace.lives import Life

MAGIC = re.compile(r"[*?\[]")
LOOSE = re.compile(r"\\.|\[[!^]?\]?[^\]/]*\]|\[")  # what stands for one sign in a pattern of `glob`: more names fit `?`


def first_of(numbers: List[int], lives: List[Life]) -> List[Optional[Life]]:
    """Of some processes in a row the first ones that have these numbers, in their order; nothing behind the last one that is found."""
    rest = iter(lives)
    return [next((life for life in rest if life.pid == number), None) for number in numbers]


@dataclass(eq=False)
class Make(Tool):
    """A make process: its words, its life, and its folder."""

    words: Words
    left: List[Part] = field(default_factory=list)  # processes that its own calls leave running, as `$(shell a &)`

    @property
    def jobs(self) -> List[Job]:
        """The recipes that it ran."""
        return [job for one in self.words.rounds for job in one.jobs]

    @cached_property
    def patterns(self) -> Set[str]:
        """The patterns of the names for which it looked, in whatever folder; any name where nobody has heard them."""
        parts = {part for word in self.words.patterns for part in LOOSE.sub("?", word).split("/") if MAGIC.search(part)}
        return {"*"} if self.words.is_deaf else parts  # guard: makes-with-glob-of-their-own

    def has_one_slot(self) -> bool:
        """Whether it runs one job at a time whatever the user says: a ninja runs it, which hands no jobs on, no make is above, and it asks for none itself."""
        above = {life.is_make for life in self.life.up() if life is not self.life and (life.is_make or life.is_ninja)}
        flags = [value for one in self.words.rounds if one.base is not None for value in one.base.values.get("MAKEFLAGS", ())]
        return above == {False} and bool(flags) and not any("j" in value.partition(" -- ")[0] for value in flags)  # guard: makes-that-ninja-runs


def beginning(make: Make, number: int) -> int:
    """When the first recipe of a round of a make begins."""
    return min((life.born for job in make.words.rounds[number].jobs for life in job.work.lives), default=make.life.born)


def makes_of(work: Work) -> List[Make]:
    """The makes below a recipe."""
    return [one for one in work.makes if isinstance(one, Make)]


class Owners:
    """Brings the words of makes and the lives of processes together."""

    def __init__(self, lives: List[Life], words: List[Words]) -> None:
        self.lives = lives
        self.holes: List[str] = []
        self.of_life: Dict[int, Make] = {}
        self.written = written_by(lives)
        self.has_waits = any(life.course.waited is not None for life in lives)  # a trace that was kept before waits were traced has none: then a recipe is one task
        self.jobs: Dict[int, Job] = {}  # by id of a life that make started
        by_key = {(w.pid, w.life): w for w in words}
        for life in lives:
            if life.is_make and life.number >= 0:
                found = by_key.pop((life.pid, life.number), None)
                if found is None:
                    self.holes.append("a make has no words: " + " ".join(life.argv)[:100])  # guard: make-without-words
                else:
                    self.of_life[id(life)] = Make(life, self.folder_of(life, found), found)
                    self.holes += ["a make did not end: make " + found.args] if found.status is None else []  # guard: make-that-did-not-end
        for (pid, _), found in by_key.items():
            self.holes.append("a make has no process in the trace: %d %s" % (pid, found.args))  # guard: words-without-make
        self.makes = [*self.of_life.values()]
        for make in self.makes:
            self.holes.extend(make.words.holes)
            self.match_jobs(make)
        for make in self.makes:
            self.collect(make)
        for make in self.makes:
            for job in make.jobs:
                self.divide(job.work)
            make.left = [part for work in self.called(make) for part in self.divide(work) if part.is_left]

    @staticmethod
    def folder_of(life: Life, words: Words) -> str:
        """The folder that make works in: `-C` moves it before it reads."""
        folder = life.starts[0][1] if life.starts else life.folder
        for act in life.acts:
            folder = act.path if act.kind == ENTERED else folder
            if act.kind == READ and any(act.path.endswith("/" + os.path.basename(n)) for n in makefiles(words)):
                break
        return folder

    def match_jobs(self, make: Make) -> None:
        """Make names the processes of its jobs in the order in which it starts them. In a long build another that it starts may have had the number of one."""
        numbers, kids = [pid for pid, _ in make.words.processes], sorted(make.life.children, key=lambda life: life.born)
        found, last = first_of(numbers, kids), first_of(numbers[::-1], kids[::-1])[::-1]
        lost = set(numbers) - {life.pid for life in kids}
        if lost:
            self.holes.append("a recipe that ran has no process: " + next(job.target for pid, job in make.words.processes if pid in lost))
        elif found != last:  # guard: jobs-that-do-not-fit
            self.holes.append("a process number came again, or the jobs of make are not in the order of the trace: make " + make.words.args)
        else:
            self.jobs.update((id(life), job) for life, (_, job) in zip(found, make.words.processes))

    def at_once(self, make: Make) -> Iterator[int]:
        """Where a recipe of a make begins before another one has ended."""
        lives = sorted((life for life in make.life.children if id(life) in self.jobs), key=lambda life: life.born)
        return (second.born for first, second in zip(lives, lives[1:]) if second.born < first.died)

    # ---------------------------------------------------------------- what jobs did
    def below(self, life: Life) -> Iterable[Life]:
        """A life and all that it started."""
        todo = [life]
        while todo:
            one = todo.pop()
            yield one
            todo.extend(one.children)  # guard: outer-recipe-has-what-its-makes

    def take(self, work: Work, life: Life) -> None:
        """What a process and all below it did belongs to a recipe."""
        for one in self.below(life):
            work.lives.append(one)
            make = self.of_life.get(id(one))
            if make is not None and make not in work.makes:
                work.makes.append(make)
            for key, place in one.events.items():
                if key[0] not in INSIDE:
                    work.add(*key, place)

    def collect(self, make: Make) -> None:
        """The work of all jobs of a make. What it and its calls change while it expands a recipe is of that recipe, which it starts next."""
        works: List[Work] = []  # in order
        for life in sorted(make.life.children, key=lambda life: life.born):
            job = self.jobs.get(id(life))
            if job is not None:
                works += [] if job.work.lives else [job.work]
                self.take(job.work, life)
        begun = [work.lives[0].born for work in works]
        expanding = [make.life, *(one for life in make.life.children if id(life) not in self.jobs for one in self.below(life))]
        for (kind, path), place in (event for life in expanding for event in life.events.items()):
            at = bisect(begun, place)
            if kind in CHANGES + MAKES and 0 < at < len(works):  # guard: what-make-expands
                works[at].add(kind, path, place)

    def divide(self, work: Work) -> List[Part]:
        """The parts of a recipe."""
        if self.has_waits:
            divide(work, self.written)
        return work.parts

    def called(self, make: Make) -> Iterator[Work]:
        """What each call of a make's own does, as by `$(shell ..)`."""
        for life in make.life.children:
            if id(life) not in self.jobs:  # guard: calls-of-make-that-leave-processes
                work = Work()
                self.take(work, life)
                yield work
