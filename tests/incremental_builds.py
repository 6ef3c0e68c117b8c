"""Builds of old trees, played without any file: recipes that do the same after the same inputs, edits, and builds in random order.

It is a model of `make` apart from the program: a recipe runs if its target is absent or phony, or a prerequisite is phony, absent
or newer. Each recipe reads all names that it may read and not write, and writes each file that it may write. A recipe that may write
a tree unpacks an archive there: it writes the members, which its inputs determine, and removes nothing.
"""
from __future__ import annotations

import hashlib
import random
from collections.abc import Iterator
from dataclasses import dataclass

from answer_oracle import Jobs, Path, covers

# A tree has names without end. These are members of archives and new files below it, beside the names that are known.
BELOW = (b"/u", b"/u/v", b"/m%d", b"/m%d/n%d")
# How many builds of an old tree follow each other, and how many sources may change between two of them.
BUILDS, MOST_EDITS = 4, 3


@dataclass(frozen=True)
class File:
    """The bytes of a file and the time of its last change."""

    text: bytes
    time: int


Store = dict[bytes, File]


class Trees:
    """The names that the recipes of jobs may touch, and what happens to the files there; no edit changes a fixed name."""

    def __init__(self, jobs: Jobs, fixed: set[bytes], dice: random.Random) -> None:
        self.jobs, self.dice, self.clock = jobs, dice, 0
        self.names = jobs.plan.order
        self.direct = [sorted({jobs.numbers[it] for it in jobs.plan.prerequisites[name]}) for name in self.names]
        paths = {path for it in jobs.footprints.values() for path in it.reads | it.writes}
        self.known = sorted({*self.names, *(path.name for path in paths)})
        self.fixed = fixed
        self.folders = sorted(path for it in jobs.footprints.values() for path in it.reads if path.is_tree)
        self.removable = [name for number, name in enumerate(self.names) if self.is_written(number, name)]

    def is_under(self, paths: set[Path], name: bytes) -> bool:
        return any(covers(self.jobs.plan.root, it, Path(name, False)) for it in paths)

    def is_written(self, number: int, name: bytes) -> bool:
        return number in self.jobs.footprints and self.is_under(self.jobs.footprints[number].writes, name)

    def is_source(self, name: bytes) -> bool:
        return not any(self.is_written(number, name) for number in self.jobs.footprints)

    def below(self, path: Path, dice: random.Random) -> bytes:
        """One of the names without end below a tree."""
        text = dice.choice(BELOW).replace(b"%d", b"%d" % dice.randrange(100))
        return path.name.rstrip(b"/") + text

    def is_listed(self, name: bytes) -> bool:
        return name in self.jobs.plan.listing

    def new_file(self) -> File:
        self.clock += 1
        return File(b"%d" % self.dice.randrange(10**9), self.clock)

    def clean(self) -> Store:
        """A tree in which nothing was built: of the nodes just those that the listing has."""
        nodes = set(self.names)
        sources = (it for it in self.known if self.is_source(it))
        there = (it for it in sources if (self.is_listed(it) if it in nodes else self.dice.random() < 0.7))
        return {name: self.new_file() for name in there}

    def editable(self, store: Store) -> list[bytes]:
        """The sources that are not fixed: those that are known or there, and new ones below trees that are read."""
        new = {self.below(path, self.dice) for path in self.folders}
        return sorted(name for name in {*self.known, *store, *new} if name not in self.fixed and self.is_source(name))

    def edit(self, store: Store) -> None:
        """Changes, adds and deletes sources that are not fixed, which are newer than all files then, and deletes targets."""
        nodes, names = set(self.names), self.editable(store)
        for name in self.dice.sample(names, min(len(names), self.dice.randint(1, MOST_EDITS))):
            if name not in nodes and self.dice.random() < 0.3:
                store.pop(name, None)
            elif name not in nodes or name in store:
                store[name] = self.new_file()
        for name in self.dice.sample(self.removable, min(len(self.removable), self.dice.choice([0, 0, 1]))):
            store.pop(name, None)

    def build(self, store: Store) -> None:
        """A complete build: each recipe, behind its prerequisites, runs where it must; which comes first is random."""
        waiting, done = set(range(len(self.names))), set()
        while waiting:
            ready = [it for it in sorted(waiting) if done.issuperset(self.direct[it])]
            number = self.dice.choice(ready)
            waiting.remove(number)
            done.add(number)
            if number in self.jobs.footprints and self.is_stale(store, number):
                self.run(store, number)

    def is_phony(self, number: int) -> bool:
        return self.names[number] in self.jobs.plan.book.phony

    def is_stale(self, store: Store, number: int) -> bool:
        own = store.get(self.names[number])
        if own is None or self.is_phony(number):
            return True
        needs = [(self.is_phony(it), store.get(self.names[it])) for it in self.direct[number]]
        return any(phony or file is None or file.time > own.time for phony, file in needs)

    def run(self, store: Store, number: int) -> None:
        seen, reads = hashlib.sha256(b"%d" % number), self.jobs.footprints[number].reads
        for name in sorted({*self.known, *store}):
            if self.is_under(reads, name) and not self.is_written(number, name):
                seen.update(name + b"=" + (store[name].text if name in store else b"no file") + b"\n")
        for name in self.outputs(number, seen.digest()):
            self.clock += 1
            store[name] = File(hashlib.sha256(seen.digest() + name).digest(), self.clock)

    def outputs(self, number: int, seen: bytes) -> list[bytes]:
        """What a recipe writes that saw this: its files, and of each of its trees the members of an archive."""
        writes = sorted(self.jobs.footprints[number].writes)
        files = {path.name for path in writes if not path.is_tree}
        own = {name for name in self.names[number : number + 1] if self.is_written(number, name)}
        dice = random.Random(seen)
        members = {self.below(path, dice) for path in writes if path.is_tree for _ in range(3)}
        return sorted(files | own | members)

    def clean_build(self, store: Store) -> Store:
        """What a build leaves of a clean tree with the sources of this one."""
        clean = {name: file for name, file in store.items() if self.is_source(name)}
        self.build(clean)
        return clean


def texts_of(store: Store) -> dict[bytes, bytes]:
    return {name: file.text for name, file in store.items()}


def differences(jobs: Jobs, fixed: set[bytes], dice: random.Random) -> Iterator[bytes]:
    """The names at which a build of an old tree leaves other bytes than one of a clean tree with the same sources, where no edit
    changes the fixed names."""
    trees = Trees(jobs, fixed, dice)
    store = trees.clean()
    for _ in range(BUILDS):
        trees.build(store)
        old, clean = texts_of(store), texts_of(trees.clean_build(store))
        yield from sorted(name for name in {*old, *clean} if old.get(name) != clean.get(name))
        trees.edit(store)
