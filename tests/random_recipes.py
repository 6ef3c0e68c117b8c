"""Random jobs, and schedules of them: a model of `make` and of recipes apart from the program, which it does not start.

What a recipe does next depends only on what it did and saw. Its words are those of the definitions of `mk_sched` and `mk_jobs`.
"""
from __future__ import annotations

import itertools
import random
from dataclasses import dataclass, field

# The acts of a recipe; one with this many steps finishes.
LOOK, PUT, ERASE = range(3)
MOST_STEPS = 6
# What a look finds where nothing is.
NOTHING = -1

Step = tuple[int, int, int]
History = tuple[Step, ...]


@dataclass(frozen=True)
class File:
    """What a file holds, and when it was put."""

    text: int
    time: int


Store = dict[int, File]


@dataclass
class Footprint:
    """What a recipe looked at and what it wrote."""

    reads: set[int] = field(default_factory=set)
    writes: set[int] = field(default_factory=set)

    def has(self, step: Step) -> bool:
        act, name, _ = step
        return name in (self.reads if act == LOOK else self.writes)


Prints = dict[int, Footprint]


@dataclass
class Jobs:
    """Nodes with smaller prerequisites; the names below `count` are their own files. Recipes are functions of a seed."""

    seed: int
    count: int
    names: int
    needs: list[list[int]]
    phony: list[bool]
    recipes: list[bool]
    tie: bool
    opening: Store

    def next_step(self, node: int, history: History, store: Store) -> Step | None:
        """What a recipe does next, without what a look finds."""
        number = hash((self.seed, node, history, self.peeks(store))) & 0xFFFFFFFF
        if number % 8 == 0 or len(history) == MOST_STEPS:
            return None
        number //= 8
        near = [node, *self.needs[node], self.count + (self.seed + node) % (self.names - self.count)]
        name = near[number % len(near)] if number % 16 else number // 16 % self.names
        act = (LOOK, LOOK, LOOK, PUT, PUT, ERASE)[number // 256 % 6]
        return act, name, number // 2048 % 3

    def peeks(self, _store: Store) -> bool:
        """What recipes go by beside what they did and saw: nothing."""
        return False

    def must_run(self, node: int, store: Store) -> bool:
        return self.recipes[node] and self.is_stale(node, store)

    def is_stale(self, node: int, store: Store) -> bool:
        own = store.get(node)
        return self.phony[node] or own is None or any(self.phony[it] or self.outdates(own, store.get(it)) for it in self.needs[node])

    def outdates(self, own: File, other: File | None) -> bool:
        return other is None or own.time < other.time or self.tie and own.time == other.time

    def before(self) -> list[set[int]]:
        """The nodes that come before each node."""
        found: list[set[int]] = []
        for direct in self.needs:
            found.append(set(direct).union(*(found[it] for it in direct)))
        return found


def random_jobs(seed: int, kind: type[Jobs] = Jobs) -> Jobs:
    dice = random.Random(seed)
    count = dice.randint(2, 5)
    names = count + dice.randint(1, 4)
    needs = [sorted(it for it in range(node) if dice.random() < 0.5) for node in range(count)]
    opening = {it: File(dice.randrange(3), dice.randrange(4)) for it in range(names) if dice.random() < 0.3}
    phony, tie = [dice.random() < 0.2 for _ in range(count)], dice.random() < 0.5
    return kind(seed, count, names, needs, phony, [dice.random() < 0.9 for _ in range(count)], tie, opening)


@dataclass
class Played:
    """A complete schedule: what each recipe that started found there and did, and the files that are left."""

    histories: dict[int, History]
    found: dict[int, set[int]]
    store: Store

    def outcome(self) -> tuple[dict[int, History], dict[int, int]]:
        return self.histories, texts(self.store)

    def footprints(self) -> Prints:
        found: Prints = {}
        for node, history in self.histories.items():
            found[node] = Footprint()
            for act, name, _ in history:
                (found[node].reads if act == LOOK else found[node].writes).add(name)
        return found


def texts(store: Store) -> dict[int, int]:
    return {name: it.text for name, it in store.items()}


def play(jobs: Jobs, limit: int, dice: random.Random) -> Played:
    """One complete schedule, in which at most `limit` recipes run at once."""
    store, running, passed = dict(jobs.opening), dict[int, History](), set[int]()
    played = Played({}, {}, store)
    while len(passed) < jobs.count:
        ready = [it for it in range(jobs.count) if it not in passed | running.keys() and passed.issuperset(jobs.needs[it])]
        able = [it for it in ready if len(running) < limit or not jobs.must_run(it, store)]
        node = dice.choice([*able, *running])
        if node not in running:
            if jobs.must_run(node, store):
                running[node], played.found[node] = (), set(store)
            else:
                passed.add(node)
            continue
        step = jobs.next_step(node, running[node], store)
        if step is None:
            played.histories[node] = running.pop(node)
            passed.add(node)
        else:
            running[node] += (act(store, step, dice),)
    return played


def act(store: Store, step: Step, dice: random.Random) -> Step:
    """Does a step in a store; the step with what a look found. What is put is newer than every file."""
    kind, name, text = step
    if kind == LOOK:
        return kind, name, store[name].text if name in store else NOTHING
    if kind == PUT:
        store[name] = File(text, latest(store) + dice.randint(1, 2))
        return step
    store.pop(name, None)
    return kind, name, NOTHING


def latest(store: Store) -> int:
    return max((it.time for it in store.values()), default=0)


def is_valid(jobs: Jobs, prints: Prints) -> bool:
    """Whether no recipe wrote the file of another node."""
    return all(name == node or name >= jobs.count for node, it in prints.items() for name in it.writes)


def is_race_free(jobs: Jobs, prints: Prints) -> bool:
    before, pairs = jobs.before(), itertools.combinations(sorted(prints), 2)
    return all(first in before[second] or not do_conflict(prints[first], prints[second]) for first, second in pairs)


def do_conflict(one: Footprint, other: Footprint) -> bool:
    return bool(one.writes & (other.reads | other.writes) or other.writes & one.reads)


def leaves(other: Played, prints: Prints) -> bool:
    """Whether a recipe of this schedule did something that its footprint does not have."""
    return any(not prints.get(node, Footprint()).has(step) for node, history in other.histories.items() for step in history)
