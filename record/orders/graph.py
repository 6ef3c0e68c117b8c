"""Which recipes of a record may run in either order, and orders in which those run that have not."""

from __future__ import annotations

import json
import os
from collections.abc import Iterable, Iterator, Mapping, Sequence
from dataclasses import dataclass, field
from pathlib import Path
from typing import Any, Optional

from record.build.text import file_of
from record.orders.gate import Key
from record.report import read_json

Pair = tuple[int, int]  # two tasks by their places in the serial order, the earlier one first


@dataclass
class Task:
    """A task of a build of the record. Sets of tasks are bits, by their places in the serial order."""

    build: str
    label: str
    key: Optional[Key]  # where it is a recipe; not of a part of one
    before: int  # the tasks that have ended before it begins
    around: int  # the recipes inside which it runs


@dataclass
class Graph:
    """The tasks of a record in the order of its build: those of a make stand behind the recipe that runs it."""

    record: Path
    builds: dict[str, dict[str, Any]] = field(default_factory=dict)
    rows: dict[str, list[dict[str, Any]]] = field(default_factory=dict)  # by build: its lines of tasks
    tasks: list[Task] = field(default_factory=list)
    at: dict[tuple[str, str], int] = field(default_factory=dict)  # by build and label
    keys: dict[Key, int] = field(default_factory=dict)
    known: dict[tuple[Key, str, str, int], str] = field(default_factory=dict)  # by the recipe around it, folder, round and which of these: a build

    def __post_init__(self) -> None:
        self.inner: dict[tuple[str, str], list[str]] = {}  # by build and label: the builds that ran inside
        record = read_json(self.record / "record.json")
        self.has_all = record["status"] != 0 or not record["holes"]  # else it lacks something of a build that ended well
        for number in record["builds"]:
            folder = self.record / "builds" / number
            build = self.builds[number] = read_json(folder / "build.json")
            with open(folder / "tasks", encoding="utf-8") as lines:
                self.rows[number] = [json.loads(line) for line in lines]
            within = build["within"]
            self.inner.setdefault((within["build"], within["task"]) if within else ("", ""), []).append(number)
        self.add_all(("", ""), 0, 0, ())
        self.recipes = sum(1 << at for at, one in enumerate(self.tasks) if one.key is not None)
        self.expanded = sum(1 << at for at in self.keys.values() if self.about(self.tasks[at].build, self.tasks[at].label).get("expanded"))  # they never wait to begin
        self.free = [self.recipes & ~one.before & ~one.around & ((1 << at) - 1) if one.key else 0 for at, one in enumerate(self.tasks)]

    def about(self, number: str, label: str) -> dict[str, Any]:
        """What a label of a build stands for."""
        found: dict[str, Any] = self.builds[number]["labels"].get(label, {})
        return found

    def add_all(self, where: tuple[str, str], before: int, around: int, outer: Key) -> None:
        """Adds the builds that ran inside a task, one after the other."""
        for number in self.inner.get(where, ()):
            first = len(self.tasks)
            self.add(number, before, around, outer)
            before |= (1 << len(self.tasks)) - (1 << first)

    def add(self, number: str, before: int, around: int, outer: Key) -> None:
        """Adds the tasks of a build. `before`, `around`: what is so for all of them; `outer`: the recipe inside which it runs."""
        about, count = self.builds[number], 0
        while (outer, about["folder"], about["round"], count) in self.known:
            count += 1
        self.known[outer, about["folder"], about["round"], count] = number
        ended: dict[str, int] = {}  # by label: the task, what runs in it, and all before
        for row in self.rows[number]:
            at, label = len(self.tasks), row["task"]
            earlier = before
            for one in row["after"]:
                earlier |= ended[one]
            key, is_recipe = self.key_of(number, label, outer), self.about(number, label).get("kind") == "recipe"
            self.tasks.append(Task(number, label, key if is_recipe else None, earlier, around))
            self.at[number, label] = at
            if key is not None and is_recipe:
                self.keys[key] = at
            self.add_all((number, label), earlier, around | 1 << at, key or outer)
            ended[label] = earlier | (1 << len(self.tasks)) - (1 << at)

    def key_of(self, number: str, label: str, outer: Key) -> Optional[Key]:
        """The recipe of a label, or of a part of one, as the gate knows it; one that make runs by itself has no number there."""
        found = self.about(number, label)
        if found.get("kind") not in ("recipe", "part"):
            return None
        step = -1 if found.get("expanded") else 1  # guard: recipes-without-number
        folder, name, count = self.builds[number]["folder"], found.get("sum") or found["target"], min(step + 1, 1)
        while (*outer, (folder, name, count)) in self.keys:
            count += step
        return (*outer, (folder, name, count - 1 if found.get("left") and count > 1 else count))

    def recipe_of(self, number: str, label: str) -> int:
        """The task that stands for the whole recipe of a task: it begins when the first part does."""
        labels, found = self.builds[number]["labels"], self.about(number, label)
        if found.get("kind") != "part":
            return self.at[number, label]
        return next((self.at[number, other] for other, one in labels.items() if one["kind"] == "recipe" and all(one.get(it) == found.get(it) for it in ("target", "colons"))), self.at[number, label])

    def leaves(self) -> set[str]:
        """All that recipes leave."""
        return {self.whole(number, path) for number, build in self.builds.items()
                for some in (*(row["writes"] for row in self.rows[number]), *(about.get("leaves", ()) for about in build["labels"].values())) for path in some}

    def whole(self, number: str, path: str) -> str:
        """A path of a build, from the root on."""
        return path if path.startswith("/") else "%s/%s" % (self.builds[number]["folder"].rstrip("/"), path)

    def held(self, after: Mapping[Key, set[Key]]) -> list[int]:
        """For each task those that have begun before it in every build. `after`: which recipe waits for which besides, each with what runs inside of it."""
        waits = {self.keys[late]: sum({1 << at for early in some if early in self.keys for at in self.inside(self.keys[early])}) for late, some in after.items() if late in self.keys}
        special = sum(1 << at for at in waits)
        found, last = [task.before | task.around for task in self.tasks], list[int]()
        while found != last:
            last = [*found]
            for at, need in enumerate(last):
                for late in numbers((need | 1 << at) & special):
                    for early in numbers(waits[late]):
                        found[at] |= 1 << early | found[early]  # guard: fixes-that-turn-round
        return found

    def apart(self, after: Mapping[Key, set[Key]]) -> list[int]:
        """For each recipe the earlier ones that nothing orders with it."""
        held = self.held(after)
        left = without(self.free, held)
        for at, some in enumerate(held):
            for later in numbers(some >> at):
                left[at + later] &= ~(1 << at)
        return left

    def is_free(self, one: int, other: int) -> bool:
        """Whether two tasks are recipes that nothing orders."""
        return bool(self.free[max(one, other)] >> min(one, other) & 1)

    def free_pairs(self) -> tuple[int, str]:
        """How many pairs of recipes nothing orders, and the first of them."""
        return size(self.free), " and ".join(self.tasks[at].label for at in next(pairs_of(self.free), ()))

    def turned(self, began: Sequence[Key], has_jobs: bool = True) -> list[int]:
        """For each task those that came before it in the serial build, and behind it in another one, of which this is the log. Of a recipe that make runs by itself, as
        `$(file >x)`, the log has nothing: with several jobs make does so as soon as all is over that it needs."""
        begun = [at for at in (self.keys[key] for key in began if key in self.keys) if not self.expanded >> at & 1]
        for at in reversed([*numbers(self.expanded if has_jobs else 0)]):  # of two that come at once the first one stays it  # guard: recipes-that-make-runs-by-itself
            need = self.tasks[at].before | self.tasks[at].around
            begun.insert(1 + max((place for place, one in enumerate(begun) if need >> one & 1), default=-1), at)
        found, left = [0] * len(self.tasks), sum(1 << at for at in {*begun})  # guard: recipes-that-never-begin
        for at in begun:
            left &= ~(1 << at)
            found[at] = left & self.free[at]
        return found

    def last_first(self, after: Mapping[Key, set[Key]]) -> list[Key]:
        """The recipes as they begin where the last one always does of those that wait."""
        held, left, rest, waiting, order = self.held(after), (1 << len(self.tasks)) - 1, [*range(len(self.tasks))], list[int](), list[int]()
        while rest or waiting:
            waiting += [at for at in rest if not held[at] & left]
            rest = [at for at in rest if held[at] & left]
            order.append(waiting.pop() if waiting else rest.pop(0))  # of a circle the first
            left &= ~(1 << order[-1])
        return [self.tasks[at].key or () for at in order]

    def covering(self, left: Sequence[int], after: Mapping[Key, set[Key]]) -> tuple[dict[Key, float], dict[Key, set[Key]]]:
        """An order that turns round many of some pairs; and which recipe waits for which so that these keep it where others run side by side."""
        front, held, pairs = [0] * len(self.tasks), self.held(after), [*pairs_of(left)]
        for first, second in [pair for pair in pairs if self.expanded >> pair[0] & 1]:  # it waits where something does that it needs
            pairs += [(need, second) for need in [*numbers(self.tasks[first].before & self.recipes & ~held[second])][-1:]]  # guard: what-make-is-to-run-later
        for first, second in pairs:
            front[first] |= 1 << second
        most = max(range(len(left)), key=lambda at: size([left[at]]))  # or this one first of all, with what it needs
        order = min((turning(front, held), turning(front, held, self.needs([most], after))), key=lambda one: size(without(left, self.turned([self.tasks[at].key or () for at in one]))))
        place, apart = {at: place for place, at in enumerate(order)}, dict[Key, set[Key]]()
        for pair in pairs:
            early, late = (self.tasks[at].key or () for at in sorted(pair, key=place.__getitem__))
            apart.setdefault(late, set()).add(early)
        return self.places(order), apart

    def places(self, order: Sequence[int]) -> dict[Key, float]:
        """The places of recipes that are to begin in this order."""
        return placed([self.tasks[at].key for at in order])

    def may_show_more(self, pairs: Sequence[int]) -> bool:
        """Whether of some pairs one recipe lists or sees a folder that the other one makes or fills: it may do something else where it runs first."""
        fills, looks = ([set[str]() for _ in self.tasks] for _ in range(2))
        for number, rows in self.rows.items():
            for row in rows:
                at, about = self.recipe_of(number, row["task"]), self.about(number, row["task"])
                folders = {how: {os.path.normpath(self.whole(number, path)) for path in paths} for how, paths in about.get("folders", {}).items()}
                made = folders.get("made", set()) | folders.get("found", set())
                fills[at] |= made | {os.path.dirname(self.whole(number, path)) for path in (*row["writes"], *about.get("leaves", ()), *made)}
                looks[at] |= set().union(*folders.values(), (os.path.normpath(self.whole(number, path)) for path in about.get("lists", ())))
        return any(fills[one] & looks[other] or fills[other] & looks[one] for one, other in pairs_of(pairs))  # guard: orders-that-the-flipped-build-has-not

    def users_first(self) -> Optional[dict[Key, float]]:
        """An order in which who uses a name, or lists a folder, begins before the several that make it; nothing where there is none."""
        front = [0] * len(self.tasks)
        for number, rows in self.rows.items():
            makers: dict[str, set[int]] = {}
            users: dict[str, set[int]] = {}
            for row in rows:
                at, about = self.recipe_of(number, row["task"]), self.about(number, row["task"])
                for path in (self.whole(number, path) for path in (*row["writes"], *about.get("leaves", ()))):
                    makers.setdefault(file_of(path), set()).add(at)
                    makers.setdefault(os.path.dirname(path), set()).add(at)
                for path in (*row["reads"], *about.get("lists", ())):  # guard: who-lists-folder
                    users.setdefault(file_of(self.whole(number, path)), set()).add(at)
            for path, who in makers.items():
                others = {at for at in users.get(path, set()) - who if any(self.is_free(at, one) for one in who)}
                for at in who if len(who) > 1 else ():
                    front[at] |= sum(1 << other for other in others)
        return self.places(turning(front, self.held({}))) if any(front) else None

    def beside(self, one: int, other: int) -> dict[Key, float]:
        """An order in which a task runs right before another one, each with what runs inside of it, and what they need before both."""
        block = [*self.inside(one), *self.inside(other)]
        own, need, first = {*block}, self.tasks[one].before | self.tasks[other].before, min(one, other)
        rest = [at for at in range(first, len(self.tasks)) if at not in own]
        return self.places([*range(first), *(at for at in rest if need >> at & 1), *block, *(at for at in rest if not need >> at & 1)])

    def needs(self, row: Sequence[int], after: Mapping[Key, set[Key]]) -> list[int]:
        """Some tasks one behind the other, each with what runs inside of it, and before them all that they need."""
        held, block = self.held(after), [at for one in row for at in self.inside(one)]
        need = {at for one in row for at in numbers(held[one])} - {*block}
        return [*sorted(need, key=lambda at: (size([held[at]]), at)), *block]  # guard: what-a-meeting-needs-first

    def inside(self, one: int) -> list[int]:
        """A task, and those that run inside of it."""
        return [one, *(at for at, task in enumerate(self.tasks) if task.around >> one & 1)]

    def together(self, one: Key, other: Key) -> Optional[tuple[str, str, str]]:
        """The build in which two recipes meet, and the labels there inside which they run; nothing where they are in one."""
        above = [[*numbers(self.tasks[at].around), at] for at in (self.keys.get(one, -1), self.keys.get(other, -1)) if at >= 0]
        for first in above[0] if len(above) == 2 else ():
            for second in above[1]:
                if self.tasks[first].build == self.tasks[second].build and first != second:
                    return self.tasks[first].build, self.tasks[first].label, self.tasks[second].label
        return None


def pairs_of(sets: Iterable[int]) -> Iterator[Pair]:
    """For each recipe a set of earlier ones: all these pairs."""
    yield from ((first, second) for second, some in enumerate(sets) for first in numbers(some))


def turning(front: Sequence[int], held: Sequence[int], head: Sequence[int] = ()) -> list[int]:
    """The tasks in an order, `head` first of all. `held`: for each task those that begin before it; `front`: those that are to. None begins before one that is to run in
    front of it, unless nothing else can: then one does that is needed by the task for which the fewest pairs are given up."""
    order, rest = [*head], (1 << len(held)) - 1 & ~sum(1 << at for at in head)

    def given_up(at: int) -> int:
        need = held[at] | 1 << at
        return size([front[one] & rest & ~need for one in free if need >> one & 1])

    while rest:
        free = [at for at in numbers(rest) if not held[at] & rest]
        some = [at for at in free if not front[at] & rest]
        if free and not some:
            least = min(free, key=lambda at: size([front[at] & rest]))
            needed = min(least, *numbers(front[least] & rest), key=given_up)
            some = [at for at in free if (held[needed] | 1 << needed) >> at & 1][:1]
        some = some or [next(numbers(rest))]  # of a circle the first
        order += some
        rest &= ~sum(1 << at for at in some)
    return order


def numbers(bits: int) -> Iterator[int]:
    """The members of a set of tasks."""
    while bits:
        low = bits & -bits
        yield low.bit_length() - 1
        bits ^= low


def without(sets: Sequence[int], others: Sequence[int]) -> list[int]:
    """Each of some sets without another one."""
    return [one & ~other for one, other in zip(sets, others)]


def size(sets: Sequence[int]) -> int:
    """How many members some sets have together."""
    return sum(bin(one).count("1") for one in sets)


def placed(order: Sequence[Optional[Key]]) -> dict[Key, float]:
    """The places of recipes that are to begin in this order, each with those around it: the gate takes the greatest first."""
    found: dict[Key, float] = {}
    for at, key in enumerate(order):
        for length in range(1, len(key or ()) + 1):
            found.setdefault((key or ())[:length], -float(at))  # guard: recipes-around
    return found
