"""Builds a project in other orders, and finds of what differs the two recipes whose order it is."""

from __future__ import annotations

import os
import pickle
import re
from collections.abc import Callable, Iterator, Sequence
from dataclasses import dataclass, field, replace
from pathlib import Path
from typing import Any, cast

from record.folder import Record
from record.orders.builds import FLIPPED, MANY, ONE, SECOND, SERIAL, Built, Plan, Room, Running, side_by_side
from record.orders.gate import Key
from record.orders.graph import Graph, numbers, pairs_of, placed, size, without
from record.orders.joined import Contest, contested
from record.orders.overlap import Meet
from record.orders.trees import CannotTry, difference, differing, passing

AT_ONCE = min(6, (os.cpu_count() or 1) + 2)  # builds that run side by side
FEW = 4  # so many pairs are turned round one by one
SHOWN = 5  # differences that are named
SURE = 3  # so many builds more have to show one


@dataclass
class Shown:
    """What differs in a build, and the two recipes that show it in the other order than that of the serial build, or side by side; none where it takes no more
    than several jobs."""

    recipes: Sequence[Key]
    built: Built
    is_beside: bool = False


@dataclass
class Trial:
    """The builds of one record. `most`: how many there may be."""

    room: Room
    graph: Graph
    recorded: list[dict[str, str]]  # what the recorded build left
    after: dict[Key, set[Key]]  # which recipe waits for which besides: what ends the conflicts
    most: int
    say: Callable[[int], object]  # takes how many builds follow
    markers: set[str]  # files that say that a folder is there: which of the recipes runs that make one depends on the order
    is_parallel: bool = False  # a make of the recorded build ran several recipes at once
    late: set[str] | None = None  # what was changed since then; nothing where nobody knows
    outside: set[str] = field(default_factory=set)  # names outside of the project that the recorded build changed
    met: set[str] = field(default_factory=set)  # of these those that another build touched, too: their names are not drawn
    builds: int = 0
    others: int = 0  # builds in other orders that left the same
    shown: list[Shown] = field(default_factory=list)
    failed: list[str] = field(default_factory=list)  # how builds ended that ended well when they were made again, or may not be made again
    is_whole: bool = True  # all that was to be tried out was, and no build came to something that it did not when it was made again

    def __post_init__(self) -> None:
        self.turned, self.planned = ([0] * len(self.graph.tasks) for _ in range(2))  # for each recipe the earlier ones that have run behind it; that were to in a cover
        self.records: list[Graph] = []  # what builds in other orders recorded
        self.contests: dict[tuple[int, str, bool], set[int]] = {}  # by who makes a folder first, and whether it goes again: who has met it there
        self.met_builds = 0
        self.begun, self.plans = list[Plan](), list[Plan]()  # builds in other orders that have begun, and more that are to follow
        self.order = [key for key, at in self.graph.keys.items() if not self.graph.expanded >> at & 1]  # recipes as they begin in a serial build
        self.serial, self.trees = self.recorded, [*map(Path, self.room.tops)]  # what a serial build left, and where that stands
        self.unstable: set[tuple[int, str]] = set()  # in which serial builds differ: the tree, and the name in it
        self.passing: list[list[re.Pattern[str]]] = [[] for _ in self.serial]

    @property
    def untried(self) -> list[int]:
        """The pairs that no other order has tried yet: for each recipe the earlier ones."""
        return without(self.graph.apart(self.after), self.turned)

    @property
    def is_sure(self) -> bool:
        """Whether what differs by the order of two recipes has been seen, where they ran both ways."""
        return not any(self.graph.free) or self.is_whole and all(one.has_all for one in self.records) and self.graph.leaves().isdisjoint(self.whole(*one) for one in self.unstable)  # guard: holes-of-other-orders

    @property
    def left(self) -> list[int]:
        """Those of them that an order may turn round, and that none was to: both recipes begin at the gate, or one does, and make runs the other one by itself."""
        begin, alone = sum(1 << self.graph.keys[key] for key in self.graph.keys.keys() & {*self.order}), self.graph.expanded
        return [some & (begin | alone if begin >> at & 1 else begin if alone >> at & 1 else 0) for at, some in enumerate(without(self.untried, self.planned))]

    @property
    def goes_on(self) -> bool:
        """Whether another build may be made, and says something: nothing differs whatever the order is."""
        return self.builds < self.most and all(one.recipes for one in self.shown)

    # ---------------------------------------------------------------- which builds
    def run(self, running: Running) -> None:
        """All builds: the two that began beside the recorded one; a third serial one, where it is needed; others that say more; covers."""
        again, flipped = self.begin(running)
        one = [Plan("one", placed(self.order), ONE, self.after)] * self.is_parallel  # guard: jobs-of-the-recorded-build
        later = [*one, *self.covers(without(self.left, self.graph.turned(flipped.began))), *self.overlaps()]
        second = running.children.keys() & {SECOND.name}
        self.builds += len(second)
        self.say(len(second) + len(later))
        self.plans += later
        if flipped.status == 0 and all(differing(one, other) <= differing(one, first) for first, one, other in zip(self.recorded, again.held, flipped.held)):
            self.begun += (more := self.next_of(self.plans))
            running.begin(*more)
        for base in map(running.result, second):
            if base.status == 0:  # guard: copies-among-themselves
                self.serial, self.trees = base.held, self.room.trees(base.plan)
        self.compare(again)
        self.take([flipped, *(running.result(plan.name) for plan in self.begun)])
        self.try_all(self.plans)
        while self.goes_on and (plans := self.covers(self.left)):
            self.try_all(plans)
        self.try_all([*self.overlaps()])
        if not self.shown and self.doubted():
            self.compare(*side_by_side(self.room, [SERIAL]))

    def begin(self, running: Running) -> tuple[Built, Built]:
        """The second serial build, and the flipped one: those that ran beside the recorded build, where they count; others begin meanwhile, such as covers of what the
        flipped one is not to turn round. `CannotTry` where a second build fails."""
        is_beside = SERIAL.name in running.children
        flip = FLIPPED if is_beside and not self.after else replace(FLIPPED, name="fixed", after=self.after)
        if not is_beside:
            running.begin(SERIAL, flip)
        elif self.after:  # it began before anybody knew the fixes
            running.close(FLIPPED.name)
            running.begin(flip)
        self.builds, self.planned = 2, [0] * len(self.planned)
        self.plans = [*self.orders(), *self.covers(without(self.left, self.graph.turned(self.graph.last_first(self.after))))]
        self.say(len(self.plans))
        self.begun = self.next_of(self.plans)
        running.begin(*self.begun)
        again = running.result(SERIAL.name)
        if again.status != 0 and not self.room.has_net:
            self.room.has_net = True  # guard: builds-that-need-other-machines
            return self.begin_anew(running, SERIAL)
        if again.status != 0:
            raise CannotTry("of a second serial build, in a copy: " + "; ".join(again.message()))
        if any(map(differing, self.recorded, again.held)):  # by chance, or as it ran several recipes at once, or the copies are another place
            running.begin(SECOND)
        self.order, flipped = again.began, running.result(flip.name)
        self.note_other(flipped)
        return self.begin_anew(running, SERIAL, flip) if is_beside and self.met else (again, flipped)  # guard: names-that-both-use

    def begin_anew(self, running: Running, *plans: Plan) -> tuple[Built, Built]:
        """The same of builds that begin now, in the place of some that ran."""
        running.close()
        for plan in plans:
            self.room.forget(plan)
        return self.begin(running)

    def orders(self) -> list[Plan]:
        """What a look finds may depend on several: builds that turn round each pair alone, and where there are many, one in which all users come first."""
        pairs = [pair[::-1] for pair in pairs_of(self.left)] if 1 < size(self.left) <= FEW else []
        orders = [self.graph.beside(*pair) for pair in pairs] or filter(None, [self.graph.users_first()])
        return [Plan("alone%d" % number, places, after=self.after) for number, places in enumerate(orders)]

    def note_other(self, flipped: Built) -> None:
        """Takes in what the flipped build changed: names outside of the project, and since recipes could run at once: what is alike in both does not go by jobs."""
        file = self.room.place(flipped.plan) / "kept"
        other = cast(Record, pickle.loads(file.read_bytes())) if file.exists() else None
        self.late = self.late | other.late if other and None not in (self.late, other.late) else None  # type: ignore[operator]  # guard: what-another-order-changes
        self.met = self.outside & other.touched if other else set()  # guard: names-that-another-build-finds
        self.records = self.read(flipped)

    def read(self, built: Built) -> list[Graph]:
        """The record of a build in another order; none where that was stopped, as all of it waited."""
        record = self.room.place(built.plan) / "record"
        return [Graph(record)] if (record / "record.json").exists() else []  # guard: what-another-order-shows

    def doubted(self) -> list[str]:
        """What the recorded build left otherwise than copies as it ran recipes at once, for all that is known."""
        paths = [self.whole(*one) for one in self.names(self.recorded)] if self.is_parallel else []
        return [path for path in paths if self.late is None or not self.late.isdisjoint(map(str, (path, *Path(path).parents)))]  # guard: what-was-there-by-then

    def covers(self, left: list[int]) -> list[Plan]:
        """Builds that turn round some pairs, each as many as an order can of those that are left, and in which the rest runs side by side."""
        found: list[Plan] = []
        while any(left) and len(found) < AT_ONCE // 2:
            places, apart = self.graph.covering(left, self.after)
            turned = self.graph.turned(sorted(places, key=places.__getitem__, reverse=True))
            if not any(one & some for one, some in zip(left, turned)):
                break
            found.append(Plan("cover%d-%d" % (self.builds, len(found)), places, after=self.after, apart=apart, at_once=os.cpu_count() or 1, is_recorded=self.graph.may_show_more(left)))
            left, self.planned = without(left, turned), [one | some for one, some in zip(self.planned, turned)]
        return found

    def try_all(self, plans: list[Plan]) -> None:
        """Makes builds, some at once."""
        while plans and self.goes_on:
            self.take(side_by_side(self.room, self.next_of(plans)))
        self.is_whole &= not any(plan.meets for plan in plans)

    def next_of(self, plans: list[Plan]) -> list[Plan]:
        """Takes builds off a list that are to run at once now, each with what ends the conflicts that are known."""
        some = [replace(plan, after={late: {*early} for late, early in self.after.items()}) for plan in plans[:max(0, min(AT_ONCE, self.most - self.builds))]]  # guard: no-more-than-there-may-be
        del plans[:len(some)]
        self.builds += len(some)
        return some

    def take(self, made: Sequence[Built]) -> None:
        """Takes in some builds that ran at once."""
        for built in map(self.seen, made):
            if built.plan.meets:
                self.settle_meets(built)
            elif not built.otherwise or all(one.recipes for one in self.shown):
                self.settle(built)

    def step(self, *plans: Plan) -> list[Built]:
        """Some builds side by side, by which a difference is narrowed down: they do not count."""
        return [*map(self.seen, side_by_side(self.room, plans))]

    # ---------------------------------------------------------------- what differs
    def compare(self, again: Built) -> None:
        """Takes in another serial build."""
        self.order = again.began
        for number, (one, other) in enumerate(zip(self.serial, again.held)):
            self.unstable |= {(number, name) for name in differing(one, other)}
            self.passing[number] += passing(one.keys() - other.keys(), other.keys() - one.keys())
        self.room.forget(again.plan)

    def names(self, held: Sequence[dict[str, str]]) -> list[tuple[int, str]]:
        """What a build left otherwise: the tree, and the name in it."""
        return [(number, name) for number, (one, other) in enumerate(zip(self.serial, held)) for name in sorted(differing(one, other))
                if (number, name) not in self.unstable and (name in self.serial[number] or not any(it.fullmatch(name) for it in self.passing[number]))]  # guard: names-that-a-serial-build-leaves

    def whole(self, number: int, name: str) -> str:
        """The path of a name in a tree."""
        return os.path.join(self.room.tops[number], name)

    def seen(self, built: Built) -> Built:
        """Takes in how a build ended otherwise than the serial one, which of two builds the one with one job is; its copy goes. Recipes that the recorded build did
        not run come and go, such as those of CMake's tries."""
        names, order, began, known = self.names(built.held), {*self.order}, {*built.began}, {*self.graph.keys}
        more = began - order if order <= known else began & known - order  # guard: recipes-that-the-record-has
        less, turn = order & known - began, -1 if built.plan.jobs == ONE else 1  # guard: which-of-two-builds-is-serial
        both = zip(("does not run", "runs, and does not in a serial build"), (less, more)[::turn])
        text = ["the recipe of %s %s" % (key[-1][1], how) for how, keys in both for key in sorted(keys) if os.path.normpath(os.path.join(*key[-1][:2])) not in self.markers]
        text += [name + ": " + difference(*(trees[number] / name for trees in (self.trees, self.room.trees(built.plan))[::turn])) for number, name in names[:SHOWN]]
        built.otherwise = text[:SHOWN] if built.status == 0 else built.message()
        built.path = next((self.whole(number, name) for number, name in names), "")
        self.records += self.read(built) if built.plan.is_recorded and not built.plan.is_flipped else []
        self.room.forget(built.plan)
        return built

    def settle(self, built: Built) -> None:
        """Takes in a build. What differs is narrowed down to two recipes, and the build made again where these keep the order of the serial one."""
        if built.otherwise:
            once, (built,) = built, self.made_again(self.behind(built))
            if not built.otherwise and (once.status != 0 or self.names(once.held) or {*once.began} != {*built.began}):  # guard: what-a-serial-build-explains
                self.doubt(once)  # guard: what-differs-once
        while built.otherwise:
            found = self.narrow(built)
            if found.recipes and found.recipes[0] in self.after.get(found.recipes[1], ()):  # nothing else could begin, so the gate let it go all the same
                return
            more = self.made_again(*(replace(found.built.plan, name="sure%d" % number) for number in range(SURE)))
            if not all(one.otherwise for one in more):  # guard: what-differs-by-chance
                self.doubt(built)
                break
            self.shown.append(found)
            if not self.goes_on:
                return
            self.after.setdefault(found.recipes[1], set()).add(found.recipes[0])
            self.builds += 1
            (built,) = self.made_again(replace(built.plan, name="again", after=self.after))
        self.others += 1
        self.turned = [one | earlier for one, earlier in zip(self.turned, self.graph.turned(built.began, built.plan.jobs == MANY))]

    def behind(self, built: Built) -> Plan:
        """A build in which the recipes of another one begin in the same order, one behind the other."""
        return replace(built.plan, name="behind", places=placed(built.began), after=self.after, apart={}, at_once=1, meets=(), is_recorded=False)  # guard: order-of-the-build-that-differs

    def made_again(self, *plans: Plan) -> list[Built]:
        """Makes builds in which something differs again, and a serial one beside them: that shows what goes by the time. What another build has shown is no
        difference any more, and neither is what the recorded build did meanwhile."""
        again, *made = side_by_side(self.room, [SERIAL, *plans])
        if again.status == 0:
            self.compare(again)  # guard: what-goes-by-the-time
        self.room.forget(SERIAL)
        return [*map(self.seen, made)]

    def doubt(self, once: Built) -> None:
        """Takes in what one of two builds in one order came to, and the other one did not, unless it ran beside the recorded build, or the fixes of another difference
        have ended it: these names are compared no more, and where it failed there is no yes."""
        if once.plan == FLIPPED or once.plan.after != self.after:
            return
        self.is_whole = False  # guard: what-differs-once-is-not-tried-out
        if once.status == 0 and self.goes_on:  # guard: what-was-not-made-again
            self.unstable.update(self.names(once.held))
        elif once.status is not None:
            how = "failed, and did not when it was made again" if self.goes_on else "came to something else, and no more may be built"
            self.failed.append("a build in another order %s: %s" % (how, "; ".join(once.otherwise)))

    def narrow(self, built: Built) -> Shown:
        """The two recipes whose order makes a difference. From the order of the serial build to that of another one neighbours change places, two at a time: of the
        orders between, one that leaves the same, and the next one, which does not."""
        log = [key for key in built.began if key in {*self.order}]
        low, high = -1, between(self.order, log, len(log) ** 2)[2]  # guard: order-of-the-serial-build
        while high - low > 1:
            tried = sorted({low + 1 + (high - low - 1) * part // AT_ONCE for part in range(AT_ONCE)})
            plans = (Plan("step%d" % steps, placed(between(self.order, log, steps)[0]), built.plan.jobs, self.after) for steps in tried)
            for steps, one in zip(tried, self.step(*plans)):
                if one.otherwise:
                    high, built = steps, one
                    break
                low = steps
        return Shown(between(self.order, log, high)[1], built)

    def overlaps(self) -> Iterator[Plan]:
        """Builds in which recipes meet at folders by all records, and have not met; several meet in one build that have nothing to do with one another, and all else
        runs behind them."""
        apart, left, keys = self.graph.apart(self.after), list[Contest](), [task.key or () for task in self.graph.tasks]
        for one in contested(self.graph, self.records):
            first, *late = one.row
            known = self.contests.setdefault((first, one.path, one.goes), set())
            left.append(one._replace(row=[first, *(at for at in late if at not in known and apart[max(at, first)] >> min(at, first) & 1)]))
            known.update(late)
        while left := [one for one in left if len(one.row) > 1]:
            some, order = list[Contest](), list[int]()
            for one in left:
                if one.goes == left[0].goes and {*one.behind, *(at for own in one.row for at in self.graph.inside(own))}.isdisjoint(order):  # guard: inner-recipes-apart
                    some, order = [*some, one], [*order, *self.graph.needs(one.row, self.after)]
            meets = [Meet(keys[one.row[0]], keys[late], one.path, one.goes) for one in some for late in one.row[1:]]
            places = self.graph.places([*dict.fromkeys((*order, *range(len(self.graph.tasks))))])
            yield Plan("overlap%d" % self.met_builds, places, after=self.after, at_once=os.cpu_count() or 1, meets=meets)
            left, self.met_builds = [one for one in left if one not in some], self.met_builds + 1

    def settle_meets(self, built: Built) -> None:
        """Takes in a build in which recipes meet. What differs is of the order of all recipes, where it also differs when each runs behind the other, and else of two
        that meet, and that nothing orders by now: some of those that show it are parted until two are left, the first at their folder."""
        self.is_whole &= built.is_whole
        plan, known = self.behind(built), len(self.shown)
        left = [meet for meet in built.plan.meets if self.is_apart(meet)] if built.otherwise else []  # guard: meets-that-nothing-orders
        some, is_seen = left, bool(left)
        while some and self.goes_on:
            parts = [some[at::AT_ONCE - 1] for at in range(min(AT_ONCE - 1, len(some)))]  # guard: meets-of-which-few-differ
            behind, *each = self.step(plan, *(replace(plan, name="both%d" % number, meets=part) for number, part in enumerate(parts)))
            self.builds += 1 + len(parts)
            if behind.otherwise:
                return self.settle(behind)  # guard: order-of-all-where-two-meet
            some, both = next(((part, one) for part, one in zip(parts, each) if one.otherwise), (list[Meet](), behind))
            if len(some) == 1:
                first, second = sorted(some[0][:2], key=self.graph.keys.__getitem__)
                self.shown.append(Shown((first, second), both, True))
                self.after.setdefault(second, set()).add(first)
                left = some = [meet for meet in left if meet.path != some[0].path and self.is_apart(meet)]
        if is_seen and len(self.shown) == known:
            self.doubt(built)  # guard: meets-that-differ-once

    def is_apart(self, meet: Meet) -> bool:
        """Whether nothing orders two recipes."""
        one, other = sorted(self.graph.keys[key] for key in meet[:2])
        return bool(self.graph.apart(self.after)[other] >> one & 1)

    # ---------------------------------------------------------------- what is kept
    def result(self) -> dict[str, Any]:
        """What a record keeps of it."""
        return {"builds": self.others, "failed": self.failed, "made": self.builds, "pairs": size(self.graph.free), "turned": size(self.turned), "whole": self.is_whole,
                "untried": not self.is_sure or any(self.untried),
                "files": sum(text.startswith("file") for held in self.serial for text in held.values()),
                "unstable": sorted(self.whole(*one) for one in self.unstable), "apart": [self.whole(*one) for one in self.names(self.recorded)], "doubted": self.doubted(), "met": sorted(filter(os.path.lexists, self.met)), "shown": [*map(self.shown_labels, self.shown)]}

    def shown_labels(self, one: Shown) -> dict[str, Any]:
        """A difference, by the build and the labels of its two recipes."""
        build, first, second = one.recipes and self.graph.together(*one.recipes) or ("", "", "")
        return {"build": build, "first": first, "second": second, "path": one.built.path, "status": one.built.status, "text": one.built.otherwise, "beside": one.is_beside}


def between(order: Sequence[Key], log: Sequence[Key], steps: int) -> tuple[list[Key], Sequence[Key], int]:
    """The order after so many steps from one to another, if there are so many, in each of which two neighbours change places; the last two, the earlier one first; and
    how many steps that were."""
    last: Sequence[Key] = ()
    found, left = [*order], steps
    for place, key in enumerate(log):
        at = found.index(key)
        count = min(at - place, left)
        if count > 0:
            last, left = (found[at - count], key), left - count
            found.insert(at - count, found.pop(at))
    return found, last, steps - left
