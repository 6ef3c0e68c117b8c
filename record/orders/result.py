"""What builds in other orders say of a record: what differed is a race."""

from __future__ import annotations

import os
from collections.abc import Mapping
from dataclasses import replace
from typing import Any, Optional

from record.build.text import relative
from record.judge import Race, Verdict

Orders = Optional[Mapping[str, Any]]  # `orders` of record.json


def tried(orders: Orders, number: str, folder: str, verdict: Verdict) -> Verdict:
    """What is known of a build: what `race` said of it, and what its recipes left in other orders."""
    if orders is None or verdict.refused:
        return verdict
    races = [*verdict.races]
    known = {(race.first, race.second) for race in races}
    more = [one for one in orders["shown"] if one["build"] == number and (one["first"], one["second"]) not in known]
    races += [Race(relative(folder, one["path"]) or one["second"], one["first"], "runs", one["second"], "runs") for one in more]
    shown = {(one["first"], one["second"]) for one in orders["shown"]}
    races.sort(key=lambda race: (race.first, race.second) not in shown)
    edges = ["%s: %s" % (race.second, race.first) for race in races]
    return replace(verdict, races=races, pairs=verdict.pairs + len(more), fix=[line for line in verdict.fix if line in edges] + ["%s: %s" % (one["second"], one["first"]) for one in more],
                   is_fixed=verdict.is_fixed and not more, status=int(bool(races)))


def seen(orders: Orders, first: str, second: str) -> list[str]:
    """What differed where the second of two recipes ran before the first, or beside it."""
    found = next((one for one in (orders or {}).get("shown", ()) if (one["first"], one["second"]) == (first, second)), None)
    if found is None:
        return []
    return ["  seen where %s runs %s %s:" % (second, "beside" if found["beside"] else "before", first), *("    " + line for line in found["text"])]


def whatever(orders: Orders) -> list[str]:
    """What differs with several jobs, whatever the order of the recipes is; or where no two recipes of one make show the difference."""
    return [line for one in (orders or {}).get("shown", ()) if not one["build"] for line in one["text"]]


def left(orders: Orders) -> str:
    """What the builds of a safe record left, behind the count of its pairs."""
    return "; %d %s in other orders left the same %d files." % (orders["builds"], "build" if orders["builds"] == 1 else "builds", orders["files"]) if orders else "."


def premise(orders: Orders) -> list[str]:
    """What a yes takes for granted of other orders, if there are any."""
    more = "" if not orders or orders.get("whole", True) else ", and more was to be tried out"
    return ["each recipe does in every order what it did in these builds (%d of %d pairs ran both ways%s)" % (orders["turned"], orders["pairs"], more)] if orders and (orders["pairs"] or more) else []


def uncompared(orders: Orders, folder: str, most: int) -> list[str]:
    """Names that two serial builds leave otherwise, and those that all builds in copies do."""
    found = []
    for key, text in (("unstable", "two builds in one order differ in %s, so other orders are not compared there"), ("apart", "all builds in copies leave %s otherwise than the recorded one")):
        names = [os.path.relpath(name, folder) for name in (orders or {}).get(key, ())]
        more = " and %d more" % (len(names) - most) if len(names) > most else ""
        found += [text % (", ".join(names[:most]) + more)] if names else []
    return found
