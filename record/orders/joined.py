"""What the record of a build in another order adds to that of the serial one."""

from __future__ import annotations

import json
import os
from collections.abc import Container, Mapping, Sequence
from itertools import chain
from typing import Any, NamedTuple

from record.folder import replace
from record.kinds import is_of_folder
from record.orders.graph import Graph, numbers, pairs_of


class Contest(NamedTuple):
    """A recipe that makes a folder, with those that meet it there; the folder, whether it goes again, and who must not come before them."""

    row: list[int]
    path: str
    goes: bool
    behind: set[int]


def join(graph: Graph, other: Graph) -> None:
    """Adds to the tasks of a record what their recipes read and wrote in a build in another order; not to a part of one that is another part there."""
    for known, number in graph.known.items():
        there = other.known.get(known, "")
        rows = {row["task"]: row for row in other.rows.get(there, ())}
        for row in graph.rows[number]:
            about, own = graph.about(number, row["task"]), other.about(there, row["task"]) if row["task"] in rows else {}
            also = judged(other, there, rows[row["task"]]) if own and about.get("command") == own.get("command") else row  # guard: parts-of-other-numbers
            leaves = chain(*(one.get("leaves", ()) for one in (about, own) if about["kind"] == "recipe"))
            writes = {*row["writes"], *also["writes"], *leaves}  # guard: what-one-task-alone-writes-in-each
            row["reads"], row["writes"] = sorted({*row["reads"], *also["reads"]} - writes), sorted(writes)


def pass_questions(graph: Graph, untried: Sequence[int]) -> None:
    """Leaves out of the tasks of a record what other orders have tried out. What two recipes name stays where they have not run both ways, or the later one and what the
    earlier one needs, since make may look as soon as that has ended: for each recipe the earlier ones are given. And orders turn no process round that is left."""
    names, kept = ([set[str]() for _ in graph.tasks] for _ in range(2))
    for number, row in ((number, row) for number, rows in graph.rows.items() for row in rows):
        names[graph.recipe_of(number, row["task"])] |= {graph.whole(number, path) for path in (*row["reads"], *row["writes"])}
    behind = [sum(1 << at for at in numbers(free) if some and graph.tasks[at].before & some) for some, free in zip(untried, graph.free)]  # guard: questions-of-who-waits
    for one, other in pairs_of(some | more for some, more in zip(untried, behind)):
        for at in numbers(1 << one | 1 << other | graph.tasks[one].around | graph.tasks[other].around):
            kept[at] |= names[one] & names[other]  # guard: questions-of-pairs-not-turned
    for number, rows in graph.rows.items():
        left = {graph.whole(number, path) for row in rows if graph.about(number, row["task"]).get("left") for path in (*row["reads"], *row["writes"])}
        graph.rows[number] = [judged(graph, number, row, left | kept[graph.recipe_of(number, row["task"])]) for row in rows]


def keep(graph: Graph) -> None:
    """Writes the tasks of a record anew."""
    for number, rows in graph.rows.items():
        replace(graph.record / "builds" / number / "tasks", "".join(json.dumps(row, ensure_ascii=False, separators=(",", ":")) + "\n" for row in rows))


def judged(graph: Graph, number: str, row: Mapping[str, Any], kept: Container[str] = ()) -> dict[str, Any]:
    """A task of a build without what is tried out in other orders, other than some names: that a folder is there, and the names for which make alone asks."""
    asks = graph.about(number, row["task"]).get("asks", ())
    return {**row, "reads": [path for path in row["reads"] if not is_of_folder(path) and path not in asks or graph.whole(number, path) in kept],
            "writes": [path for path in row["writes"] if not is_of_folder(path) or graph.whole(number, path) in kept]}  # guard: what-a-left-process-meets


def contested(graph: Graph, records: Sequence[Graph]) -> list[Contest]:
    """Where recipes that nothing orders may meet at a folder. Each that makes it by a call that fails where it is there, or that saw it, and never found it there by
    that call, may look before another one makes the folder, and make it after that: unless it waits for one that does. And each that uses or removes a folder that
    goes again meets one that makes it."""
    found: list[Contest] = []
    for known, number in graph.known.items():
        ways: dict[str, dict[str, set[str]]] = {}
        for build in (graph.builds[number], *(other.builds[other.known[known]] for other in records if known in other.known)):
            for label, about in build["labels"].items():
                for how, paths in about.get("folders", {}).items():
                    for path in paths:
                        ways.setdefault(path, {}).setdefault(how, set()).add(label)
        for path, way in sorted(ways.items()):
            made, there, seen, used = ({graph.recipe_of(number, label) for label in way.get(how, ()) if (number, label) in graph.at} for how in ("made", "found", "seen", "used"))
            makers = made | there
            heads = {one for one in made | seen | there | used if not any(graph.tasks[one].before >> at & 1 for at in makers)}  # guard: who-waits-for-a-maker
            rows: dict[int, list[int]] = {}
            for late in sorted((heads | used) - there):  # guard: who-found-it-there
                for early in [one for one in sorted(makers if used else makers & heads) if one != late and graph.is_free(one, late)][:1]:
                    rows.setdefault(early, [early]).append(late)  # guard: who-looks-before-the-other-makes-it
            found += (Contest(row, graph.whole(number, path), False, makers) for row in rows.values())
            for late in sorted(used):
                others = sorted((one for one in makers if one != late and graph.is_free(one, late)), key=lambda one: (one not in heads, one > late, abs(one - late)))
                found += (Contest([early, late], graph.whole(number, path), True, set()) for early in others[:1])
    return sorted(found, key=lambda one: (one.row[0] > one.row[1], one.goes))  # the order of the serial build comes first
