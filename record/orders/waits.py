"""Tries out waits that may have been luck: the project is built again in copies, in which processes are held at their end (holding.py).

The last of its children for which a process waits is known (record/trace/lives.py), so one that is held until all others have ended shows by the trace
whether it is waited for; so does one without whose end nothing goes on. Of children that run at once one is held in a build. A wait that is known in one
of the builds is known; a race of one of them is a race of the project, and that record counts.
"""

from __future__ import annotations

import pickle
import shutil
from collections.abc import Callable
from contextlib import closing
from pathlib import Path
from typing import cast

from record.folder import Record
from record.judge import judge
from record.orders.builds import OWN, Plan, Room, Running
from record.orders.exploring import say_how_many
from record.orders.trees import remove
from record.report import read_json
from record.trace.lives import Child

MOST = 4  # builds, all at once: where one process has more such children at a time the others are not tried out


def races_of(record: Path, race: str) -> set[tuple[str, str, str, str]]:
    """All races of a record: the build, the path and the labels."""
    found = set()
    for number in read_json(record / "record.json")["builds"]:
        folder = record / "builds" / number
        found |= {(number, one.path, one.first, one.second) for one in judge(race, folder / "tasks", read_json(folder / "build.json")["folder"]).races}
    return found


def try_waits(room: Room, record: Record, out: Path, race: str, most: int, meanwhile: Callable[[], object]) -> Record:
    """The record that counts: with what is known of its waits, or another one with a race that is not in it. `meanwhile`: what is done as they are built."""
    plans = [Plan("held%d" % number, {}, OWN, is_recorded=True, ends=frozenset(row), processor=number + 2) for number, row in enumerate(record.apart[:min(MOST, most)])]
    say_how_many(record, ", in which processes are held at their end", len(plans))
    races = races_of(out, race) if plans else set()
    with closing(Running(room)) as running:
        running.begin(*plans)
        meanwhile()
        made = [running.result(plan.name) for plan in plans]
    known: set[Child] = {*record.known}
    for built in made:
        place = room.place(built.plan)
        other = cast(Record, pickle.loads((place / "kept").read_bytes())) if built.status == 0 else record
        if built.status == 0 and not other.holes:
            known |= other.known
            if races_of(place / "record", race) - races:  # guard: races-of-build-that-holds
                shutil.rmtree(out)
                shutil.copytree(place / "record", out)
                record = other
        remove(place)
    record.settle_luck(known)
    return record
