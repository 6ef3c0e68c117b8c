"""Folders that recipes make and others use.

Who creates a name in a folder that recipes make, enters it, lists it or does not find it, and waits for none of them, meets each of them. Not who has seen
the folder before: it may make that itself. What comes of all this is tried out in other orders, and so is who of several makes a folder first.
"""

import os
import sys
from typing import Dict, List, Set, Tuple

from record.build.tasks import Build, Task
from record.trace.events import ABSENT, CREATED, ENTERED, FOLDER_FULL, FOLDER_REMOVED, LISTED, MADE, MADE_BEFORE, MAKES, SEEN
from record.trace.names import Names


def add_folders(build: Build, names: Names, before: Dict[str, str]) -> None:
    """A name for each two that meet on a folder; and for each task which folders it makes, found there when it tried and did not know of them, saw, and uses though
    they may go again."""
    makers: Dict[str, Set[int]] = {}
    gone = {path for task in build.tasks for kind, path, _ in task.events() if kind in FOLDER_REMOVED + FOLDER_FULL}
    for at, task in enumerate(build.tasks):
        known: Dict[str, int] = {}  # where it makes a folder, or looks for it
        for kind, path, place in task.events():
            if kind in SEEN + ABSENT + MADE:
                known[path] = min(place, known.get(path, place))
        for kind, path, place in task.events():
            if kind in MAKES and (path in gone or before.get(path) != "d" and path not in names.above):  # guard: there-before-build
                makers.setdefault(path, set()).add(at)
                task.folders.setdefault("found" if kind == MADE_BEFORE and place < known.get(path, sys.maxsize) else "made", set()).add(path)  # guard: who-knows-that-it-is-there
    for at, task in enumerate(build.tasks):
        task.folders["used"] = {name for _, path, _ in task.events() for name in (path, os.path.dirname(path.rstrip("/"))) if name in gone} if gone else set()
        task.folders["seen"] = {path for kind, path, _ in task.events() if kind in SEEN and path in makers}
        task.folders = {how: paths for how, paths in task.folders.items() if paths}
    for at, task in enumerate(build.tasks) if makers else ():
        for path in used(task, makers):
            if at not in makers[path] and not any(build.is_before(maker, at) for maker in makers[path]):  # guard: user-needs-maker
                for maker in (maker for maker in makers[path] if build.unordered(at, maker)):  # one sees what the other changes
                    name = "%s/~seen/%d/%d" % (path, at, maker)
                    task.reads.add(name)
                    build.tasks[maker].writes.add(name)
                    build.meanings[name] = "that the folder %s is there" % path


def used(task: Task, makers: Dict[str, Set[int]]) -> List[str]:
    """The folders that a task uses before it looks for them."""
    looks: Dict[str, int] = {}
    uses: List[Tuple[str, int]] = []
    for kind, path, place in task.events():
        if kind in SEEN and path in makers:
            looks[path] = min(place, looks.get(path, place))
        elif kind in CREATED + ENTERED + LISTED + ABSENT:
            uses.append((os.path.dirname(path.rstrip("/")) if kind == CREATED else path, place))
    return sorted({path for path, place in uses if path in makers and not looks.get(path, place) < place})  # guard: who-looks-for-the-folder
