"""Files of locks: who opens one to read it, and makes it where it is not there, as `flock FILE COMMAND` does, writes nothing into it.

Where nobody in a build changes such a file, it is there behind each recipe that locks it, and holds what it held before. So who is the first to
make it makes no difference, except to those who look whether it is there. What the commands under the lock do counts as ever.
"""

from typing import Dict, Set, Tuple

from record.build.tasks import Build
from record.trace.events import CREATED, LISTED, LOCKED, REMOVED, WRITTEN


def pass_locks(build: Build) -> None:
    """Tasks that only lock a file do not write it, where each task that asks for it comes behind one of them."""
    found: Dict[str, Set[Tuple[int, str]]] = {path: set() for task in build.tasks for kind, path, _ in task.events() if kind == LOCKED}  # which task did what to each
    for at, task in enumerate(build.tasks) if found else ():
        for kind, path, _ in task.events():
            if path in found and kind not in CREATED + LISTED:  # guard: what-is-under-the-lock
                found[path].add((at, kind))
    for path, done in found.items():
        makers, askers = {at for at, kind in done if kind == LOCKED}, {at for at, kind in done if kind != LOCKED}
        others = {at for at, task in enumerate(build.tasks) if path in task.writes} - makers
        is_changed = any(kind in WRITTEN + REMOVED for _, kind in done)
        is_seen = any(not any(build.is_before(maker, at) for maker in makers - {at}) for at in askers)  # guard: who-looks-at-one-behind-its-maker
        if not (is_changed or is_seen or others):  # guard: who-changes
            for at in makers:
                build.tasks[at].writes.discard(path)  # guard: who-makes-one-first
