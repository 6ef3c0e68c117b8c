"""A record as what `race check --makefile` reads: the listing of the tree before the build, and a footprint for each recipe."""

import json
import os
from pathlib import Path
from typing import Dict, Iterator, List, Set

from record import machine
from record.build.tasks import Task
from record.build.text import relative, shown
from record.make.graph import MakeBuild
from record.trace.events import CREATED, LOOKS, REMOVED, WRITTEN
from record.trace.names import Names


def listing(build: MakeBuild, names: Names) -> List[str]:
    """The files, folders and links from before the build, and what make found elsewhere."""
    outside = (node.path for node in build.graph.nodes.values() if not (names.is_inside(node.path) or node.jobs or node.phony))
    return sorted(relative(build.folder, path) for path in (names.before.keys() - {build.folder}).union(filter(machine.lexists, outside)))


def touched(task: Task, kinds: str, names: Names) -> Set[str]:
    """The names below the tops that a recipe has these events on."""
    return {path for work in task.works for kind, path in work.events if kind in kinds and not path.endswith("/") and names.is_inside(path)}


def footprints(build: MakeBuild, names: Names) -> Iterator[Dict[str, object]]:
    """A line for each recipe that ran. Who lists a folder reads each name that comes or goes there. Names of folders that it makes stand for something else, as
    in the tasks."""
    root = build.folder
    inside: Dict[str, Set[str]] = {}
    for path in (path for task in build.tasks for path in touched(task, CREATED + REMOVED, names)):
        inside.setdefault(os.path.dirname(path), set()).add(path)
    for task in build.tasks:
        if task.kind == "recipe":
            writes = task.writes | touched(task, WRITTEN + CREATED + REMOVED, names)  # guard: footprints
            reads = (task.reads | touched(task, LOOKS, names)).union(*(inside.get(folder, ()) for folder in task.lists)) - writes  # guard: lists-in-footprints
            folders = {path for path in reads if names.before.get(path) == "d"} - writes
            yield {"target": shown(task.node.name), "reads": sorted(relative(root, p) for p in reads - folders - {root}),
                   "writes": sorted(relative(root, p) for p in writes)}


def write_footprints(folder: Path, build: MakeBuild, names: Names) -> None:
    """Both texts of one build."""
    (folder / "listing").write_text("".join(line + "\n" for line in listing(build, names)), encoding="utf-8", errors="surrogateescape")
    lines = (json.dumps(line, ensure_ascii=False, separators=(",", ":")) + "\n" for line in footprints(build, names))
    (folder / "footprints").write_text("".join(lines), encoding="utf-8", errors="backslashreplace")
