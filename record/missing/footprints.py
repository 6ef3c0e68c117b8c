"""What each recipe of a build reads and writes in the project, for the tasks of an old tree."""

import os
import re
from typing import Iterable, List, Set, Tuple

from record.build.tasks import Task
from record.commands.shelltext import is_removal
from record.commands.system import is_below
from record.make.graph import MakeBuild
from record.tools.python import BYTE_CODE
from record.trace.events import ABSENT, LISTED, MAKES, REMOVED
from record.trace.names import Names

CHANGES = "WCD"
FIXED = re.compile(r"/\.git/objects/|/CMakeFiles/[^/]+\.dir/cmake_clean_target\.cmake$")  # no edit changes what git names by its sum, or CMake writes


class Footprints:
    """What each recipe of a build reads and writes in the project."""

    def __init__(self, build: MakeBuild, names: Names) -> None:
        self.build, self.names = build, names
        self.reads: List[Set[str]] = [set() for _ in build.tasks]
        self.writes: List[Set[str]] = [set() for _ in build.tasks]
        self.folders: List[Set[str]] = [set() for _ in build.tasks]  # that it makes, or finds made
        self.own_looks: List[Set[str]] = [set() for _ in build.tasks]
        # What is looked at and no task holds: it is taken that it stays as it is.
        self.outside: Set[str] = set()
        self.looks: Set[str] = set()  # asked for, and not read; links; folders that were listed
        self.absent: Set[str] = set()
        self.set_back: Set[str] = set()  # names whose time a recipe sets
        self.gone: Set[str] = set()  # files that are read, and that somebody else makes and removes
        for at, task in enumerate(build.tasks):
            for kind, path in self.events(task):
                self.take(at, kind, path)
        self.written = set().union(*self.writes)
        for at, task in enumerate(build.tasks):
            self.writes[at] |= self.removed_later(at, task)  # guard: what-recipe-removes-later
        self.drop_temporaries()
        self.changes = [reads & writes for reads, writes in zip(self.reads, self.writes)]
        # What can change and matter: files that are written here, or that are there and are no links.
        read = set().union(*self.reads) - self.written
        self.looks |= {path for path in read if names.before.get(path) == "l"}
        self.gone |= {path for path in read if path not in names.before and not os.path.lexists(path)}  # guard: temporaries-of-others
        inputs = self.written | {path for path in read - self.looks if not os.path.isdir(path) and not FIXED.search(path)}
        for at, task in enumerate(build.tasks):
            # Names for which it looks, and that it finds otherwise in a later build: there, or gone.
            found = {path for kind, path in self.events(task) if kind in "NSl" and os.path.lexists(path) == (kind == "N")} & self.written  # guard: what-later-recipes-make
            self.reads[at] = inputs.intersection(self.reads[at] | found) - self.writes[at]
            self.looks |= self.own_looks[at] - self.reads[at] - self.written  # guard: looks-at-what-others-read
        self.looks |= {path for path in self.written if os.path.islink(path)}  # guard: links-that-are-made
        self.absent -= self.written

    def events(self, task: Task) -> Iterable[Tuple[str, str]]:
        """What a recipe did."""
        return (event for work in task.works for event in work.events) if task.kind == "recipe" else ()

    def take(self, at: int, kind: str, path: str) -> None:
        """One event."""
        name = path.rstrip("/")
        if kind == "t" and not os.path.isdir(name):
            self.set_back.add(name)
        code = BYTE_CODE.match(name)
        if kind not in "RSlNLWCDME" or code and kind != "R":  # Python keeps what it has compiled, and holds it against the source
            return
        name = code.group(1) + code.group(2) + ".py" if code else name
        if not self.names.is_inside(name):
            if kind == "R":
                self.outside.add(name)
        elif kind in MAKES or path.endswith("/"):
            self.folders[at].add(name)
        elif kind in CHANGES:
            self.writes[at].add(name)
        elif kind == "R":
            self.reads[at].add(name)
        else:
            (self.absent if kind == "N" else self.own_looks[at]).add(name)

    def removed_later(self, at: int, task: Task) -> Set[str]:
        """What a recipe finds nothing to remove of in this build, and what another recipe makes: a later build has it when the first one runs."""
        lives = [life for work in task.works for life in work.lives]
        removing = [life for life in lives if is_removal(life.argv)]
        listing = [life for life in lives if life in removing or life.children and all(is_removal(child.argv) for child in life.children)]  # guard: what-is-removed
        plain, listed = ({path.rstrip("/") for life in some for event, path in life.events if event == kind} for kind, some in ((ABSENT, removing), (LISTED, listing)))
        others = set().union(*(writes for other, writes in enumerate(self.writes) if other != at)) - self.writes[at] if plain | listed else set()
        return {path for path in others if any(is_below(path, name) for name in plain) or os.path.dirname(path) in listed}  # guard: trees-that-it-removes-later

    def drop_temporaries(self) -> None:
        """Names that are gone before and after the build, where each recipe that touches them makes and removes them itself."""
        gone = {path for path in self.written if path not in self.names.before and not os.path.lexists(path)}
        for task, reads, writes in zip(self.build.tasks, self.reads, self.writes):
            gone -= (reads | writes) - {path for kind, path in self.events(task) if kind == REMOVED}  # guard: temporaries
        for paths in (*self.reads, *self.writes, self.written):
            paths.difference_update(gone)
