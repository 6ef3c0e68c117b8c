"""The `.exists` files of Perl's makefiles, which say that a folder is there: several makes have one rule each for the same file.

The rule makes the folder, sets its mode, and touches the file, which stays empty. So it makes no difference which of these recipes runs,
or whether all do, where nothing compares the age of the file.
"""

import os
import re
from typing import Dict, Iterable, List, Set, Tuple

from record.build.tasks import grouped
from record.make.database import Base
from record.make.owners import Owners
from record.make.words import Words
from record.trace.events import LISTED, MADE_BEFORE, READ, REMOVED, WRITTEN
from record.trace.lives import Life

NAME = ".exists"
TOUCHES = ["-MExtUtils::Command", "-e", "touch", "--"]
Looks = Dict[Tuple[int, str], int]  # when a make looked at such a file, by id of its life, and path


def settle_exists(lives: List[Life], logs: Iterable[Words]) -> Tuple[Set[str], Looks]:
    """Leaves out such files, and says which they are, and when each make looked at one."""
    users = grouped((path, life) for life in lives for _, path in life.events if path.endswith("/" + NAME))
    bases = [one.base for words in logs for one in words.rounds if one.base is not None] if users else []
    listed = {os.path.dirname(path) for path in users} & {path for life in lives if users for kind, path in life.events if kind == LISTED}
    plain = {path for path in users if os.path.dirname(path) not in listed and all(is_plain(base, path) for base in bases)}  # guard: folders-that-are-listed
    found = {path for path in plain if all(is_marker(life, path) for life in users[path])}
    looks: Looks = {}
    for life in lives if found else ():
        for key in [key for key in life.events if key[1] in found]:
            looks[id(life), key[1]] = min(life.events.pop(key), looks.get((id(life), key[1]), 1 << 60))
    return found, looks


def credit_makes(owners: Owners, paths: Set[str], looks: Looks) -> None:
    """A make that found such a file would have made its folder: it counts as one that does, if its recipes there wait for that rule."""
    for make in owners.makes if paths else ():
        for one in make.words.rounds:
            for name in [name for name in one.nodes if name.endswith(NAME) and name not in one.must]:
                path = next((path for path in paths if is_name(name, path)), "")
                place, folder = looks.get((id(make.life), path), -1), os.path.dirname(path)
                users = [job for job in one.jobs if any(used.startswith(folder + "/") for _, used in job.work.events)]
                if place >= 0 and all(name in one.below(job.target) for job in users):  # guard: who-waits-for-rule
                    for work in (job.work for above in owners.makes for job in above.jobs if make in job.work.makes):
                        work.add(MADE_BEFORE, folder, place)


def is_marker(life: Life, path: str) -> bool:
    """Whether a process does no more with such a file than to touch it, or is a make that looks at it."""
    if life.is_make:
        return not {(READ, path), (WRITTEN, path), (REMOVED, path)} & life.events.keys()
    name = os.path.basename("".join(life.argv[:1]))
    is_touch = name == "perl" and life.argv[1:5] == TOUCHES or name == "touch" and len(life.argv) == 2  # guard: who-reads
    return is_touch and (REMOVED, path) not in life.events


def is_plain(base: Base, path: str) -> bool:
    """Whether such a file is needed by targets alone that are no files: so nothing compares its age."""
    return not any(target not in base.phony and any(is_name(one, path) for one in names) for target, names in base.prerequisites.items())  # guard: ages


def is_name(name: str, path: str) -> bool:
    """Whether a name as make spells it may be that of a file."""
    return name.endswith(NAME) and path.endswith("/" + re.sub(r"^(\.{0,2}/)+", "", name))
