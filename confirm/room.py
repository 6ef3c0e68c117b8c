"""The room of a confirmation: a temporary folder with the copy of the project.

Where the system lets a process have mounts of its own, the copy lies for the build in the place of the project: it sees the same paths as ever, and the
project itself is out of its reach. Elsewhere the build runs in the temporary folder.
"""

from __future__ import annotations

import os
import tempfile
from collections.abc import Callable
from dataclasses import dataclass, field
from pathlib import Path

from confirm.races import CannotConfirm
from confirm.tree import names_its_folder
from record.folder import Missing
from record.orders import builds
from record.orders.builds import Plan, is_child_able
from record.watch.lay import leave

# What a make above hands down: it is none of this build's.
OF_MAKE = ("MAKELEVEL", "MAKEFLAGS", "MFLAGS", "MAKE_TERMOUT", "MAKE_TERMERR", "MAKEFILES", "OLDPWD")
# Where the copy goes if TMPDIR, TEMP or TMP names no other folder.
PLACES = ("/tmp", "/var/tmp", "/dev/shm")


def can_enter() -> bool:
    """Whether the system lets a process have mounts of its own."""
    return is_child_able(leave)


@dataclass
class Room(builds.Room):
    """The temporary folder, and whether builds see the copy in the place of the project."""

    is_in_place: bool = True
    taken: set[str] = field(default_factory=set)  # files that the recorded build wrote, and that the copy does not have at first

    def where(self, plan: Plan) -> str:
        """The folder of the project, as a build sees it."""
        return self.folder if self.is_in_place else str(self.trees(plan)[0])

    def enter(self, plan: Plan) -> None:
        if self.is_in_place:
            super().enter(plan)
        os.chdir(self.where(plan))

    def environment(self) -> dict[str, str]:
        return {**{name: it for name, it in super().environment().items() if name not in OF_MAKE}, "PWD": os.getcwd()}


def new_room(folder: str, note: Callable[[str], object]) -> Path:
    """A temporary folder that does not lie in the project. `note` is called where it is not in the one that was asked for."""
    named, refused = map(os.environ.get, ("TMPDIR", "TEMP", "TMP")), []
    for place in dict.fromkeys(filter(None, (*named, *PLACES))):
        if (os.path.realpath(place) + "/").startswith(folder.rstrip("/") + "/"):
            continue
        if os.path.isdir(place) and os.statvfs(place).f_flag & os.ST_NOEXEC:
            refused.append(f"{place}: no program may run there (noexec)")
            continue
        try:
            made = Path(tempfile.mkdtemp(prefix="race-confirm-", dir=os.path.realpath(place)))
        except OSError as error:
            refused.append(f"{place}: {error.strerror}")
            continue
        if refused:
            note(f"the copy of the project goes to {place} ({', '.join(refused)})")
        return made
    how = f"set TMPDIR to a folder that can be written, outside of {folder}"
    if refused:
        raise Missing(f"no folder for temporary files can be used ({', '.join(refused)}): {how}")
    raise CannotConfirm(f"each folder for temporary files lies in {folder}: {how}")


def settle(room: Room) -> None:
    """Decides where builds run; refuses a project that would write to itself from elsewhere."""
    room.is_in_place = can_enter()
    if room.is_in_place:
        return
    if found := names_its_folder(room.fresh(0), room.folder):
        raise CannotConfirm(f"{found} names the project's folder by its whole path, so a build of a copy would write to the project. "
                            "Where the system allows a process mounts of its own (user namespaces), the copy takes its place")
    for name, it in os.environ.items():
        if room.folder in it and name not in ("PWD", "OLDPWD", "PATH", "RACE", "_"):
            raise CannotConfirm(f"the variable {name} of the environment names the project's folder, so a build of a copy would write "
                                "to the project")
