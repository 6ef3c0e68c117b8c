"""How the library comes into make, and into make alone: a copy of make that needs it lies over make, for the processes of a recorded build alone.

That takes a list of mounts of one's own. The system gives it to root, and in most places to a user who stays himself in a name space of users. Where it does
not, programs load the library by LD_PRELOAD, which each recipe then sees in its environment.
"""

import ctypes
import os
import shutil
import tempfile
from contextlib import suppress
from dataclasses import dataclass, field
from pathlib import Path
from typing import IO, Dict, Iterator, List, Optional, Sequence

from record.watch.elf import NotElf, Program
from record.watch.library import put_library

OWN_MOUNTS, OWN_USERS = 0x20000, 0x10000000  # for unshare
BIND, BELOW, FOLLOWS = 1 << 12, 1 << 14, 1 << 19  # for mount: a second name, all that is mounted below, and mounts that come from outside alone
NAMES, NINJAS = ("make", "gmake"), ("ninja", "ninja-build", "samu")
SHOWN = ("db_level", "new_job", "print_variable_data_base", "print_file_data_base")  # by a GNU make that can load objects
PRELOAD = "LD_PRELOAD"
LIBC = ctypes.CDLL(None, use_errno=True)


def makes_of(path: str, names: Sequence[str] = NAMES) -> List[str]:
    """The makes, or programs of other names, in the folders of a `PATH`, and where scripts look for make (`#!/usr/bin/make`), by their real paths."""
    places = [os.path.join(folder, name) for folder in [*path.split(os.pathsep), "/usr/bin"] for name in names if os.path.isabs(folder)]
    return list(dict.fromkeys(os.path.realpath(place) for place in places if os.access(place, os.X_OK) and os.path.isfile(place)))


def why_silent(make: str) -> str:
    """Why a program, which may be a script, cannot say what it does; nothing where it can."""
    try:
        data = Path(make).read_bytes()
        return "" if data[:2] == b"#!" or Program(data).shows(SHOWN) else "it shows no names to what it loads, so it is another make than GNU's, or was built without `load`"
    except (NotElf, OSError) as fault:
        return str(fault)


def mount(source: str, target: str, flags: int, kind: str = "none", options: str = "") -> bool:
    """Whether the system did what was asked."""
    return bool(LIBC.mount(os.fsencode(source), os.fsencode(target), kind.encode(), ctypes.c_ulong(flags), os.fsencode(options)) == 0)


def leave() -> bool:
    """Gives this process mounts of its own; whether the system lets it. Who is no root is himself in a name space of users, too."""
    user, group = os.geteuid(), os.getegid()
    if LIBC.unshare(OWN_MOUNTS | (OWN_USERS if user != 0 else 0)) != 0:
        return False
    if user != 0:
        for name, text in (("setgroups", "deny"), ("uid_map", "%d %d 1" % (user, user)), ("gid_map", "%d %d 1" % (group, group))):
            Path("/proc/self", name).write_text(text)
    return mount("none", "/", BELOW | FOLLOWS)


@dataclass
class Watch:
    """The folder of the library, in which each make has its file, and the makes over which their copies lie. `gate`: the socket at which recipes wait to begin,
    those of ninja too; nothing where none waits."""

    rooms: str
    gate: str = ""
    is_each: bool = False  # all lines of a recipe wait
    is_many: bool = False  # all recipes that are ready wait, whatever number of jobs a make has in its words
    covered: Dict[str, Path] = field(default_factory=dict)  # by make: its copy
    ninjas: Dict[str, Path] = field(default_factory=dict)  # the same of ninjas whose commands wait
    mounts: str = ""  # the list of mounts that the processes of the build have
    held: Optional[IO[bytes]] = None  # the same, open

    def __post_init__(self) -> None:
        self.room = Path(os.path.realpath(tempfile.mkdtemp(prefix="race-watch-", dir=self.rooms)))
        self.said, self.library = self.room / "said", self.room / "watch.so"
        self.library_word = os.fsencode("%s=%s" % (PRELOAD, self.library))  # in the environment
        self.said.mkdir()
        self.room.chmod(0o711)
        self.said.chmod(0o1733 if os.geteuid() == 0 else 0o700)  # root may start makes of other users

    def prepare(self, makes: Sequence[str]) -> None:
        """Puts the library in its place, and makes copies that need it; then looks whether the system lets them lie over the makes."""
        put_library(self.library)
        self.covered = self.copies(makes, SHOWN)
        if self.gate:
            self.ninjas = self.copies(makes_of(os.environ.get("PATH", os.defpath), NINJAS), ())
            (self.room / "gate").symlink_to(self.gate)
            for name in ["each"] * self.is_each + ["many"] * self.is_many:  # guard: number-of-jobs-in-words
                (self.room / name).touch()
            (self.room / "hold").symlink_to(next(iter([*self.covered.values(), *self.ninjas.values()])))
        self.covered = self.covered if self.can_be_laid() else {}

    def copies(self, programs: Sequence[str], shown: Sequence[str]) -> Dict[str, Path]:
        """Copies of programs that need the library, of those that show some names."""
        found: Dict[str, Path] = {}
        for one in programs:
            copy = self.room / ("%s-%d" % (os.path.basename(one), len(found)))
            with suppress(NotElf, OSError):
                program = Program(Path(one).read_bytes())
                if program.shows(shown):
                    copy.write_bytes(program.with_library(str(self.library)))
                    shutil.copystat(one, copy)
                    copy.chmod(0o755)
                    found[one] = copy
        return found

    def lay(self) -> bool:
        """Gives this process, and all that it starts, mounts of their own, in which the copies lie over the makes; whether they can run."""
        with suppress(OSError):
            return leave() and all(mount(str(copy), make, BIND) and os.access(make, os.X_OK) for make, copy in [*self.covered.items(), *self.ninjas.items()])
        return False

    def can_be_laid(self) -> bool:
        """Whether the system lets a process do so."""
        child = os.fork()
        if child == 0:
            os._exit(0 if self.lay() else 1)
        return os.waitpid(child, 0)[1] == 0

    def environment(self, given: Dict[str, str]) -> Dict[str, str]:
        """The environment of the build: as it is given, where the copies lie over the makes."""
        above = given.get(PRELOAD, "")
        return given if self.covered else {**given, PRELOAD: str(self.library) + (":" + above if above else "")}

    def note(self, pid: int) -> None:
        """Keeps which mounts the first process of the build has, where they are not those of this process. As long as they are open here, the system gives
        their number to no other process."""
        with suppress(OSError):
            self.held = open("/proc/%d/ns/mnt" % pid, "rb")  # guard: number-that-comes-again
            found = os.readlink("/proc/%d/ns/mnt" % pid)
            self.mounts = found if found != os.readlink("/proc/self/ns/mnt") else ""

    def left(self) -> Iterator[int]:
        """The processes of the build that run: they have its mounts, or its environment."""
        for pid in map(int, filter(str.isdigit, os.listdir("/proc"))):
            with suppress(OSError):  # it has ended, or is of another user
                is_own = os.readlink("/proc/%d/ns/mnt" % pid) == self.mounts if self.mounts else self.library_word in Path("/proc/%d/environ" % pid).read_bytes()
                if is_own:
                    yield pid

    def remove(self) -> None:
        """Takes the folder away, when the build has ended."""
        if self.held is not None:
            self.held.close()
        shutil.rmtree(self.room, ignore_errors=True)
