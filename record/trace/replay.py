"""Plays the events of a trace, in its order, in the name space, and keeps what each life of a process did."""

import os
import re
from pathlib import Path
from typing import Dict, List, Set, Tuple

from record.commands import shelltext
from record.commands.system import OF_SYSTEM
from record.trace.events import (
    ABSENT, BY_LIST, CHANGES, CREATED, ENTERED, FOLDER_REMOVED, LISTED, MADE, READ, REFUSED, REMOVED, SEEN, TREE_CHANGES, WRITTEN,
)
from record.trace.lives import Act, Life
from record.trace.names import Found, Inode, Names
from record.trace.proc import NUMBER, is_hidden, plain_path
from record.trace.strace import Begun, Call, Event, Unread

DEVICES = re.compile(r"/dev/(null|zero|full|u?random|tty\w*|ptmx|console|std(in|out|err)|fd(/.*)?|pts(/.*)?)$|/proc(/|$)|/sys(/|$)")

PROGRESS = "/CMakeFiles/Progress"
NAME_CHANGES = CREATED + REMOVED + MADE + FOLDER_REMOVED
KERNEL = ("/dev/", "/proc", "/sys")  # how a name begins that is a device, or that the kernel shows


class Replay:
    """Plays the events of a trace in the name space and keeps what each life did."""

    def __init__(self, names: Names, spool: str, real: str, folder: str) -> None:
        self.names, self.real = names, real
        self.own: Tuple[str, ...] = (spool,)  # folders of the recorder
        self.said = ""  # the one in which each make has a file for what it says
        self.silent: Set[str] = set()  # names of the files of makes that only answer
        self.covered: Set[str] = set()  # the makes over which copies lie that have the library
        self.unheard: Dict[int, str] = {}  # by id of a life: the words of a make that has not opened its file, as it has no library
        self.first_folder = folder
        self.lives: Dict[int, Life] = {}
        self.all: List[Life] = []
        self.place = 0
        self.begun: List[int] = []
        self.waiting: Dict[int, List[Event]] = {}
        self.sharing: Set[int] = set()  # who has begun to start a thread
        self.holes: List[str] = []
        self.sockets: List[str] = []
        self.locks: List[str] = []  # what was locked by somebody who does not wait for it, or not for long
        self.taken: Dict[int, List[str]] = {}  # by id of the first process of a recipe: what was locked by somebody who waits for it
        self.hard_links: List[str] = []
        self.outside: Dict[str, None] = {}  # names that changed outside of the project
        self.fresh: Set[str] = set()  # names that were surely absent when they were made
        self.progress: List[str] = []  # folders in which CMake counts what is built
        self.watchers: List[str] = []  # who lists the processes that run, or waits for changes of files
        self.changes: List[Tuple[int, str, str]] = []  # names that come and go, in order

    # ---------------------------------------------------------------- processes
    def life(self, pid: int) -> Life:
        """The life that has a process number now; a new one where it has none, of a parent that has begun to start a process, if that is clear."""
        life = self.lives.get(pid)
        if life is None or life.died <= self.place:  # guard: dead-process-is-another
            parents = [self.lives[one] for one in self.begun if one != pid]
            life = self.lives[pid] = Life(pid, born=self.place, folder=self.first_folder, adopted=not self.all)
            self.all.append(life)
            if parents:
                self.inherit(life, parents[-1])
                life.is_heir = True
                life.parent = parents[0] if len(parents) == 1 else None  # guard: what-is-above-one-that-is-seen-first
        return life

    def unknown(self) -> List[str]:
        """Names outside of the project that changed, and of which the disk alone says what they were before: they were not made surely, nor a folder above them."""
        return [path for path in self.outside if self.fresh.isdisjoint(map(str, (Path(path), *Path(path).parents)))]  # guard: names-in-folders-that-are-made

    def strays(self) -> List[str]:
        """Processes that did something, and of which nobody knows who started them: in a name space of its own a process has another number
        than in the trace. A thread may end with its process before the call that started it is finished."""
        known = [" ".join(life.argv)[:100] for life in self.all[1:] if not life.adopted and (life.ran or life.events or life.children)]  # guard: no-process
        return known + ["number %d" % pid for pid, events in self.waiting.items() if any(isinstance(event, Call) for event in events)]  # guard: several

    @staticmethod
    def inherit(child: Life, parent: Life) -> None:
        """What a process has from who started it: its folder, and until it runs a program of its own the words."""
        if not child.is_heir:  # else it may have changed these since  # guard: what-process-changed-before-its-start-is-finished
            child.folder = parent.folder
            child.course.files = {**parent.course.files}  # guard: descriptors-of-who-started-it
            child.cut = parent.cut
        child.argv = child.argv or parent.argv

    def play(self, event: Event) -> None:
        """One event of the trace; those of a process wait until it is known who started it."""
        self.place += 1
        if isinstance(event, Call) and not self.waiting:
            life = self.lives.get(event.pid)
            if life is not None and life.died > self.place:  # nearly always
                self.call(life, event)
                return
        pid = getattr(event, "pid", -1)
        if pid >= 0 and (pid in self.waiting or self.is_unclear(pid)):
            self.waiting.setdefault(pid, []).append(event)
        else:
            self.take(event)

    def is_unclear(self, pid: int) -> bool:
        """Whether a process is new, and several that differ may have started it, or it may be a thread that does not share its folder yet."""
        life = self.lives.get(pid)
        if life is not None and life.died > self.place:
            return False
        folders = {self.lives[one].folder for one in self.begun if one != pid}
        return not self.sharing.isdisjoint(self.begun) or len(folders) > 1  # guard: threads-wait-for-who-starts

    def take(self, event: Event) -> None:
        """One event of a process that is known."""
        if isinstance(event, Call):
            self.call(self.life(event.pid), event)
        elif isinstance(event, Unread):
            self.holes.append("a line of the trace cannot be read: " + event.text[:200])  # guard: hole
        elif isinstance(event, Begun):
            self.life(event.pid)
            self.begun.append(event.pid)
            self.sharing.update([event.pid] if event.shares else [])
        else:
            life = self.life(event.pid)
            life.died, life.has_failed = self.place, event.has_failed
            life.course.end_row(False)  # guard: waits-until-end

    def child(self, parent: Life, pid: int, flags: str) -> None:
        """A process has started another, or a thread, which is in one folder with it at all times. `flags`: those of the call."""
        child = self.lives.get(pid)
        if child is None or child.adopted:
            child = self.lives[pid] = Life(pid, born=self.place)
            self.all.append(child)
        if not child.ran:
            self.inherit(child, parent)
        child.parent, child.adopted = parent, True
        parent.children.append(child)
        course = parent.course
        if "CLONE_THREAD" in flags:  # guard: threads-are-one-process
            course.lives.append(child)
            child.course = course
        else:
            real = course.waiter if "CLONE_PARENT" in flags and course.waiter else course
            course.fork(child.course, self.place, "vfork" in flags.lower(), real)  # guard: parent-waits-for-program
        for event in self.waiting.pop(pid, []):
            self.take(event)

    # ---------------------------------------------------------------- events
    def put(self, life: Life, kind: str, path: str) -> None:
        """An event of a life, and an act of a make or ninja. Devices and the recorder's own files have none."""
        if path.startswith(KERNEL) and DEVICES.match(path) and not self.names.is_inside(path):  # guard: devices-are-no-files
            if is_hidden(kind, path):  # guard: numbers-hole
                self.put_bare(life, path)
            return
        if path.startswith(self.own):
            return
        if PROGRESS in path and shelltext.shows_progress(life.argv):  # guard: what-cmake-counts
            self.progress.append(path[:path.index(PROGRESS) + len(PROGRESS)])
            return
        if kind in TREE_CHANGES and not self.names.is_inside(path):
            self.outside[path.rstrip("/")] = None  # guard: names-outside-of-project
        if kind in (READ, ENTERED) and (life.is_ninja or life.is_make and life.number >= 0):
            life.acts.append(Act(self.place, kind, path))
        self.keep(life, kind, path)
        if kind in CHANGES:
            life.changed[path] = self.place
        if kind in NAME_CHANGES:
            self.changes.append((self.place, kind, path))

    def put_bare(self, life: Life, what: str) -> None:
        """A file or a folder is known by a number alone, as one whose name is longer than 4096 bytes. `what`: the call, or the path."""
        self.holes.append("a file is known by the number of its descriptor alone: %s of %s" % (what, " ".join(life.argv)[:100]))

    def keep(self, life: Life, kind: str, path: str) -> None:
        """Keeps the first place of an event, and the first one in each segment."""
        key = (kind, path)
        first = life.events.setdefault(key, self.place)
        if first < life.course.limit:
            life.course.note(key, first, self.place)

    def found(self, life: Life, path: str, follow: bool, base: str = "") -> Found:
        """Where a path leads a process, from its folder or from `base`; the links on the way are read. `follow`: also a link at the end."""
        if path.startswith(KERNEL):
            path = plain_path(life, path, self.lives)  # guard: processs-own-folder-in-proc
            found = Found(path, None, None, "") if NUMBER.match(path) else self.names.find(base or life.folder, path, follow)  # guard: not-by-recorders-own-numbers
        else:
            found = self.names.find(base or life.folder, path, follow)
        for link in found.links:
            self.put(life, READ, link)  # guard: links-on-way-are-read
            inode = self.names.find("/", link, False).inode
            if inode is not None and "/.." in inode.target:  # guard: what-link-says
                self.put_left(life, inode.target, os.path.dirname(link))
        if "/.." in path and (not OF_SYSTEM.match(path) or self.names.is_inside(os.path.normpath(path))):  # guard: folders-that-path-leaves-again
            self.put_left(life, path, base or life.folder)
        return found

    def put_left(self, life: Life, path: str, base: str) -> None:
        """Folders that a path enters and leaves again by `..`: `d/../f` is not there without d."""
        if NUMBER.match(path):  # guard: number-of-descriptor
            self.put_bare(life, path)
            return
        parts = [part for part in path.split("/") if part not in ("", ".")]
        for at, part in enumerate(parts[1:], 1):
            if part == ".." != parts[at - 1]:  # guard: last-folder-that-is-left
                left = self.names.find("/" if path.startswith("/") else base, "/".join(parts[:at]), True)
                if left.inode is not None and left.inode.kind == "d":
                    self.put(life, SEEN if life.is_make or life.is_ninja else ENTERED, left.path)

    def look(self, life: Life, path: str, ok: bool, follow: bool, kind: str = SEEN, base: str = "") -> Found:
        """A look at a path, which is an event of this kind where something is there (`ok`); what was found."""
        found = self.found(life, path, follow, base)
        self.put_look(life, found, ok, kind)
        return found

    def put_look(self, life: Life, found: Found, ok: bool, kind: str) -> None:
        """A look at what was found: an event of this kind where something is there (`ok`), else that it is absent, and the folder on the way too."""
        if kind == SEEN and not life.is_make and (LISTED, os.path.dirname(found.path)) in life.events:  # guard: looks-by-list
            kind = BY_LIST
        if ok and found.inode is None and found.folder is not None and found.folder.walked:
            found.inode = Inode("f")
            found.inode.is_unmade = True
            self.names.put(found.folder, found.name, found.inode)
        self.put(life, kind if ok else ABSENT, found.path)
        if not ok and found.missing and found.missing != found.path:
            self.put(life, ABSENT, found.missing)  # guard: folders-that-are-absent-on-way

    def put_absent(self, life: Life, found: Found, kind: str) -> None:
        """A name that could not be made: that its folder is absent counts too."""
        self.put(life, kind, found.path)
        if kind == SEEN:
            self.put(life, REFUSED, found.path)  # guard: links-that-could-not-be-made
        if found.missing and found.missing != found.path:  # guard: names-that-cannot-be-made
            self.put(life, ABSENT, found.missing)

    def create(self, life: Life, found: Found) -> None:
        """A file is created where nothing was there."""
        if found.inode is None and found.folder is not None:
            found.inode = Inode("f")
            self.names.put(found.folder, found.name, found.inode)
            self.put(life, CREATED, found.path)

    def write(self, life: Life, found: Found) -> None:
        """A file is written, by all its names; it is created where nothing was there."""
        self.create(life, found)
        self.put(life, WRITTEN, found.path)
        if found.inode is not None and found.inode.unknown > 0:  # guard: elsewhere
            self.hard_links.append(found.path)
        if found.inode is not None and len(found.inode.names) > 1:  # guard: write-is-of-all-names
            for other in self.names.aliases(found.inode):
                self.put(life, WRITTEN, other)

    def call(self, life: Life, call: Call) -> None:
        """One finished call."""
        raise NotImplementedError
