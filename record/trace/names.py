"""One model of the name space: folders, links, and files with several names.

It is filled from the tree before the build, and each call of the trace is replayed in it, in the order of the trace.
Names outside of the folders that were walked are looked up on the disk when they are first met.
"""

import errno
import os
import re
import stat
from pathlib import Path
from typing import Dict, Iterable, Iterator, List, Optional, Sequence, Set, Tuple

from record import machine
from record.trace.spelling import folds, has_two_names

LINK_LIMIT = 40
MOUNT_ESCAPE = re.compile(r"\\([0-7]{3})")


class Inode:
    """A file (`f`), folder (`d`) or link (`l`); a folder knows its place, a file its names, and how many more it had when it was first met."""

    __slots__ = ("kind", "entries", "target", "parent", "name", "walked", "names", "unknown", "is_unmade")

    def __init__(self, kind: str, target: str = "") -> None:
        self.kind = kind
        self.target = target
        self.entries: Dict[str, "Inode"] = {}
        self.parent: Optional["Inode"] = None
        self.name = ""
        self.walked = False
        self.names: List[Tuple["Inode", str]] = []
        self.unknown = 0
        self.is_unmade = False  # somebody saw it, and nobody made it so far

    def path(self) -> str:
        """The folder's path."""
        parts: List[str] = []
        node: Inode = self
        while node.parent is not None:
            parts.append(node.name)
            node = node.parent
        return "/" + "/".join(reversed(parts))


@machine.asked
def mounts_below(*tops: str) -> List[str]:
    """Where file systems, or folders of them, are mounted: some folders, or what is below them."""
    try:
        lines = Path("/proc/self/mountinfo").read_text(errors="surrogateescape").split("\n")
    except OSError:
        return []
    found = {MOUNT_ESCAPE.sub(lambda found: chr(int(found.group(1), 8)), line.split(" ")[4]) for line in lines if line}
    return sorted(path for path in found if (path + "/").startswith(tuple(top.rstrip("/") + "/" for top in tops)))


def join(folder: str, name: str) -> str:
    """The path of a name in a folder."""
    return folder + name if folder.endswith("/") else folder + "/" + name


class Found:
    """Where a path leads: its real spelling, what is there, the links on the way, the first name that is not there."""

    __slots__ = ("path", "inode", "folder", "name", "links", "missing")

    def __init__(self, path: str, inode: Optional[Inode], folder: Optional[Inode], name: str, links: Sequence[str] = (), missing: str = "") -> None:
        self.path, self.inode, self.folder, self.name, self.links, self.missing = path, inode, folder, name, links, missing


class Names:
    """The name space; see the module."""

    def __init__(self) -> None:
        self.root = Inode("d")
        self.wheres: Dict[str, Found] = {}  # where folders are, by spelling; they hold until a folder or a link comes or goes
        self.before: Dict[str, str] = {}
        self.tops: List[str] = []
        self.above = {"/tmp", "/var/tmp"}  # folders that are there before the build: those of the system, and those above the tops  # guard: those-of-system
        self.absent: Set[str] = set()  # names outside of the walked folders that were not there
        self.numbers: Dict[Tuple[int, int], str] = {}  # folders that were walked, by device and number
        self.twice: List[Tuple[str, str]] = []  # folders with two names, as far as numbers say so
        self.long: List[str] = []  # folders in which a path is longer than the kernel takes
        self.files: Dict[Tuple[int, int], Inode] = {}  # files with several names, by device and number
        self.shared: Set[str] = set()  # copies of files that have names elsewhere too
        self.folds = False  # whether the file system takes `a` and `A` for one name

    def is_inside(self, path: str) -> bool:
        """Whether a path is in one of the folders that the build works in."""
        return any(path == top or path.startswith(top.rstrip("/") + "/") for top in self.tops)

    def walk(self, top: str) -> None:
        """Takes in the tree below a real path, as it is now. A folder that is not there yet is empty, and made by the build."""
        self.tops.append(top)
        above = [str(path) for path in Path(top).parents][::-1]
        self.above.update(path for path in above if machine.isdir(path))  # guard: those-above-project
        if not machine.isdir(top):  # guard: tops
            self.absent.add(next(path for path in [*above, top] if not machine.isdir(path)))
            return
        node = self.folder(top)
        self.folds = self.folds or has_two_names(top)  # guard: folders-own
        todo = [(node, top)]
        self.before[top] = "d"
        while todo:
            node, path = todo.pop()
            node.walked = True
            for name, found in self.entries_of(path):
                child = self.made_of(found, join(path, name))
                self.put(node, name, child)
                self.before[join(path, name)] = child.kind
                if child.kind == "d":
                    self.note_number(join(path, name), found)
                    todo.append((child, join(path, name)))
            self.folds = self.folds or folds(path, node.entries)  # guard: its-files

    def entries_of(self, path: str) -> Iterator[Tuple[str, os.stat_result]]:
        """The names in a folder of the disk, and what stands there. What is too long to be asked for is noted; what the user may not see is left out."""
        try:
            names = machine.listdir(path)
        except OSError as error:
            self.long += [path] * (error.errno == errno.ENAMETOOLONG)
            return
        for name in names:
            try:
                yield name, machine.lstat(join(path, name))
            except (FileNotFoundError, PermissionError):
                continue
            except OSError as error:
                if error.errno != errno.ENAMETOOLONG:
                    raise
                self.long.append(path)
                return

    def note_number(self, path: str, found: os.stat_result) -> None:
        """A folder has one name, except where it is mounted a second time."""
        known = self.numbers.setdefault((found.st_dev, found.st_ino), path)
        self.twice += [(known, path)] if known != path else []  # guard: folders-with-two-names

    def mounted(self, mounts: Set[str]) -> List[str]:
        """What is wrong with names of which a mount has made two: the other name of a file may be anywhere."""
        twice = ["a folder is mounted a second time, so its files have two names: %s and %s" % pair for pair in self.twice if not mounts.isdisjoint(pair)]  # guard: folders-with-two-names-by-mount
        return twice + ["a file is mounted, so it has two names: " + path for path in sorted(mounts) if self.before.get(path) == "f"]  # guard: files-with-two-names

    def made_of(self, found: os.stat_result, path: str) -> Inode:
        """What the disk has, as a node of the model: one for all names of a file."""
        if stat.S_ISDIR(found.st_mode):
            return Inode("d")
        if stat.S_ISLNK(found.st_mode):
            return Inode("l", machine.readlink(path))
        if found.st_nlink > 1:  # guard: hard-links-from-before-build
            key = (found.st_dev, found.st_ino)
            if key not in self.files:  # guard: elsewhere-that-is-written
                self.files[key] = Inode("f")
                self.files[key].unknown = found.st_nlink
            self.files[key].unknown -= 1
            return self.files[key]
        return Inode("f")

    def share(self, path: str) -> None:
        """A file is a copy of one that has names elsewhere too."""
        inode = self.find("/", path, False).inode
        if inode is not None:
            inode.unknown = max(1, inode.unknown)
            self.shared.add(path)

    def folder(self, path: str) -> Inode:
        """The folder of a real path, with those above it."""
        node = self.root
        for part in Path(path).parts[1:]:
            child = node.entries.get(part)
            if child is None:
                child = Inode("d")
                self.put(node, part, child)
            node = child
        return node

    def put(self, folder: Inode, name: str, child: Inode) -> None:
        """Gives a node a name."""
        self.forget(child)
        self.forget(folder.entries.get(name))
        folder.entries[name] = child
        if child.kind == "d":
            child.parent, child.name = folder, name
        else:
            child.names.append((folder, name))

    def take(self, folder: Inode, name: str) -> Optional[Inode]:
        """Takes a name away."""
        child = folder.entries.pop(name, None)
        self.forget(child)
        if child is not None and child.kind != "d":
            child.names = [(f, n) for f, n in child.names if not (f is folder and n == name)]
        return child

    def forget(self, changed: Optional[Inode]) -> None:
        """A node gets or loses a name: where it is a folder or a link, spellings lead elsewhere."""
        if changed is not None and changed.kind != "f":
            self.wheres.clear()

    def ask(self, folder: Inode, name: str) -> Optional[Inode]:
        """What the disk has under a name of a folder that was not walked, now in the model."""
        path = "" if folder.walked else join(folder.path(), name)
        if not path or path in self.absent:  # guard: what
            return None
        try:
            child = self.made_of(machine.lstat(path), path)
        except OSError:
            return None
        self.put(folder, name, child)
        return child

    def find(self, base: str, path: str, follow: bool) -> Found:
        """Follows a path from a folder; `follow`: the last name too, where it is a link."""
        whole = path if path.startswith("/") else join(base, path)
        spelled, _, name = whole.rpartition("/")
        if name in ("", ".", ".."):
            return self.walk_along(whole, follow or path.endswith("/"))
        where = self.wheres.get(spelled) or self.where(spelled)
        node, here = where.inode, join(where.path, name)
        if node is None or node.kind != "d":
            return Found(here, None, None, "", where.links, where.missing or where.path)
        child = node.entries.get(name) or self.ask(node, name)
        if child is not None and follow and child.kind == "l":
            return self.walk_along(whole, True)
        return Found(here, child, node, name, where.links, "" if child else here)

    def where(self, spelled: str) -> Found:
        """Where the spelling of a folder leads. It is kept, but not where a file or a ring of links stands in the way."""
        found = self.walk_along(spelled, True)
        is_folder = found.inode is not None and found.inode.kind == "d"
        if is_folder or self.walk_along(found.missing or found.path, False).inode is None:
            self.wheres[spelled] = found
        return found

    def walk_along(self, path: str, follow: bool) -> Found:
        """Follows a path from the root, name by name."""
        todo = [p for p in reversed(path.split("/")) if p not in ("", ".")]
        node, links, hops = self.root, [], 0
        while todo:
            part = todo.pop()
            if part == "..":
                node = node.parent or self.root
                continue
            child = node.entries.get(part) or self.ask(node, part)
            if child is not None and child.kind == "d" and todo:
                node = child
                continue
            here = join(node.path(), part)
            if child is not None and child.kind == "l" and (todo or follow) and hops < LINK_LIMIT:  # guard: links-are-followed-when-they-are-met
                hops += 1
                links.append(here)
                if child.target.startswith("/"):
                    node = self.root
                todo += [p for p in reversed(child.target.split("/")) if p not in ("", ".")]
                continue
            if not todo:
                return Found(here, child, node, part, links, "" if child else here)
            return Found(os.path.normpath("/".join((here, *reversed(todo)))), None, None, "", links, here)
        return Found(node.path(), node, node.parent, node.name, links)

    def leads_to(self, folders: Iterable[str]) -> bool:
        """Whether a link from before the build leads to a folder below some folders of the root: a name that begins in a top may then end there."""
        real = (self.find("/", path, True).path for path, kind in self.before.items() if kind == "l")
        return any(path.split("/")[1] in folders and machine.isdir(path) for path in real)

    def aliases(self, inode: Optional[Inode]) -> List[str]:
        """All names of a file."""
        return [join(folder.path(), name) for folder, name in inode.names] if inode is not None else []

    def below(self, inode: Inode, path: str) -> Iterable[Tuple[str, Inode]]:
        """All names below a folder."""
        todo = [(inode, path)]
        while todo:
            node, where = todo.pop()
            for name, child in node.entries.items():
                yield join(where, name), child
                if child.kind == "d":
                    todo.append((child, join(where, name)))
