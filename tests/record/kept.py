"""Recordings that `tests/record/run --keep DIR` keeps, and that `tests/record/guards --kept DIR` judges again with a guard off.

A guard that acts when the build has ended, as nearly all do, sees the same trace whether the build runs or not. So nothing is built for it: all
else of the recorder runs, and in the place of `run_build` (main.py) stand the trace, make's words and the tree that the build of the same test left. Where the
test asks for another build, or its tree is another one before the build, it builds.
"""

import hashlib
import os
import pickle
import stat
import sys
import tempfile
from dataclasses import dataclass, field
from pathlib import Path
from typing import Any, Callable, Dict, Iterable, List, Optional, Sequence, Tuple

# Modules that act before the build has ended. A guard of theirs builds anew; test_kept.py wants each one that does to stand here, or among those that
# also read the kept trace.
BUILDING = {"main.py", "entry.py", "folder.py", "processor.py", "progress.py", "orders/processes.py", "trace/pipe.py", "trace/unfollowed.py", "trace/classes.py", "trace/sifting.py", "ninja/retry.py", "ninja/clean.py", "fresh.py", "command.py",
            "watch/lay.py", "watch/library.py", "watch/elf.py"}
READING = {"trace/strace.py"}  # what reads a trace ahead, too
PREFIXES = ("race-record-", "race-watch-")  # of the folders that the recorder makes for itself
LEFT_OUT = {"sifted", "sifted.part"}  # what the recorder makes there anew
MOST = 1 << 22  # bytes of a tree
Entry = Tuple[str, int, int, bytes]  # a name below a folder, its mode and time, and what it holds or leads to


def may_replay(modules: Iterable[str]) -> bool:
    """Whether modules that are edited act when the build has ended, and no sooner."""
    return BUILDING.isdisjoint(modules)


def tree_of(folder: str, left_out: "set[str] | frozenset[str]" = frozenset()) -> Optional[List[Entry]]:
    """All that is below a folder, folders first; None where that cannot be read, or put there again as it was."""
    try:
        return entries_of(folder, left_out)
    except OSError:  # such as a path that is too long
        return None


def entries_of(folder: str, left_out: "set[str] | frozenset[str]") -> Optional[List[Entry]]:
    """The same, where all can be read."""
    found, todo, size = [], [""], 0
    while todo:
        at = todo.pop()
        for one in os.scandir(os.path.join(folder, at)):
            about, name, data = one.stat(follow_symlinks=False), os.path.join(at, one.name), b""
            if not at and one.name in left_out:
                continue
            if stat.S_ISDIR(about.st_mode):
                todo.append(name)
            elif stat.S_ISLNK(about.st_mode):
                data = os.fsencode(os.readlink(one.path))
            elif stat.S_ISREG(about.st_mode) and about.st_nlink == 1 and size + about.st_size < MOST:
                with open(one.path, "rb") as file:
                    data = file.read()
            else:
                return None
            size += len(data)
            if about.st_uid != os.geteuid() or about.st_mode & (stat.S_ISUID | stat.S_ISGID | stat.S_ISVTX) or os.listxattr(one.path, follow_symlinks=False):
                return None
            found.append((name, about.st_mode, about.st_mtime_ns, data))
    return found


def digest(tree: List[Entry]) -> bytes:
    """What differs where names, modes or contents do. The times are those of the test, which makes its files anew."""
    return hashlib.sha256(repr(sorted((name, mode, data) for name, mode, _, data in tree)).encode("utf-8", "surrogateescape")).digest()


def clear(folder: str, tree: List[Entry]) -> None:
    """Removes what is below a folder, except the folders of a tree."""
    kept = {name for name, mode, _, _ in tree if stat.S_ISDIR(mode)}
    for at, folders, files in os.walk(folder, topdown=False):
        for name in files + folders:
            path = os.path.join(at, name)
            if not os.path.isdir(path) or os.path.islink(path):
                os.unlink(path)
            elif os.path.relpath(path, folder) not in kept:
                os.rmdir(path)


def put(folder: str, tree: List[Entry]) -> None:
    """Puts a tree below a folder. Folders that are there stay the same ones."""
    for name, mode, _, data in tree:
        path = os.path.join(folder, name)
        if stat.S_ISDIR(mode):
            os.makedirs(path, exist_ok=True)
        elif stat.S_ISLNK(mode):
            os.symlink(data, os.fsencode(path))
        else:
            with open(path, "wb") as file:
                file.write(data)
    for name, mode, time, _ in reversed(tree):  # what is in a folder before the folder
        path = os.path.join(folder, name)
        if not stat.S_ISLNK(mode):
            os.chmod(path, stat.S_IMODE(mode))
        os.utime(path, ns=(time, time), follow_symlinks=False)


@dataclass
class Recording:
    """One build of a test, and what it left."""

    args: List[str]
    environment: Dict[str, str]
    rooms: List[str] = field(default_factory=list)  # the folders that the recorder made for itself, in order
    asked: Any = None  # the words and the tops of the build
    before: bytes = b""  # the digest of the tree before
    given: Any = None  # the status and the seconds
    spool: List[Entry] = field(default_factory=list)
    said: List[Entry] = field(default_factory=list)  # what makes said
    tree: List[Entry] = field(default_factory=list)
    printed: List[Tuple[int, int]] = field(default_factory=list)  # of each stream: what the recorder itself had printed before, and then in all


def printed() -> Tuple[int, int]:
    """How many bytes this process has printed itself, on both streams."""
    counts = []
    for stream in (sys.stdout, sys.stderr):
        stream.flush()
        counts.append(int(stream.buffer.raw.written))  # type: ignore[union-attr]
    return counts[0], counts[1]


class Place:
    """Where the recordings of one project of a test are kept."""

    def __init__(self, folder: Path, name: str, keeps: bool) -> None:
        self.folder, self.name, self.keeps = folder, name, keeps
        self.count = 0
        self.room = ""

    def room_of(self, prefix: str, below: Optional[str]) -> "tempfile.TemporaryDirectory[str]":
        """The folder of the project: that in which it was recorded."""
        path, make = self.folder / (self.name + ".room"), tempfile.mkdtemp
        if self.keeps or not path.exists():
            room = tempfile.TemporaryDirectory(prefix=prefix, dir=below)
            if self.keeps:
                path.write_text(room.name)
        else:
            tempfile.mkdtemp = lambda *_, **__: made(path.read_text()) or make(prefix=prefix, dir=below)  # type: ignore[assignment]
            try:
                room = tempfile.TemporaryDirectory(prefix=prefix, dir=below)
            finally:
                tempfile.mkdtemp = make
        self.room = os.path.realpath(room.name)
        return room

    def watched(self, work: Callable[[], int], args: Sequence[str]) -> Callable[[], int]:
        """What runs the recorder in a child, and keeps what its build leaves, or takes what was kept."""
        self.count += 1
        path = self.folder / ("%s.%d" % (self.name, self.count))
        if self.keeps:
            return lambda: keep(work, Recording(list(args), dict(os.environ)), self.room, path)
        return (lambda: replay(work, list(args), self.room, path)) if path.exists() else work

    def end(self, stdout: bytes, stderr: bytes) -> None:
        """Keeps what the child has printed."""
        path = self.folder / ("%s.%d" % (self.name, self.count))
        if self.keeps and path.exists():
            path.with_name(path.name + ".printed").write_bytes(pickle.dumps((stdout, stderr)))


def made(path: str) -> str:
    """A folder that is made; nothing where it is there."""
    try:
        os.mkdir(path, 0o700)
    except OSError:
        return ""
    return path


def keep(work: Callable[[], int], kept: Recording, room: str, path: Path) -> int:
    """Runs the recorder, and keeps what its build leaves, if it is one build that can be put there again."""
    import record.main as main

    build, make, leave, whole = main.run_build, tempfile.mkdtemp, os._exit, []

    def run_build(words: List[str], spool: Path, tops: List[str], *how: Any) -> Tuple[int, float]:
        tree, kept.printed = tree_of(room), [printed()]
        kept.asked, kept.given = (words, tops), build(words, spool, tops, *how)
        left = tree_of(room), tree_of(str(spool), LEFT_OUT), tree_of(str(how[0].said))
        whole.append(tree is not None and None not in left)
        if whole[-1]:
            kept.before, kept.tree, kept.spool, kept.said = digest(tree or []), left[0] or [], left[1] or [], left[2] or []
        return kept.given  # type: ignore[no-any-return]

    def mkdtemp(suffix: Any = None, prefix: Any = None, dir: Any = None) -> str:  # noqa: A002
        found = make(suffix, prefix, dir)
        kept.rooms += [found] if prefix in PREFIXES else []
        return found

    def _exit(status: int) -> None:
        if whole == [True]:
            kept.printed.append(printed())
            path.write_bytes(pickle.dumps(kept))
        leave(status)

    main.run_build, tempfile.mkdtemp, os._exit = run_build, mkdtemp, _exit  # type: ignore[assignment]
    return work()


def replay(work: Callable[[], int], args: List[str], room: str, path: Path) -> int:
    """Runs the recorder, and in the place of the build takes what it left."""
    import record.main as main

    kept: Recording = pickle.loads(path.read_bytes())
    if kept.args != args:
        return work()
    os.environ.clear()  # the recorder reads it too, such as where its own shell was
    os.environ.update(kept.environment)
    build, make, rooms, used = main.run_build, tempfile.mkdtemp, list(kept.rooms), []

    def run_build(words: List[str], spool: Path, tops: List[str], *how: Any) -> Tuple[int, float]:
        tree = tree_of(room)
        if used or rooms or (words, tops) != kept.asked or tree is None or digest(tree) != kept.before:
            return build(words, spool, tops, *how)
        used.append(True)
        put(str(spool), kept.spool)
        put(str(how[0].said), kept.said)
        clear(room, kept.tree)
        put(room, kept.tree)
        main.sift(spool / "trace", tops, spool / "sifted", counting=main.counting(how[0]))
        show(kept, path)
        return kept.given  # type: ignore[no-any-return]

    def mkdtemp(suffix: Any = None, prefix: Any = None, dir: Any = None) -> str:  # noqa: A002
        return prefix in PREFIXES and rooms and made(rooms[0]) and rooms.pop(0) or make(suffix, prefix, dir)  # (one that is there stays in the list: then it builds)

    main.run_build, tempfile.mkdtemp = run_build, mkdtemp  # type: ignore[assignment]
    return work()


def show(kept: Recording, path: Path) -> None:
    """Prints what the build has printed: what came between what the recorder itself did."""
    texts: Tuple[bytes, bytes] = pickle.loads(path.with_name(path.name + ".printed").read_bytes())
    printed()
    for number, text in enumerate(texts):
        before, whole = kept.printed[0][number], kept.printed[1][number]
        part = memoryview(text)[before:len(text) - (whole - before)]
        while part:
            part = part[os.write(number + 1, part):]


@dataclass
class Current:
    """The test that runs, if its recordings are kept or taken."""

    folder: Optional[Path] = None
    keeps: bool = False
    test: str = ""
    count: int = 0

    def begin(self, test: str, folder: Optional[Path], keeps: bool) -> None:
        """A test begins."""
        self.test, self.folder, self.keeps, self.count = test, folder, keeps, 0

    def place(self) -> Optional[Place]:
        """Where the recordings of its next project are."""
        self.count += 1
        return None if self.folder is None else Place(self.folder, "%s.%d" % (self.test, self.count), self.keeps)


CURRENT = Current()
