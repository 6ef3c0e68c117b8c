"""The folder of a record: what it holds, and how it is written."""

import hashlib
import json
import os
import shutil
import socket
import tempfile
from contextlib import contextmanager
from dataclasses import dataclass, field
from pathlib import Path
from typing import Any, Container, Dict, Iterable, Iterator, List, Optional, Set, Tuple

from record import VERSION, machine
from record.commands.system import is_below
from record.entry import in_one_step
from record.first_tree import FirstTree
from record.messages import reason
from record.places import Places
from record.build.assumptions import TEXTS, TRIED_OUT, Assumptions
from record.build.tasks import Build
from record.build.text import labels_of, lines_of, relative, shown
from record.trace.lives import Address, Child, apart

ROOMS = "/tmp" if os.path.isdir("/tmp") else None  # where temporary folders are made
NO_ROOM = "no folder for temporary files lets programs run (%s: they are mounted with noexec, or not for you): name one by TMPDIR that is not in the project"
APART = "the recorded build ran several recipes at once, and left %s otherwise than each build in a copy: record with one job"
NAMES = 12  # so many of the targets that were there before are named
INSIDE = ("apart", "configured", "first", "known", "late", "lucky", "markers", "outside", "touched", "up_to_date")  # what the record does not hold as it is


class Missing(Exception):
    """A tool or a file is not there, too old, in use, or may not do its work."""


class Idle(Exception):
    """Nothing was to be done, so there is nothing to record; the holes."""


class NotWhole(Exception):
    """A record of which a file is cut, changed or of another kind."""


def top_of(folder: str) -> str:
    """The project's top: the work tree of git that a folder lies in, or the folder itself."""
    return next((str(one) for one in (Path(folder), *Path(folder).parents) if machine.exists(str(one / ".git"))), folder)


def name_from(top: str, path: str) -> str:
    """A whole path from the project's top on, wherever that stands; one that has no folder in common with it stays whole."""
    return path if os.path.commonpath([top, path]) == "/" else os.path.relpath(path, top)


@contextmanager
def reading(folder: Path) -> Iterator[None]:
    """What is wrong with the files of a record, in one sentence."""
    try:
        yield
    except (AttributeError, IndexError, KeyError, TypeError, ValueError) as fault:
        raise NotWhole("%s is no whole record (%s: %s): record again, and report it if that comes again" % (folder, type(fault).__name__, fault)) from fault


@dataclass
class Record:
    """A build that has ended; its first hole says if it failed."""

    words: List[str]
    folder: str
    status: int
    seconds: float
    tools: Dict[str, str] = field(default_factory=dict)
    holes: List[str] = field(default_factory=list)
    assumptions: List[Dict[str, Any]] = field(default_factory=list)
    builds: List[str] = field(default_factory=list)
    warm: List[str] = field(default_factory=list)  # files that the build makes and that were there before
    configured: List[str] = field(default_factory=list)  # others that were there: what `./configure` made
    notes: List[str] = field(default_factory=list)
    hints: List[str] = field(default_factory=list)  # what to try: of a build that failed, who looks for what others make
    first: Optional[FirstTree] = None  # the tree that it started from
    up_to_date: List[str] = field(default_factory=list)  # files that the build makes, and that are part of that tree
    markers: List[str] = field(default_factory=list)  # files that say that a folder is there (record/tools/exists.py)
    lucky: Dict[str, Set[Child]] = field(default_factory=dict)  # by case of `luck`: the processes for which others have waited so
    apart: List[Set[Address]] = field(default_factory=list)  # the same in rows: those of one row can be held at their end in one build
    known: Set[Child] = field(default_factory=set)  # of those that were held at their end, and of others with the same parent: for whom each build waits
    late: Optional[Set[str]] = None  # what processes changed that ended after a make had run several recipes at once; none where none did
    outside: Set[str] = field(default_factory=set)  # names that changed outside of the project
    touched: Set[str] = field(default_factory=set)  # names there that somebody looked at, too
    orders: Optional[Dict[str, Any]] = None  # what builds in other orders came to
    missing: Optional[Dict[str, Any]] = None  # with --missing: what its answer takes for granted, and why there may be none

    def __post_init__(self) -> None:
        if self.status != 0:
            self.holes.append("the build ended with status %d" % self.status + (": signal %d stopped it" % -self.status if self.status < 0 else ""))  # guard: build-that-failed

    def bar(self, kinds: Container[str]) -> None:
        """What is taken for granted of these kinds bars a yes."""
        for one in self.assumptions:
            if one["kind"] in kinds:
                self.holes.append("--strict: %s (%d, such as %s)" % (one["text"], one["count"], one["example"]))
        self.assumptions = [one for one in self.assumptions if one["kind"] not in kinds]

    def settle_luck(self, known: Set[Child]) -> None:
        """Takes in for whom each build waits, as was tried out."""
        left = [example for example, waits in self.lucky.items() if not waits <= known]  # guard: waits-that-are-not-all-known
        for one in self.assumptions:
            if one["kind"] == "luck":
                one.update(count=len(left), example=shown(left[0]) if left else "")
        self.assumptions = [one for one in self.assumptions if one["count"]]

    def assume(self, kind: str, count: int, example: str) -> None:
        """Takes something for granted, if it is met."""
        if count:
            self.assumptions.append({"kind": kind, "count": count, "example": shown(example), "text": TEXTS[kind]})

    def try_out(self, orders: Dict[str, Any]) -> None:
        """Takes in what builds in other orders came to: what they try out is not taken for granted any more."""
        self.orders = orders
        met = orders.pop("met")
        if not any(one["kind"] == "outside" for one in self.assumptions):
            self.assume("outside", len(met), next(iter(met), ""))  # guard: names-that-each-build-has
        self.holes += orders["failed"]
        if not orders["shown"]:
            self.holes += [APART % path for path in orders["doubted"][:1]]  # guard: what-the-recorded-build-left
        self.assumptions = [one for one in self.assumptions if one["kind"] not in TRIED_OUT]  # guard: what-orders-try-out

    def text(self) -> str:
        """As it is written."""
        found: Dict[str, Any] = {"version": VERSION, **{name: value for name, value in vars(self).items() if name not in INSIDE and value is not None}}
        found["tree"] = self.first.text() if self.first else ""
        found["top"] = shown(top_of(self.folder))
        found["warm"] = {"count": len(self.warm), "example": shown(self.warm[0]) if self.warm else "", "names": [shown(name) for name in self.warm[:NAMES]]}
        return json.dumps(found, indent=1, ensure_ascii=True) + "\n"


def callers(builds: List[Build]) -> Dict[int, Dict[str, str]]:
    """By id of the process of a make or ninja: the build and the task that it ran inside, the innermost; none where no recipe ran it."""
    wanted, found = {id(build.make.life) for build in builds}, {}
    for number, build in enumerate(builds, 1):  # outer ones come first
        for label, task in zip(labels_of(build.tasks), build.tasks):
            for life in (life for work in task.works for life in work.lives if id(life) in wanted):
                found[id(life)] = {"build": "%03d" % number, "task": label}
    return found


def label_about(build: Build, at: int, places: Places, leaves: Set[str]) -> Dict[str, Any]:
    """What the label of a task stands for. Who waits for a recipe that leaves no file under its target's name does so behind `|`, or make would run it each time."""
    task, root, own = build.tasks[at], build.folder, build.about(at)
    edited, part = places.of(task.node.name, own), task.part

    def names(paths: Iterable[str]) -> List[str]:
        return sorted(relative(root, path) for path in paths)

    place = {key: shown(value) if isinstance(value, str) else value for key, value in own.items()}
    more: Dict[str, Any] = {
        "command": shown(part.words) if part else None, "left": part is not None and part.is_left,
        "asks": names(task.asks & task.reads), "lists": names(task.lists), "leaves": names(leaves),
        "folders": {how: names(paths) for how, paths in task.folders.items()},
        "order_only": task.kind == "recipe" and not machine.isfile(os.path.join(root, task.node.name)),  # guard: who-waits-for-what-leaves-no-file
        "place": [shown(edited[0]), edited[1]] if edited else [],
        "expanded": task.kind == "recipe" and not any(work.lives for work in task.works),
    }
    return {"target": shown(task.node.name), "kind": task.kind, **place, **{key: value for key, value in more.items() if value not in (None, False, [], {})}}


def write_build(folder: Path, build: Build, within: Optional[Dict[str, str]], record: Record) -> None:
    """One round: its tasks, what its labels and names stand for, and the task `within` which it ran."""
    folder.mkdir(parents=True)
    root, labels, places = build.folder, labels_of(build.tasks), Places(build.folder)
    leaves: Dict[int, Set[str]] = {}  # by id of a target: what its recipe leaves, and no other task touches
    for task in build.tasks:
        leaves.setdefault(id(task.node), set()).update(task.leaves)
    about = {label: label_about(build, at, places, leaves[id(build.tasks[at].node)]) for at, label in enumerate(labels)}
    edges = 0
    with open(folder / "tasks", "w", encoding="utf-8", errors="backslashreplace") as file:
        for label, line in lines_of(build.tasks, root, labels):
            file.write(line + "\n")
            about.setdefault(label, {"target": "", "kind": "group", "file": "", "line": 0, "recipe": ""})
            edges += len(json.loads(line)["after"])
    meanings = {relative(root, p): shown(m.replace(" %s/" % root.rstrip("/"), " ")) for p, m in sorted(build.meanings.items())}  # with names as the paths have them
    counts = {
        "considered": build.considered, "tasks": len(about), "edges": edges,
        "recipes": sum(1 for t in build.tasks if t.kind == "recipe"), "paths": sum(len(t.reads) + len(t.writes) for t in build.tasks),
    }
    text = {"tool": build.tool, "make": record.tools.get("make", ""), "folder": shown(root), "project": shown(record.folder), "top": shown(top_of(record.folder)), "words": shown(build.words), "round": build.stage, "within": within,
            "span": [build.make.life.born, build.make.life.died], "counts": counts, "labels": about, "meanings": meanings}
    (folder / "build.json").write_text(json.dumps(text, indent=1, ensure_ascii=False) + "\n", encoding="utf-8")


def write_record(folder: Path, record: Record, builds: List[Build], assumed: Assumptions) -> None:
    """The whole record; an older one at the same place goes."""
    if folder.exists():
        shutil.rmtree(folder)
    (folder / "builds").mkdir(parents=True)
    (folder / ".gitignore").write_text("*\n")
    within = callers(builds)
    for number, build in enumerate(builds, 1):
        record.builds.append("%03d" % number)
        write_build(folder / "builds" / ("%03d" % number), build, within.get(id(build.make.life)), record)
    record.assumptions = assumed.rows()
    record.lucky = {example: {course.name for course in waits} for example, waits in assumed.lucky.items()}
    lucky = set().union(*assumed.lucky.values())
    record.apart = apart(lucky)
    record.known |= {one.name for waiter in {course.waiter for course in lucky} if waiter is not None for one in waiter.children if one.is_known}
    rewrite(folder, record)


def rewrite(folder: Path, record: Record) -> None:
    """What is known of the record as a whole."""
    replace(folder / "record.json", record.text())


def replace(path: Path, text: str) -> None:
    """Writes a file anew; where that fails, it is as it was."""
    fresh = path.with_suffix(".new")
    try:
        fresh.write_text(text, encoding="utf-8")
        fresh.replace(path)
    except OSError:
        fresh.unlink(missing_ok=True)
        raise


def accept_warm(folder: Path, record: Dict[str, Any]) -> None:
    """Takes for granted that builds start from the tree of a record that is there."""
    warm = record["warm"]
    record["holes"] = [hole for hole in record["holes"] if not hole.startswith("WARM")]
    if warm["count"] and not any(one["kind"] == "up-to-date" for one in record["assumptions"]):
        record["assumptions"].append({"kind": "up-to-date", "count": warm["count"], "example": warm["example"], "text": TEXTS["up-to-date"]})
    replace(folder / "record.json", json.dumps(record, indent=1, ensure_ascii=True) + "\n")


def move(here: Path, there: Path) -> None:
    """Moves a folder to where nothing is; where that fails, it is still in its place."""
    try:
        here.rename(there)
    except OSError:  # it goes to another device
        gone = here.with_name(here.name + ".gone")
        try:
            shutil.copytree(here, there, symlinks=True)
            here.rename(gone)  # in one step: a folder in which nothing can be written keeps it whole  # guard: where-nothing-can-be-removed
        except BaseException:
            shutil.rmtree(there, ignore_errors=True)
            raise
        shutil.rmtree(gone, ignore_errors=True)


def come_back(older: Path, folder: Path) -> None:
    """Puts an older record where it was, in the place of what there is of a new one."""
    shutil.rmtree(folder, ignore_errors=True)
    if not older.exists():
        return
    try:
        move(older, folder)
    except OSError as fault:  # guard: older-record
        raise OSError("the older record cannot come back to %s (%s); it is in %s" % (folder, reason(fault), older)) from fault


@contextmanager
def alone(folder: Path) -> Iterator[None]:
    """Holds the place of a record as long as one is made. A name of a socket in no folder is free again when its process ends, however it ends."""
    place = os.fsencode(os.path.join(os.path.realpath(folder.parent), folder.name))
    with socket.socket(socket.AF_UNIX) as held:
        try:
            held.bind(b"\0race-record " + hashlib.sha256(place).digest())  # guard: one-at-time
        except OSError as fault:
            raise Missing("another race-record makes the record %s now: wait until it has ended, or let one of the two build in a copy of the project" % folder) from fault
        yield


def runs_programs(folder: str) -> bool:
    """Whether who runs this may make a program in a folder, and run it there."""
    try:
        return os.access(folder, os.W_OK | os.X_OK) and not os.statvfs(folder).f_flag & os.ST_NOEXEC
    except OSError:
        return False


def room_of_programs(tops: List[str]) -> str:
    """A folder for temporary files in which programs run, and which is no part of the project: one that is made for them, if there is one. The recorder's make
    runs from there, and many systems mount /tmp with noexec."""
    named = ("/tmp", os.environ.get("TMPDIR", ""), "/var/tmp", os.environ.get("XDG_RUNTIME_DIR", ""), "/dev/shm", os.path.expanduser("~/.cache"))
    there = [path for path in named if os.path.isabs(path) and os.path.isdir(path)]
    for path in filter(runs_programs, there):  # guard: rooms-that-run-programs
        if path == ROOMS or not any(is_below(os.path.realpath(path), os.path.realpath(top)) for top in tops):  # guard: temporary-folders
            return path
    raise Missing(NO_ROOM % ", ".join(there))


@contextmanager
def aside(folder: Path) -> Iterator[bool]:
    """Takes an older record out of the tree, in which the build may look around; whether there was one. It comes back where no new one is written."""
    room = Path(tempfile.mkdtemp(prefix="race-record-older-", dir=ROOMS))
    older, is_away = room / "record", False
    try:
        with in_one_step():
            move(folder, older) if folder.exists() else folder.mkdir()  # where nothing can be written, nothing need be built
            is_away = True
        shutil.rmtree(folder, ignore_errors=True)
        yield (older / "record.json").is_file()
    except BaseException:
        with in_one_step():
            if is_away or older.exists():
                come_back(older, folder)
            shutil.rmtree(room, ignore_errors=True)
        raise
    shutil.rmtree(room, ignore_errors=True)


def former(folder: Path) -> Tuple[float, int]:
    """How long the build of a record took, and how many copies were built in other orders; 0 where there is no record."""
    try:
        found = json.loads((folder / "record.json").read_text(encoding="utf-8"))
        return float(found["seconds"]), int(found.get("orders", {}).get("made", 0))
    except (OSError, ValueError, KeyError, TypeError, AttributeError):
        return 0.0, 0


def holds_other(folder: Path) -> bool:
    """Whether something stands where a record is wanted that may not be replaced: a file, or a folder that holds something and no record."""
    return folder.exists() and not (folder / "record.json").is_file() and (not folder.is_dir() or any(folder.iterdir()))
