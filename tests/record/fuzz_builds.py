"""Builds of a project for the fuzzer: serial, recorded and judged, and parallel with delays; what each leaves."""

import hashlib
import json
import os
import random
import re
import shutil
import signal
import stat
import subprocess
import sys
import time
from contextlib import nullcontext
from dataclasses import dataclass, field, replace
from itertools import chain
from pathlib import Path
from typing import Collection, Dict, FrozenSet, Iterable, Iterator, List, Optional, Tuple

import forked
from fuzz_left import Left, is_about_another
from fuzz_projects import Project

HERE = Path(__file__).resolve().parent
sys.path.insert(0, str(HERE.parent.parent))

import record.importing  # noqa: E402,F401  (once, for all recordings of this process)
import record.main  # noqa: E402,F401
from fuzz_directed import Holds, Watch, schedules  # noqa: E402
from fuzz_places import Place, Ran  # noqa: E402
from record.build.assumptions import TEXTS  # noqa: E402

RECORDER = HERE.parent.parent / "record" / "race-record"
SECONDS = 120
VERDICTS = {0: "safe", 1: "race", 2: "no verdict"}
# What stands for $N TARGET: some targets are slow, most of the time; the number of the process says when.
NAP = """#!/bin/sh
case "$1" in %s) test $(($$ %% 3)) = 0 || exec sleep %.3f;; *) test $(($$ %% 7)) = 0 && exec sleep %.3f;; esac
exit 0
"""
# The shortest delay in seconds: one on an idle machine, and the part of a serial build that it is on a busy one.
DELAY, PART = 0.01, 0.025
SLOW = 0.02  # seconds: more than a file system takes for one and the same time
JOBS = 16  # enough for all recipes at once
OWN = (".ninja_log", ".ninja_deps", ".ninja_lock")
SHOWN = "nohup.out"  # what make prints where `nohup` calls it from a terminal: its commands show who delays them
USUAL = Place(outputs="joined")
# What passes meanwhile: how long it takes, and builds in other orders.
AHEAD = re.compile(rb"[0-9.e+]+ s in the future|\xc3\x84nderungszeit [0-9.e+]+|race-record: [^\n]* in copies[, ][^\n]*\n|race-record: [0-9:]+, [0-9]+ processes done[^\r\n]*[\r\n]|\r?race-record: reads the trace: [0-9 ]+%|\r\x1b\[K")
VERDICT = re.compile(rb"(\x1b\[[0-9;]*m)?(WARM|SAFE|RACE|NO VERDICT|HINT|note: |make )")
Tree = Dict[str, str]


@dataclass
class Outcome:
    """What one build left: its status, and the files."""

    status: int
    tree: Tree
    output: str = ""
    seconds: float = 0
    apart: FrozenSet[str] = frozenset()  # files that it began with in another form
    said: Tuple[bytes, bytes] = (b"", b"")  # its standard output and error


@dataclass
class Result:
    """What came of one project."""

    seed: int
    kind: str  # unstable, no verdict, changed, safe, assumption broken, wrong yes, race seen, race not seen
    verdict: str = ""
    builds: int = 0
    differed: int = 0
    about: str = ""
    assumed: List[str] = field(default_factory=list)


def tree_of(folder: Path) -> Tree:
    """Names with kind, mode and contents; the record, times, and what ninja keeps are left out."""
    found: Tree = {}
    for path, folders, files in os.walk(folder):
        folders[:] = [f for f in folders if f != ".race"]
        for name in folders + [f for f in files if f not in OWN]:
            full = os.path.join(path, name)
            status = os.lstat(full)
            if stat.S_ISLNK(status.st_mode):
                text = "l " + os.readlink(full)
            elif stat.S_ISDIR(status.st_mode):
                text = "d %o" % (status.st_mode & 0o777)
            elif not stat.S_ISREG(status.st_mode):
                text = "socket or the like %o" % status.st_mode
            else:
                text = "f %o %s" % (status.st_mode & 0o777, content(full))
            found[os.path.relpath(full, folder)] = text
    return found


def content(path: str) -> str:
    """The bytes of a file, or a sum where they are many."""
    with open(path, "rb") as file:
        data = file.read()
    return repr(data)[2:-1] if len(data) < 200 else hashlib.sha256(data).hexdigest()


def environment() -> Dict[str, str]:
    """The environment of a build: nothing of a make that runs this."""
    return {k: v for k, v in os.environ.items() if not k.startswith("MAKE") and k != "MFLAGS"}


class Builder:
    """Builds one project over and over, in a folder of its own."""

    def __init__(self, project: Project, room: Path, recorder: Path = RECORDER) -> None:
        self.project, self.room, self.recorder = project, room, recorder
        self.place = project.place or USUAL
        self.folder = room / self.place.folder
        self.random = random.Random(project.seed + 1)
        self.builds = 0
        self.delay = DELAY
        self.before: Tree = {}

    def fresh(self, project: Optional[Project] = None) -> None:
        """The tree before the build."""
        shutil.rmtree(self.folder, ignore_errors=True)
        self.put(project)
        self.place.own(self.room, self.folder)

    def put(self, project: Optional[Project] = None) -> None:
        """Puts the sources in their places."""
        for name, text in (project or self.project).all_files().items():
            path = self.folder / name
            path.parent.mkdir(parents=True, exist_ok=True)
            path.write_text(text, "utf-8", "surrogateescape")
            if text.startswith("#!"):
                path.chmod(0o755)
        for name, age in self.project.ages.items():
            os.utime(self.folder / name, (age, age))

    def run(self, words: List[str], nap: str = "", watch: Optional[Watch] = None, project: Optional[Project] = None) -> Outcome:
        """One build of a fresh tree."""
        self.fresh(project)
        env = environment()
        if nap:
            env.update(N=nap, J="-j%d" % self.random.choice((2, 4)))  # J: for a ninja inside of a command
        began = time.monotonic()
        ran = Ran(self.place, words, self.room, env)
        with watch.over(ran.pid) if watch else nullcontext():
            status, *said = ran.wait(SECONDS)
        own, other = self.project.all_files(), (project or self.project).all_files()
        apart = frozenset(name for name, text in other.items() if text != own[name])
        return Outcome(status, tree_of(self.folder), b"".join(said[::-1]).decode("utf-8", "replace"), time.monotonic() - began, apart, (said[0], said[1]))

    def plain(self) -> Outcome:
        """The build that is recorded, with no recorder; one of one job, where the environment asks for several."""
        return self.run(self.place.command(self.project.serial() if self.place.has_jobs() else self.project.words()))

    def serial(self) -> Outcome:
        """A serial build, which says how long delays have to be."""
        found = self.run(self.place.command(self.project.serial()))
        self.delay = max(DELAY, found.seconds * PART)
        return found

    def slow(self) -> Outcome:
        """A serial build in which each step takes a while, as where it is recorded: files have other times then, and a recipe may compare them."""
        path = self.room / "slow"
        path.write_text("#!/bin/sh\nsleep %.3f\n" % SLOW)
        path.chmod(0o755)
        return self.run(self.place.command(self.project.serial()), str(path))

    def nap(self) -> str:
        """A program that delays, at random."""
        path = self.room / ("nap%d" % self.builds)
        names = ["*[st]%d%s" % (n, part) for n in range(8) for part in ("", "[!0-9]*")]  # a target, and the others of its block
        slow = self.random.sample(names, self.random.randint(2, 8))
        path.write_text(NAP % ("|".join(slow), self.random.randint(2, 10) * self.delay, self.delay))
        path.chmod(0o755)
        return str(path)

    def parallel(self, shuffle: bool) -> Outcome:
        """One parallel build under delays."""
        self.builds += 1
        words = self.project.parallel(self.random.choice((2, 3, 4, 8)), self.random.randint(1, 1 << 20) if shuffle else 0)
        return self.run(self.place.command(words), self.nap())

    def directed(self, holds: List[Holds]) -> Iterator[Outcome]:
        """Builds in each of which some targets are held back; of the build with its rules in another order too, and that one with one job."""
        turned = self.project.turned() if holds else None
        yield from (self.held(one) for one in holds if one.can_come(self.room))
        if turned is not None:
            self.builds += 1
            yield self.run(turned.serial(), project=turned)
            yield from (self.held(one, turned) for one in holds if one.can_come(self.room))

    def held(self, holds: Holds, project: Optional[Project] = None) -> Outcome:
        """One parallel build in which some targets are held back."""
        self.builds += 1
        path = self.room / ("hold%d" % self.builds)
        holds.put(path)
        return self.run(self.place.command(self.project.parallel(JOBS, 0)), str(path), Watch(path), project)

    def recorded(self) -> Outcome:
        """The recorded build, judged: by the recorder of this process, in a child of it, or by another one."""
        if self.project.left:
            return self.recorded_again(self.project.left)
        args = ["--warm", "--", *self.place.command(self.project.words())]
        if self.recorder != RECORDER or self.project.place is not None:
            return self.run([str(self.recorder), *args])
        self.fresh()
        began = time.monotonic()
        try:
            ran = forked.run(forked.script(RECORDER, args, environment()), self.folder, SECONDS)
        except subprocess.TimeoutExpired:
            return Outcome(-signal.SIGKILL, tree_of(self.folder), "", time.monotonic() - began)
        return Outcome(ran.returncode, tree_of(self.folder), (ran.stderr + ran.stdout).decode("utf-8", "replace"), time.monotonic() - began)


    def recorded_again(self, left: Left) -> Outcome:
        """The recorded build of a tree that was built before. `before` is then the tree as the recording found it."""
        self.fresh()
        left.prepare(self.folder, list(self.project.all_files()), self.project.serial(), self.project.seed)
        self.put()
        self.before = tree_of(self.folder)
        words = [str(self.recorder), *left.options(), "--", *self.project.words()]
        try:
            ran = subprocess.run(words, cwd=self.folder, env=environment(), capture_output=True, stdin=subprocess.DEVNULL, timeout=SECONDS, check=False)
        except subprocess.TimeoutExpired:
            return Outcome(-signal.SIGKILL, tree_of(self.folder))
        return Outcome(ran.returncode, tree_of(self.folder), (ran.stderr + ran.stdout).decode("utf-8", "replace"))


def differences(first: Outcome, second: Outcome, others: Collection[str] = ()) -> str:
    """What two builds differ in, other than some files; or nothing."""
    if bool(first.status) != bool(second.status):
        return "status %d for %d" % (second.status, first.status)
    names = sorted(n for n in set(first.tree) | set(second.tree) if n not in others and n not in second.apart and first.tree.get(n) != second.tree.get(n))
    return "; ".join("%s: %s for %s" % (n, second.tree.get(n), first.tree.get(n)) for n in names[:3])


def assumptions(output: str) -> List[str]:
    """The lines under a verdict that say what was taken for granted."""
    text = re.split(r"(?m)^(?:safe, if|Assumed):\n", output)[-1] if re.search(r"(?m)^(?:safe, if|Assumed):\n", output) else ""
    return [re.sub(r"\s+", " ", one) for one in re.findall(r"  - ((?:.*\n?(?!  - ))*)", text)]


def granted(project: Project, assumed: List[str]) -> List[str]:
    """The files that may differ, since the recorder has printed the assumption that they break."""
    return [name for name, key in project.assumed().items() if any(one.startswith(TEXTS[key]) or re.search(r"by its key: .*\b%s\b" % key, one) for one in assumed)]


def uncompared(folder: Path) -> List[str]:
    """The files of which a record says that two builds in one order differ in them."""
    path = folder / ".race" / "record.json"
    found: Dict[str, Dict[str, List[str]]] = json.loads(path.read_text()) if path.exists() else {}
    return [os.path.relpath(name, os.path.realpath(folder)) for name in found.get("orders", {}).get("unstable", ())]


def judge(project: Project, room: Path, runs: int, recorder: Path = RECORDER, shuffles: bool = False) -> Result:
    """Builds a project in all ways; what came of it."""
    builder = Builder(project, room, recorder)
    serial = [builder.serial(), builder.serial()]
    is_placed = project.place is not None
    if serial[0].status and not is_placed:
        return Result(project.seed, "serial fails", about=serial[0].output[-300:])
    plain = [builder.plain(), builder.plain()] if is_placed else []
    if differences(*serial) or plain and differences(*plain):
        return Result(project.seed, "unstable", about=differences(*serial))
    recorded = builder.recorded()
    if recorded.status == -signal.SIGKILL:
        return Result(project.seed, "too slow", about=recorded.output[-300:])
    if recorded.status not in VERDICTS:
        return Result(project.seed, "crash", about=recorded.output[-1500:])
    result = Result(project.seed, "", VERDICTS[recorded.status], assumed=assumptions(recorded.output))
    holds = list(schedules(builder.folder / ".race")) if result.verdict == "race" else []
    left = Outcome(serial[0].status, recorded.tree)
    several = has_jobs(project)
    changed = not several and (differences(serial[0], left) or plain and said_otherwise(plain, recorded))
    if project.left:
        changed = differences(Outcome(0, builder.before), Outcome(0, recorded.tree)) if project.left.is_fresh else ""
    if changed:
        is_timed = differences(serial[0], left) and not differences(builder.slow(), left)
        result.kind, result.about = "unstable" if is_timed else "changed", changed
    elif serial[0].status:
        result.kind, result.about = "serial fails", serial[0].output[-300:]
    elif result.verdict == "no verdict":
        result.kind, result.about = "no verdict", recorded.output[-600:]
    else:
        shuffled = shuffles and result.verdict != "safe"
        shake(builder, serial[0], result, chain((builder.parallel(shuffled) for _ in range(runs)), builder.directed(holds)))
        if result.kind == "wrong yes" and project.left and (is_about_another(recorded.output) or any(TEXTS["up-to-date"] in one for one in result.assumed)):
            result.kind = "assumption broken"
    return result


def has_jobs(project: Project) -> bool:
    """Whether several jobs run in the recorded build: then a race may show in what it leaves."""
    return "-j" in project.head or project.place is not None and project.place.has_jobs()


def said_otherwise(plain: List[Outcome], recorded: Outcome) -> str:
    """What a recorded build said that two plain ones did not, or the other way round: its outputs and its status. The verdict stands behind its output."""
    (out, err), (again, other), (mine, errors) = ([AHEAD.sub(b"", text) for text in one.said] for one in (*plain[:2], recorded))
    status = re.search(r"the build ended with status (\d+)", recorded.output)
    if plain[0].status != (int(status[1]) if status else 0):
        return "status %s for %d" % (status and status[1], plain[0].status)
    if out == again and not (mine.startswith(out) and VERDICT.match(mine, len(out))):
        return "output %r for %r" % (mine[:300], out[:300])
    return "errors %r for %r" % (errors[:300], err[:300]) if err == other and errors != err else ""


def shake(builder: Builder, serial: Outcome, result: Result, builds: Iterable[Outcome]) -> None:
    """Parallel builds, until one differs in more than files of an assumption that was printed."""
    others = [*granted(builder.project, result.assumed), *uncompared(builder.folder), SHOWN]
    is_safe, is_broken = result.verdict == "safe", False
    for parallel in builds:
        about = differences(serial, parallel, others)
        is_broken = is_broken or bool(differences(serial, parallel, [SHOWN]))
        if about:
            result.differed, result.about = result.differed + 1, about
            break
    result.builds = builder.builds
    if result.differed:
        result.kind = "wrong yes" if is_safe else "race seen"
    else:
        result.kind = ("assumption broken" if is_broken else "safe") if is_safe else "race not seen"


def shrink(project: Project, room: Path, runs: int, recorder: Path = RECORDER) -> Project:
    """A smaller project with a wrong yes still: blocks and lines are left out, one at a time."""
    smaller: Optional[Project] = project
    while smaller is not None:
        project, smaller = smaller, None
        for one in parts(project):
            if judge(one, room, runs, recorder).kind == "wrong yes":
                smaller = one
                break
    return project


def parts(project: Project) -> List[Project]:
    """The project without one block, and without one line of a block."""
    blocks, found = project.blocks, []
    for at in range(len(blocks)):
        found.append(replace(project, blocks=blocks[:at] + blocks[at + 1:]))
    for at, block in enumerate(blocks):
        lines = block.text.splitlines(True)
        for line in range(len(lines)):
            text = "".join(lines[:line] + lines[line + 1:])
            found.append(replace(project, blocks=blocks[:at] + [replace(block, text=text)] + blocks[at + 1:]))
    return found
