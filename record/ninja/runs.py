"""Which ninjas ran in a trace, and which process worked for which build statement."""

import getopt
import os
import re
from dataclasses import dataclass, field
from functools import partial
from typing import Dict, List, Optional, Set, Tuple

from record import machine
from record.build.tasks import grouped
from record.build.work import Tool, Work
from record.commands import shelltext
from record.make.owners import Owners
from record.ninja.manifest import Edge, Manifest, Unreadable, canonical, read_manifest
from record.trace.lives import Life
from record.trace.names import Names

SHORT = "d:f:j:k:l:nt:vw:C:h"
LONG = ["help", "version", "verbose", "quiet"]
TRIED = re.compile(r"/CMakeFiles/(?:CMakeScratch/TryCompile-\w+|CMakeTmp)(?:/|\Z)")
BY_NINJA = "race-hold-ninja"  # the first word of a process that waits for a ninja at the gate of a build in another order (hold.c)
CMAKES = ("cmake", "ccmake", "cmake-gui", "ctest")
NEVER = 1 << 60


def command_sum(command: bytes) -> str:
    """What a record and the gate know a command by: the sum FNV-1a of its bytes, of 64 bits, in digits."""
    found = 0xCBF29CE484222325
    for byte in command:
        found = (found ^ byte) * 0x100000001B3 & 0xFFFFFFFFFFFFFFFF
    return "%016x" % found


@dataclass(eq=False)
class Job:
    """A command that ninja ran."""

    life: Life
    text: str
    edge: Optional[Edge] = None
    work: Work = field(default_factory=Work)


@dataclass(eq=False)
class Stage:
    """What ninja did with one state of its manifest: it reads the manifest again where it was remade."""

    opened: int
    manifest: Manifest
    jobs: List[Job] = field(default_factory=list)
    is_read: bool = True  # else the manifest is empty, and a hole says why

    def ran(self) -> List[Edge]:
        """The statements whose commands ran."""
        return [job.edge for job in self.jobs if job.edge is not None]


@dataclass(eq=False)
class Ninja(Tool):
    """One ninja process."""

    file: str
    goals: List[str]
    stages: List[Stage] = field(default_factory=list)
    is_tried: bool = False  # by CMake, in a folder of its own that is gone

    @property
    def args(self) -> str:
        """Its words."""
        return " ".join(self.life.argv[1:])

    def wanted(self) -> List[Edge]:
        """The statements that its goals need, of the manifest that it read last; all where a goal is not known."""
        if not self.stages:
            return []
        manifest = self.stages[-1].manifest
        goals = manifest.goals(self.goals)
        numbers = manifest.below(goals) if goals is not None else {edge.number for edge in manifest.edges}  # guard: all-below-goals
        return [edge for edge in manifest.edges if edge.number in numbers]

    def below_manifest(self, number: int = -1) -> Set[int]:
        """The numbers of the statement that makes the manifest, and of all that it needs, in a stage; in the last one where none is named."""
        manifest = self.stages[number].manifest
        maker = manifest.makers.get(canonical(self.file))
        return manifest.below([maker]) if maker is not None else set()


def options_of(argv: List[str]) -> "Optional[Tuple[Dict[str, str], List[str]]]":
    """The options and goals of a ninja that builds; None where it only looks, or cannot read its words."""
    try:
        found, goals = getopt.gnu_getopt(argv[1:], SHORT, LONG)
    except getopt.GetoptError:
        return None
    options = dict(found)
    return (options, goals) if options.keys().isdisjoint(("-n", "-t", "-h", "--help", "--version")) else None


def is_unknown(life: Life) -> bool:
    """Whether a program keeps a log of ninja and starts others, as ninja does, and is none by its name."""
    starts = not life.is_make and shelltext.base_name(life.argv) not in shelltext.SHELLS and any(child.ran for child in life.children)
    return starts and any(path.endswith("/.ninja_log") and kind in "WC" for kind, path in life.events)


def is_tried(ninja: Ninja) -> bool:
    """Whether CMake itself ran a ninja to find out whether something compiles, in a folder of its own that is gone now."""
    above = ninja.life.parent
    return bool(TRIED.search(ninja.folder)) and above is not None and os.path.basename(above.program) in CMAKES and not machine.exists(os.path.join(ninja.folder, ninja.file))


class Runs:
    """Finds the ninjas of a trace, reads their manifests, and gives each process to a statement."""

    def __init__(self, lives: List[Life], owners: Owners, names: Names, kept: Dict[str, str], has_ended: bool) -> None:
        self.lives, self.owners, self.names, self.kept = lives, owners, names, kept
        self.has_ended = has_ended  # well
        self.holes: List[str] = []
        self.ninjas: List[Ninja] = []
        for life in lives:
            if life.is_ninja:
                self.add(life)
            elif is_unknown(life):  # guard: ninja-of-another-name
                self.holes.append("a ninja of another name ran past the recorder: " + " ".join(life.argv)[:100])
        for ninja in self.ninjas:
            self.attribute(ninja)
        self.note_inner()

    def note_inner(self) -> None:
        """Which ninjas ran below which recipe or command."""
        by_life = {id(ninja.life): ninja for ninja in self.ninjas}
        works = [job.work for make in self.owners.makes for job in make.jobs]
        works += [job.work for ninja in self.ninjas for stage in ninja.stages for job in stage.jobs]
        for work in works if by_life else []:
            work.ninjas = [by_life[id(life)] for life in work.lives if id(life) in by_life]

    # ---------------------------------------------------------------- processes
    def add(self, life: Life) -> None:
        """One ninja, if it builds."""
        asked = options_of(life.argv)
        if asked is None:
            if "-t" not in life.argv and any(self.job_of(child) for child in life.children if child.born > life.starts[-1][0]):
                self.holes.append("ninja ran commands, and its words cannot be read: " + " ".join(life.argv)[:100])  # guard: words-that-cannot-be-read
            return
        options, goals = asked
        file = options.get("-f", "build.ninja")
        folder, opened = self.opened(life, file)
        ninja = Ninja(life, folder, file, goals)
        self.ninjas.append(ninja)
        for start, end in zip(opened, opened[1:] + [NEVER]):
            self.add_stage(ninja, start, end)
        if not opened:
            self.holes.append("a ninja read no manifest: " + " ".join(life.argv)[:100])  # guard: no-manifest

    def opened(self, life: Life, file: str) -> Tuple[str, List[int]]:
        """The folder that a ninja works in (`-C` moves it), and where in the trace it opened its manifest."""
        begin, folder = life.starts[-1]
        places: List[int] = []
        target = self.names.find(folder, file, True).path
        for act in life.acts:
            if act.place > begin and act.kind == "U" and not places:
                folder = act.path
                target = self.names.find(folder, file, True).path
            elif act.place > begin and act.kind == "R" and act.path == target:  # guard: manifest-that-is-remade-begins-again
                places.append(act.place)
        return folder, places

    def add_stage(self, ninja: Ninja, start: int, end: int) -> None:
        own = [life for life in ninja.life.children if start <= life.born < end]
        jobs = [job for job in map(self.job_of, own) if job is not None]
        stage = Stage(start, Manifest(ninja.folder), jobs)
        ninja.stages.append(stage)
        try:
            stage.manifest = read_manifest(ninja.folder, ninja.file, partial(self.text_at, start))
            reads = {act.path: act.place for act in ninja.life.acts if act.kind == "R" and start <= act.place < end}
            self.read_dyndeps(stage.manifest, reads)  # guard: what-dyndep-file-adds
        except Unreadable as fault:
            stage.is_read = False
            ninja.is_tried = is_tried(ninja)  # guard: manifest-that-is-gone
            if jobs and not ninja.is_tried:
                self.holes.append("the manifest that ninja read cannot be read again: %s" % fault)  # guard: manifest-that-cannot-be-read

    def job_of(self, life: Life) -> Optional[Job]:
        """The command that a child of ninja runs, behind what waits at the gate in its place."""
        first = next((words for words in life.ran if words[0] != BY_NINJA), None)  # guard: what-waits-at-the-gate
        if first is None:
            return None
        if len(first) != 3 or os.path.basename(first[0]) != "sh" or first[1] != "-c":
            self.holes.append("ninja started what is no command: " + " ".join(first)[:100])  # guard: child-that-is-no-command
            return None
        return Job(life, first[2])

    # ---------------------------------------------------------------- manifests
    def text_at(self, place: int, path: str) -> str:
        """A file as it was at a place of the trace."""
        path = self.names.find("/", path, True).path
        first = min((life.events.get((kind, path), NEVER) for life in self.lives for kind in "WCD"), default=NEVER)
        last = max((life.changed.get(path, -1) for life in self.lives), default=-1)  # guard: manifest-that-one-process-changed-twice
        if last < place:  # guard: manifest-that-changed-since
            return machine.text(path)
        if path in self.kept and first > place:  # guard: manifest-that-changed-before
            return self.kept[path]
        raise Unreadable("nobody kept %s as it was when ninja read it" % path)

    def read_dyndeps(self, manifest: Manifest, reads: Dict[str, int]) -> None:
        """Adds what dyndep files say, as they were when ninja read them. `reads`: where it opened each file last."""
        for edge in manifest.edges:
            name = "" if edge.is_phony else edge.path("dyndep")
            path = os.path.join(manifest.folder, name)
            real = self.names.find("/", path, True).path
            if not name or real not in reads and not machine.isfile(path):
                continue
            try:
                manifest.add_found(edge, read_manifest(manifest.folder, name, partial(self.text_at, reads.get(real, NEVER - 1))))  # guard: dyndep-file-that-changed-since
            except Unreadable as fault:
                self.holes.append("%s: %s" % (path, fault))

    # ---------------------------------------------------------------- who ran for whom
    def attribute(self, ninja: Ninja) -> None:
        """Gives the jobs of a ninja to statements. Where one failed and the build did not, other statements might have run besides."""
        if ninja.life.has_failed and self.has_ended and not ninja.is_tried and any(stage.jobs for stage in ninja.stages):  # guard: ninja-that-failed
            self.holes.append("a ninja failed, so it may run more commands another time: ninja " + ninja.args[:100])
        for stage in ninja.stages if not ninja.is_tried else ():
            if stage.is_read:
                self.attribute_stage(stage)

    def attribute_stage(self, stage: Stage) -> None:
        """Each command is that of one statement, and ran once."""
        by_text = grouped((edge.command, edge) for edge in stage.manifest.edges if not edge.is_phony)
        for job in stage.jobs:
            edges = by_text.get(job.text, [])
            if not edges or job.life.cut:  # guard: command-that-is-cut
                self.holes.append("ninja ran a command that no build statement has: " + job.text[:200])  # guard: command-of-nobody
            elif len(edges) > 1:
                self.holes.append("several build statements have one command: " + job.text[:200])  # guard: one-command-of-several
            else:
                job.edge = edges.pop()
            self.owners.take(job.work, job.life)  # guard: processes-of-command
            self.owners.divide(job.work)
