"""The reader of make's words: rounds, the targets that it considered in each, and its jobs."""

import re
from dataclasses import dataclass, field
from functools import lru_cache
from pathlib import Path
from typing import Dict, Iterable, Iterator, List, Optional, Set, Tuple

from record.build.tasks import Job, Node, reached
from record.make.database import Base, read_base
from record.watch.files import OWN_WORDS, Start, files_in, open_file, read_start

KEPT = 1 << 14  # how many lines are remembered: most come again for each target that needs the same
CHILD = re.compile(r"(Putting child|Live child|Reaping (?:winning|losing) child|Removing child) (0x[0-9a-f]+) (?:\((.*)\) )?PID (\d+)")
CONSIDERED = re.compile(r"^( *)(?:(?:Considering target file|Pruning file) '(.*)'\.|File '(.*)' was considered already\.)$")
VPATH = re.compile(r"^ *No need to remake target '(.*)'; using VPATH name '(.*)'\.$")
FINISHED = re.compile(r"^ *Finished prerequisites of target file '(.*)'\.$")
MUST = re.compile(r"^ *Must remake target '(.*)'\.$")
FAILED = re.compile(r"^ *(?:Failed to remake|Giving up on) target file '(.*)'\.$")  # guard: targets-that-were-given-up-for-makefile
# From this one on `$(shell ..)` gets exported macros, which make works out for it, and make expands all prerequisites a second time when it considers their
# target, knows rows of some targets, looks for each name of which no rule is about and at all targets of a recipe, and reads folders anew when a command has ended.
LATER = (4, 4)
DEFAULTS = ("GNUmakefile", "makefile", "Makefile")  # the makefiles that make looks for where its words name none
# Lines of which each word counts: one that is none of those above was not read as a whole.
BROKEN = re.compile(r" *(?:Considering target file|Pruning file|Finished prerequisites of target file|Must remake target|Failed to remake target file|Giving up on target file) '"
                    r"(?!.*'\.$)|(?:Putting|Live|Reaping \w+|Removing) child 0x(?!.*PID \d)|# (?:Files|files hash-table stats:)$")  # the last two: of a data base that has ended
LAST = "# Finished Make data base"  # how the last line of a data base begins
READING = re.compile(r"^Reading makefile '(.*)'((?: \([^)]*\))*)\.\.\.$")


@dataclass
class Round:
    """`makefiles` or `goals` of one start of make."""

    stage: str
    start: int
    nodes: Dict[str, Node] = field(default_factory=dict)
    goals: List[str] = field(default_factory=list)
    jobs: List[Job] = field(default_factory=list)
    must: Set[str] = field(default_factory=set)  # targets that have to be made
    failed: List[str] = field(default_factory=list)
    vpath: Dict[str, str] = field(default_factory=dict)
    base: Optional[Base] = None

    def below(self, name: str) -> Set[str]:
        """A target, and all that it needs, by way of others too."""
        return reached([name], lambda one: self.nodes[one].prerequisites if one in self.nodes else ())


@dataclass
class Words:
    """All that one make process said."""

    pid: int
    life: int
    args: str = ""
    version: str = ""
    status: Optional[int] = None
    rounds: List[Round] = field(default_factory=list)
    processes: List[Tuple[int, Job]] = field(default_factory=list)  # of all jobs, in order: the number and the job
    read: List[List[str]] = field(default_factory=list)  # makefiles that each start read before it made anything
    included: List[str] = field(default_factory=list)  # makefiles that recipes include while make expands them
    patterns: List[str] = field(default_factory=list)  # what it looked for by `glob`
    is_deaf: bool = False  # nobody hears what it looks for: it has a `glob` of its own
    start: Start = field(default_factory=Start)  # how it was called
    loaded: List[str] = field(default_factory=list)  # objects that it has loaded into itself
    holes: List[str] = field(default_factory=list)

    @property
    def has_failed(self) -> bool:
        """Whether it failed, or a signal ended it."""
        return self.status != 0


@lru_cache(KEPT)
def considered_in(text: str) -> Optional[Tuple[int, str]]:
    """How deep make was when it considered a target, and which, by a line of its words."""
    match = CONSIDERED.match(text)
    return (len(match[1]), match[match.lastindex or 1]) if match is not None else None


class _Reader:
    """Reads the lines of one make's log, one after the other, into its Words."""

    def __init__(self, words: Words) -> None:
        self.words = words
        self.round: Optional[Round] = None
        self.stack: List[Tuple[int, str]] = []  # depths and names of the targets that are being looked at
        self.children: Dict[str, Job] = {}
        self.clock = 0
        self.found: Dict[str, str] = {}  # by path: the target that make has found there

    def begin(self, stage: str) -> None:
        """A round begins: make remakes its makefiles, or its goals. With several jobs a recipe of the round before may still run."""
        self.round = Round(stage, len(self.words.read) - 1)
        self.words.rounds.append(self.round)
        self.stack, self.found = [], {}  # guard: recipe-that-goes-on-in-next-round

    def child(self, what: str, pointer: str, name: str, pid: int) -> None:
        """A line about a job: it starts, goes on with its next line, or has ended. Make names it by a pointer, which a later job may have too."""
        if self.round is None:
            return
        owner = self.children.get(pointer)
        if what == "Putting child" or what == "Live child" and (owner is None or owner.target != name):  # the first line that ran was not the first
            owner = self.children[pointer] = Job(name)
            self.round.jobs.append(owner)
        if what == "Removing child":
            self.children.pop(pointer, None)
        if owner is not None:
            if owner.pids[-1:] != [pid]:  # guard: jobs-of-one-number-in-order
                owner.pids.append(pid)
                self.words.processes.append((pid, owner))

    def considered(self, depth: int, name: str) -> None:
        """Make considers a target: it is a prerequisite of the last one that is less deep, or a goal."""
        assert self.round is not None
        name = self.found.get(name, name)  # guard: targets-in-search-paths
        while self.stack and self.stack[-1][0] >= depth:
            self.stack.pop()
        nodes = self.round.nodes
        if name not in nodes:
            nodes[name] = Node(name, name, self.clock, -1)
        if self.stack:
            parent = self.stack[-1][1]
            if name != parent:
                nodes[parent].prerequisites.setdefault(name)
        elif name not in self.round.goals:
            self.round.goals.append(name)
        self.stack.append((depth, name))

    def line(self, text: str) -> None:
        """One line of make's words, or of the library's."""
        words = self.words
        considered = considered_in(text) if self.round is not None else None
        if considered is not None:  # as nearly all lines are
            self.clock += 1
            self.considered(*considered)
        elif child := CHILD.match(text):
            self.child(child.group(1), child.group(2), child.group(3) or "", int(child.group(4)))
        elif BROKEN.match(text):  # guard: not-whole-hole
            words.holes.append("a line of make's words cannot be read: " + text[:200])
        elif text.startswith("Reading makefiles..."):
            words.read.append([])
            self.children = {}
        elif text.startswith("Updating makefiles"):  # guard: one-build-each
            self.begin("makefiles")
        elif text.startswith("Updating goal targets"):
            self.begin("goals")
        elif self.is_of_library(text):
            pass
        elif text.startswith("Loading symbol "):
            words.loaded.append(text.partition(" from ")[2])
        elif words.read and (reading := READING.match(text)):
            is_making = self.round is not None and self.round.start == len(words.read) - 1
            (words.included if is_making else words.read[-1]).append(reading[1])
        elif self.round is not None:
            self.target(text)

    def is_of_library(self, text: str) -> bool:
        """Whether a line is one that the library adds to make's own (watch.c); what it says is kept."""
        (key, _, value), words = text.partition(" "), self.words
        if key == "GLOB":
            words.patterns.append(value)
        elif key == "ASKS":
            words.start.asks = value
        elif key == "DEAF":
            words.is_deaf = True
        elif key == "EXIT":
            words.status = int(value)
        else:
            return False
        return True

    def target(self, text: str) -> None:
        """A line about a target other than that make considers it: it has to be made, is done, has failed, or is found in another folder."""
        assert self.round is not None
        self.clock += 1
        if match := FINISHED.match(text):
            seen = self.round.nodes.get(match[1])
            if seen is not None and seen.done < 0:
                seen.done = self.clock
        elif match := VPATH.match(text):
            name, path = match.groups()
            self.round.vpath[name] = path
            self.found.update({path: name} if path not in self.round.nodes else {})
        elif match := MUST.match(text):
            self.round.must.add(match[1])
        elif match := FAILED.match(text):
            self.round.failed.append(match[1])


def base_hole(lines: List[str], found: Base) -> str:
    """Why lines are not the whole data base of a make, or do not say which of them are its own; nothing where they are and do."""
    if any(text.startswith("# Make data base") for text in lines[1:]):
        return "begins twice"
    if not any(text.startswith("# files hash-table stats") for text in lines):
        return "lists no targets"
    if found.is_unclear:  # guard: lines-that-look-like-its-own-are-hole
        return "holds lines of a macro that look like its own"
    return "" if lines[-1].startswith(LAST) else "has no end"


def take_base(words: Words, lines: List[str]) -> None:
    """One data base: that of all rounds since the last."""
    found = read_base(lines)
    if hole := base_hole(lines, found):  # guard: data-base-that-is-not-whole
        words.holes.append("the data base of a make %s: make %s" % (hole, words.args))
    for one in words.rounds:
        unread = next((job.target for job in one.jobs if one.base is None and job.target not in found.recipes), None)
        words.holes += ["the data base of a make does not show the recipe of a target that ran: " + unread] if unread is not None else []  # guard: recipes-that-it-does-not-show
        one.base = one.base or found
        for name, path in one.vpath.items():
            found.call(name, path)  # guard: names-of-rules


def failures(words: Words) -> Iterator[str]:
    """Recipes that failed, or targets that were given up when recipes had run for them, and make went on, since no makefile has to be there
    that needs them. Of what such a makefile needs besides, one job runs nothing more, and several run it."""
    for one in words.rounds:
        ran, needed = {job.target for job in one.jobs}, {name for node in one.nodes.values() for name in node.prerequisites}
        for name in one.failed if one.stage == "makefiles" else ():
            if name in needed and not ran.isdisjoint(one.below(name)):  # guard: not-makefiles-that-failed
                yield "a recipe failed for a makefile that need not be there, and what stands behind it did not run: %s" % name


def read_words(pid: int, life: int, lines: Iterable[str], start: Optional[Start] = None) -> Words:
    """What a make process said, of the lines that the library kept: each of its starts ends in a data base."""
    start = start or Start()
    words = Words(pid, life, " ".join(start.args).replace("\n", " "), start.version, start=start)
    reader = _Reader(words)
    bases = 0  # how many data bases it printed
    base: List[str] = []  # the lines of the one that has not ended
    for raw in lines:
        text = raw.rstrip("\n")
        if base:
            base.append(text)
            if text.startswith(LAST):
                take_base(words, base)
                base = []
        elif text.startswith("# Make data base"):
            bases, base = bases + 1, [text]
        else:
            reader.line(text)
    if base:
        take_base(words, base)
    words.holes += failures(words)  # guard: recipes-that-failed-for-makefile
    if not words.read and not words.status:  # guard: makes-that-are-not-understood
        words.holes.append("a make says nothing that the recorder knows: make " + words.args)
    if words.start.asks:
        words.holes.append(OWN_WORDS % words.args[:200])
    elif bases != len(words.read) and words.read:  # guard: data-base-of-make-that-goes
        words.holes.append("a make that began %d times printed %d data bases: make %s" % (len(words.read), bases, words.args))
    return words


def read_logs(said: Path) -> List[Words]:
    """The words of all makes of a recorded build, without those that only answer."""
    logs = []
    for pid, life, path in files_in(said):
        with open_file(path) as lines:
            start = read_start(lines)
        if start.says:
            with open_file(path) as lines:
                logs.append(read_words(pid, life, lines, start))
    return logs


def numbers_of(version: str) -> Tuple[int, ...]:
    """The numbers of a version."""
    return tuple(int(part) for part in version.split(".") if part.isdigit())


def makefiles(words: Words) -> Set[str]:
    """All makefiles that a make read."""
    return {name for names in (*words.read, words.included) for name in names}
