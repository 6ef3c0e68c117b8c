"""What a verdict takes for granted: counted, with an example each."""

from collections import Counter
from typing import Any, Dict, List, Set

from record.build.text import shown
from record.trace.lives import Course

TEXTS = {
    "serial": "make decides goals in this order, without --shuffle, and recipes do the same on the same looks: they do not go by macros that another one sets ($(eval ..)) or that a target hands down (a: V = 1), the time, how long things take, the space that is free, when a file was read last, MAKEFLAGS, the order in which make prints, the number of processors, a terminal, standard input, descriptors of a job server, or files that were opened for them before make began",
    "ninja": "commands of ninja do the same on the same looks: they do not go by the time, how long things take, the space that is free, when a file was read last, the number of jobs, the number of processors, a terminal, standard input, or files that were opened for them before ninja began; and nobody looks at the order of what ninja prints",
    "up-to-date": "builds start from this tree: targets that were up to date stay so",
    "configured": "builds start when ./configure has run: what it makes is there and up to date",
    "unasked": "builds have the same goals: recipes that nothing asked for are not judged",
    "luck": "processes that meet on a file come in this order in each build, though only a wait orders them that may have been luck",
    "orders": "recipes that nothing orders come to the same in either order, though one may see more of the other than which files there are and what they hold, such as their ages, and so may make itself, as by $(wildcard ..) and $(shell ..)",
    "sockets": "servers that processes talk to keep no files of the build; ports that they open are free; memory is shared by processes of one recipe alone",
    "processes": "who lists the processes that run (ps, pgrep), signals or looks at one of another recipe, sets its limits (prlimit, renice, taskset), or waits for changes of files (inotify, leases), does the same whatever else runs",
    "locks": "who asks for a lock of a file, and does not wait for it, does the same where another one has it; recipes that take two locks take them in one order",
    "hard-links": "files that got or lost a second name, or have one and were written, have none outside of the project",
    "outside": "names outside of the project that the build changed were there before it as they are on the disk after it",
    "preload": "recipes do the same where LD_PRELOAD names the library of the recorder, which lets make say what it does",
    "loaded": "objects that make loads (load), and $(guile ..), change no macros and keep nothing in memory from one recipe to the next: files alone settle what they do",
    "bytecode": "what Python keeps in __pycache__ does what its source does, whichever recipe wrote it; its bytes may differ",
    "caches": "what ccache, cargo, go, guile, npm and fontconfig keep for themselves, and git's notes of what it looked at, change how long they take, and nothing else; what was taken from there needed no compiler, so files for which one would have looked were not seen (CCACHE_RECACHE=1 and an empty GOCACHE show them)",
    "progress": "what CMake counts in CMakeFiles/Progress changes the percentages that it prints, and nothing else; nobody else looks there",
    "tops": "two makes or ninjas that ran at once, and that no make or ninja started, do not meet",
    "beside": "files that a process which no recipe started changed while make ran are touched by no recipe",
    # What the answer on missing inputs takes for granted.
    "later": "you edit sources, add and remove none, and what you edit gets a new time; in a clean tree recipes then read and write the files that they do now; makefiles, commands and the environment stay; each build ends well",
    "traces": "a recipe leaves the same after the same inputs, whatever it left before and whichever of them are newer ($?), and writes its target whenever it runs",
    "always": "recipes that run in every build have no missing inputs: their targets are phony, or are not there after the build",
    "not-run": "targets that were there when their make looked, and whose recipes did not run, have no missing inputs, and are made alike by what makes them",
    "unjudged": "recipes that are not looked at have no missing inputs: double colons, archive members, targets that are not written, prerequisites that are not known",
    "beyond": "what lies outside of the project stays: compilers, system headers, /tmp",
    "looks": "links, and what recipes look for and do not read, stay as they are, and so do the lists of folders",
    "unlisted": "files that recipes looked for and did not find stay absent",
    "times": "files whose time a recipe sets (touch -r, cp -p) have a new time where they have new contents",
    "called": "makefiles that the build makes, and files that are read outside of recipes, by $(shell ..) or by who calls a make, lead to the same macros, words and files after an edit",
    "own": "you do not edit sources that a recipe reads and changes itself",
    "outputs": "a recipe that makes several files writes them all whenever it runs",
    "rewritten": "what another recipe writes to a target as well does no harm",
    "unstable": "what two later builds leave otherwise than each other, such as a time, does not go by what was there before",
    "later-ring": "a prerequisite that closes a ring in a later build, which make drops, is not needed",
}
UNTRIED = ("luck", "orders")  # what nobody has tried out: with --strict it bars the yes
# What builds in other orders try out, and the two serial builds among them.
TRIED_OUT = ("serial", "ninja")
OF_TREE = ("unasked", "up-to-date", "configured")  # what is said of the goals and of the tree


class Assumptions:
    """All that was met."""

    def __init__(self) -> None:
        self.counts: "Counter[str]" = Counter()  # how often each kind was met
        self.examples: Dict[str, str] = {}  # the first case of each kind
        self.lucky: Dict[str, Set[Course]] = {}  # by case of `luck`: the processes for which others have waited so

    def add(self, kind: str, example: str, count: int = 1) -> None:
        """Counts one case."""
        self.counts[kind] += count
        self.examples.setdefault(kind, example)

    def add_luck(self, example: str, waits: Set[Course]) -> None:
        """Counts a case of `luck`."""
        self.add("luck", example)
        self.lucky.setdefault(example, set()).update(waits)

    def rows(self) -> List[Dict[str, Any]]:
        """What a record says of them, in the order in which they were met."""
        return [{"kind": kind, "count": count, "example": shown(self.examples[kind]), "text": TEXTS[kind]} for kind, count in self.counts.items()]
