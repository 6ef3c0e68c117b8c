"""What some programs keep for later runs of their own, such as ccache what compilers gave.

What lies there changes how long they take, and not what they leave. So what they do there is left out. Where another program touched
that folder or file, all stays as it is.
"""

import os
import re
from dataclasses import dataclass
from typing import Dict, Iterator, Pattern, Sequence, Set

from record.commands.system import is_below
from record.trace.events import ABSENT, MADE_BEFORE, MAKES, READ, SEEN
from record.trace.lives import Life, Program


@dataclass(frozen=True)
class Keeper:
    """A program that keeps files for itself: the names of its program, names that lead to a folder or file of its own (the group that there
    is), and how the words begin with which it says nothing of them: `ccache -s` does, and `go build -v`."""

    programs: Pattern[str]
    kept: Pattern[str]
    words: Pattern[str] = re.compile("")


GIT_ASKS = r"\S+ (?:-[Cc] \S+ |--[\w-]+(?:=\S+)? |-p )*(?:describe|diff|diff-files|diff-index|log|ls-files|name-rev|rev-list|rev-parse|show|status)(?: |$)"
KEEPERS = (
    Keeper(re.compile(r"ccache"), re.compile(r"(/.+?)/(?:tmp/\.cleaned|(?:[0-9a-f]/){1,2}(?:stats|CACHEDIR\.TAG))"), re.compile("(?!ccache -)")),  # guard: ccache-that-says-what-it-keeps
    Keeper(re.compile(r"cargo"), re.compile(r"(/.+/\.(?:global-cache(?:-journal)?|package-cache(?:-mutate)?))")),
    Keeper(re.compile(r"go"), re.compile(r"(/.+?)/[0-9a-f]{2}/[0-9a-f]{64}-[ad]|(/.+/go/telemetry)/local/.+"), re.compile(r"(?!.* -(?:v|x|n|json)(?: |$))")),  # guard: go-that-says-what
    Keeper(re.compile(r"git"), re.compile(r"(/.+/\.git/(?:.+/)?index(?:\.lock)?)"), re.compile(GIT_ASKS)),
    Keeper(re.compile(r"np[mx]-cli\.js"), re.compile(r"(/.+/_logs)/[^/]+\.log|(/.+/_cacache)/.+|(/.+/_update-notifier-last-checked)")),
    Keeper(re.compile(r"guile(?:-[\d.]+)?"), re.compile(r"(/.+/guile/ccache)/.+\.go(?:\..+)?")),
    Keeper(re.compile(r"dot|fc-\w+|gnuplot(?:-\w+)?|inkscape|rsvg-convert|convert|magick|(?:xe|lua)latex"), re.compile(r"(/.+/fontconfig)/[^/]+\.cache-\d+(?:\..+)?")),
)
LOOKS = READ + SEEN + ABSENT + MAKES  # acts on a folder that mean no more than that it makes it if it is not there


def settle_caches(lives: Sequence[Life], tops: Sequence[str]) -> Iterator[str]:
    """Leaves out what such programs did in folders of their own; the words of each process that ran one."""
    for keeper in KEEPERS:
        callers = {life: one.place for life in lives for one in reversed(life.programs) if runs(one, keeper, tops)}  # where it began to run it first
        known = {one: place for life, start in callers.items() for one, place in below(life, start).items()}
        folders = own_folders(keeper, lives, known)
        made = {path for life in known for kind, path in life.events if kind in MAKES and any(is_below(folder, path) for folder in folders)}
        for life in known if folders else ():
            leave_out(life, folders, made)
        yield from (" ".join(life.argv)[:60] for life in callers if folders or keeper is KEEPERS[0])


def runs(program: Program, keeper: Keeper, tops: Sequence[str]) -> bool:
    """Whether a program is the one of that name, or was called by it. One of the project is not known to be it."""
    is_named = any(keeper.programs.fullmatch(os.path.basename(name)) for name in (program.file, program.name))
    words = " ".join([os.path.basename(program.name), *program.argv[1:]])
    return is_named and keeper.words.match(words) is not None and not any(is_below(program.file, top) for top in tops)  # guard: ccache-of-project


def below(life: Life, place: int) -> Dict[Life, int]:
    """A process from a place on, and all that it started from there."""
    found, todo = {life: place}, [life]
    while todo:
        one = todo.pop()
        new = {child: child.born for child in one.children if child.born >= found[one]}
        found.update(new)
        todo += new
    return found


def own_folders(keeper: Keeper, lives: Sequence[Life], known: Dict[Life, int]) -> Set[str]:
    """The folders and files of its own in which nobody else was."""
    matches = [match for life in known for _, path in life.events for match in [keeper.kept.fullmatch(path)] if match is not None]
    folders = {next(filter(None, match.groups())) for match in matches}
    for life in lives if folders else ():
        others = [path for (_, path), place in life.events.items() if life not in known or place < known[life]]  # guard: who-else
        folders = {folder for folder in folders if not any(is_below(path, folder) for path in others)}
    return folders


def leave_out(life: Life, folders: Set[str], made: Set[str]) -> None:
    """Takes out what a process did in these folders. Each that is there makes them, and those above, if they are not there."""
    within = [(kind, path) for kind, path in life.events if any(is_below(path, folder) for folder in folders)]  # guard: files
    first = min((life.events[event] for event in within), default=0)
    for kind, path in within:
        if path.rstrip("/") not in made or kind in LOOKS:  # guard: name-of-folder
            del life.events[kind, path]
    for path in made if within else ():
        places = [place for place in (life.events.pop((kind, path), None) for kind in LOOKS) if place is not None]
        life.events.setdefault((MADE_BEFORE, path), min([first, *places]))  # guard: who-makes-folder
