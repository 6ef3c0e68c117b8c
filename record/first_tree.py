"""The first tree: which tree a yes is about, and what an earlier build left in it.

In a git work tree the tree is a commit, its changed files, with `--fresh` its new ones, and what `./configure` makes of it. Elsewhere it is the folder as it
stands.

What an earlier build left may order recipes, or stand for what they wait for, and a new checkout does not have it. So a record is warm where the build
used such a name:

- in a git work tree: a name that was there, that somebody looked at before anybody wrote it, and that git does not track; a folder, where a recipe uses it
  that neither makes it nor waits for one that does; so it is in `.git`, except what a clone has, and what git itself uses;
- elsewhere, and in a folder that CMake or Meson configured: such a file that a recipe of this build writes, or cannot make since it is there, and such a folder
  that one makes;
- in a tree that `--fresh` made: a new file that a recipe writes, as it is no source, and may be all that its folder holds;
- never what `./configure` made, except what a recipe writes again.
"""

import os
import shlex
import subprocess
import sys
import tempfile
from dataclasses import dataclass, field
from fnmatch import fnmatchcase
from functools import cached_property
from typing import Container, Dict, FrozenSet, Iterable, Iterator, List, Sequence, Set, Tuple

from record import machine
from record.build.tasks import Build
from record.make.owners import Make
from record.messages import plural
from record.trace.events import BY_LIST, CHANGES, CREATED, ENTERED, HELD, LISTED, MADE_BEFORE, MAKES, OUTPUT, READ, REFUSED, SEEN
from record.trace.lives import Life
from record.trace.names import Names

GIT = ["git", "--no-optional-locks", "-c", "safe.directory=*"]
CONFIGURED_BY = ("CMakeCache.txt", "meson-info")  # what stands at the top of a folder that CMake or Meson configured
FOLDER_USED = SEEN + ENTERED + LISTED + CREATED
NAMED = 3  # so many new files are named


@dataclass(frozen=True)
class FirstTree:
    """The tree that a build starts from, as it was before it."""

    folder: str  # that has all of it
    top: str = ""  # of a git work tree
    commit: str = ""  # none where nothing was committed
    changed: int = 0  # tracked files that are not as in the commit
    new: Tuple[str, ...] = ()  # files that git does not track and does not ignore, where --fresh took them along; below the top
    tracked: FrozenSet[str] = field(default=frozenset(), repr=False)  # whole paths of files, and of the folders that they are in
    left: Tuple[str, ...] = ()  # files that --fresh took out again, as an earlier build made them; whole paths
    said: str = ""  # how --fresh got it
    setup: str = ""  # what ran between the tree and the build
    ninja: str = ""  # the folder that --fresh cleaned by ninja
    linked: Tuple[str, ...] = ()  # files that --fresh copied, and that have names outside of it; whole paths

    def text(self) -> str:
        """What it is, behind `for`."""
        changes = [plural(count, kind) for count, kind in ((self.changed, "changed file"), (len(self.new), "new file")) if count]
        names = " (%s)" % first_names(self.new) if self.new else ""
        tree = self.said or ("a checkout of %s" % self.commit + (" with %s%s" % (" and ".join(changes), names) if changes else "") if self.commit else "this folder as it stood")
        left = "%s that an earlier build left (%s)" % (plural(len(self.left), "file"), first_names([os.path.relpath(path, self.folder) for path in self.left]))
        return tree + (", without " + left if self.left else "") + (", after %s" % self.setup if self.setup else "")

    def is_own(self, path: str) -> bool:
        """Whether a path is in the work tree, and not among the new files."""
        below = os.path.relpath(path, self.top) if self.top else ".."
        return below.partition("/")[0] not in (".", "..") and below not in self.new_names

    @cached_property
    def new_names(self) -> Set[str]:
        """The new files, and the folders that they are in."""
        return with_folders(self.new, "")


def first_names(names: Sequence[str]) -> str:
    """The first of some names."""
    return ", ".join(names[:NAMED]) + (", .." if len(names) > NAMED else "")


def git(folder: str, *words: str) -> str:
    """What git answers in a folder; nothing where there is no git, or it has no answer."""
    try:
        ran = subprocess.run([*GIT, "-C", folder, *words], capture_output=True, check=False, stdin=subprocess.DEVNULL)
    except OSError:
        return ""
    return ran.stdout.decode("utf-8", "surrogateescape") if ran.returncode == 0 else ""


def tree_of(folder: str) -> FirstTree:
    """The tree in a folder, as it is now."""
    top = git(folder, "rev-parse", "--show-toplevel").rstrip("\n")
    if not top:
        return FirstTree(folder)
    top = os.path.realpath(top)
    files = [os.path.join(top, name) for name in git(top, "ls-files", "-z", "--recurse-submodules").split("\0") if name]
    changed = [line for line in git(top, "status", "--porcelain", "-z", "-uno").split("\0") if line]
    return FirstTree(top, top, git(top, "rev-parse", "--short", "HEAD").strip(), len(changed), tracked=frozenset(with_folders([*files, *in_clone(top)], top)))


def in_clone(top: str) -> Iterator[str]:
    """What git's own folder has in a new clone, as paths of this one. The objects are those that are here."""
    yield os.path.join(top, ".git", "index")  # of what is checked out
    objects = os.path.join(top, git(top, "rev-parse", "--git-path", "objects").rstrip("\n"))
    yield from names_below(objects)  # guard: objects-of-git
    with tempfile.TemporaryDirectory(prefix="race-git-") as room:
        git(top, "clone", "-q", "--shared", "--no-checkout", "--upload-pack", shlex.join([*GIT, "upload-pack"]), top, room)
        yield from (os.path.join(top, os.path.relpath(path, room)) for path in names_below(room))  # guard: what-a-clone-has


def names_below(top: str) -> Iterator[str]:
    """All files and folders below a folder."""
    return (os.path.join(folder, name) for folder, folders, files in os.walk(top) for name in (*folders, *files))


def with_folders(files: Iterable[str], top: str) -> Set[str]:
    """Files below a top, and the folders there that they are in."""
    found: Set[str] = set()
    for path in files:
        while len(path) > len(top) and path not in found:
            found.add(path)
            path = os.path.dirname(path)
    return found


def left_behind(tree: FirstTree, before: Dict[str, str], lives: List[Life], builds: Sequence[Build], kept: str, names: Names) -> Set[str]:
    """What an earlier build left, and this one used. `before`: the kinds of the names that were there; `kept`: the folder of the record. What a
    recipe looked at counts where any recipe changes it, what make or ninja looked at where others use it, too: a manifest that is made again is no leftover."""
    tops = tuple(os.path.dirname(path) + "/" for path in before if os.path.basename(path) in CONFIGURED_BY)
    recipes = [task for build in builds for task in build.tasks if task.kind == "recipe"]
    shared = {path for task in recipes for path in task.writes}
    changed = {path for task in recipes for work in task.works for kind, path in work.events if kind in CHANGES + REFUSED} - locks(lives)  # guard: names-that-could-not-be-made
    by_any, by_recipes = used(before, lives), used(before, [life for life in lives if not (life.is_make or life.is_ninja)]) | listed(before, builds)
    early, made = early_folders(before, builds, lives)
    early = {path for path in early if path not in names.tops and not (path + "/").startswith(tops)}  # guard: folders-that-were-configured
    written = by_any & shared | by_recipes & changed | early & made  # guard: what-one-recipe-changes
    written |= {path for path in changed & before.keys() if tree.new and os.path.relpath(path, tree.top) in tree.new_names}  # guard: new-files-that-recipes-write
    own = {path for path in by_any | by_recipes | early if tree.is_own(path) and not (path + "/").startswith(tops)}
    found = (written | own) - tree.tracked - kept_by_git(lives)
    return {path for path in found if not (path + "/").startswith(kept + "/")}  # guard: what-earlier-build-left


def kept_by_git(lives: Iterable[Life]) -> Set[str]:
    """What git uses in its own folder."""
    found = {path for life in lives if os.path.basename(life.program) == "git" for _, path in life.events if "/.git/" in path + "/"}
    return found | {os.path.dirname(path) for path in found}  # guard: what-git-uses


def locks(lives: Iterable[Life]) -> Set[str]:
    """The files on which somebody took a lock, and into which nobody wrote."""
    done = {kind: {path for life in lives for event, path in life.events if event == kind} for kind in (HELD, OUTPUT)}
    return done[HELD] - done[OUTPUT]


def used(before: Dict[str, str], lives: Iterable[Life]) -> Set[str]:
    """The files that were there and that somebody read, or saw who does not write them, before anybody wrote them."""
    looks: Dict[str, int] = {}
    changes: Dict[str, int] = {}
    for life in lives:
        for (kind, path), place in life.events.items():
            if kind == READ or kind in SEEN + BY_LIST and path not in life.changed:
                looks[path] = min(place, looks.get(path, place))
            elif kind in CHANGES:
                changes[path] = min(place, changes.get(path, place))
    return {path for path, place in looks.items() if before.get(path) in ("f", "l") and place <= changes.get(path, place)}  # guard: used-before-written


@dataclass
class Folder:
    """What the recipes of a build do with a folder that was there, by their numbers: where they use it first, and where they make it, as far as they know."""

    users: Dict[int, int] = field(default_factory=dict)
    makers: Dict[int, int] = field(default_factory=dict)
    refused: Set[int] = field(default_factory=set)  # those in which a process fails that could not make it

    def is_early(self, build: Build) -> bool:
        """Whether a recipe uses it that has not made it first, and waits for none that does; or two make it in no order, and one fails where it is there."""
        used = (not (self.makers.get(at, place) < place or any(build.is_before(one, at) for one in self.makers)) for at, place in self.users.items())
        if any(used):  # guard: folders-that-were-there
            return True
        return any(build.unordered(at, other) for at in self.refused for other in self.makers)  # guard: folders-that-two-make


def folders_of(build: Build, before: Dict[str, str]) -> Dict[str, Folder]:
    """By path: what recipes do with the folders that were there; not what the makes in them look at."""
    found: Dict[str, Folder] = {}
    for at, task in enumerate(build.tasks):
        for life in [life for work in task.works for life in work.lives if not (life.is_make or life.is_ninja)] if task.kind == "recipe" else ():
            for (kind, name), place in life.events.items():
                path = os.path.dirname(name.rstrip("/")) if kind == CREATED else name.rstrip("/")
                if kind in FOLDER_USED + MAKES and before.get(path) == "d":
                    folder = found.setdefault(path, Folder())
                    places = folder.makers if kind in MAKES else folder.users
                    places[at] = min(place, places.get(at, place))
                    folder.refused.update([at] if kind == MADE_BEFORE and life.has_failed else [])  # guard: folders-that-could-not-be-made
    return found


def early_folders(before: Dict[str, str], builds: Sequence[Build], lives: Iterable[Life]) -> Tuple[Set[str], Set[str]]:
    """The folders that were there and that a recipe uses or makes too early; and those that recipes make."""
    inside = {id(make) for build in builds for task in build.tasks for work in task.works for make in work.makes}
    found = [(build, path, folder) for build in builds for path, folder in folders_of(build, before).items()]
    early = {path for build, path, one in found if (one.makers or id(build.make) not in inside) and one.is_early(build)}  # guard: folders-that-outer-recipe-makes
    first: Dict[str, int] = {}  # where a recipe makes it
    for _, path, folder in found:
        first[path] = min([first.get(path, sys.maxsize), *folder.makers.values()])
    sooner = {path for life in lives for (kind, path), place in life.events.items() if kind in MAKES and place < first.get(path, 0)}
    return early - sooner, {path for path, place in first.items() if place < sys.maxsize}  # guard: folders-that-nobody-waits-for


def listed(before: Dict[str, str], builds: Iterable[Build]) -> Set[str]:
    """What was there and a recipe, or make itself, may have met as it listed the folder: what comes later has no place in the list."""
    lives = (life for build in builds for task in build.tasks for work in task.works for life in work.lives if not life.is_make)
    inside = {path: ["*"] for life in lives for kind, path in life.events if kind == LISTED}
    for make in {id(build.make): build.make for build in builds if isinstance(build.make, Make)}.values():
        for folder in (path for kind, path in make.life.events if kind == LISTED):
            inside.setdefault(folder, []).extend(make.patterns)  # guard: what-make-lists
    there = (os.path.split(path) for path, kind in before.items() if kind in ("f", "d"))
    return {os.path.join(folder, name) for folder, name in there if any(fnmatchcase(name, pattern) for pattern in inside.get(folder, ()))}  # guard: what-lists-show


def came_with(tree: FirstTree, paths: Iterable[str], statuses: Iterable[str], written: Container[str]) -> Set[str]:
    """Of what the build has recipes for what came with the tree: a manual, a parser, a stamp of translations. That is what git tracks; elsewhere what no
    recipe of this build wrote, and is older than a `config.status` that was there, or than what `--setup` runs."""
    since = float("inf") if tree.setup else max((machine.mtime(path) for path in statuses if machine.exists(path)), default=float("-inf"))
    return {path for path in paths if path in tree.tracked or not tree.top and path not in written and machine.exists(path) and machine.mtime(path) <= since}  # guard: what-came-with-release
