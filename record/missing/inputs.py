"""Missing inputs: files that a recipe reads and whose edit does not make its target again.

What make knows in a later build, and what the recipes read, become the tasks of an old tree (old_tree.py); `race missing --tasks` judges them.
"""

import json
import os
import re
from dataclasses import dataclass, field, replace
from pathlib import Path
from typing import Any, Dict, List, Sequence, Set, Tuple

from record.build.assumptions import Assumptions
from record.build.tasks import Build
from record.build.text import relative, shown
from record.commands.shelltext import base_name
from record.folder import Record
from record.judge import ask, ended, unshown
from record.make.graph import MakeBuild
from record.make.owners import Make
from record.make.words import makefiles
from record.missing.later import ANOTHER, another, call_of, look_ahead
from record.missing.old_tree import KEPT, OldTree
from record.trace.events import READ
from record.trace.lives import Life
from record.trace.names import Names

TASKS, LISTING = "missing-tasks", "missing-listing"
FOUND = re.compile(r"^(missing|late|shared) ([^ ]+) : ([^ ]+) (reads|writes)(?: ([^ ]+) writes)?$")
ADD = re.compile(r"^add ([^ ]+): ([^ ]+)$")
SHOWN = 5  # names that a later build leaves otherwise
COUNTS = ("missing", "late", "shared", "present", "tree", "races")


# ---------------------------------------------------------------- what is recorded
def write_missing(out: Path, record: Record, builds: List[Build], makes: List[Make], names: Names, lives: List[Life]) -> Dict[str, Any]:
    """The tasks of old trees beside those of each build; what they take for granted, and why there may be no answer."""
    premises = Assumptions()
    for kind, example in (("later", ""), ("traces", ""), *(("not-run", relative(record.folder, name)) for name in record.warm + record.configured)):
        premises.add(kind, example)
    begun = lives[0].begun if record.first is not None and record.first.setup else 0  # what comes before that is no part of a later build
    makes, lives = [make for make in makes if make.life.died > begun], [life for life in lives if life.died > begun]
    rounds = [(number, build) for number, build in zip(record.builds, builds) if isinstance(build, MakeBuild) and build.make in makes]
    changed = {path for life in lives for path, last in life.changed.items() if last > begun}
    later, judged = look_ahead(record, makes, names, changed, out), 0
    holes = later.holes + ["statements of ninja are not looked at: %s in %s" % (build.words or "ninja", build.folder) for build in builds if not isinstance(build, MakeBuild)]
    for number, build in rounds:
        call = call_of(build.make.words)
        knows = later.idle.get(call, later.busy.get(call))
        if knows is None:  # no later build calls it
            premises.add("unjudged", build.words)
            continue
        holes += [ANOTHER + why for why in another(build, knows, names)]
        tree = OldTree(build, names, later, knows, premises)
        holes += ["the recipe of %s does not run where all sources have a new time" % name for name in tree.silent]  # guard: recipes-that-do-not-run-again
        for name, lines in ((TASKS, tree.lines()), (LISTING, tree.listing())):
            (out / "builds" / number / name).write_text("".join(line + "\n" for line in lines), encoding="utf-8", errors="backslashreplace")
        judged += sum(tree.tasks[at].kind == "recipe" for at in tree.makes)
    elsewhere = made_elsewhere([build for _, build in rounds], names, changed)  # guard: what-another-recipe-made
    for kind, paths in (("unstable", later.unstable), ("not-run", elsewhere), ("called", called(makes, names, lives, changed))):
        for path in sorted(paths):
            premises.add(kind, relative(record.folder, path))
    otherwise = later.otherwise - kept_by_builder(later.otherwise, lives) - makefiles_of(makes, names)
    return {"judged": judged, "holes": list(map(shown, holes)), "premises": premises.rows(),
            "otherwise": ["a later build leaves %s otherwise" % relative(record.folder, path) for path in sorted(otherwise)[:SHOWN]]}


def kept_by_builder(paths: Set[str], lives: List[Life]) -> Set[str]:
    """Files that CMake keeps for itself, of some, and that nobody else reads but make: its account of what compilers read is another one when a build has ended."""
    read = {path for life in lives if not life.is_make and base_name(life.argv) != "cmake" for kind, path in life.events if kind == "R"}
    return {path for path in paths - read if "CMakeFiles" in path.split("/")}


def made_elsewhere(rounds: List[MakeBuild], names: Names, changed: Set[str]) -> Set[str]:
    """Targets that a make found up to date, since something else had made them in this build, and not by the same recipe."""
    ran = {(build.folder, task.node.name, *build.graph.base.recipes.get(task.node.name, ())) for build in rounds for task in build.tasks if task.kind == "recipe"}
    return {node.path for build in rounds for node in build.graph.nodes.values() if node.has_recipe and not node.jobs and not node.phony
            and node.path in changed and node.path not in names.before
            and (build.folder, node.name, *build.graph.base.recipes.get(node.name, ())) not in ran}


def makefiles_of(makes: Sequence[Make], names: Names) -> Set[str]:
    """All makefiles that some makes read."""
    return {names.find(make.folder, name, True).path for make in makes for name in makefiles(make.words)}


def called(makes: Sequence[Make], names: Names, lives: Sequence[Life], changed: Set[str]) -> Set[str]:
    """What decides on macros before recipes run, as far as it is there: what processes read that work for no recipe, or for one that calls a make itself, or that
    make itself calls; and makefiles that the build makes."""
    files = makefiles_of(makes, names)
    apart = {id(life) for make in makes for job in make.jobs if not job.work.makes for life in job.work.lives}
    found = {path for life in lives if id(life) not in apart and not life.is_make for kind, path in life.events if kind == READ}  # guard: files-of-who-calls-make
    found.update(path for make in makes for kind, path in make.life.events if kind == READ and path not in files)  # guard: files-that-make-reads
    return {path for path in found | files & changed if os.path.isfile(path) and names.is_inside(path)}


# ---------------------------------------------------------------- what race says
@dataclass(frozen=True)
class Found:
    """One violation: its kind, the path, the recipe that is not made again, and the last that writes the path, by their labels."""

    kind: str  # missing, late, shared
    path: str
    reader: str
    writer: str = ""
    add: str = ""  # what to add to the prerequisites of the reader (of the writer where both write); nothing where make knows no rule of the file


@dataclass
class Answer:
    """What `race missing` said of one build; `refused` is empty where it judged it."""

    found: List[Found] = field(default_factory=list)
    races: int = 0
    refused: str = ""


def labels_in(tasks: Path) -> Tuple[Dict[str, str], Set[str]]:
    """The label of each name by which a report calls a task: the file that it makes, or the label itself. And the files that have no rule."""
    with open(tasks, encoding="utf-8", errors="surrogateescape") as lines:
        found = [*map(json.loads, lines)]
    labels = {one[key]: one.get("of", one["task"]) for key in ("task", "makes") for one in found if key in one}
    return labels, {name for one in found for name in one.get("loose", ())}


def read_answer(lines: List[str], labels: Dict[str, str], loose: Set[str]) -> List[Found]:
    """The violations of a report; a line to add belongs to the one before it, unless it names a file that has no rule."""
    found: List[Found] = []
    for text in lines:
        match, add = FOUND.match(text), ADD.match(text)
        if match:
            kind, path, reader, _, writer = map(unshown, match.groups(""))
            found.append(Found(kind, path, labels.get(reader, reader), labels.get(writer, writer)))
        elif add and found:
            file = found[-1].path if add.group(2).startswith(KEPT + "/") else unshown(add.group(2))
            found[-1] = replace(found[-1], add="" if file in loose else file)  # guard: lines-that-do-not-help
    return found


def judge_missing(race: str, folder: Path, root: str) -> Answer:
    """What `race missing` says of the old tree of one build; nothing where the build has none."""
    if not (folder / TASKS).exists():
        return Answer()
    ran = ask(race, "missing", folder / TASKS, root, "--listing", LISTING)
    lines = ran.stdout.split("\n")
    head = next((at for at, text in enumerate(lines) if text.startswith("waits ")), -1) + 1
    counts = {word: int(number) for word, _, number in (text.partition(" ") for text in lines[:head]) if number.isdigit()}
    answer = Answer(read_answer(lines[head:], *labels_in(folder / TASKS)), counts.get("races", 0))
    is_whole = all(word in counts for word in COUNTS) and sum(counts[word] for word in COUNTS[:-1]) == len(answer.found)  # guard: reports-that-are-cut
    if not is_whole or ran.returncode != int(any(counts[word] for word in COUNTS)):
        answer.refused = " ".join((ran.stdout + ran.stderr).split())[:300] or "race missing " + ended(ran.returncode)
    return answer
