"""The kinds of races, by the path on which two recipes meet, each with what to do. docs/FAULTS.md has the same table."""

from __future__ import annotations

import os
from dataclasses import dataclass
from typing import Any, Dict

from record.build.text import OWN_NAME
from record.judge import Race


@dataclass(frozen=True)
class Kind:
    """A kind of race: its name in reports, what it usually is, and what to do about it."""

    name: str
    title: str
    fix: str


FORGOTTEN = Kind("forgotten-prerequisite", "a prerequisite that was forgotten", "name it: `lex.o: words.h`")
TWO = Kind("two-outputs", "one rule with two outputs, which make takes for two rules", "write it as `a b &: c` (GNU make 4.3), or as `a: c` with its recipe, and `b: a ;`")
TEMPORARY = Kind("shared-temporary", "a temporary of a fixed name (`y.tab.c`)", "give each recipe a name of its own")
LOG = Kind("shared-log", "a log to which both append", "give each recipe a log of its own, and let one recipe join them")
OUTPUT = Kind("second-output", "a second output of a recipe", "let the reader need the target of the writer, such as a stamp file")
ARCHIVE = Kind("archive", "`ar -r` in two recipes", "one recipe that makes it of all its members")
FOLDER = Kind("folder", "a folder that one makes or fills, and the other makes, fills or reads",
              "let the reader need the target of the writer, or give each a folder of its own")
AT_ONCE = Kind("one-recipe", "two processes of one recipe that run at once", "write `wait` between the two, or let one end before the other begins (`&&`)")
LEFT = Kind("left-running", "a process that its recipe does not wait for", "let the recipe wait for it (`wait`), or start it in a recipe of its own that does")
WIDE = Kind("wide-footprint", "a footprint that is too wide: a tree where a few files were meant", "write down the single files")

# WIDE is advice for footprints that are written by hand: nothing in a race shows it, so no race is given this kind.
KINDS = (FORGOTTEN, TWO, TEMPORARY, LOG, OUTPUT, ARCHIVE, FOLDER, AT_ONCE, LEFT, WIDE)


def is_of_folder(path: str) -> bool:
    """Whether a path is about a folder."""
    return bool(OWN_NAME.search(path)) or path.endswith("/")


def whole(about: Dict[str, Any], name: str) -> str:
    """A name as a build spells it, whole: two spellings of one file are one."""
    return os.path.normpath(os.path.join(about.get("folder", "/"), name))


def target(about: Dict[str, Any], label: str) -> str:
    """The target of a label."""
    return str(about["labels"].get(label, {}).get("target") or label)


class Meeting:
    """A race, with what its build says of the two tasks."""

    def __init__(self, about: Dict[str, Any], race: Race) -> None:
        self.about, self.race = about, race
        self.first, self.second = (about["labels"].get(it, {}) for it in (race.first, race.second))
        self.early, self.late = target(about, race.first), target(about, race.second)
        self.tool: str = about.get("tool", "make")
        self.path, self.targets = whole(about, race.path), (whole(about, self.early), whole(about, self.late))

    @property
    def is_of_one_recipe(self) -> bool:
        """Whether two parts of one recipe race."""
        return "command" in self.first and "command" in self.second and self.first.get("target") == self.second.get("target")

    @property
    def is_of_one_rule(self) -> bool:
        """Whether the two have one recipe, which makes the target of both."""
        place = self.first.get("file") and all(self.first.get(it) == self.second.get(it) for it in ("file", "line"))
        made = {other for does, other in zip((self.race.second_does, self.race.first_does), self.targets) if does == "writes"}
        return bool(place) and self.tool == "make" and self.targets[0] != self.targets[1] and self.path in made

    @property
    def kind(self) -> Kind:
        """What it is: the first of these."""
        is_writing = self.race.first_does == self.race.second_does == "writes"
        rows = (
            (self.is_of_one_recipe, AT_ONCE),
            ("left" in self.first or "left" in self.second, LEFT),
            (is_of_folder(self.race.path), FOLDER),
            (is_writing and self.race.path.endswith(".a"), ARCHIVE),
            (self.is_of_one_rule, TWO),
            (self.path in self.targets, FORGOTTEN),
            (is_writing and self.race.path.endswith(".log"), LOG),
            (is_writing, TEMPORARY),
        )
        return next((kind for holds, kind in rows if holds), OUTPUT)
