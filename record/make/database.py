"""The reader of make's data base (`make -p`): what its other words do not say about targets."""

import re
from dataclasses import dataclass, field
from typing import Any, Dict, List, Set, Tuple

TARGET = re.compile(r"^(.*?)(::?)(?: (.*))?$")
PLACE = re.compile(r"^#  recipe to execute \(from '(.*)', line (\d+)\):")
ORIGIN = re.compile(r"# (makefile|environment(?: under -e)?|command line|default|automatic|'override' directive)(?: private)?(?: \(from '(.*)', line (\d+)\))?$")
# A macro of which the value counts, also one of single targets or of a pattern, or of several lines.
VALUE = re.compile(r"(?:.*[\s:])?(SHELL|MAKEFLAGS|MAKECMDGOALS|\.FEATURES)(?: (?:=|:=|::=|:::=|\+=|\?=) ?(.*))?$")
MARKS = ("# Files", "# files hash-table stats:")  # the lines around its targets


@dataclass
class Colons:
    """One rule of a double-colon target."""

    prerequisites: List[str]
    order_only: List[str]
    is_empty: bool = True  # it has no recipe, or one that starts nothing
    place: Tuple[str, int] = field(default=("", 0), compare=False)  # of its recipe
    first_line: str = field(default="", compare=False)


@dataclass
class Base:
    """What the data base says; names as make shows them, cut at blanks."""

    prerequisites: Dict[str, List[str]] = field(default_factory=dict)
    order_only: Dict[str, Set[str]] = field(default_factory=dict)
    phony: Set[str] = field(default_factory=set)
    intermediate: Set[str] = field(default_factory=set)
    also: Dict[str, List[str]] = field(default_factory=dict)
    double: Dict[str, List[Colons]] = field(default_factory=dict)
    recipes: Dict[str, List[str]] = field(default_factory=dict)
    places: Dict[str, List[Tuple[str, int]]] = field(default_factory=dict)
    implicit: Set[str] = field(default_factory=set)
    failed: Set[str] = field(default_factory=set)  # what could not be made
    values: Dict[str, Set[str]] = field(default_factory=dict)  # of macros that count: all that they may have
    serial: bool = False
    is_unclear: bool = False  # a macro has lines that look like those around the targets

    def note_value(self, text: str) -> None:
        """A line that may say the value of a macro."""
        if found := VALUE.match(text):
            self.values.setdefault(found.group(1), set()).add(found.group(2) or "")

    def call(self, name: str, path: str) -> None:
        """What make has found in another folder stands here by its path there: its rule has this name, too."""
        every: Tuple[Dict[str, List[Any]], ...] = (self.recipes, self.places, self.double)
        for known in every:
            known.update({name: known[path]} if path in known else {})


def cut(text: str) -> List[str]:
    """Words as make cuts them: a name may have any blank that is not of ASCII."""
    return [word for word in text.replace("\t", " ").split(" ") if word]  # guard: words-of-data-base


class _Files:
    """The part of the data base that lists targets."""

    def __init__(self, base: Base) -> None:
        self.base, self.name = base, ""
        self.is_macro = self.is_other = False  # the next line sets a macro of one target; it is about a name that is no target
        self.is_recipe = self.goes_on = False  # inside of a recipe; inside of one of its lines

    def line(self, text: str) -> None:
        """One line: an empty one ends a target, and what stands before the recipe are remarks."""
        if self.is_recipe and (text or self.goes_on):  # guard: behind-empty-line
            self.recipe(text)
        elif text == "":
            self.name, self.is_recipe, self.is_other = "", False, False  # guard: line-behind-name-that-is-no-target
        elif text.startswith("#") and text[1:2] in ("", " "):
            self.remark(text)
        elif not self.name and not text.startswith("\t"):
            self.target(text)

    def recipe(self, text: str) -> None:
        """A line of a recipe. Each begins with a tab, or what `.RECIPEPREFIX` says; behind a backslash it goes on as it stands."""
        if self.name and text.strip():
            if self.name in self.base.double and text.strip().lstrip("@+-").strip() not in ("", ":"):  # make starts nothing for these
                rule = self.base.double[self.name][-1]
                rule.first_line, rule.is_empty = rule.first_line or text[1:], False
            self.base.recipes.setdefault(self.name, []).append(text if self.goes_on else text[1:])
        self.goes_on = (len(text) - len(text.rstrip("\\"))) % 2 == 1

    def remark(self, text: str) -> None:
        """A line such as `#  Phony target (prerequisite of .PHONY).`, about the target above it; or one that says where a macro is from."""
        base = self.base
        self.is_macro = not self.name and bool(ORIGIN.match(text))
        self.is_other = text == "# Not a target:"
        if not text.startswith("#  "):
            return
        self.is_recipe = self.is_recipe or text.startswith("#  recipe to execute")  # guard: behind-another-mark
        if self.name and (place := PLACE.match(text)):
            base.places.setdefault(self.name, []).append((place.group(1), int(place.group(2))))
            for rule in base.double.get(self.name, [])[-1:]:
                rule.place = base.places[self.name][-1]
        elif text.startswith("#  Implicit rule search has been done"):
            base.implicit.add(self.name)
        elif text.startswith("#  File is an intermediate prerequisite"):
            base.intermediate.add(self.name)
        elif text.startswith("#  Failed to be updated"):
            base.failed.add(self.name)
        elif text.startswith("#  Phony target"):
            base.phony.add(self.name)
        elif text.startswith("#  Also makes:"):
            base.also[self.name] = cut(text.split(":", 1)[1])

    def target(self, text: str) -> None:
        """A line `TARGET: PREREQUISITES | ORDER-ONLY`; or `TARGET: NAME = VALUE`, for a macro of one target."""
        match = TARGET.match(text)
        if self.is_macro or not match:
            self.base.note_value(text)
            self.is_macro = False
            return
        base, self.name = self.base, match.group(1)
        first, _, second = ((match.group(3) or "") + " ").partition("| ")
        if self.name == ".NOTPARALLEL" and not self.is_other:  # (as a prerequisite alone it says nothing)  # guard: no-target
            base.serial = True
        base.prerequisites.setdefault(self.name, []).extend(cut(first))
        base.order_only.setdefault(self.name, set()).update(cut(second))
        if match.group(2) == "::":
            base.double.setdefault(self.name, []).append(Colons(cut(first), cut(second)))


def read_base(lines: List[str]) -> Base:
    """What one data base says."""
    base, marks = Base(), [at for at, text in enumerate(lines) if text in MARKS]  # guard: lines-that-begin-like-one-of-its-marks
    base.is_unclear = len(marks) > len(MARKS)  # guard: marks-that-come-twice
    begin, end = [*marks, len(lines), len(lines)][:2]
    files = _Files(base)
    for text in lines[:begin]:
        base.note_value(text)
    for text in lines[begin + 1:end]:
        files.line(text)
    return base
