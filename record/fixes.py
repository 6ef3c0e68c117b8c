"""What ends a race: lines to write, in the words of what wrote the build, and advice in prose."""

import os
import re
from dataclasses import dataclass
from typing import Any, Dict, Iterable, List, Optional, Tuple

from record.judge import Race, Verdict
from record.kinds import AT_ONCE, FORGOTTEN, LEFT, OUTPUT, TEMPORARY, TWO, Kind, Meeting, is_of_folder
from record.ninja.fix import by_cmake, by_meson, owner
from record.build.text import file_of

# CMake's makefiles have a makefile for all targets, whose rules run a make for each.
CMAKE_FILE = re.compile(r"(?:^|/)CMakeFiles/Makefile2$")
CMAKE_TARGET = re.compile(r"(?:^|/)CMakeFiles/([^/]+)\.dir/all$")
ESCAPED = re.compile(r"([ \t:#%])")
TOGETHER = 10  # so many targets stand in one line


@dataclass(frozen=True)
class Remedy:
    """What ends a race. `rule`: a target and what it has to name, as a line of a makefile has them; `words`: other lines, as a statement of ninja or
    in the words of CMake. None where no line helps. `is_edge`: they say that the second recipe waits for the first, which `race fix` checks.
    `advice`: what is better, or what to do where there is no line."""

    rule: Optional[Tuple[str, str]] = None
    words: Tuple[str, ...] = ()
    is_edge: bool = True
    advice: str = ""

    @property
    def lines(self) -> Tuple[str, ...]:
        """The lines to write, each as it has to stand."""
        return ("%s: %s" % self.rule,) if self.rule else self.words


def remedy(about: Dict[str, Any], race: Race) -> Remedy:
    """What ends a race of a build."""
    it = Meeting(about, race)
    advice = better(it, it.kind)
    if it.kind in (AT_ONCE, LEFT, TWO):  # guard: no-line-orders-processes
        return Remedy(is_edge=False, advice=advice)
    if it.first.get("colons", 0) > 1:  # guard: later-rule-with-two
        return Remedy(is_edge=False, advice="write the rules of %s as one: what needs it is only sure to wait for the first of them" % it.first["target"])
    if it.tool == "ninja":
        return in_ninja(it, advice)
    early, late = cmake_target(it.first), cmake_target(it.second)
    if early and late and early != late:  # guard: cmakes-makefiles-in-words-of-cmake
        return Remedy(words=("add_dependencies(%s %s)" % (late, early),), advice=advice)
    is_loose = about.get("tool") == "make" and (is_of_folder(race.path) or bool(it.first.get("order_only")))  # guard: who-waits-for-what-makes-folder
    needed = ("| " if is_loose else "") + in_makefile(it.early)
    if it.second.get("colons"):  # guard: line-of-rule-with-two-colons
        return Remedy(words=("%s:: %s" % (in_makefile(it.late), needed),), advice="write it into that very rule: another rule with two colons is one of its own")
    return Remedy((in_makefile(it.late), needed), advice=advice)


def better(it: Meeting, kind: Kind) -> str:
    """What is better than to put the two in the order of the serial build; nothing where that is what was forgotten."""
    race = it.race
    if kind is TEMPORARY and it.tool != "ninja":
        return "give each recipe a name of its own for this file, such as %s.$@" % os.path.basename(race.path)
    if kind not in (FORGOTTEN, OUTPUT):
        return kind.fix.replace("`", "")
    if race.second_does != "writes" or race.first_does != "reads" or it.tool == "ninja" or it.first.get("kind") != "recipe" or race.path in it.first.get("lists", ()):
        return ""
    return "with one job %s comes first, and sees none of %s; if it is to see it, write %s: %s instead" % (it.early, it.late, in_makefile(it.early), in_makefile(it.late))


def in_makefile(name: str) -> str:
    """A name as a line of a makefile has it."""
    return ESCAPED.sub(r"\\\1", name).replace("$", "$$")


def cmake_target(found: Dict[str, Any]) -> str:
    """The target of CMakeLists.txt that a recipe builds, or nothing."""
    match = CMAKE_TARGET.search(found.get("target", "")) if CMAKE_FILE.search(found.get("file", "")) else None  # guard: not-other-makefiles
    return match.group(1) if match else ""


def in_ninja(it: Meeting, advice: str) -> Remedy:
    """The same for ninja, in the words of CMake, Meson or who wrote the manifest."""
    about, race = it.about, it.race
    early, late = owner(about["labels"], race.first), owner(about["labels"], race.second)
    if late[0] == "cmake" and late[1]:
        words, more = by_cmake(early, late, file_of(race.path) if race.path in about.get("meanings", {}) else race.path)
        return Remedy(words=words, advice=more or advice)
    if late[0] == "meson" and late[1]:
        return Remedy(advice=by_meson(race.first, late[1]))
    return Remedy(words=("build %s: .. || %s" % (race.second, race.first),), advice=advice)


def is_needed(verdict: Verdict, race: Race) -> bool:
    """Whether the line of a race has to be written: not where those of others end it."""
    return not verdict.is_fixed or "%s: %s" % (race.second, race.first) in verdict.fix


def merged(remedies: Iterable[Remedy]) -> List[str]:
    """The lines of some races, each once; targets that have to name the same stand in one line."""
    found: Dict[Tuple[str, bool], Dict[str, None]] = {}  # what has to be named, with the targets that have to; or a line of other words, with none
    for one in remedies:
        found.update(((line, False), {}) for line in one.words)
        if one.rule:
            found.setdefault((one.rule[1], True), {})[one.rule[0]] = None
    lines: List[str] = []
    for (text, _), targets in found.items():
        late = [*targets]
        lines += ["%s: %s" % (" ".join(late[at:at + TOGETHER]), text) for at in range(0, len(late), TOGETHER)] or [text]
    return lines
