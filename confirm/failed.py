"""Which recipes failed, by what make and ninja print."""

from __future__ import annotations

import re
from collections.abc import Iterator
from dataclasses import dataclass

STATUS = "."  # stands for the status of a build among the names of files
RECIPE = re.compile(r"[\w.+-]+(?:\[\d+\])?: \*\*\* \[(?:(?P<file>[^\]]+?):\d+: |<builtin>: )?(?P<target>.+)\] ")
NO_RULE = re.compile(r"[\w.+-]+(?:\[\d+\])?: \*\*\* No rule to make target ['`](?P<target>.+?)'(?:, needed by '(?P<user>.+?)')?")
OF_NINJA = re.compile(r"FAILED: (?:\[code=\d+\] )?(?P<outputs>.+)")


@dataclass(frozen=True)
class Failed:
    """One failure: the targets that it is about, as make or ninja names them, and the makefile where make says which."""

    names: tuple[str, ...]
    file: str = ""


def failed(output: str) -> Iterator[Failed]:
    """The failures in the output of a build."""
    for line in map(str.strip, output.splitlines()):
        if found := RECIPE.match(line):  # guard: make
            yield Failed((found["target"],), found["file"] or "")
        elif found := NO_RULE.match(line):  # guard: no-rule
            yield Failed(tuple(it for it in (found["target"], found["user"]) if it))
        elif found := OF_NINJA.match(line):  # guard: ninja
            yield Failed(tuple(found["outputs"].split()))
