"""The text behind the options of a help, cut into what a man page has sections for."""
from __future__ import annotations

import re
from collections.abc import Iterator
from dataclasses import dataclass, field

from manual.helps import Help, NoHelp

STATUSES = re.compile(r"^status(?:es)?:", re.I)
EXAMPLES = re.compile(r"^examples?\b[:,]? *", re.I)
IN_LIST = re.compile(r"^ {2}(\d) +(.*)$")
ON_LINE = re.compile(r"(?:^|[;,] )(?=\d )")


@dataclass
class Part:
    """A paragraph with the indented lines below it."""

    text: list[str] = field(default_factory=list)
    literal: list[str] = field(default_factory=list)

    @property
    def head(self) -> str:
        return self.text[0] if self.text else ""


def parts(lines: list[str]) -> Iterator[Part]:
    """The parts of a text: a new one begins behind an empty line, where a line is not indented that follows one that is, and
    at the statuses."""
    part = Part()
    for line in [*lines, ""]:
        starts = not line or line[0] != " " and part.literal and not STATUSES.match(part.head) or STATUSES.match(line)
        if starts and (part.text or part.literal):
            yield part
            part = Part()
        if line:
            (part.literal if line[0] == " " else part.text).append(line)


def is_statuses(part: Part) -> bool:
    return bool(STATUSES.match(part.head))


def is_example(part: Part) -> bool:
    return bool(EXAMPLES.match(part.head)) and bool(part.literal)


def statuses(help_: Help) -> list[tuple[str, str]]:
    """The exit statuses that a help names, each with what it says."""
    found: list[tuple[str, str]] = []
    for part in (it for it in parts(help_.rest) if is_statuses(it)):
        on_line = STATUSES.sub("", " ".join([*part.text, *(it.strip() for it in part.literal)])).strip()
        if part.text == [part.head] and STATUSES.fullmatch(part.head):
            found += listed(part.literal)
        else:
            found += [(it[0], it[1:].strip()) for it in ON_LINE.split(on_line) if it]
    if [it for it, _ in found] != sorted({it for it, _ in found}) or not found:
        raise NoHelp(f"the statuses in the help of {help_.words} cannot be read: {found}")
    return found


def listed(lines: list[str]) -> list[tuple[str, str]]:
    """Statuses that stand one a line, with further lines below."""
    found: list[tuple[str, str]] = []
    for line in lines:
        if head := IN_LIST.match(line):
            found.append((head[1], head[2]))
        elif found:
            found[-1] = (found[-1][0], f"{found[-1][1]} {line.strip()}")
    return found
