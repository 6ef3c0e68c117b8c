"""Links of pages and headings that they quote: each leads to a page or a part of one that is there."""
import re
from collections.abc import Iterator
from functools import cache
from pathlib import Path

from .texts import SPAN, Line

LINK = re.compile(r"\]\(([^)\s]+)\)")
# A page with a heading of it in quotes: docs/FORMATS.md, "Statuses", or [FORMATS.md](FORMATS.md), "Statuses".
QUOTED = re.compile(r"([\w/.-]+\.md)\)?,\s+\"([^\"]+)\"")
HEADING = re.compile(r"(?m)^#+ (.*)$|^\*\*([^*]+?)[.:]?\*\*")


@cache
def headings(path: Path) -> frozenset[str]:
    """The headings of a page, and what begins a paragraph in bold."""
    found = HEADING.findall(path.read_text(encoding="utf-8"))
    return frozenset((heading or bold).strip().rstrip(".") for heading, bold in found)


def page_of(top: Path, line: Line, target: str) -> Path | None:
    """The file or folder that a link leads to, from the folder of its page or from the top."""
    places = (top / line.path.parent / target, top / target, top / "docs" / target)
    return next((it for it in places if it.exists()), None)


def wrong(top: Path, lines: list[Line]) -> Iterator[str]:
    """The links and quoted headings that lead nowhere."""
    for line, after in zip(lines, [*lines[1:], None]):
        if line.is_block:
            continue
        for target in LINK.findall(SPAN.sub("", line.text)):
            if "://" not in target and not (top / line.path.parent / target.partition("#")[0]).exists():
                yield f"{line.place}: no file {target}"
        both = f"{line.text} {after.text}" if after and not after.is_block else line.text
        for found in QUOTED.finditer(both):
            if found.start() < len(line.text):
                yield from lost_heading(top, line, *found.groups())


def lost_heading(top: Path, line: Line, target: str, heading: str) -> Iterator[str]:
    page, heading = page_of(top, line, target), " ".join(heading.split())
    if page and heading.rstrip(".") not in headings(page):
        yield f"{line.place}: {target} has no heading \"{heading}\""
