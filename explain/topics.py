"""The topics of the page of faults: what can be asked for, and the text of each."""
from __future__ import annotations

import re
from collections.abc import Iterator
from dataclasses import dataclass

from record.build.assumptions import TEXTS

HEADING = re.compile(r"^(#+) (.*)$")
NUMBERED = re.compile(r"^([FV]\d+) (\w+)(?:: .*)?$")
RULER = re.compile(r"^\|[\s|:-]+\|$")
SPAN = re.compile(r"`([^`]+)`")
RACE = "two recipes may run at once and should not: what to do goes by the path"
MISSING = "what a build after an edit may leave old, though nothing races"
# Sections that explain one thing under other names than their headings: these names, and what they are.
WHOLE = {
    "race": (("race", "races"), RACE),
    "races": (("race", "races"), RACE),
    "missing inputs": (("missing", "late", "shared", "present", "tree"), MISSING),
}


@dataclass(frozen=True)
class Topic:
    """What a name stands for: its names, of which the first is listed, one line on it, and its lines in Markdown."""

    names: tuple[str, ...]
    title: str
    lines: tuple[str, ...]


ANSWERS = {"SAFE": (), "WARM": ("cold and warm",), "NO VERDICT": ("no verdict, and what to do",)}  # with the sections that say more of each
PREMISE = re.compile(r"^`(.*)` \(`([a-z-]+)`\)(?: \*)?$")


@dataclass(frozen=True)
class Section:
    """A heading of a page with the lines below it, up to the next heading."""

    heading: str
    lines: tuple[str, ...]


def sections(page: str) -> Iterator[Section]:
    """The sections of a page. A line that begins with a number sign inside a fence is no heading."""
    heading, is_fenced = "", False
    lines: list[str] = []
    for line in page.splitlines():
        is_fenced ^= line.startswith("```")
        found = None if is_fenced else HEADING.match(line)
        if found:
            yield Section(heading, tuple(lines))
            heading, lines = found[2], []
        else:
            lines.append(line)
    yield Section(heading, tuple(lines))


def cells(line: str) -> list[str]:
    return [it.strip().replace("\\|", "|") for it in re.split(r"(?<!\\)\|", line.strip().strip("|"))]


def rows(lines: tuple[str, ...]) -> Iterator[dict[str, str]]:
    """The rows of the tables among these lines, each cell under the head of its column; "the same" is the cell above."""
    heads: list[str] = []
    above: list[str] = []
    for line in lines:
        if not line.startswith("|"):
            heads = []
        elif not heads:
            heads = above = cells(line)
        elif not RULER.match(line):
            above = [old if new == "the same" else new for old, new in zip(above, cells(line))]
            yield dict(zip(heads, above))


def first_sentence(lines: tuple[str, ...]) -> str:
    """The first sentence of a text, on one line."""
    text = " ".join(" ".join(lines).split("    ")[0].split())
    return re.split(r"(?<=[.:])\s", text, maxsplit=1)[0].rstrip(":")


def shown(row: dict[str, str]) -> tuple[str, ...]:
    """The cells of a row behind the first, each as a paragraph under the head of its column."""
    cells_behind = list(row.items())[1:]
    return tuple(line for head, cell in cells_behind if cell for line in (f"{head[:1].upper()}{head[1:]}: {cell}.", ""))


def topic_of_row(row: dict[str, str]) -> Topic | None:
    """What a row of a table explains: a number and word such as V3 Stale in its first cell, or a kind of race in backticks."""
    found = list(row.values())
    first = SPAN.findall(found[0]) if found else []
    numbered = NUMBERED.match(first[0]) if first else None
    if numbered:
        return Topic(numbered.groups(), found[1], shown(row))
    kind = re.match(r"`([a-z]+(?:-[a-z]+)*)`: (.*)", found[1]) if len(found) > 2 else None
    if kind:
        text = (f"The path {found[0]}: {kind[2]}.", "", f"The fix: {found[2]}.")
        return Topic((kind[1],), f"a race: {kind[2]}", text)
    return None


def united(found: list[Topic]) -> Iterator[Topic]:
    """The topics of one name as one: what its own section says, which is the last of them, and then what rows of tables add."""
    same: dict[tuple[str, ...], list[Topic]] = {}
    for topic in found:
        same.setdefault(topic.names, []).append(topic)
    for names, parts in same.items():
        yield Topic(names, parts[-1].title, tuple(line for it in reversed(parts) for line in (*it.lines, ""))[:-1])


def of_record(row: dict[str, str], pages: list[Section]) -> Topic | None:
    """What a row says of a record: an answer of the recorder, or what a yes takes for granted, by its key."""
    first = next(iter(row.values()), "")
    premise, name = PREMISE.match(first), first.strip("`")
    if premise:
        whole = TEXTS.get(premise[2], premise[1])
        return Topic((premise[2],), f"taken for granted: {whole}", (f"Taken for granted: {whole}.", "", *shown(row)))
    if name not in ANSWERS or len(row) < 4:
        return None
    more = [line for it in pages if it.heading.lower() in ANSWERS[name] for line in ("", *it.lines)]
    return Topic((name.replace(" ", "-"),), list(row.values())[2].replace("`", ""), (*shown(row), *more))


def topics_of_records(text: str) -> list[Topic]:
    """What the pages of records explain: the answers, and what a yes takes for granted."""
    pages = [*sections(text)]
    return [it for section in pages for row in rows(section.lines) if (it := of_record(row, pages))]


def topics(page: str) -> list[Topic]:
    """All that a page explains, in its order: faults by their headings, refusals and kinds of races by rows, races, and missing inputs."""
    found: list[Topic] = []
    for section in sections(page):
        numbered = NUMBERED.match(section.heading)
        if numbered:
            found.append(Topic(numbered.groups(), first_sentence(section.lines), section.lines))
        elif section.heading.lower() in WHOLE:
            found.append(Topic(*WHOLE[section.heading.lower()], section.lines))
        found += [it for it in map(topic_of_row, rows(section.lines)) if it]
    return [*united(found)]
