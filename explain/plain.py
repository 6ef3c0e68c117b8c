"""Markdown as text for a terminal: paragraphs filled, code as it stands, tables row by row."""
from __future__ import annotations

import re
import textwrap
from collections.abc import Iterator

from explain.topics import RULER, cells

BLOCK = "    "
ITEM = re.compile(r"^(?:[-*]|\d+\.) ")


def kind_of(line: str, before: str) -> str:
    """What a line is a part of: a block of code, a table, an item, a paragraph, or nothing."""
    if line.startswith(BLOCK) and before in ("", "code") or before == "code" and not line.strip():
        return "code"
    if not line.strip():
        return ""
    if line.startswith("|"):
        return "table"
    return "item" if ITEM.match(line) or before == "item" else "text"


def groups(lines: tuple[str, ...]) -> Iterator[tuple[str, list[str]]]:
    """The lines by what they are a part of; each item is a part by itself."""
    before = ""
    group: list[str] = []
    for line in lines:
        kind = kind_of(line, before)
        if kind != before or kind == "item" and ITEM.match(line):
            yield before, group
            group = []
        before = kind
        group.append(line)
    yield before, group


def bare(text: str) -> str:
    """A line of Markdown without the marks of bold text, of code and of links."""
    text = re.sub(r"\[([^\]]+)\]\([^)]*\)", r"\1", text)
    return re.sub(r"\*\*([^*]+)\*\*", r"\1", re.sub(r"`([^`]*)`", r"\1", text))


def filled(lines: list[str], width: int) -> str:
    text = bare(" ".join(it.strip() for it in lines))
    hanging = "  " if ITEM.match(text) else ""
    return textwrap.fill(text, width, subsequent_indent=hanging, break_long_words=False, break_on_hyphens=False)


def table(lines: list[str], width: int) -> str:
    """The rows of a table, each cell behind the head of its column."""
    heads, *rest = [cells(it) for it in lines if not RULER.match(it)]
    shown = ("; ".join(f"{head}: {cell}" if head else cell for head, cell in zip(heads, it)) for it in rest)
    return "\n".join(filled(["- " + it], width) for it in shown)


def plain(lines: tuple[str, ...], width: int) -> str:
    """A text in Markdown, for a terminal that is so wide."""
    parts: list[str] = []
    for kind, group in groups(lines):
        if kind == "code":
            parts.append("\n".join(group).rstrip("\n"))
        elif kind == "table":
            parts.append(table(group, width))
        elif kind:
            parts.append(filled(group, width))
    return "\n\n".join(it for it in parts if it.strip())
