"""Tables that say in which file a name is: each name has to be in the file of its row."""
import re
from collections.abc import Iterator
from dataclasses import dataclass

from .repository import Repository
from .texts import SPAN, Line

NAME = re.compile(r"^[\w:-]*[A-Za-z]\w*$")


@dataclass(frozen=True)
class Row:
    """A row of a table, with the heads of its columns."""

    line: Line
    cells: dict[str, str]


def cells_of(text: str) -> list[str]:
    return [it.strip().replace("\\|", "|") for it in re.split(r"(?<!\\)\|", text.strip().strip("|"))]


def rows(lines: list[Line]) -> Iterator[Row]:
    """The rows of the tables of a page, without their heads."""
    heads: list[str] = []
    for before, line in zip([None, *lines], lines):
        if not line.text.startswith("|") or line.is_block:
            heads = []
        elif not before or not before.text.startswith("|"):
            heads = cells_of(line.text)
        elif not re.fullmatch(r"[|\s:-]+", line.text):
            yield Row(line, dict(zip(heads, cells_of(line.text))))


def wrong(at: Repository, lines: list[Line]) -> Iterator[str]:
    """What the tables of a page say of names and files that is not so."""
    file = ""
    for row in rows(lines):
        if "file" in row.cells and "names" in row.cells:
            found = SPAN.findall(row.cells["file"])
            file = found[0] if found else file
            yield from names_not_in_file(at, row, file)


def names_not_in_file(at: Repository, row: Row, file: str) -> Iterator[str]:
    """The names of a row that are neither in its file nor, as laws are, in the code of its crate."""
    path = f"crates/{file}"
    if path not in at.files:
        yield f"{row.line.place}: no file {path}"
        return
    crate = file.split("/")[0]
    texts = "\n".join(at.text(it) for it in [path, *at.sources(crate)])
    for name in SPAN.findall(row.cells["names"]):
        if NAME.match(name) and not re.search(rf"(?<![\w-]){re.escape(name)}(?![\w-])", texts):
            yield f"{row.line.place}: {name} is not in {path}"
