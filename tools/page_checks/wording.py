"""Words that the glossary bans: pages, help, the texts of cases, and the texts and names of scripts must not use them."""
import io
import re
import tokenize
from collections.abc import Iterator
from dataclasses import dataclass
from functools import cached_property
from pathlib import Path

from .helps import Help
from .repository import Repository
from .tables import cells_of
from .texts import SPAN, Line

GLOSSARY = Path("docs/GLOSSARY.md")
HEADING = "## Words that we do not use"
# The script that plants banned words.
PLANTS = "tests/pages"
# A string that is one word is a name, and not prose.
NAME = re.compile(r"\W*\w+\W*")
INTERPOLATED = re.compile(r"\{[^{}]*\}")


@dataclass(frozen=True)
class Banned:
    """The banned words of a glossary, each with what to write instead."""

    instead: dict[str, str]

    @cached_property
    def pattern(self) -> re.Pattern[str]:
        words = "|".join(re.escape(it).replace(r"\ ", r"\s+") for it in sorted(self.instead, key=len, reverse=True))
        return re.compile(rf"(?<![\w-])(?:{words})(?![\w-])", re.IGNORECASE)

    def wrong(self, place: str, text: str) -> Iterator[str]:
        """The banned words of a text; what is between backticks is code."""
        for word in self.words(text):
            yield f"{place}: banned word '{word}': write {self.instead[word]} (docs/GLOSSARY.md)"

    def words(self, text: str) -> Iterator[str]:
        for found in self.pattern.findall(SPAN.sub("``", text)) if self.instead else ():
            yield " ".join(found.lower().split())

    def wrong_in_help(self, page: Help) -> Iterator[str]:
        """The banned words of a help."""
        yield from self.wrong(f"race {page.command} --help", page.text)

    def wrong_in_page(self, lines: list[Line]) -> Iterator[str]:
        """The banned words of a page outside blocks; an expression may go over the end of a line."""
        for line, after in zip(lines, [*lines[1:], None]):
            if line.is_block or line.path == GLOSSARY:
                continue
            next_text = after.text if after and not after.is_block else ""
            later = [*self.words(next_text)]
            both = [*self.wrong(line.place, f"{line.text} {next_text}")]
            yield from both[: len(both) - len(later)]


def read(top: Path) -> Banned:
    """The table of banned words in the glossary: each word of the left column, with the right one."""
    path = top / GLOSSARY
    _, _, part = path.read_text(encoding="utf-8").partition(HEADING) if path.is_file() else ("", "", "")
    rows = [cells_of(it) for it in part.splitlines() if it.startswith("|")][2:]
    return Banned({word.strip(): row[1] for row in rows for word in row[0].split(",")})


def abouts(at: Repository) -> Iterator[tuple[str, str]]:
    """What the cases say that they show, each with its place."""
    for path in sorted(at.files):
        if path.startswith(("cases/", "examples/", "tests/")) and Path(path).name == "about":
            yield f"{path}:1", (at.top / path).read_text(encoding="utf-8")


def texts_of_script(path: str, code: str) -> Iterator[tuple[str, str]]:
    """The comments, strings and names of a script in Python, each with its place; a name as its words."""
    for token in tokenize.generate_tokens(io.StringIO(code).readline):
        if token.type == tokenize.NAME:
            yield f"{path}:{token.start[0]}", token.string.replace("_", " ")
        elif token.type == tokenize.COMMENT or token.type == tokenize.STRING and not NAME.fullmatch(token.string):
            yield f"{path}:{token.start[0]}", INTERPOLATED.sub("", token.string)


def scripts(at: Repository) -> Iterator[tuple[str, str]]:
    """The comments and strings of the companions, the tools, the tests and the measurements."""
    for path in at.scripts:
        code = (at.top / path).read_text(encoding="utf-8")
        if path != PLANTS and not code.startswith("#!/usr/bin/env bash"):
            yield from texts_of_script(path, code)
