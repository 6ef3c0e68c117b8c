"""The texts that people read: pages, and the comments of code, as lines with their places."""
import re
from collections.abc import Iterator
from dataclasses import dataclass
from pathlib import Path

# CHANGELOG.md is history: it names what is gone.
PAGES = ("README.md", "CONTRIBUTING.md", "docs/*.md", "cases/*.md", "examples/**/*.md", "tests/**/*.md", "bench/**/*.md")
CODE = {".rt": re.compile(r"^\s*//[/!]?(.*)"), ".antt": re.compile(r"^\s*--+(.*)")}
SPAN = re.compile(r"`([^`\n]+)`")


@dataclass(frozen=True)
class Line:
    """One line that people read: its file below the top, its number there, its text, and whether it is in a block."""

    path: Path
    number: int
    text: str
    is_block: bool = False

    @property
    def place(self) -> str:
        return f"{self.path}:{self.number}"

    def spans(self) -> Iterator[str]:
        """What stands between backticks; nothing in a block."""
        if not self.is_block:
            yield from (found.strip() for found in SPAN.findall(self.text))


def pages(top: Path) -> list[Path]:
    """The pages, as paths below the top."""
    return sorted({it.relative_to(top) for pattern in PAGES for it in top.glob(pattern)})


def lines_of_page(top: Path, path: Path) -> Iterator[Line]:
    """The lines of a page; those in a fence, and those four blanks in behind an empty line, are in a block."""
    fenced, indented, before = False, False, ""
    for number, text in enumerate((top / path).read_text(encoding="utf-8").splitlines(), 1):
        is_fence = text.startswith("```")
        indented = text.startswith("    ") and (indented or not before.strip()) or indented and not text.strip()
        yield Line(path, number, text, fenced or is_fence or indented)
        fenced, before = fenced != is_fence, text


def comments(top: Path) -> Iterator[Line]:
    """The comments of the crates' code, definitions and proofs that stand on lines of their own."""
    for path in sorted((top / "crates").glob("*/s*/**/*")):
        comment = CODE.get(path.suffix)
        if comment and path.relative_to(top).parts[2] in ("src", "specs"):
            for number, text in enumerate(path.read_text(encoding="utf-8").splitlines(), 1):
                if found := comment.match(text):
                    yield Line(path.relative_to(top), number, found[1])
