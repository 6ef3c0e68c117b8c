"""The help of a command as parts: what it is, its usage, its options, and the text behind them."""
from __future__ import annotations

import os
import re
import subprocess
import sys
from collections.abc import Iterator
from dataclasses import dataclass, field
from pathlib import Path

from installing.layout import companions

# The help of the program stands in these cases, which ./test compares with what the program prints.
CASES = Path("cases") / "help"
TITLE = re.compile(r"^([A-Z][a-z]+|[a-z]+(?: [a-z]+)?):$")
LISTS = {"Commands": "commands", "Arguments": "arguments", "Options": "options", "options": "options", "optional arguments": "options",
         "positional arguments": "arguments"}
TERM = re.compile(r"^ {2,6}(\S.*?)(?: {2,}(\S.*))?$")
BEHIND = re.compile(r"^ {8,}\S")


class NoHelp(Exception):
    """A help that is not there or cannot be read; the text says why."""


@dataclass
class Entry:
    """An option, an argument or a command: what is typed, and what is said of it."""

    term: str
    text: str = ""

    @property
    def names(self) -> list[str]:
        """The option in its spellings; for an argument or a command the term."""
        return [it.split()[0] for it in self.term.split(", ")]

    @property
    def value(self) -> str:
        """The name of the option's value; empty where it has none."""
        return self.term.split(", ")[-1].partition(" ")[2] if self.term.startswith("-") else ""


@dataclass
class Help:
    """The help of one command, such as `race check` or `race-record`."""

    words: str
    about: str
    usage: str
    lists: dict[str, list[Entry]] = field(default_factory=dict)
    rest: list[str] = field(default_factory=list)

    @property
    def page(self) -> str:
        """The name of its man page."""
        return self.words.replace(" ", "-")

    @property
    def options(self) -> list[Entry]:
        return self.lists.get("options", [])


def same_in_each_version(term: str) -> str:
    """A term as newer versions of argparse write it: `-o DIR, --output DIR` is `-o, --output DIR`."""
    found = re.fullmatch(r"(-\w) (.+), (--\S+) \2", term)
    return f"{found[1]}, {found[3]} {found[2]}" if found else term


def entries(lines: list[str]) -> Iterator[Entry]:
    """The entries of a list, each with the lines of text behind and below it."""
    entry: Entry | None = None
    for line in lines:
        if entry and BEHIND.match(line):
            entry.text = f"{entry.text} {line.strip()}".strip()
        elif found := TERM.match(line):
            if entry:
                yield entry
            entry = Entry(same_in_each_version(found[1]), found[2] or "")
        else:
            raise NoHelp(f"a line of a list cannot be read: {line!r}")
    if entry:
        yield entry


def blocks(text: str) -> Iterator[list[str]]:
    """The lines between empty lines."""
    block: list[str] = []
    for line in [*text.splitlines(), ""]:
        if line.strip():
            block.append(line.rstrip())
        elif block:
            yield block
            block = []


def read(words: str, text: str) -> Help:
    """The parts of a help."""
    about, usage, lists, rest = [], "", {}, []
    for block in blocks(text):
        title = TITLE.match(block[0])
        if not usage and block[0].lower().startswith("usage:"):
            usage = " ".join(" ".join(block).split()).partition(" ")[2]
        elif title and title[1] in LISTS and not rest:
            lists[LISTS[title[1]]] = [*entries(block[1:])]
        elif not lists and " " != block[0][0]:
            about += block
        else:
            rest += [*block, ""]
    if not about or not usage or "options" not in lists:
        raise NoHelp(f"the help of {words} is not what is read: {text[:200]!r}")
    return Help(words, " ".join(about), usage, lists, rest)


def program_texts(top: Path) -> dict[str, str]:
    """The help of the program and of each command, as the cases have it."""
    text = (top / CASES / "race" / "stdout").read_text("utf-8")
    commands = [it.term for it in read("race", text).lists["commands"]]
    others = {f"race {it}": (top / CASES / f"race-{it}" / "stdout").read_text("utf-8") for it in commands}
    return {"race": text, **others}


def companion_texts(top: Path) -> dict[str, str]:
    """The help of each companion, as it prints it."""
    env = {**os.environ, "COLUMNS": "100", "LC_ALL": "C.UTF-8", "NO_COLOR": "1"}
    found = {}
    for script in companions(top):
        ran = subprocess.run([sys.executable, "-B", str(script), "--help"], capture_output=True, text=True, env=env, check=False)
        if ran.returncode:
            raise NoHelp(f"{script} --help ended with status {ran.returncode}: {ran.stderr[-300:]}")
        found[script.name] = ran.stdout
    return found


def all_helps(top: Path) -> list[Help]:
    """The help of the program, its commands and its companions."""
    return [read(words, text) for words, text in {**program_texts(top), **companion_texts(top)}.items()]
