"""The help of the program: its commands and options, the width of its lines, and the examples in it."""
import re
import subprocess
from collections.abc import Iterator
from dataclasses import dataclass
from pathlib import Path

from .texts import Line

WIDTH = 100
OPTION = re.compile(r"(?m)^\s+(?:-\w, )?(--[a-z][\w-]*)")


@dataclass(frozen=True)
class Help:
    """The help of the program, or of one of its commands: `command` is empty or its name."""

    command: str
    text: str

    def options(self) -> set[str]:
        return {*OPTION.findall(self.text), "--help"}

    def too_long(self) -> Iterator[str]:
        """The lines that are longer than a screen is wide, except the usage line, which `clap` writes as one."""
        name = f"race {self.command} --help".replace("  ", " ")
        for number, line in enumerate(self.text.splitlines(), 1):
            if len(line) > WIDTH and not line.startswith("Usage: "):
                yield f"{name}, line {number}: {len(line)} columns, and at most {WIDTH} are allowed: {line[:60]}.."

    def lines(self) -> list[Line]:
        """The lines, each as one of a block, so that the examples are run as those of pages are."""
        path = Path(f"help-of-{self.command or 'race'}")
        return [Line(path, number, text, bool(text.strip())) for number, text in enumerate(self.text.splitlines(), 1)]


def help_of(program: Path, command: str) -> Help:
    words = [str(program), *[command] * bool(command), "--help"]
    ran = subprocess.run(words, capture_output=True, check=True, env={})
    return Help(command, ran.stdout.decode())


def helps(program: Path) -> list[Help]:
    """The help of the program and of each command that it lists."""
    top = help_of(program, "")
    listed = re.search(r"(?m)^Commands:\n((?:  .*\n)+)", top.text)
    names = re.findall(r"(?m)^  (\w+)", listed[1]) if listed else []
    return [top, *(help_of(program, it) for it in names)]
