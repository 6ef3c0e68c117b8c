"""The files in which each make says what it does (watch.c): how it was called, and its own lines behind that."""

import os
import re
from dataclasses import dataclass, field
from pathlib import Path
from typing import Dict, Iterable, Iterator, List, TextIO, Tuple

ESCAPED = re.compile(r"\\([n\\])")
HEAD = ("MAKE", "ARG", "ENV", "CWD", "ASKS", "SAYS")
PRINTS = ("db_level", "print_data_base_flag")  # flags of a make that prints its own words, and runs recipes all the same
OWN_WORDS = "a make that prints its own words (-d, -p, --debug, --trace) cannot be seen: make %s"
# Variables that hold no secrets: where a build runs, and how make was called.
PUBLIC = {"PATH", "HOME", "PWD", "OLDPWD", "SHELL", "MAKEFLAGS", "MFLAGS", "GNUMAKEFLAGS", "MAKELEVEL", "MAKEFILES"}
NAME = re.compile(r"(\d+)\.(\d+)\.make$")


@dataclass
class Start:
    """How a make was called."""

    args: List[str] = field(default_factory=list)
    environment: Dict[str, str] = field(default_factory=dict)
    folder: str = ""
    version: str = ""
    says: bool = False  # it says what it does; else it only answers, or has ended before it read its options
    asks: str = ""  # the flag of make by which it only answers

    def take(self, line: str) -> bool:
        """Takes a line; whether it is one about the call."""
        key, _, text = line.partition(" ")
        if key not in HEAD:
            return False
        value = ESCAPED.sub(lambda found: "\n" if found[1] == "n" else "\\", text)
        if key == "ARG":
            self.args.append(value)
        elif key == "ENV":
            name, _, found = value.partition("=")
            self.environment[name] = found
        elif key == "CWD":
            self.folder = value
        elif key == "ASKS":
            self.asks = value
        elif key == "SAYS":
            self.says, self.version = True, value
        return True


def read_start(lines: Iterable[str]) -> Start:
    """The first lines of a file."""
    start = Start()
    for line in lines:
        if not start.take(line.rstrip("\n")):
            break
    return start


def files_in(said: Path) -> List[Tuple[int, int, Path]]:
    """The files of all makes: the number of the process, which life of that number, and the path."""
    found = [(NAME.match(name), said / name) for name in os.listdir(said)]
    return sorted((int(match[1]), int(match[2]), path) for match, path in found if match)


def without_values(lines: Iterable[str]) -> Iterator[str]:
    """The lines of a file without the values of the environment, which may hold secrets: neither as make was called, nor in its data bases."""
    start, left, is_own = Start(), 0, False  # `left`: so many lines of a value come
    for line in lines:
        if left:
            left -= 1
            continue
        is_start = line.startswith("ENV ")
        if is_start:
            start.take(line.rstrip("\n"))
        name = (line[len("ENV "):].partition("=") if is_start else line.partition(" "))[0]
        if name in PUBLIC:
            pass
        elif is_own and line.startswith("define "):
            left = start.environment.get(line[len("define "):].rstrip("\n"), "").count("\n") + 1  # guard: values-of-several-lines
        elif is_own or is_start:
            line = line.partition("=")[0] + "=\n"  # guard: values-of-environment
        is_own = line.startswith("# environment")
        yield line


def keep_files(said: Path, to: Path) -> None:
    """Copies all files without values of the environment. Copies of makefiles are among the answers of the machine."""
    to.mkdir()
    for path in said.iterdir():
        if path.suffix == ".make":
            with open_file(path) as lines, open(to / path.name, "w", encoding="utf-8", errors="surrogateescape", newline="\n") as file:
                file.writelines(without_values(lines))


def open_file(path: Path) -> TextIO:
    """The lines of a file, each with its end."""
    return open(path, encoding="utf-8", errors="surrogateescape", newline="\n")
