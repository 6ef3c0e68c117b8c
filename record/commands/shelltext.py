"""What the words of a process say: removals, interpreters of scripts, programs that are well known."""

import os
import re
from typing import List

from record import machine

# Programs by their names.
SHELLS = ("sh", "dash", "bash", "ksh", "zsh", "ash")
NINJA = re.compile(r"(?:ninja|ninja-build|samu|samurai)(?:[-.\d]*)$")  # `ninja-1.11`
PROGRESS = ("cmake_progress_start", "cmake_progress_report", "cmake_echo_color")  # what `cmake -E` does to count what is built

# Words of programs.
FORCES, SAYS = re.compile(r"-[a-zA-Z]*f[a-zA-Z]*|--force"), re.compile(r"-[a-zA-Z]*[viI][a-zA-Z]*|--(?:verbose|interactive.*)")  # of rm: `-rf`, `-v`
SHOWS = re.compile(r"-(?:print|ls|fprint|fls|exec|ok)")  # what find does beside `-delete`


def base_name(argv: List[str]) -> str:
    """The program's name without its folder."""
    return argv[0].rpartition("/")[2] if argv else ""


def is_removal(argv: List[str]) -> bool:
    """Whether a process does no more with what it finds than to remove it: it does not say what it found, by its status or its output."""
    name = base_name(argv)
    if name == "find":
        return "-delete" in argv and not any(SHOWS.match(word) for word in argv)  # guard: what-find-does-beside
    options = [word for word in argv[1:] if word.startswith("-")]
    return name == "rm" and any(FORCES.fullmatch(word) for word in options) and not any(SAYS.fullmatch(word) for word in options)  # guard: status


@machine.asked
def first_words(path: str) -> List[str]:
    """The words of a script's first line: the interpreter that the kernel runs, by its own look, and a word for it."""
    try:
        with open(path, "rb") as file:
            first = file.readline(256)
    except OSError:
        return []
    return first[2:].decode("utf-8", "surrogateescape").split() if first.startswith(b"#!") else []


def with_interpreter(argv: List[str], path: str, words: List[str]) -> List[str]:
    """The words of a script, as those of its first line let an interpreter run it."""
    if words and os.path.basename(words[0]) == "env":
        words = [w for w in words[1:] if not w.startswith("-") and "=" not in w][:1]
    return words[:1] + [path] + argv[1:] if words else argv


def shows_progress(argv: List[str]) -> bool:
    """Whether CMake counts what is built, to print how much of it there is."""
    return base_name(argv) == "cmake" and argv[1:2] == ["-E"] and argv[2:3] != [] and argv[2] in PROGRESS
