"""Commands that are shown with their output: each is run, and has to give what stands there."""
import re
import subprocess
import tempfile
from collections.abc import Iterator
from dataclasses import dataclass
from pathlib import Path

from .texts import Line

PROMPT = re.compile(r"^(\s*)\$ (.*)$")
LEFT_OUT = ".."
SECONDS = 60
# Between the outputs of two commands of one shell.
MARK = "==== what the next command gives ===="


@dataclass
class Command:
    """A command of a block, with its place, its text and the lines that are shown below it."""

    place: str
    text: str
    shown: list[str]


def sessions(lines: list[Line]) -> Iterator[list[Command]]:
    """The commands of each section: those under one heading run one after another in one shell."""
    commands: list[Command] = []
    indent, is_open = "", False
    for line in lines:
        found = PROMPT.match(line.text) if line.is_block else None
        if not line.is_block or line.text.startswith("```"):
            is_open = False
            if commands and line.text.startswith("#"):
                yield commands
                commands = []
        elif found:
            indent, text = found.groups()
            commands.append(Command(line.place, text, []))
            is_open = True
        elif is_open and commands[-1].text.endswith("\\") and not commands[-1].shown:
            commands[-1].text += "\n" + line.text
        elif is_open:
            commands[-1].shown.append(line.text.removeprefix(indent))
    if commands:
        yield commands


def fits(shown: list[str], printed: list[str]) -> bool:
    """Whether an output is as it is shown; a line `..` stands for any lines."""
    if not shown:
        return not printed
    if shown[0] == LEFT_OUT:
        return any(fits(shown[1:], printed[at:]) for at in range(len(printed) + 1))
    return bool(printed) and shown[0] == printed[0] and fits(shown[1:], printed[1:])


def wrong(commands: list[Command], folder: Path, path: str) -> Iterator[str]:
    """What the commands of one section give otherwise than it is shown, run in a folder with this PATH."""
    script = "".join(f"{it.text}\nprintf '\\n%s\\n' '{MARK}'\n" for it in commands)
    words = ["sh", "-c", script]
    with tempfile.TemporaryDirectory(prefix="pages-home-") as home:
        env = {"PATH": path, "HOME": home, "LC_ALL": "C.UTF-8"}
        try:
            ran = subprocess.run(words, cwd=folder, env=env, capture_output=True, timeout=SECONDS, check=False)
        except subprocess.TimeoutExpired:
            yield f"{commands[0].place}: not done after {SECONDS} seconds"
            return
    outputs = ran.stdout.decode(errors="replace").split(f"\n{MARK}\n")
    errors = ran.stderr.decode(errors="replace").strip()
    for command, output in zip(commands, outputs):
        shown = command.shown
        while shown and not shown[-1].strip():
            shown = shown[:-1]
        printed = output.splitlines()
        if not fits(shown, printed):
            first = next((b for a, b in zip(shown, printed) if a not in (b, LEFT_OUT)), "")
            yield f"{command.place}: `{command.text}` gives another output: {first!r} {errors[:200]}"
