"""Asks `race` about a text of tasks, and reads what it says: the one reader, of `race-record` and of `race-report`."""

import os
import re
import shutil
import subprocess
from dataclasses import dataclass, field
from pathlib import Path
from typing import List, Optional

from record.build.text import shown
from record.messages import TOP, page

PLACES = (TOP / "record" / "race", TOP / "race", TOP / "crates" / "race" / "out" / "race", TOP / "out" / "race")  # beside the script, in the checkout
FAULT = re.compile(r"refused (F\d+)\b")
RACE_LINE = re.compile(r"^race ([^ ]+) : ([^ ]+) (reads|writes) ([^ ]+) (reads|writes)$")  # a name may have other blanks than the one of ASCII  # guard: blanks-in-lines-of-race
SHOWN = re.compile(r"\\x([0-9a-fA-F]{2})|\\\\")


@dataclass(frozen=True)
class Race:
    """Two tasks that nothing orders, and the path on which they meet, or in which it shows that they do: there both of them do no more than to run."""

    path: str
    first: str
    first_does: str
    second: str
    second_does: str


@dataclass
class Verdict:
    """What `race list` and `race fix` said of one build; `refused` is empty where they judged it."""

    status: int
    races: List[Race] = field(default_factory=list)
    pairs: int = 0
    fix: List[str] = field(default_factory=list)
    is_fixed: bool = True  # with the lines of `fix`, if there are any
    refused: str = ""


def unshown(text: str) -> str:
    """A name of a report as it is: reports write some bytes as `\\x` and two digits."""
    return SHOWN.sub(lambda m: chr(int(m.group(1), 16)) if m.group(1) else "\\", text)


def find_race(option: Optional[str]) -> Optional[str]:
    """The program: `--race`, `$RACE`, beside the script, in the checkout, on PATH. A name that leads nowhere is not passed over."""
    name = option or os.environ.get("RACE", "")
    places = [shutil.which(name), name] if name else [*map(str, PLACES), shutil.which("race")]
    return next((os.path.abspath(path) for path in places if path and os.path.isfile(path) and os.access(path, os.X_OK)), None)


def no_race(option: Optional[str]) -> str:
    """What to say where `find_race` finds none: what is missing, where it was looked for, and how to get it."""
    name = option or os.environ.get("RACE", "")
    looked = ("%s names %s, which is no program that can be run" % ("--race" if option else "$RACE", name) if name else
              "looked for: --race PROGRAM (not given), $RACE (not set), %s, and race on PATH" % ", ".join(map(str, PLACES)))
    script = TOP / "install"
    command = "%s --prefix ~/.local --unproved" % (script if script.is_file() else "in a checkout of race: ./install")
    to_get = "to get it: %s, about 2 minutes; put ~/.local/bin on PATH (%s says more)" % (command, page("INSTALL.md"))
    return "\n  ".join(["the program race is missing, which judges builds", looked, to_get, "if it is elsewhere: --race PROGRAM"])


def explained(refused: str) -> str:
    """Why `race` refused a build, and which command says what to do."""
    fault = FAULT.search(refused)
    return "%s (race-explain %s says what to do)" % (refused, fault.group(1)) if fault else refused


def ended(status: int) -> str:
    """How a program ended that gave no answer."""
    return "ended with status %d" % status if status >= 0 else "was stopped by signal %d: race-report asks it again" % -status


def ask(race: str, command: str, tasks: Path, root: str, *more: str) -> "subprocess.CompletedProcess[str]":
    """Runs one command of `race` over a text of tasks, in its folder: `race` takes no word that is not UTF-8, and that folder may have any name."""
    words = [race, command, "--tasks", tasks.name, "--root", shown(root), *more]  # guard: folder-that-is-not-utf-8
    return subprocess.run(words, cwd=tasks.parent, capture_output=True, text=True, errors="replace", stdin=subprocess.DEVNULL)


def judge(race: str, tasks: Path, root: str) -> Verdict:
    """All races of a build, and the lines that fix it."""
    listed = ask(race, "list", tasks, root)
    verdict = Verdict(listed.returncode)
    for text in listed.stdout.split("\n"):  # guard: lines-of-race
        match = RACE_LINE.match(text)
        if match:
            verdict.races.append(Race(*map(unshown, match.groups())))
        elif text.startswith("pairs "):
            verdict.pairs = int(text[6:])
    is_whole = "races %d" % len(verdict.races) in listed.stdout.split("\n")
    if not is_whole or listed.returncode not in (0, 1) or (listed.returncode == 1) != bool(verdict.races):  # guard: status-against-its-words
        verdict.status = 2
        said = " ".join((listed.stdout or listed.stderr).split()) or "race list " + ended(listed.returncode)
        verdict.refused = said if listed.returncode not in (0, 1) else "%s does not answer as race does: %s" % (race, said[:300])
    elif listed.returncode == 1:
        fixed = ask(race, "fix", tasks, root)
        verdict.is_fixed = fixed.returncode == 0
        verdict.fix = [unshown(t.partition(" #")[0].rstrip()) for t in fixed.stdout.split("\n") if ": " in t and not t.startswith("#")]
    return verdict
