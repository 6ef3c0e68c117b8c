"""What standard error shows while a build is recorded: on a terminal a line that is gone at the end, else a line a minute; how much of the trace was read; and,
once, that the build seems to stand still: with one job a recipe that waits for another one waits for ever.
"""

import re
import sys
import time
from contextlib import suppress
from dataclasses import dataclass
from typing import Iterable, Iterator

from record.entry import traced
from record.messages import printable, say
from record.orders.processes import born, parent_of, shown

EVERY, MINUTE = 2.0, 60.0  # seconds between two lines about the build, on a terminal and elsewhere
EXITED = b" +++ exited with "  # what strace writes where a process ends
WIPE = "\r\x1b[K"
PATIENCE, STEP = 600.0, 1.0  # seconds without a change until the build seems to stand still; between two looks at what strace writes
WIDTH = 100  # signs of a command
# A file that was opened to change it, and is no device, or a name that came or went. A recipe that waits starts processes, and looks at files.
CHANGE = re.compile(rb"O_(?:WRONLY|RDWR|CREAT|TRUNC)[^\n]*\) = \d+</(?!dev/|proc/)"  # guard: devices
                    rb"|\b(?:rename|unlink|rmdir|mkdir|mknod|link|symlink|truncate)\w*\([^\n]*\) = 0\n")  # guard: names-that-cannot-be-made
BUILDERS = ("make", "gmake", "ninja")
LINE = ("race-record: no file was made or changed for %d minutes%s. With one job a recipe that waits for another one never ends: "
        "stop it with Ctrl-C (then there is no verdict), and let it need the other one. A long test or download may go on")


@dataclass
class Progress:
    """How long a build takes, how many processes have ended, and when it last changed a file."""

    expected: float  # seconds that the former record took; 0 where nobody knows
    tracer: int  # the number of strace's process
    ended: int = 0
    is_still: bool = False

    def __post_init__(self) -> None:
        self.is_terminal = sys.stderr.isatty()
        self.every, self.began = EVERY if self.is_terminal else MINUTE, time.monotonic()
        self.due, self.changed = self.began + self.every, self.began

    def see(self, lines: bytes) -> None:
        """Takes what strace has written since the last call, which may be nothing. Of a build that goes on it reads little."""
        self.ended += lines.count(EXITED)
        now = time.monotonic()
        if now >= self.due:
            self.due = now + self.every
            say(self.text(now - self.began), "\x1b[K\r" if self.is_terminal else "\n")
        if lines and now - self.changed >= STEP and CHANGE.search(lines):  # guard: changes
            self.changed = now
        elif not self.is_still and now - self.changed >= PATIENCE:
            self.is_still = True  # guard: once
            command = running(self.tracer)
            say(printable(LINE % (PATIENCE // 60, "; this runs: " + command if command else "")))

    def text(self, seconds: float) -> str:
        """What is known after some seconds."""
        left = self.expected - seconds
        rest = ", about %s left" % clock_text(left) if left > 0 else ", longer than the last time" if self.expected else ""
        return "race-record: %s, %d processes done%s" % (clock_text(seconds), self.ended, rest)

    def end(self) -> None:
        """Takes the line away."""
        if self.is_terminal and self.due > self.began + self.every:
            say(WIPE, "")


def clock_text(seconds: float) -> str:
    """Minutes and seconds: `1:05`."""
    return "%d:%02d" % divmod(int(seconds), 60)


def running(tracer: int) -> str:
    """The command of the recipe that runs, the innermost one: what a make or a ninja has started and is neither."""
    with suppress(ValueError):  # it has words that are no text
        builds = {pid: shown(pid, "comm").strip() in BUILDERS for pid in sorted(traced(tracer), key=born)}  # (numbers begin again)  # guard: numbers-that-begin-again
        commands = [pid for pid in builds if not builds[pid] and builds.get(parent_of(pid))]  # guard: recipe
        return " ".join(shown(commands[-1], "cmdline").replace("\0", " ").split())[:WIDTH] if commands else ""
    return ""


def watched(lines: Iterable[str], size: int) -> Iterator[str]:
    """The lines of a trace of so many bytes; a terminal shows each percent that was read."""
    is_terminal, done, shown = sys.stderr.isatty(), 0, 0
    for line in lines:
        done += len(line)
        if is_terminal and 100 * done // size > shown:
            shown = 100 * done // size
            say("\rrace-record: reads the trace: %d %%" % shown, "")
        yield line
    say(WIPE if shown else "", "")
