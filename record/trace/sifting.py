"""What of a trace need not be read: looks at the system's folders, where nobody changes a name there. A trace is sifted once, a piece at
a time and by bytes: most of its lines are such looks, and one regular expression passes over them. That is done while the build runs.
"""

import os
import re
from functools import lru_cache
from pathlib import Path
from typing import Callable, Dict, Iterable, Iterator, List, Optional, Sequence, Set, Tuple

from record.trace.strace import KEPT, read_ahead, unescape

PIECE, WAIT = 1 << 18, 0.05  # bytes of a piece; seconds until more may be there
SYSTEM = ["usr", "lib", "lib32", "lib64", "etc", "bin", "sbin"]
AT = r"(?:AT_FDCWD(?:<[^>\n]*>|), |)"  # strace 5.10 names no folder there  # guard: looks-are-sifted
RESULT = r"(?:\d|-1 E(?:NO|INVAL))[^\n]*"
# An open that can change nothing. Other flags may: a line that has them is read.
READS = r", O_RDONLY(?:\|O_(?:CLOEXEC|NOCTTY|NONBLOCK|DIRECTORY|LARGEFILE|NOFOLLOW|NOATIME|PATH))*\) += "
# Each line stands behind a newline, so that a search goes on from line to line. Common calls stand first, and a line with one text is
# tried before one with two; last, requests that say nothing of a file. What may be absent is an empty choice: Python is slower where it counts.
LOOKING = (
    r"\n\d+ +(?:(?:readlink|openat|newfstatat|access|faccessat2|readlinkat|open|faccessat|stat|statx|lstat|statfs)\(" + AT + r'"(FOLDERS[^"\n]*)"'
    r"(?:" + READS + r'|(?!, O_)[^"\n={]*(?:\{[^"\n]*\}[^"\n=]*|)= |, "[^"\n]*"[^"\n={]*= )' + RESULT  # guard: opens-that-change-something
    + r'|newfstatat\(\d+<[^>\n]*>, "", [^"\n]* = 0(?=\n|$)'
    + r'|(?:rt_sigprocmask\(|prlimit64\(0, )[^\n]*= 0(?=\n|$)'
    + r'|wait4\(-1, [^\n]*WNOHANG[^\n]* = (?:0|-1 ECHILD [^\n]*)(?=\n|$)'  # guard: waits-that-find-child
    + r'|fcntl\(\d+<[^/\n][^>\n]*>, F_DUPFD(?:_CLOEXEC|)\b[^\n]*= ' + RESULT  # guard: doubles-of-files
    + r'|(?:fcntl|ioctl)\(\d+(?:<[^>\n]*>|)(?:\(deleted\)|), (?:F_[GS]ETF[DL]|FIOCLEX|TCGETS|TIOCG\w+)\b[^\n]*= ' + RESULT + ")")  # guard: not-sifted-where-they-say
TARGET = r'symlink\w*\("(?:[^"\\]|\\.)*",'  # what a link says is no name that changes
NAMES = r"(?:(?:creat|rename\w*|unlink\w*|rmdir|mkdir\w*|mknod\w*|link\w*|truncate|[fl]?ch(?:mod|own)\w*|utime\w*|futimesat)\(|" + TARGET + ")"
FLAGS = r"O_(?:WRONLY|RDWR|CREAT|TRUNC)"
# A name may be relative to a folder of the system: strace shows which file was opened, and where a call with a folder starts from.
CHANGING = (
    r"\d+ +(?:open|openat2?)\(" + AT + r'"(?:(?:[^"\\]|\\.)*\.\.)?FOLDERS(?:[^"\\]|\\.)*", [^\n]*' + FLAGS + r"|\d+ +(?:open|openat2?)\([^\n]*" + FLAGS
    + r"[^\n]*= \d+<FOLDERS|\d+ +" + NAMES + r'[^\n]*(?:"(?:(?:[^"\\]|\\.)*\.\.)?|<)FOLDERS|\d+ +(?:chdir|fchdir)\([^\n]*(?:"(?:(?:[^"\\]|\\.)*\.\.)?|<)FOLDERS')
# A row of writes into one descriptor: the first one says it all.
ROW = re.compile(rb"(\n(\d+) +write\((0x[0-9a-f]+), [^\n]*)(?:\n\2 +write\(\3, [^\n]*)+")  # guard: one-process-and-one-descriptor
# One half of a call that lines of others cut in two, but not of one that starts a process: that is seen before the call ends.
HALF = re.compile(rb"\n(\d+) +(?:(?![ <]|clone|v?fork)([^\n]*)<unfinished \.\.\.>(?=\n|\Z)|<\.\.\. (?!clone|v?fork)\w+ resumed>)")  # guard: halves-of-calls-that-start-processes
# Texts of Python that do not come with it: python.py asks whether they list folders. Modules of OCaml: modules.py asks which names they hold.
MODULES = re.compile(rb"(?!.*/lib(?:32|64)?/python[\d.]*/(?!(?:site|dist)-packages/)).*\.pyc?$|.*/(?:site|dist)-packages/.*\.so$|.*\.(?:zip|egg|whl|pyz|cm[iox])$", re.S)  # guard: those-of-system
# What each line that changes something has: a look for these is quick, and few lines have one.
MARKS = [re.compile(FLAGS.encode()), re.compile((r"\n\d+ +(?:" + NAMES + r"|f?chdir\()").encode())]


def has_change(lines: bytes, changes: "re.Pattern[bytes]") -> bool:
    """Whether one of the lines, each between newlines, matches `changes`."""
    places = (mark.end() - 1 for marks in MARKS for mark in marks.finditer(lines))
    return any(changes.match(lines, lines.rindex(b"\n", 0, at) + 1, lines.index(b"\n", at)) for at in places)


@lru_cache(KEPT)
def real_folder(path: str) -> str:
    """Where a folder of the system is. Where somebody changes a name there, nothing is sifted."""
    return os.path.realpath(path)


def real_path(path: str) -> str:
    """Where a name leads: most names are in few folders."""
    folder, _, name = path.rpartition("/")
    whole = real_folder(folder) + "/" + name
    return os.path.realpath(path) if folder in ("", "/") or name in ("", ".", "..") or os.path.islink(whole) else whole


class Skip:
    """Looks at the system's folders by names of which no link leads elsewhere, and not at modules that Python or OCaml may take in."""

    def __init__(self, looks: "re.Pattern[bytes]", changes: "re.Pattern[bytes]", tops: List[str], inside: Tuple[str, ...] = ("/",)) -> None:
        self.looks, self.changes, self.tops, self.inside = looks, changes, tops, inside
        self.known: Set[Optional[bytes]] = {None}  # spellings that were looked up; a look at an open file has none
        self.counting: Set[Optional[bytes]] = set()  # those of them that count
        self.begun: Dict[bytes, bytes] = {}  # by process: the first half of a call

    def counts(self, spelling: bytes) -> bool:
        """Whether a look by a name is read all the same: the name leads out of these folders, or Python or OCaml may take in what is there."""
        real = real_path(unescape(spelling.decode("latin-1")))
        return any((real + "/").startswith(top.rstrip("/") + "/") for top in self.tops) or not (real + "/").startswith(self.inside) or bool(MODULES.match(spelling))  # guard: texts-that-python

    def join(self, half: "re.Match[bytes]") -> bytes:
        """A call stands as a whole where it ends."""
        pid, first = half.groups()
        if first is None:
            return self.begun.pop(pid, half.group())
        self.begun[pid] = b"\n%s %s" % (pid, first.rstrip())
        return b""

    def rest(self, lines: bytes) -> bytes:
        """What is left of some lines, each behind a newline, without such looks."""
        lines = HALF.sub(self.join, lines)
        parts = self.looks.split(lines)
        spellings = {*parts[1::2]}
        self.counting.update(one for one in spellings - self.known if self.counts(one))
        self.known |= spellings
        if self.counting.isdisjoint(spellings):
            return b"".join(parts[::2])
        return self.looks.sub(lambda found: found.group() if found.group(1) in self.counting else b"", lines)


def skipping(tops: List[str], counting: Sequence[str] = ()) -> Optional[Skip]:
    """What need not be read where nobody changes a name of the system's folders; nothing of those in which a top is, and not what is `counting`."""
    safe = [p for p in SYSTEM if not any((t + "/").startswith("/%s/" % p) for t in tops)]  # guard: change-below-top-is-none-elsewhere
    if not safe:
        return None
    folders_of_system = "/(?:%s)(?=[/\">])" % "|".join(safe)
    looks, changes = (re.compile(text.replace("FOLDERS", folders_of_system).encode()) for text in (LOOKING, CHANGING))
    return Skip(looks, changes, [*tops, *counting], tuple("/%s/" % name for name in safe))


def unseen_changes(changed: Iterable[str]) -> List[str]:
    """What is wrong with a trace that was sifted: a name of the system's folders changed, and no line shows both the name and the change,
    as where a link leads there and the call was interrupted."""
    return ["who looks at %s is not known, and it changed" % name for name in changed if name.startswith(tuple("/%s/" % p for p in SYSTEM))][:1]


def pieces(trace: Path, has_ended: Callable[[float], object]) -> Iterator[bytes]:
    """The bytes of a trace, some whole lines at a time; until the build has ended, which is waited for so many seconds, more may come."""
    with open(trace, "rb") as file:
        rest, is_last, read = b"", False, b""
        while read or not is_last:
            is_last = bool(has_ended(0))  # asked before the read: what is written until then is read  # guard: what-is-still-written
            read = file.read(PIECE)
            whole, newline, last = (rest + read).rpartition(b"\n")
            rest = last  # guard: lines-of-two-pieces
            if whole:
                yield whole + newline
            elif not is_last:
                has_ended(WAIT)
        yield rest


def sift(trace: Path, tops: List[str], to: Path, has_ended: Callable[[float], object] = lambda seconds: True, counting: Sequence[str] = ()) -> None:
    """Writes what has to be read of a trace, also while that is written, and then reads ahead in it. No file is there where somebody
    changes a name of the system's folders: then all of the trace has to be read. `counting`: files of these folders at which looks are kept."""
    skip, part = skipping(tops, counting), to.with_suffix(".part")
    if skip is None:
        return
    with open(part, "wb") as file:
        for piece in pieces(trace, has_ended):
            lines = b"\n" + piece.rstrip(b"\n")
            if has_change(lines + b"\n", skip.changes):  # guard: what-somebody-changes-is-read
                return
            left = ROW.sub(rb"\1", skip.rest(lines))
            file.write(left)
            if not has_ended(0):
                read_ahead(left.decode("latin-1").split("\n"))
    part.rename(to)
