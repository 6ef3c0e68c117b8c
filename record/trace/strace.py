"""The reader of strace's lines: one lazy pass that gives calls and ends of processes in the order of the trace; and what the arguments of a call say. Most lines and
arguments come again, word for word, so answers are remembered."""

import re
from dataclasses import dataclass
from functools import lru_cache
from typing import Callable, Dict, Iterable, Iterator, List, NamedTuple, Optional, Tuple, TypeVar, Union

from record.trace.classes import SLEEPS

KEPT, SHORT = 1 << 14, 1000  # how many texts are remembered, and how long they are at most
Answer = TypeVar("Answer")
# A whole call: its name, its arguments, its result, what the descriptor that it gave leads to, and the error.
# `openat(AT_FDCWD</w>, "x", O_RDONLY) = 3</w/x>`, `stat("y", 0x7ffd) = -1 ENOENT (No such file or directory)`
CALL = re.compile(r"(\w+)\((.*)\)\s+= (-?\d+|0x[0-9a-f]+|\?)(?:<((?:[^<>\\]|\\.)*)>(?:\(deleted\))?)?(?: (E\w+))?(?: \(.*\))?$", re.S)  # guard: files-that-are-gone
ESCAPE = re.compile(r"\\([0-7]{1,3}|x[0-9a-f]{2}|.)", re.S)  # one byte in a text: `\303`, `\n`, `\"`
TEXT = re.compile(r'(?<!\\)"((?:[^"\\]|\\.)*)"(\.\.\.)?')  # `"x"`, or `"xx"...` if it is cut; behind a backslash a quote is a sign in the name of a descriptor  # guard: marks-behind-descriptors
# A descriptor, and what it leads to: `AT_FDCWD</w>`, `3</w/x>`. strace 5.10 writes `AT_FDCWD` alone: the folder of the process.
FOLDER = re.compile(r"(?:AT_FDCWD|\d+)<((?:[^<>\\]|\\.)*)>|AT_FDCWD(?!<)")  # guard: strace-does-not-name
WRITING = re.compile(r"O_WRONLY|O_RDWR|O_TRUNC|O_CREAT")
BARE = re.compile(r"(?:^|, )\d+(?:,|$)")  # a descriptor of which strace knows no name
PLAIN = {"n": "\n", "t": "\t", "r": "\r", "v": "\v", "f": "\f"}


class Call(NamedTuple):
    """One finished system call: `error` is empty where it succeeded, `opened` is what stands behind a descriptor that it gave."""

    pid: int
    name: str
    args: str
    result: int
    error: str
    opened: str = ""


@dataclass(frozen=True)
class Begun:
    """A call that creates a process has begun: the child may be seen before the call is finished."""

    pid: int
    shares: bool = False  # a thread, which has one folder with it


@dataclass(frozen=True)
class Ended:
    """A process has ended."""

    pid: int
    has_failed: bool = False  # with another status than 0, or by a signal


@dataclass(frozen=True)
class Unread:
    """A line that cannot be read: the record has a hole."""

    text: str


Event = Union[Call, Begun, Ended, Unread]


def unescape(text: str) -> str:
    """The bytes that strace shows, as a file name."""
    def one(match: "re.Match[str]") -> str:
        word = match.group(1)
        if word[0].isdigit():
            return chr(int(word, 8) & 255)
        if word[0] == "x" and len(word) == 3:
            return chr(int(word[1:], 16))
        return PLAIN.get(word, word)

    return ESCAPE.sub(one, text).encode("latin-1", "replace").decode("utf-8", "surrogateescape")


def remembered(function: Callable[[str], Answer]) -> Callable[[str], Answer]:
    """A function that keeps its answers for short texts: in a trace most come again, word for word."""
    kept = lru_cache(KEPT)(function)
    return lambda text: kept(text) if len(text) < SHORT else function(text)


@remembered
def said(text: str) -> Tuple[str, str, Optional[int], str, str]:
    """What a text says of a call, in the order of `Call`; no name where it is none, and no result where it never returned."""
    call = CALL.match(text)
    if call is None:
        return "", "", None, "", ""
    name, args, result, opened, error = call.groups()
    return name, args, None if result == "?" else int(result, 16 if result.startswith("0x") else 10), error or "", unescape(opened or "")


def texts(args: str) -> List[str]:
    """The quoted texts of a call's arguments, in order."""
    return [unescape(match.group(1)) for match in TEXT.finditer(args)]


def is_cut(args: str) -> bool:
    """Whether strace has shown only the beginning of a text."""
    return any(match.group(2) for match in TEXT.finditer(args)) or ", ...]" in re.sub(TEXT, '""', args)  # guard: not-where-text-says-so


def folders(args: str) -> List[str]:
    """The folders and files that stand behind descriptors of a call's arguments, in order; nothing for that of the process, where strace does not name it."""
    return [unescape(found) for found in FOLDER.findall(re.sub(TEXT, '""', args))]


class Spelled(NamedTuple):
    """The first path of a call's arguments: the folder that it starts from, the path, and the folder that the process is in; whether the call is about an open file; what
    stands behind the texts, whether a link at the end is followed, and whether an open may change the file."""

    base: str
    path: str
    folder: str
    is_open: bool
    flags: str
    follow: bool
    changes: bool


@remembered
def spelled(args: str) -> Spelled:
    """What the arguments of an open or of an *at-call say of their first path."""
    word, base = next(iter(texts(args)), None), next(iter(folders(args.split('"', 1)[0])), "")
    folder, flags = base if args.startswith("AT_FDCWD") else "", args.rpartition('"')[2]
    if base and not word and (word is None or "AT_EMPTY_PATH" in args or "NULL" in args):
        word, base = base, ""
    follow = "NOFOLLOW" not in flags and not ("O_EXCL" in flags and "O_CREAT" in flags)
    return Spelled(base, word or "", folder, args[:1].isdigit() and "AT_EMPTY_PATH" in args, flags, follow, bool(WRITING.search(flags)))


MAKES_PROCESS = ("clone", "clone3", "fork", "vfork")
UNFINISHED = "<unfinished ...>"


def read_trace(lines: Iterable[str]) -> Iterator[Event]:
    """The events of a trace, one at a time. Most lines are a whole call: these take the short way."""
    begun: Dict[int, str] = {}  # by process: the call that is not finished
    for line in lines:
        number, _, text = line.partition(" ")
        text = text.strip()
        pid = int(number) if number.isdecimal() else None
        if pid is None or text[:1] in "+-<" or text.endswith(UNFINISHED):
            events, text = odd(line, pid, text, begun)
            yield from events
            if not text or pid is None:
                continue
        name, args, result, error, opened = said(text)
        if not name:
            if not text.endswith("= ?"):  # guard: unreadable-call
                yield Unread(line.strip())
        elif result is not None:
            yield Call(pid, name, args, result, error, opened)
        elif name in SLEEPS:  # guard: sleeps-that-signal-ends
            yield Call(pid, name, args, -1, error)
        elif name.startswith("open"):  # it waited for another process, as at a named pipe, until a signal came  # guard: opens-that-signal-ends
            yield Call(pid, name, args, -1, "ENXIO")


def odd(line: str, pid: Optional[int], text: str, begun: Dict[int, str]) -> Tuple[List[Event], str]:
    """What a line says that is no whole call, and the text of a call that is finished by it."""
    if pid is None:
        return ([Unread(line.strip())] if line.strip() else []), ""  # guard: no-process-number
    if text.startswith("+++"):
        kept: List[Event] = [Call(pid, "core", "", 0, "")] if "(core dumped)" in text else []  # guard: memory-that-is-kept
        return kept + ([] if "superseded" in text else [Ended(pid, "exited with 0" not in text)]), ""
    if text.startswith("---"):
        return [], ""
    if text.endswith(UNFINISHED):
        begun[pid] = text[: -len(UNFINISHED)].rstrip()
        return ([Begun(pid, "CLONE_FS" in text)] if text.startswith(MAKES_PROCESS) else []), ""  # guard: begun-before-call-ends
    if not text.startswith("<... "):
        return ([] if text else [Unread(line.strip())]), text
    first = begun.pop(pid, None)
    if first is None:
        return ([] if " = ?" in text else [Unread(line.strip())]), ""  # guard: end-without-beginning
    return [], first + text[text.index("resumed>") + len("resumed>"):]


def read_ahead(lines: Iterable[str]) -> None:
    """Reads lines of a trace for the answers that are remembered alone: who reads them later is quicker."""
    for event in read_trace(lines):
        if isinstance(event, Call) and event.name not in ("execve", *MAKES_PROCESS):  # of these nobody asks for a path
            spelled(event.args)
