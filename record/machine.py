"""What an import asks of the machine: of its files, of the environment, of other programs.

Each question is a function here, or one that is marked `@asked` where it stands. As a rule it asks the machine. Within `answering`, questions and answers
are noted as well; or the answers are those that were noted, errors too, and nothing is asked of the machine: so a record can be made again where
neither the project nor its machine is. A question that was not noted is an error then (`NotKept`).

One question has one answer in such a block. What a build changes is asked in two blocks: one before it, one behind it.
"""

import json
import os
import subprocess
from contextlib import contextmanager
from functools import wraps
from pathlib import Path
from typing import Any, Callable, Dict, Iterator, List, Optional, Tuple, TypeVar, cast

Ask = TypeVar("Ask", bound=Callable[..., Any])
Question = Tuple[Any, ...]  # the name of a function, and its words
STAT = 7  # so many numbers of a file are noted: its times are the others


class NotKept(Exception):
    """A question that was not noted."""


class Answers:
    """Questions with their answers, as JSON has them."""

    def __init__(self, is_played: bool = False) -> None:
        self.is_played = is_played
        self.known: Dict[Question, Any] = {}

    def answer(self, question: Question, ask: Callable[..., Any]) -> Any:
        """The answer to a question, noted or asked."""
        if self.is_played:
            if question not in self.known:
                raise NotKept("%s(%s) was not asked when this build was recorded: record it anew" % (question[0], ", ".join(map(repr, question[1:]))))
            return unpacked(self.known[question])
        try:
            found = ask(*question[1:])
        except OSError as error:
            self.known[question] = {"error": error.errno}
            raise
        self.known[question] = packed(found)
        return found

    def write(self, path: Path) -> None:
        """Writes all of them, a line each, in an order that does not depend on when they were asked."""
        lines = sorted(json.dumps([question, found]) for question, found in self.known.items())
        path.write_text("".join(line + "\n" for line in lines), encoding="utf-8")

    @staticmethod
    def written(path: Path) -> "Answers":
        """Those that `write` wrote, to be played."""
        answers = Answers(is_played=True)
        with open(path, encoding="utf-8") as lines:
            answers.known.update((tuple(question), found) for question, found in map(json.loads, lines))
        return answers


CURRENT: List[Optional[Answers]] = [None]  # the last one has the answers that count now; none where the machine is asked and nothing noted


def packed(found: Any) -> Any:
    """An answer as JSON can have it. The times of a file are left out: nobody asks for them."""
    if isinstance(found, bytes):
        return {"bytes": found.decode("utf-8", "surrogateescape")}
    if isinstance(found, os.stat_result):
        return {"stat": found[:STAT]}
    return found


def unpacked(found: Any) -> Any:
    """The answer itself; an error is raised."""
    if not isinstance(found, dict):
        return [*found] if isinstance(found, list) else found
    if "error" in found:
        raise OSError(found["error"], os.strerror(found["error"]))
    return found["bytes"].encode("utf-8", "surrogateescape") if "bytes" in found else os.stat_result((*found["stat"], 0, 0, 0))


def asked(ask: Ask) -> Ask:
    """Marks a function that asks the machine. Its words are texts and numbers, and its answer one of those, bytes, a list of texts, or what `stat` gives."""

    @wraps(ask)
    def answer(*words: Any) -> Any:
        answers = CURRENT[-1]
        return ask(*words) if answers is None else answers.answer((ask.__name__, *words), ask)

    return cast(Ask, answer)


@contextmanager
def answering(answers: Optional[Answers]) -> Iterator[None]:
    """Notes answers, or plays those that were noted."""
    CURRENT.append(answers)
    try:
        yield
    finally:
        CURRENT.pop()


isfile, isdir, islink = asked(os.path.isfile), asked(os.path.isdir), asked(os.path.islink)
exists, lexists, realpath = asked(os.path.exists), asked(os.path.lexists), asked(os.path.realpath)
stat, lstat, readlink, listdir, geteuid = asked(os.stat), asked(os.lstat), asked(os.readlink), asked(os.listdir), asked(os.geteuid)


@asked
def read(path: str) -> bytes:
    """What a file holds."""
    return Path(path).read_bytes()


def text(path: str) -> str:
    """A file as a text; bytes that are none are kept."""
    return read(path).decode("utf-8", "surrogateescape")


@asked
def found(folder: str, pattern: str) -> List[str]:
    """The names below a folder that fit a pattern, in order."""
    return sorted(map(str, Path(folder).glob(pattern)))


@asked
def mtime(path: str) -> float:
    """When a file was written last."""
    return os.path.getmtime(path)


@asked
def printed(*words: str) -> str:
    """What a program prints."""
    return subprocess.run(words, capture_output=True, text=True, errors="surrogateescape", stdin=subprocess.DEVNULL, check=False).stdout
