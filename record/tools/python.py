"""What Python keeps in `__pycache__`: byte code counts as its source."""

import os
import re
from typing import Iterator, List, Sequence, Set, Tuple

from record.commands.system import is_below
from record.trace.events import ABSENT, BY_LIST, CHANGES, MADE, MADE_BEFORE, READ, SEEN
from record.trace.lives import Life

PYTHON = re.compile(r"(?:.*/)?python[\d.]*$")
CACHE = "__pycache__"
BYTE_CODE = re.compile(r"(.*/)__pycache__/([^/.]+)\.[^/]*$", re.S)


def is_python(life: Life) -> bool:
    """Whether a life ends as Python. What it did as another program, such as a script that finds Python, stays as it is."""
    return bool(life.ran and life.ran[-1] and PYTHON.match(life.ran[-1][0]))  # guard: scripts-that-begin


def settle(lives: List[Life], tops: Sequence[str] = ()) -> Iterator[Tuple[str, str]]:
    """Puts the source in the place of byte code that Python keeps, except in a folder into which another program looks; what that assumes, with its words."""
    known = [life for life in lives if is_python(life)]
    others = {cache_of(path) for life in lives if not is_python(life) for _, path in life.events if CACHE in path}
    for life in known:
        names = (path for _, path in life.events if CACHE in path and cache_of(path) not in others)
        names = (path for path in names if not path.startswith(("/usr/", "/lib")) or any(is_below(path, top) for top in tops))  # no recipe writes that of the system  # guard: byte-code-of-system
        first = next(names, "")
        settle_code(life, others)
        if first:
            yield "bytecode", "%s: %s" % (" ".join(life.argv)[:60], first)


def cache_of(path: str) -> str:
    """The folder of byte code that a path leads to."""
    return path.partition(CACHE)[0]


def settle_code(life: Life, others: Set[str]) -> None:
    """Byte code that is read, and a folder of byte code that is asked for or made."""
    for (kind, path), place in list(life.events.items()):
        match = BYTE_CODE.match(path)
        source = match.group(1) + match.group(2) + ".py" if match is not None else ""
        is_cache = os.path.basename(path) == CACHE
        if cache_of(path) in others or place <= life.begun:  # guard: byte-code-that-others-read
            continue
        if kind in (READ, SEEN, ABSENT) and ({(SEEN, source), (BY_LIST, source), (READ, source)} & life.events.keys() or is_cache):
            del life.events[kind, path]
            life.events.update({} if is_cache else {(READ, source): life.events.get((READ, source), place)})
        elif kind == MADE and is_cache:
            life.events.setdefault((MADE_BEFORE, path), place)  # it would have gone on where the folder is there
        elif kind in CHANGES and match is not None:
            del life.events[kind, path]  # who comes first writes it  # guard: byte-code-that-is-written
