"""Paths by way of /proc and /dev/fd: the folders of processes, and files by the numbers of their descriptors."""

import re
from typing import Mapping

from record.trace.events import FOLDER_CHANGED, TIME_SET, TREE_CHANGES
from record.trace.lives import Life

FOLDER = re.compile(r"/proc/(self|thread-self|\d+)/(?:task/\d+/)?(cwd|root)(/.*|$)", re.S)
NUMBER = re.compile(r"(?:/dev/fd|/proc/(?:self|thread-self|\d+)/(?:task/\d+/)?fd)/(\d+)(/.*|$)|/dev/std(?:in|out|err)()$", re.S)
CHANGING = TREE_CHANGES + FOLDER_CHANGED + TIME_SET


def plain_path(life: Life, path: str, lives: Mapping[int, Life]) -> str:
    """A path by way of the folder or the root that /proc shows of a process, or by way of the number that it got last without
    opening a file, without that way; as it is where nobody knows."""
    match = FOLDER.match(path)
    if match is not None:
        owner = lives.get(int(match.group(1))) if match.group(1).isdigit() else life  # guard: folders-of-other-processes
        if owner is not None:
            return (owner.folder if match.group(2) == "cwd" else "") + match.group(3) or "/"
    match = NUMBER.match(path)
    if match is not None and match.group(1) and life.handle[0] == int(match.group(1)):
        return life.handle[1] + match.group(2)  # guard: numbers-that-stand-for-name
    return path


def is_hidden(kind: str, path: str) -> bool:
    """Whether an event is about a file or a folder of which only the number of a descriptor is known."""
    match = NUMBER.match(path)
    return match is not None and (kind in CHANGING or bool(match.group(2)))
