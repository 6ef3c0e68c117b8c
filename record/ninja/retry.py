"""What is done where a build fails, and ninja may fail with one command at a time: hints, and the same build again with several at once.

The graph of ninja is read from its manifest, so a record of commands side by side serves as well as a serial one.
"""

import os
import re
import shlex
from contextlib import suppress
from pathlib import Path
from typing import TYPE_CHECKING, Dict, List

from record.command import with_jobs
from record.ninja.manifest import OWN
from record.trace.names import Names

if TYPE_CHECKING:
    from record.trace.lives import Life
    from record.ninja.runs import Ninja

TRIES = 3
JOBS = 4
HINTS = 5


def hints(ninjas: "List[Ninja]", names: Names) -> List[str]:
    """Who looks for what another statement makes, and does not wait for it: the files that were absent first."""
    found: Dict[str, int] = {}
    for folder, stage, manifest in ((ninja.folder, stage, stage.manifest) for ninja in ninjas for stage in ninja.stages):
        made = {names.find(folder, path, True).path: edge for edge in manifest.edges if not edge.is_phony for path in edge.makes()}
        looks = [(kind, path, job.edge) for job in stage.jobs if job.edge is not None for kind, path in job.work.events if kind in "RSN" and path in made]
        below = {edge: manifest.below([edge]) for edge in {edge for _, path, user in looks for edge in (user, made[path])}}
        for kind, path, edge in looks:
            if edge.number not in below[made[path]] and made[path].number not in below[edge]:  # guard: none-where-it-waits
                text = "%s looks for %s, which %s makes, and does not wait for it" % (edge.label, os.path.relpath(path, folder), made[path].label)
                found[text] = min(found.get(text, 2), 0 if kind == "N" else 1)  # guard: absent-files-first
    return sorted(found, key=lambda text: (found[text], text))[:HINTS]


def by_hand(words: List[str]) -> str:
    """The hint where nothing better is known."""
    is_make = re.fullmatch(r"g?make", os.path.basename(words[0]))
    return "if `%s` fails without race-record too, repair that first; if not, report it" % shlex.join([*words, "-j1"] if is_make else with_jobs(words, 1))


def undo(names: Names, lives: "List[Life]", kept: Dict[str, str]) -> List[str]:
    """Takes away what a build has made, so that the tree is as it was; or names a file that cannot be set right again."""
    events = {(kind, path.rstrip("/")) for life in lives for kind, path in life.events if names.is_inside(path)}
    for kind, path in events:
        if kind in "WDX" and path in names.before and os.path.basename(path) not in OWN:  # guard: words-where-nothing-was-undone
            return [path]
    for path in sorted({path for kind, path in events if kind in "CWMT"} - names.before.keys(), key=len, reverse=True):
        with suppress(OSError):  # it is gone, or holds what others made
            os.rmdir(path) if os.path.isdir(path) and not os.path.islink(path) else os.unlink(path)
    for path, text in kept.items():
        if os.path.basename(path) in OWN:
            Path(path).write_bytes(text.encode("utf-8", "surrogateescape"))
    return []
