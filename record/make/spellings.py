"""Files that a build uses by two spellings, in a file system that takes these for one name (record/trace/spelling.py)."""

from typing import Dict, Iterable, List, Set

from record.make.owners import Make
from record.trace.events import TREE_CHANGES
from record.trace.lives import Life
from record.trace.names import Names
from record.trace.spelling import key_of

TWO = "this file system takes %s and %s for one file, and the build uses both names: write one of them everywhere"


def twice(names: Names, lives: Iterable[Life], makes: Iterable[Make]) -> List[str]:
    """The holes of a build in such a file system: files with two spellings that it changes, or has a rule for."""
    if not names.folds:
        return []
    used = [(kind, path.rstrip("/")) for life in lives for kind, path in life.events]
    rounds = [(make.folder, one, one.base) for make in makes for one in make.words.rounds if one.base is not None]
    targets = [names.find(folder, name, True).path for folder, one, base in rounds for name in one.nodes if name in base.recipes]
    spellings: Dict[str, Set[str]] = {}
    for path in (*names.before, *targets, *(path for _, path in used)):  # guard: what
        spellings.setdefault(key_of(path), set()).add(path)
    changed = {key_of(path) for path in (*targets, *(path for kind, path in used if kind in TREE_CHANGES))}  # guard: what-changes-alone
    return [TWO % tuple(sorted(spellings[key])[:2]) for key in sorted(changed) if len(spellings[key]) > 1]
