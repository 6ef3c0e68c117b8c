"""The text of tasks that `race` reads: one JSON object a task."""

import json
import re
from collections import Counter
from typing import TYPE_CHECKING, Any, Dict, Iterator, List, Mapping, Sequence, Set, Tuple

if TYPE_CHECKING:
    from record.build.tasks import Task

LABEL_LIMIT = 4096
# What stands for something else than a file: that a folder is there. It comes behind what the folder holds: `race` names the least path on which two meet.
OWN_NAME = re.compile(r"(^|/)~seen(/.*)?$")


def shown(text: str) -> str:
    """A name as valid text: bytes that are none are shown as \\xNN."""
    return text.encode("utf-8", "surrogateescape").decode("utf-8", "backslashreplace")


def file_of(path: str) -> str:
    """The file that a path is about which stands for something else."""
    return OWN_NAME.sub("", path) or "."


def relative(root: str, path: str) -> str:
    """A path below the root without it."""
    return shown(path.removeprefix(root.rstrip("/") + "/"))


def labels_of(tasks: "List[Task]") -> List[str]:
    """A label for each task, no two the same."""
    used: Set[str] = set()
    found = []
    for task in tasks:
        label = shown(task.label)
        while len(label.encode()) > LABEL_LIMIT - 16:
            label = label[:-8]
        while label in used:
            label += "+"
        used.add(label)
        found.append(label)
    return found


def lines_of(tasks: "Sequence[Task]", root: str, labels: List[str], more: Mapping[int, Dict[str, Any]] = {}) -> Iterator[Tuple[str, str]]:
    """Labels and lines of the text; long lists of prerequisites that many share stand once. `more` are keys of some tasks."""
    keys = [tuple(sorted(task.after)) for task in tasks]
    share = Counter(key for key in keys if len(key) > 3)
    sets: Dict[Tuple[int, ...], str] = {}
    for at, (task, label, key) in enumerate(zip(tasks, labels, keys)):
        after = [labels[a] for a in key]
        if share[key] > 1:
            if key not in sets:
                sets[key] = "set@%d" % len(sets)
                while sets[key] in labels:
                    sets[key] += "+"
                yield sets[key], line(sets[key], after, [], [])
            after = [sets[key]]
        reads, writes = (sorted(relative(root, p) for p in paths) for paths in (task.reads, task.writes))
        yield label, line(label, after, reads, writes, **more.get(at, {}))


def line(label: str, after: List[str], reads: List[str], writes: List[str], **more: Any) -> str:
    """One task."""
    return json.dumps({"task": label, "after": after, "reads": reads, "writes": writes, **more}, ensure_ascii=False, separators=(",", ":"))
