#!/usr/bin/env python3
"""A small model of `race list`, `race check` and `race fix` over tasks: the oracle of tests, written apart from `race`.

    race_tasks.py list|check|fix --tasks FILE [--root DIR]
    race_tasks.py missing --tasks FILE --listing FILE [--root DIR]      (missing_tasks.py)

It is started some thousand times, so it takes in no module that is slow to take in.
"""

import json
import os
import sys
from typing import Dict, List, NamedTuple, Set, Tuple


class Task(NamedTuple):
    """One line of the text."""

    label: str
    after: Set[int]
    reads: List[str]
    writes: List[str]


class Refused(Exception):
    """A fault: its number and name, the line, and the names that it reports, as they are shown."""

    def __init__(self, word: str, line: int, *names: str) -> None:
        super().__init__(word)
        self.word, self.line, self.names = word, line, names

    def report(self) -> str:
        """As the program prints it."""
        return "\n".join(["refused", self.word, "at tasks %d" % self.line, *("name " + name for name in self.names)])


def shown(text: str) -> str:
    """A name without blanks and backslashes."""
    return "".join("\\x%02x" % b if b <= 32 or b in (127, 92) else chr(b) for b in text.encode("utf-8", "surrogateescape")).encode("latin-1").decode("utf-8", "replace")


def plain(root: str, path: str) -> str:
    """Plain spelling below the root; a tree keeps its last slash."""
    parts: List[str] = []
    full = path if path.startswith("/") else root.rstrip("/") + "/" + path
    for part in full.split("/"):
        if part == "..":
            parts = parts[:-1]
        elif part not in ("", "."):
            parts.append(part)
    return "/" + "/".join(parts) + ("/" if path.endswith("/") and parts else "")


def below(root: str, path: str) -> str:
    """A path as reports show it."""
    start = root.rstrip("/") + "/"
    return shown(path[len(start):] if path.startswith(start) else path)


def read(root: str, text: str) -> List[Task]:
    """The tasks of a text."""
    tasks: List[Task] = []
    numbers: Dict[str, int] = {}
    for at, raw in enumerate(text.split("\n"), 1):
        if not raw.strip():
            continue
        try:
            one = json.loads(raw)
            label, after, reads, writes = one["task"], one["after"], one["reads"], one["writes"]
            if not (isinstance(label, str) and 0 < len(label.encode()) <= 4096 and all(isinstance(p, str) and p for p in after + reads + writes)):
                raise ValueError
        except (ValueError, KeyError, TypeError):
            raise Refused("F29 BadTask", at) from None
        if label in numbers:
            raise Refused("F30 TaskTwice", at, shown(label))
        for name in after:
            if name not in numbers:
                raise Refused("F31 UnknownTask", at, shown(name))
        numbers[label] = len(tasks)
        tasks.append(Task(label, {numbers[n] for n in after}, [plain(root, p) for p in reads], [plain(root, p) for p in writes]))
    return tasks


def covers(tree: str, path: str) -> bool:
    """Whether a path of a footprint, perhaps a tree, has a path."""
    return tree == path or (tree.endswith("/") and (path.startswith(tree) or path == tree[:-1]))


def meet(first: List[str], second: List[str]) -> Set[str]:
    """The paths that two lists share."""
    found = set(first) & set(second)
    for one, other in ((first, second), (second, first)):
        for tree in one:
            if tree.endswith("/"):
                found |= {p for p in other if covers(tree, p)}
    return found


def befores(tasks: List[Task]) -> List[int]:
    """For each task, as bits, all that have ended before it."""
    bits: List[int] = []
    for task in tasks:
        value = 0
        for one in task.after:
            value |= bits[one] | (1 << one)
        bits.append(value)
    return bits


def conflicts(tasks: List[Task]) -> List[Tuple[int, int]]:
    """All pairs that share a path which one of them writes."""
    writers: Dict[str, Set[int]] = {}
    users: Dict[str, Set[int]] = {}
    trees = any(p.endswith("/") for t in tasks for p in t.reads + t.writes)
    for at, task in enumerate(tasks):
        for path in task.writes:
            writers.setdefault(path, set()).add(at)
        for path in task.reads + task.writes:
            users.setdefault(path, set()).add(at)
    found: Set[Tuple[int, int]] = set()
    for path, who in writers.items():
        for a in who:
            found |= {(min(a, b), max(a, b)) for b in users[path] if a != b}
    if trees:
        for b, second in enumerate(tasks):
            for a, first in enumerate(tasks[:b]):
                if meet(first.writes, second.reads + second.writes) or meet(first.reads, second.writes):
                    found.add((a, b))
    return sorted(found)


def overlap(first: Task, second: Task) -> str:
    """The least path of a conflict."""
    return min(meet(first.writes, second.reads + second.writes) | meet(first.reads, second.writes))


def verb(task: Task, path: str) -> str:
    """What a task does to a path."""
    return "writes" if any(covers(p, path) for p in task.writes) else "reads"


def races(tasks: List[Task]) -> Tuple[List[Tuple[int, int]], int]:
    """The pairs that nothing orders, and the number of all that conflict."""
    bits = befores(tasks)
    pairs = conflicts(tasks)
    return [(a, b) for a, b in pairs if not bits[b] >> a & 1], len(pairs)


def listed(tasks: List[Task], root: str) -> Tuple[int, List[str]]:
    """The report of `list`."""
    found, pairs = races(tasks)
    lines = ["races %d" % len(found), "nodes %d" % len(tasks), "recipes %d" % len(tasks), "idle 0", "waits 0", "pairs %d" % pairs]
    for a, b in found:
        path = overlap(tasks[a], tasks[b])
        lines.append("race %s : %s %s %s %s" % (below(root, path), shown(tasks[a].label), verb(tasks[a], path), shown(tasks[b].label), verb(tasks[b], path)))
    return (1 if found else 0), lines


def fixed(tasks: List[Task], root: str) -> Tuple[int, List[str]]:
    """The report of `fix`."""
    found, _ = races(tasks)
    kept: List[Tuple[int, int]] = []
    for a, b in sorted(found, key=lambda p: p[1] - p[0]):
        tasks[b].after.add(a)
        kept.append((a, b))
    needed = []
    for a, b in sorted(kept):
        tasks[b].after.discard(a)
        if befores(tasks)[b] >> a & 1:
            continue
        tasks[b].after.add(a)
        needed.append((a, b))
    assert not races(tasks)[0]
    lines = ["# race fix: lines %d" % len(needed)] if found else []
    for a, b in needed:
        path = overlap(tasks[a], tasks[b])
        does = (verb(tasks[a], path), verb(tasks[b], path))
        remark = "both write %s" if does == ("writes", "writes") else "reads %s" if does[0] == "writes" else "writes %%s, which %s reads before it" % shown(tasks[a].label)
        lines.append("%s: %s # %s" % (shown(tasks[b].label), shown(tasks[a].label), remark.replace("%s", below(root, path))))
    return 0, lines


def main() -> int:
    """The program."""
    if sys.argv[1:2] == ["missing"]:
        import missing_tasks
        return missing_tasks.main(sys.argv[2:])
    command, options = "".join(sys.argv[1:2]), dict(zip(sys.argv[2::2], sys.argv[3::2]))
    if command not in ("list", "check", "fix") or "--tasks" not in options or len(sys.argv) % 2 or options.keys() - {"--tasks", "--root"}:
        print(__doc__, file=sys.stderr)
        return 3
    root = options.get("--root", os.getcwd())
    try:
        with open(options["--tasks"], encoding="utf-8") as file:
            tasks = read(root, file.read())
    except Refused as fault:
        print(fault.report())
        return 2
    if command == "fix":
        status, lines = fixed(tasks, root)
    else:
        status, lines = listed(tasks, root)
        if command == "check":
            lines = ["race" if status else "safe"] + lines[1:]
    sys.stdout.buffer.write("".join(line + "\n" for line in lines).encode())  # whatever the locale
    return status


if __name__ == "__main__":
    sys.exit(main())
