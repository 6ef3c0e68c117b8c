#!/usr/bin/env python3
"""A small model of `race missing` over tasks: the oracle of tests, written apart from `race`, out of docs/THEOREM.md.

    missing_tasks.py --tasks FILE --listing FILE [--root DIR]

It is slow and plain: it looks at all recipes and all paths.
"""

import argparse
import json
import os
import sys
from dataclasses import dataclass, field
from typing import Any, Dict, Iterator, List, Optional, Set, Tuple

from race_tasks import Refused, below, covers, plain, shown

SIGNS = frozenset("#$:;=\\%()*?[\"'&|")  # no word of a makefile has one of them


@dataclass
class Node:
    """A node of the jobs: a task, a file that nothing makes, or what orders without waking."""

    name: str
    shown: str
    recipe: bool = False
    phony: bool = False
    listed: bool = False
    needs: Set[int] = field(default_factory=set)
    reads: List[str] = field(default_factory=list)
    writes: List[str] = field(default_factory=list)
    before: Set[int] = field(default_factory=set)
    always: bool = False
    carriers: Set[int] = field(default_factory=set)

    def can(self, paths: List[str], path: str) -> bool:
        """Whether some paths cover a path."""
        return any(covers(one, path) for one in paths)

    @property
    def is_live(self) -> bool:
        return self.recipe and (not self.listed or self.phony or bool(self.needs))

    @property
    def makes_own(self) -> bool:
        return self.is_live and self.can(self.writes, self.name)

    @property
    def is_never_there(self) -> bool:
        return not self.listed and not self.makes_own

    @property
    def is_restless(self) -> bool:
        return self.phony or self.is_never_there


class Jobs:
    """The nodes of a text beside a listing."""

    def __init__(self, root: str, text: str, listing: Set[str]) -> None:
        self.root, self.listing = root, listing
        self.nodes: List[Node] = []
        self.names: Dict[str, int] = {}
        self.tasks: Dict[str, int] = {}
        self.places: Dict[int, Tuple[int, str]] = {}
        for at, raw in enumerate(text.split("\n"), 1):
            if raw.strip():
                self.line(at, raw)
        self.check_writes()
        for at, node in enumerate(self.nodes):
            self.close(node)

    def line(self, at: int, raw: str) -> None:
        """The nodes of one line."""
        try:
            one = json.loads(raw)
            label, after = one["task"], one["after"]
            reads, writes = ([plain(self.root, p) for p in one[key]] for key in ("reads", "writes"))
            due = self.due(one)
            if not (isinstance(label, str) and 0 < len(label.encode()) <= 4096 and all(isinstance(p, str) and p for p in after)):
                raise ValueError
        except (ValueError, KeyError, TypeError, AttributeError):
            raise Refused("F29 BadTask", at) from None
        if label in self.tasks:
            raise Refused("F30 TaskTwice", at, shown(label))
        for name in after:
            if name not in self.tasks:
                raise Refused("F31 UnknownTask", at, shown(name))
        waits = {self.tasks[name] for name in after}
        early = [name for name in due[1] if self.is_made(name) and self.names[name] not in self.awaited(waits)] if due else []
        if early:
            raise Refused("F35 NotAwaited", at, below(self.root, early[0]))
        number = self.add(Node("\0" + label, shown(label), True, True, False, waits)) if due is None else self.add_due(at, label, due, waits)
        self.nodes[number].reads, self.nodes[number].writes = reads, writes
        self.tasks[label], self.places[number] = number, (at, label)

    def due(self, one: Dict[str, Any]) -> Optional[Tuple[str, List[str]]]:
        """The two keys of a line; None where it has neither."""
        if "makes" not in one and "needs" not in one:
            return None
        names = [one["makes"], *one["needs"]]
        if not isinstance(one["needs"], list) or any(not name or name.endswith("/") for name in names):
            raise ValueError
        spelled = [plain(self.root, name) for name in names]
        return spelled[0], spelled[1:]

    def is_made(self, name: str) -> bool:
        """Whether an earlier task makes a file."""
        return name in self.names and self.nodes[self.names[name]].recipe

    def awaited(self, waits: Set[int]) -> Set[int]:
        """What is waited for where somebody waits for these."""
        return waits.union(*(self.awaited(self.nodes[at].needs) for at in waits))

    def add(self, node: Node) -> int:
        self.nodes.append(node)
        self.names.setdefault(node.name, len(self.nodes) - 1)
        return len(self.nodes) - 1

    def add_due(self, at: int, label: str, due: Tuple[str, List[str]], waits: Set[int]) -> int:
        """A task that makes a file, behind what it needs, and behind a node that orders it alone."""
        makes, needs = due
        for name in needs:
            if name not in self.names:
                self.add(Node(name, below(self.root, name), listed=name in self.listing))
        found = {self.names[name] for name in needs}
        if waits - found:
            found = found | {self.add(Node("\1" + label, shown(label), listed=True, needs=waits - found))}
        if makes in self.names:
            raise Refused("F30 TaskTwice", at, below(self.root, makes))
        return self.add(Node(makes, below(self.root, makes), True, False, makes in self.listing, found))

    def check_writes(self) -> None:
        """No task may write the name of another node."""
        for number, node in enumerate(self.nodes):
            taken = [below(self.root, it.name) for it in self.nodes if node.is_live and it is not node and node.can(node.writes, it.name)]
            if taken:
                at, label = self.places[number]
                raise Refused("F22 WritesTarget", at, shown(label), min(taken))

    def close(self, node: Node) -> None:
        """What is before a node, what carries to it, and whether it runs always."""
        direct = [self.nodes[at] for at in node.needs]
        node.before = node.needs.union(*(it.before for it in direct))
        if node.is_live:
            node.carriers = {at for at in node.needs if self.nodes[at].makes_own}.union(*(it.carriers for it in direct if it.makes_own))
            node.always = node.is_restless or any(it.is_restless or it.always and it.makes_own for it in direct)


def is_word(name: str) -> bool:
    """Whether a makefile can have a name, as it is shown, as a word."""
    return 0 < len(os.fsencode(name)) <= 4096 and not SIGNS.intersection(name)


class Report:
    """All that keeps the jobs from being declared."""

    def __init__(self, jobs: Jobs) -> None:
        self.jobs, self.nodes = jobs, jobs.nodes
        self.live = [at for at, node in enumerate(self.nodes) if node.is_live]
        self.paths = sorted({path for at in self.live for path in (*self.nodes[at].reads, *self.nodes[at].writes)})
        self.lines: Dict[str, List[str]] = {"missing": [], "late": [], "shared": [], "present": [], "tree": []}
        self.counts = {"missing": 0, "late": 0, "shared": 0, "present": 0, "tree": 0, "unlisted": 0, "races": 0}
        for path in self.paths:
            self.look_at(path)
        present = [at for at in self.live if self.nodes[at].listed and not self.nodes[at].phony]
        outputs = [path for path in self.paths if path in jobs.listing and self.writers(path) and path not in {self.nodes[at].name for at in present}]
        self.lines["present"] = ["present " + shown for shown in [*(self.nodes[at].shown for at in present), *(below(jobs.root, path) for path in outputs)]]
        self.counts["present"] = len(self.lines["present"])
        self.counts["races"] = sum(1 for at, b in enumerate(self.live) for a in self.live[:at] if self.is_race(a, b))

    def is_race(self, a: int, b: int) -> bool:
        """Whether two recipes conflict, and nothing orders them."""
        first, second = self.nodes[a], self.nodes[b]
        if a in second.before:
            return False
        return any((first.can(first.writes, p) or first.can(first.reads, p)) and (second.can(second.writes, p) or second.can(second.reads, p))
                   and (first.can(first.writes, p) or second.can(second.writes, p)) for p in self.paths)

    def watches(self, node: Node, path: str, last: Optional[int]) -> bool:
        """Whether a recipe surely runs once a path has changed."""
        if node.always or last is not None and last in node.carriers:
            return True
        if path.endswith("/"):
            return False
        named = (it for user in (node, *(self.nodes[at] for at in node.carriers)) if user.is_live for it in user.needs)
        at = self.jobs.names.get(path)
        return any(self.nodes[it].name == path for it in named) or at is not None and self.nodes[at].is_never_there

    def writers(self, path: str) -> List[int]:
        return [at for at in self.live if self.nodes[at].can(self.nodes[at].writes, path)]

    def look_at(self, path: str) -> None:
        """What is wrong with one path."""
        writers = self.writers(path)
        last = writers[-1] if writers else None
        if path.endswith("/") and last is not None:
            self.say("tree", path, last, "writes", None, None)
        is_unlisted = not path.endswith("/") and not writers and path not in self.jobs.listing
        for at in self.live:
            node = self.nodes[at]
            if at not in writers and (node.can(node.reads, path) if writers else path in node.reads):  # else a tree stands for it
                if not self.watches(node, path, last):
                    self.counts["unlisted"] += is_unlisted
                    if not is_unlisted:
                        self.say("missing", path, at, "reads", last, self.added(at, path, last))
                late = [it for it in writers if it not in node.before]
                if late:
                    self.say("late", path, at, "reads", late[0], None)
            if at in writers and at != last and last is not None and not self.nodes[last].always and at not in self.nodes[last].carriers:
                add = (last, self.nodes[at].name) if node.makes_own else None
                self.say("shared", path, at, "writes", last, add)

    def added(self, at: int, path: str, last: Optional[int]) -> Optional[Tuple[int, str]]:
        """The prerequisite that makes a recipe watch a path, if there is one to add."""
        if last is not None:
            return (at, self.nodes[last].name) if last < at and self.nodes[last].makes_own else None
        is_later = self.jobs.names.get(path, -1) >= at
        return None if path.endswith("/") or is_later or path not in self.jobs.listing else (at, path)

    def say(self, kind: str, path: str, at: int, does: str, other: Optional[int], add: Optional[Tuple[int, str]]) -> None:
        """One line, and that to add."""
        root = self.jobs.root
        writer = "" if other is None else " %s writes" % self.nodes[other].shown
        self.lines[kind].append("%s %s : %s %s%s" % (kind, below(root, path), self.nodes[at].shown, does, writer))
        self.counts[kind] += 1
        words = [] if add is None or self.nodes[add[0]].phony else [self.nodes[add[0]].shown, below(root, add[1])]
        if words and all(map(is_word, words)):
            self.lines[kind].append("add %s: %s" % tuple(words))

    def text(self) -> Iterator[str]:
        """The whole report."""
        yield from ("%s %d" % pair for pair in self.counts.items())
        recipes = [node for node in self.nodes if node.recipe]
        yield from ("nodes %d" % len(self.nodes), "recipes %d" % sum(1 for it in recipes if it.is_live), "idle %d" % sum(1 for it in recipes if not it.is_live), "waits 0")
        for lines in self.lines.values():
            yield from lines

    def status(self) -> int:
        return 1 if any(count for kind, count in self.counts.items() if kind != "unlisted") else 0


def answer(root: str, tasks: str, listing: str) -> Tuple[int, List[str]]:
    """Status and lines."""
    names = {plain(root, line) for line in listing.split("\n") if line}
    report = Report(Jobs(root, tasks, names))
    return report.status(), list(report.text())


def main(words: List[str]) -> int:
    """The program."""
    parser = argparse.ArgumentParser(description=__doc__, formatter_class=argparse.RawDescriptionHelpFormatter)
    parser.add_argument("--tasks", required=True)
    parser.add_argument("--listing", required=True)
    parser.add_argument("--root", default=os.getcwd())
    options = parser.parse_args(words)
    texts = []
    for name in (options.tasks, options.listing):
        with open(name, encoding="utf-8") as file:
            texts.append(file.read())
    try:
        status, lines = answer(options.root, *texts)
    except Refused as fault:
        print(fault.report())
        return 2
    print("".join(line + "\n" for line in lines), end="")
    return status


if __name__ == "__main__":
    sys.exit(main(sys.argv[1:]))
