"""What is said of a text of tasks, written apart from the program and from its definitions, out of docs/FORMATS.md and docs/FAULTS.md.

Tasks take the place of the nodes of a plan, and then are judged as a build is: slowly, all pairs of them.
"""
import json
import re
from types import SimpleNamespace

import answer_oracle
import fix_oracle
import oracle
from answer_oracle import Footprint, Path, spelled, text_of
from language_oracle import Fault, shown

MOST_TASKS, MOST_EDGES = 20_000, 200_000
# The commands that take tasks, besides `verify`.
COMMANDS = ("check", "list", "fix")
LISTS = ("after", "reads", "writes")


def label_of(text):
    """The bytes of a label, or None where it is none."""
    label = text.encode() if isinstance(text, str) else b""
    return label if 0 < len(label) <= oracle.GREATEST_PATH else None


def is_everything(path):
    """Whether a path is the tree `/`, which the root `/` spells as `./`."""
    return path.is_tree and path.name == b"/"


def task_line(line, root):
    """The label, the labels before, the reads and the writes of a line, or None where it is not good."""
    said = oracle.read_object(line)
    if said is None or any(not isinstance(said.get(key), list) for key in LISTS):
        return None
    if any(not isinstance(it, str) for key in LISTS for it in said[key]):
        return None
    label, after = label_of(said.get("task")), [label_of(it) for it in said["after"]]
    reads, writes = ([Path(oracle.plain(root, it.encode()), it.endswith("/")) for it in said[key]] for key in LISTS[1:])
    is_bad = label is None or None in after or any(path.name is None for path in reads + writes)
    return None if is_bad or any(map(is_everything, writes)) else (label, after, reads, writes)


class Jobs(answer_oracle.Jobs):
    """The tasks of a text, as jobs whose nodes all have a recipe that runs."""

    def __init__(self, root, text):
        self.plan = SimpleNamespace(root=root, order=[], prerequisites={}, listing=frozenset(), book=SimpleNamespace(waits=0, phony=()))
        self.numbers, self.before, self.footprints, self.idle = {}, [], {}, 0
        self.edges = self.paths = 0
        for place, line in enumerate(text.split(b"\n"), 1):
            if line.strip(oracle.BLANK):
                self.take(line, place)

    def take(self, line, place):
        """One task more."""
        fault = lambda kind, *names: Fault(kind, *names).at(b"tasks", place)
        good = task_line(line, self.plan.root)
        if good is None:
            raise fault("BadTask")
        label, after, reads, writes = good
        if label in self.numbers:
            raise fault("TaskTwice", label)
        unknown = [it for it in after if it not in self.numbers]
        if unknown:
            raise fault("UnknownTask", unknown[0])
        direct = {self.numbers[it] for it in after}
        self.edges, self.paths = self.edges + len(direct), self.paths + len(reads) + len(writes)
        if len(self.numbers) == MOST_TASKS or self.edges > MOST_EDGES:
            raise fault("TooManyTasks")
        if self.paths > answer_oracle.MOST_PATHS:
            raise fault("TasksTooLarge")
        self.footprints[len(self.numbers)] = Footprint(set(reads), set(writes))
        self.numbers[label] = len(self.numbers)
        self.plan.order.append(label)
        self.plan.prerequisites[label] = list(dict.fromkeys(after))
        self.before.append(direct.union(*(self.before[it] for it in direct)))


def answered(root, text, is_short=False):
    """The answer of tasks and no refusal, or None and the refusal."""
    try:
        top = oracle.plain(b"/", root) if root.startswith(b"/") else None
        if top is None:
            raise Fault("BadName", root).at(b"settings", 0)
        return answer_oracle.Answer(Jobs(root, text), is_short), b""
    except Fault as fault:
        return None, fault.report()


def check(root, text, wants_proof, is_short=False):
    """Status and output of `race check`."""
    answer, refusal = answered(root, text, is_short)
    if answer is None:
        return 2, refusal
    return answer.status, answer.proof() if wants_proof else answer.report()


def listed(root, text):
    """Status and output of `race list`."""
    answer, refusal = answered(root, text)
    return (2, refusal) if answer is None else (answer.status, answer.listed())


def fix(root, text, wants_proof):
    """Status and output of `race fix`."""
    answer, refusal = answered(root, text)
    if answer is None:
        return 2, refusal
    edges = fix_oracle.edges_of(answer)
    labels = answer.jobs.plan.order
    if answer.jobs.edges + len(edges) > MOST_EDGES:
        return 1, text_of([[b"# not fixed"], *([b"# needs", shown(labels[it.second]), shown(labels[it.first])] for it in edges)])
    if wants_proof:
        return 0, answered(root, with_edges(text, [(labels[it.first], labels[it.second]) for it in edges]))[0].proof()
    lines = [b"%s: %s # %s\n" % (shown(labels[it.second]), shown(labels[it.first]), fix_oracle.remark(answer, it)) for it in edges]
    return 0, b"".join([b"# race fix: lines %d\n" % len(edges), *lines] if edges else [])


def said(command, root, text, flags):
    """Status and output of one of the commands with these flags."""
    wants_proof = "--print-proof" in flags
    if command == "check":
        return check(root, text, wants_proof, "--short" in flags)
    return listed(root, text) if command == "list" else fix(root, text, wants_proof)


def with_edges(text, edges):
    """A text of tasks in which the second label of each of these edges has the first one in its `after` too."""
    lines = [json.loads(line) for line in text.split(b"\n") if line.strip(oracle.BLANK)]
    for said in lines:
        said["after"] += [first.decode() for first, second in edges if second.decode() == said["task"]]
    return b"".join(json.dumps(said).encode() + b"\n" for said in lines)


def edges_in(lines):
    """The edges, as labels, that lines of a fix say. A shown label has no blank."""
    rows = [line.split(b" ") for line in lines.splitlines() if not line.startswith(b"# race fix: lines ")]
    return [(hidden(row[1]), hidden(row[0].removesuffix(b":"))) for row in rows]


def hidden(word):
    """The bytes of which this is the shown form."""
    return re.sub(rb"\\x(..)", lambda found: bytes.fromhex(found[1].decode()), word)


def behind(jobs, number):
    """The recipes that can run and lead to a node, without another of them between."""
    direct = (jobs.numbers[it] for it in jobs.plan.prerequisites[jobs.plan.order[number]])
    return set().union(*({it} if it in jobs.footprints else behind(jobs, it) for it in direct))


def text_of_plan(jobs):
    """The recipes of a build that can run, as a text of tasks; None where a task writes everything."""
    lines = []
    for number, footprint in jobs.footprints.items():
        if any(map(is_everything, footprint.writes)):
            return None
        lists = ([spelled(it).decode() for it in sorted(paths)] for paths in footprint)
        names = [jobs.plan.order[it].decode() for it in sorted(behind(jobs, number))]
        lines.append(json.dumps(dict(zip(("task", *LISTS), (jobs.plan.order[number].decode(), names, *lists)))))
    return "".join(line + "\n" for line in lines).encode()


def races_in(report):
    """What reports of a build and of its tasks have in common: the lines of `race list` except those that count nodes, and of `race
    check` the verdict with the path and the two recipes of a race."""
    kept = (b"races ", b"recipes ", b"pairs ", b"race", b"safe", b"path ", b"first ", b"second ")
    return [line for line in report.splitlines() if line.startswith(kept)]
