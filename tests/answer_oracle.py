"""Whether a build is safe, written apart from the program and from its definitions, out of docs/FORMATS.md and docs/FAULTS.md.

It is slow and plain: it looks at all pairs of recipes, and at all pairs of their paths.
"""
import collections
import itertools

import language_oracle as language
import oracle
from language_oracle import Fault, shown

MOST_PATHS, MOST_PAIRS = 1_000_000, 1_000_000

# (in this order paths rise: by name, a file before a tree)
Path = collections.namedtuple("Path", "name is_tree")
Footprint = collections.namedtuple("Footprint", "reads writes")
Clash = collections.namedtuple("Clash", "first second path")


def spelled(path):
    return path.name + b"/" * path.is_tree


def covers(root, path, other):
    """Whether a path has all of another."""
    whole, below = oracle.components(root, path.name), oracle.components(root, other.name)
    return path == other or path.is_tree and below[: len(whole)] == whole


def footprint_line(line, root):
    """The target, the reads and the writes of a line, or None where it is not good."""
    said = oracle.read_object(line)
    if said is None or not isinstance(said.get("target"), str):
        return None
    if any(not isinstance(said.get(key), list) or any(not isinstance(it, str) for it in said[key]) for key in ("reads", "writes")):
        return None
    target, *lists = said["target"].encode(), *([it.encode() for it in said[key]] for key in ("reads", "writes"))
    reads, writes = ([Path(oracle.plain(root, it), it.endswith(b"/")) for it in paths] for paths in lists)
    if oracle.plain(root, target) is None or any(path.name is None for path in reads + writes):
        return None
    return oracle.plain(root, target), reads, writes


def read_footprints(text, root):
    """The footprint of each target that a line names."""
    table, count = {}, 0
    lines = text.split(b"\n")
    for place, line in enumerate(lines, 1):
        if not line.strip(oracle.BLANK):
            continue
        good = footprint_line(line, root)
        if good is None:
            raise Fault("BadFootprint").at(b"footprints", place)
        target, reads, writes = good
        count += len(reads) + len(writes)
        if count > MOST_PATHS:
            raise Fault("FootprintsTooLarge").at(b"footprints", place)
        known = table.setdefault(target, Footprint(set(), set()))
        known.reads.update(reads)
        known.writes.update(writes)
    return table


class Jobs:
    """A plan with the footprints of the recipes that can run, by number."""

    def __init__(self, plan, footprints):
        self.plan, self.footprints = plan, {}
        self.numbers = {name: number for number, name in enumerate(plan.order)}
        self.before = []
        for name in plan.order:
            direct = [self.numbers[it] for it in plan.prerequisites[name]]
            self.before.append(set(direct).union(*(self.before[it] for it in direct)))
        recipes = [number for number, name in enumerate(plan.order) if plan.makers[name] != b"plain"]
        live = [number for number in recipes if not self.is_idle(plan.order[number])]
        self.idle = len(recipes) - len(live)
        for number in live:
            name = plan.order[number]
            if name not in footprints:
                raise Fault("MissingFootprint", name).at(b"jobs", number)
            self.footprints[number] = footprints[name]
            self.refuse_foreign(number, name)
        self.unused = [name for name in plan.order if plan.makers[name] == b"plain" and name in footprints]

    def is_idle(self, name):
        return name in self.plan.listing and name not in self.plan.book.phony and not self.plan.prerequisites[name]

    def refuse_foreign(self, number, name):
        """No recipe writes what belongs to another."""
        others = {*self.plan.order, *self.plan.book.prerequisites} - {name}
        taken = [it for it in others if any(covers(self.plan.root, path, Path(it, False)) for path in self.footprints[number].writes)]
        if taken:
            raise Fault("WritesTarget", name, min(taken)).at(b"jobs", number)

    def note(self):
        """What is noted of footprints that lie unused, or nothing."""
        return oracle.note_of([shown(it) for it in self.unused])

    def refuse_unused(self):
        if self.unused:
            raise Fault("UnusedFootprint", self.unused[0]).at(b"jobs", self.numbers[self.unused[0]])

    def clashes(self):
        for first, second in itertools.combinations(self.footprints, 2):
            path = self.least_overlap(self.footprints[first], self.footprints[second])
            if path:
                yield Clash(first, second, path)

    def least_overlap(self, one, other):
        """The least path on which two recipes clash, or None."""
        found = []
        for path, another in itertools.product(one.reads | one.writes, other.reads | other.writes):
            if path in one.writes or another in other.writes:
                found += [another] * covers(self.plan.root, path, another) + [path] * covers(self.plan.root, another, path)
        return min(found, default=None)

    def chain(self, first, last):
        """From the last node back: in front of each its least prerequisite that is the first, or is behind it."""
        chain = [last]
        while chain[0] != first:
            direct = (self.numbers[it] for it in self.plan.prerequisites[self.plan.order[chain[0]]])
            chain.insert(0, min(it for it in direct if it == first or first in self.before[it]))
        return chain

    def verb(self, number, path):
        return b"writes" if any(covers(self.plan.root, it, path) for it in self.footprints[number].writes) else b"reads"

    def steps(self, clash):
        """How both recipes of a race come to run at once."""
        for number in sorted(self.before[clash.first] | self.before[clash.second]):
            if number in self.footprints:
                yield from ((b"start", number), (b"finish", number))
            else:
                yield b"skip", number
        yield from ((b"start", clash.first), (b"start", clash.second))

    def times(self):
        count = len(self.plan.order)
        return [(number, count - number) for number, name in enumerate(self.plan.order) if name in self.plan.listing]


def text_of(lines):
    """The text of lines that are given as lists of words."""
    return b"".join(b" ".join(b"%d" % it if isinstance(it, int) else it for it in line) + b"\n" for line in lines)


def neighbours(clashes):
    """Those of some clashes, each of a smaller number and a greater one, that no row of several leads round."""
    led, near = {}, []
    for first in sorted({it.first for it in clashes}, reverse=True):
        own = [it for it in clashes if it.first == first]
        further = set().union(*(led.get(it.second, ()) for it in own))
        led[first] = further | {it.second for it in own}
        near += [it for it in own if it.second not in further]
    return sorted(near)


class Answer:
    """What comes of the jobs of a build: its status, its report and its proof; with `is_short` of the neighbours alone."""

    def __init__(self, jobs, is_short=False):
        self.jobs, self.clashes = jobs, list(jobs.clashes())
        self.races = [it for it in self.clashes if it.first not in jobs.before[it.second]]
        self.race = next(iter(self.races), None)
        if is_short:
            self.clashes = [] if self.race else neighbours(self.clashes)
        if len(self.clashes) > MOST_PAIRS:
            raise Fault("TooManyPairs").at(b"jobs")
        self.status = 1 if self.race else 0

    def name(self, number):
        return shown(self.jobs.plan.order[number])

    def counts(self):
        plan, jobs = self.jobs.plan, self.jobs
        counts = (b"nodes", len(plan.order)), (b"recipes", len(jobs.footprints)), (b"idle", jobs.idle), (b"waits", plan.book.waits)
        return [[word, count] for word, count in counts]

    def report(self):
        return text_of(self.race_lines() if self.race else self.safe_lines())

    def safe_lines(self):
        yield from [[b"safe"], *self.counts(), [b"pairs", len(self.clashes)]]
        for it in self.clashes:
            yield [b"order", shown(spelled(it.path)), b":", *map(self.name, self.jobs.chain(it.first, it.second))]

    def race_lines(self):
        first, second, path = self.race
        yield from [[b"race"], *self.counts(), [b"path", shown(spelled(path))]]
        yield [b"first", self.name(first), self.jobs.verb(first, path)]
        yield [b"second", self.name(second), self.jobs.verb(second, path)]
        yield from ([b"time", self.name(number), time] for number, time in self.jobs.times())
        yield from ([step, self.name(number)] for step, number in self.jobs.steps(self.race))

    def listed(self):
        """The report of all races."""
        return text_of(self.listed_lines())

    def listed_lines(self):
        yield from [[b"races", len(self.races)], *self.counts(), [b"pairs", len(self.clashes)]]
        for first, second, path in self.races:
            doing = [(self.name(it), self.jobs.verb(it, path)) for it in (first, second)]
            yield [b"race", shown(spelled(path)), b":", *doing[0], *doing[1]]

    def proof(self):
        return text_of(self.trace_lines() if self.race else self.certificate_lines())

    def certificate_lines(self):
        yield [b"certificate", len(self.clashes)]
        yield from (self.jobs.chain(it.first, it.second) for it in self.clashes)

    def trace_lines(self):
        first, second, path = self.race
        yield from [[b"trace", first, second], [b"path", spelled(path).hex().encode()]]
        yield from ([b"time", number, time] for number, time in self.jobs.times())
        yield from ([step, number] for step, number in self.jobs.steps(self.race))
        yield [b"end"]


def jobs_of(plan, footprints):
    return Jobs(plan, read_footprints(footprints, plan.root))


def answer_of(plan, footprints, is_short=False):
    return Answer(jobs_of(plan, footprints), is_short)


def note(texts, footprints):
    """What all commands but `race order` note of a build."""
    try:
        return jobs_of(language.read_build(*texts), footprints).note()
    except Fault:
        return b""


def refusal_of_unused(texts, footprints):
    """What they say with --strict in place of their answer, or None."""
    try:
        jobs_of(language.read_build(*texts), footprints).refuse_unused()
    except Fault as fault:
        return 2, fault.report()
    return None


def order(*texts):
    """Status and output of `race order` on a build's root, operands, included texts, listing, base and makefile."""
    try:
        return 0, language.order_text(language.read_build(*texts))
    except Fault as fault:
        return 2, fault.report()


def check(texts, footprints, wants_proof, is_short=False):
    """Status and output of `race check`."""
    try:
        answer = answer_of(language.read_build(*texts), footprints, is_short)
    except Fault as fault:
        return 2, fault.report()
    return answer.status, answer.proof() if wants_proof else answer.report()


def listed(texts, footprints):
    """Status and output of `race list`."""
    try:
        answer = answer_of(language.read_build(*texts), footprints)
    except Fault as fault:
        return 2, fault.report()
    return answer.status, answer.listed()
