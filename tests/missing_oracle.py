"""What the jobs of a build do not declare, written apart from the program and from its definitions, out of docs/THEOREM.md.

It is slow and plain: it looks at all recipes and all paths.
"""
from __future__ import annotations

import language_oracle as language
from answer_oracle import Answer, Jobs, Path, answer_of, covers, spelled, text_of
from fix_oracle import is_word
from language_oracle import Fault, shown


class Watching:
    """Which recipes run in every build, and which other recipe each of them runs with."""

    def __init__(self, jobs: Jobs) -> None:
        self.jobs = jobs
        self.names = jobs.plan.order
        self.direct = [sorted({jobs.numbers[it] for it in jobs.plan.prerequisites[name]}) for name in self.names]
        self.own = [self.writes(number, Path(name, False)) for number, name in enumerate(self.names)]
        self.listed = [name in jobs.plan.listing for name in self.names]
        self.phony = [name in jobs.plan.book.phony for name in self.names]
        self.absent = [not listed and not own for listed, own in zip(self.listed, self.own)]
        self.always: list[bool] = []
        self.carriers: list[set[int]] = []
        for number in range(len(self.names)):
            self.always.append(self.is_live(number) and self.runs_always(number))
            over = [it for it in self.direct[number] if self.own[it] and self.is_live(number)]
            self.carriers.append(set(over).union(*(self.carriers[it] for it in over)))

    def is_live(self, number: int) -> bool:
        return number in self.jobs.footprints

    def is_restless(self, number: int) -> bool:
        return self.phony[number] or self.absent[number]

    def runs_always(self, number: int) -> bool:
        woken = (self.is_restless(it) or self.always[it] and self.own[it] for it in self.direct[number])
        return self.is_restless(number) or any(woken)

    def reads(self, number: int, path: Path) -> bool:
        return self.is_live(number) and self.is_under(self.jobs.footprints[number].reads, path)

    def writes(self, number: int, path: Path) -> bool:
        return self.is_live(number) and self.is_under(self.jobs.footprints[number].writes, path)

    def is_under(self, paths: set[Path], path: Path) -> bool:
        return any(covers(self.jobs.plan.root, it, path) for it in paths)

    def names_it(self, number: int, path: Path) -> bool:
        return not path.is_tree and any(self.names[it] == path.name for it in self.direct[number])

    def is_never_there(self, path: Path) -> bool:
        return not path.is_tree and any(name == path.name and self.absent[it] for it, name in enumerate(self.names))

    def writers(self, path: Path) -> list[int]:
        return [it for it in self.jobs.footprints if self.writes(it, path)]

    def watches(self, number: int, path: Path) -> bool:
        """Whether this recipe surely runs once the path has changed."""
        named = any(self.names_it(it, path) for it in {number, *self.carriers[number]} if self.is_live(it))
        last = self.writers(path)[-1:]
        return self.always[number] or named or any(it in self.carriers[number] for it in last) or self.is_never_there(path)


class Found:
    """All that keeps builds of old trees from leaving what clean ones leave, by kind, and the report of it."""

    def __init__(self, answer: Answer) -> None:
        self.answer, self.jobs = answer, answer.jobs
        self.watching = Watching(self.jobs)
        self.files = sorted({path for it in self.jobs.footprints.values() for path in it.reads | it.writes})
        self.missing, self.late, self.shared = [], [], []
        self.unlisted = 0
        for path in self.files:
            self.look_at(path, self.watching.writers(path))
        present = (it for it in self.jobs.footprints if self.watching.listed[it] and not self.watching.phony[it])
        self.present = sorted(present)
        written = [(path, writers[-1]) for path in self.files for writers in [self.watching.writers(path)] if writers]
        theirs = {self.watching.names[it] for it in self.present}
        self.outputs = [path for path, _ in written if not path.is_tree and path.name in self.jobs.plan.listing and path.name not in theirs]
        self.trees = [(path, last) for path, last in written if path.is_tree]

    def look_at(self, path: Path, writers: list[int]) -> None:
        """What is wrong with one path, whose writers these are."""
        watching, last = self.watching, writers[-1] if writers else None
        for number in sorted(self.jobs.footprints):
            if self.is_input(number, path, writers):
                if not watching.watches(number, path) and self.is_unlisted(path, writers):
                    self.unlisted += 1
                elif not watching.watches(number, path):
                    self.missing.append((path, number, last))
                late = [it for it in writers if it not in self.jobs.before[number]]
                self.late += [(path, number, it) for it in late[:1]]
            apart = last is not None and not watching.always[last] and number not in watching.carriers[last]
            if number in writers and number != last and apart:
                self.shared.append((path, number, last))

    def is_input(self, number: int, path: Path, writers: list[int]) -> bool:
        """Whether a recipe reads a path, and does not write it: where nobody writes it, as a path of its own, and not by a tree."""
        if not writers:
            return path in self.jobs.footprints[number].reads
        return self.watching.reads(number, path) and number not in writers

    def is_unlisted(self, path: Path, writers: list[int]) -> bool:
        """Whether a path is a file that nobody writes and that is not listed."""
        return not path.is_tree and not writers and path.name not in self.jobs.plan.listing

    @property
    def unlisted_names(self) -> set[bytes]:
        """The names of the files that recipes read or look for, that none writes, and that are not listed."""
        return {path.name for path in self.files if self.is_unlisted(path, self.watching.writers(path))}

    @property
    def status(self) -> int:
        violations = self.missing, self.late, self.shared, self.present, self.outputs, self.trees
        return 1 if self.answer.races or any(violations) else 0

    def report(self) -> bytes:
        return text_of(self.lines())

    def lines(self):
        kinds = (b"missing", self.missing), (b"late", self.late), (b"shared", self.shared), (b"present", self.present + self.outputs), (b"tree", self.trees)
        yield from ([word, len(found)] for word, found in kinds)
        yield from [[b"unlisted", self.unlisted], [b"races", len(self.answer.races)], *self.answer.counts()]
        name = self.answer.name
        for path, number, last in self.missing:
            doing = [] if last is None else [name(last), b"writes"]
            yield [b"missing", shown(spelled(path)), b":", name(number), b"reads", *doing]
            yield from self.added(number, self.declaring(path, number, last))
        for path, number, writer in self.late:
            yield [b"late", shown(spelled(path)), b":", name(number), b"reads", name(writer), b"writes"]
        for path, number, last in self.shared:
            yield [b"shared", shown(spelled(path)), b":", name(number), b"writes", name(last), b"writes"]
            yield from self.added(last, self.watching.names[number] if self.watching.own[number] else None)
        yield from ([b"present", name(number)] for number in self.present)
        yield from ([b"present", shown(spelled(path))] for path in self.outputs)
        yield from ([b"tree", shown(spelled(path)), b":", name(last), b"writes"] for path, last in self.trees)

    def declaring(self, path: Path, number: int, last: int | None) -> bytes | None:
        """The prerequisite that makes a recipe watch a path, if there is one to add."""
        watching = self.watching
        if last is not None:
            return watching.names[last] if last < number and watching.own[last] else None
        is_later = self.jobs.numbers.get(path.name, -1) >= number
        return None if path.is_tree or is_later or path.name not in self.jobs.plan.listing else path.name

    def added(self, target: int, prerequisite: bytes | None):
        """The line that adds a prerequisite, if there is one, and both are words of a makefile."""
        name = self.watching.names[target]
        if prerequisite is not None and is_word(name) and is_word(prerequisite):
            yield [b"add", shown(name) + b":", shown(prerequisite)]


def changes(first: language.Plan, second: language.Plan):
    """The names of a plan, in serial order, that another one lacks, or makes in another way or of other prerequisites."""
    for name in first.order:
        made = [(plan.makers.get(name), plan.prerequisites.get(name)) for plan in (first, second)]
        if made[0] != made[1]:
            yield name


def second_build(texts, found: Found) -> bytes:
    """The line of a build that finds what the first one made, if it is planned otherwise; else nothing."""
    root, operands, includes, listing, base, makefile = texts
    watching = found.watching
    products = [name for number, name in enumerate(watching.names) if watching.own[number] and not watching.phony[number]]
    try:
        again = language.read_build(root, operands, includes, b"\n".join([listing, *products]), base, makefile)
    except Fault:
        return text_of([[b"plan", b":", b"refused"]])
    return text_of([b"plan", shown(name)] for name in list(changes(found.jobs.plan, again))[:1])


def missing(texts, footprints: bytes) -> tuple[int, bytes]:
    """Status and output of `race missing`."""
    try:
        found = Found(answer_of(language.read_build(*texts), footprints))
    except Fault as fault:
        return 2, fault.report()
    change = second_build(texts, found)
    return 1 if change else found.status, found.report() + change
