"""What a trace and the words of makes come to: the builds of a record, what is taken for granted, and the holes.

These modules are loaded while the build runs (main.py): that takes as long as Python's own start, in a time in which the recorder only waits.
"""

import argparse
import gc
import os
import sys
from pathlib import Path
from typing import Set

from record import machine
from record.build.assumptions import Assumptions
from record.configured import STATUS, find_configured
from record.facts import Facts
from record.failed import note_failure
from record.first_tree import came_with, left_behind
from record.folder import Record, write_record
from record.footprints import write_footprints
from record.make.build import MakeBuilder as Builder
from record.make.graph import MakeBuild
from record.make.owners import Owners, beginning
from record.make.spellings import twice
from record.make.words import read_logs
from record.ninja.build import import_ninjas
from record.ninja.runs import Runs
from record.premises import add_granted, add_granted_by_ninjas, add_seen, unasked
from record.progress import watched
from record.tools.caches import settle_caches
from record.tools.exists import credit_makes, settle_exists
from record.tools.python import settle
from record.trace.calls import Calls
from record.trace.events import CHANGES, FOLDER_CHANGED, MADE, OUTPUT
from record.trace.lives import known_of
from record.trace.names import mounts_below
from record.trace.sifting import SYSTEM, unseen_changes
from record.trace.snapshots import Past
from record.trace.strace import read_trace
from record.watch.files import OWN_WORDS, PRINTS, files_in, open_file, read_start
from record.warm import did_nothing, is_gone, is_inside, made_unseen, moves_of, stand_alone, start_of, warm_names

IDLE = "nothing was to be done, so nothing was seen: record a clean tree (--fresh)"


def replay_trace(facts: Facts, folder: str) -> Calls:
    """The trace, played in the name space."""
    spool, names = facts.spool, facts.names
    replay = Calls(names, facts.place, machine.realpath(facts.real), folder)
    trace = spool / ("sifted" if (spool / "sifted").exists() and not names.leads_to(SYSTEM) else "trace")  # guard: links-that-lead
    if facts.said_place:
        replay.own, replay.said, replay.covered = (facts.place, os.path.dirname(facts.said_place)), facts.said_place + "/", {*facts.covered}
    for _, _, path in files_in(facts.said) if facts.said_place else ():
        with open_file(path) as lines:
            start = read_start(lines)
        replay.silent.update([] if start.says else [path.name])  # most makes that say nothing of what they do only answer
        replay.holes += [OWN_WORDS % " ".join(start.args)[:200]] if start.asks in PRINTS else []  # guard: make-with-words-of-its-own
    with open(trace, encoding="latin-1", newline="\n") as lines:
        for event in read_trace(watched(lines, trace.stat().st_size)):
            replay.play(event)
    replay.holes += unseen_changes(replay.outside) if trace.name == "sifted" else []  # guard: changes-that-no-line-shows
    return replay


class Imported:
    """What a trace and the words of makes come to: the builds, the holes, and what was taken for granted."""

    def __init__(self, facts: Facts, record: Record) -> None:
        self.facts, self.record, self.names, self.assumed = facts, record, facts.names, Assumptions()
        self.replay = replay_trace(facts, record.folder)
        self.lives = self.replay.all
        self.owners = self.settle()
        self.makes = self.owners.makes
        self.note_holes()
        runs = Runs(self.lives, self.owners, self.names, facts.kept, record.status == 0)
        self.ninjas = runs.ninjas
        add_granted_by_ninjas(self.ninjas, self.owners, self.assumed)
        self.builds, more = import_ninjas(self.ninjas, self.lives, self.names, self.assumed, Past(self.names.before, self.replay.changes))
        record.holes += runs.holes + more
        note_failure(record, self.lives, self.makes, self.ninjas, self.names)
        for name in unasked(self.makes, self.ninjas):
            self.assumed.add("unasked", name)  # guard: recipes-that-nothing-asked
        add_seen(self.replay, self.assumed)
        add_granted(self.owners, self.assumed)
        if self.makes and not facts.covered:
            self.assumed.add("preload", "")  # guard: where-library-is-in-environment
        self.add_builds()
        if (self.makes or self.ninjas) and record.status == 0 and did_nothing(self.builds, self.makes):
            record.holes.append(IDLE)  # guard: nothing
        record.outside = {*self.replay.outside}
        record.touched = {path.rstrip("/") for path in {path for life in self.lives for _, path in life.events} if not self.names.is_inside(path)}
        since = min((place for make in self.makes for place in self.owners.at_once(make)), default=None)
        record.late = None if since is None else {path.rstrip("/") for life in self.lives if life.died > since for kind, path in life.events if kind in CHANGES + OUTPUT + MADE + FOLDER_CHANGED}

    def settle(self) -> Owners:
        """Puts what is meant in the place of what known programs did; who did what."""
        logs = read_logs(self.facts.said)
        for kind, example in settle(self.lives, self.names.tops):  # guard: byte-code
            self.assumed.add(kind, example)
        for words in settle_caches(self.lives, self.names.tops):
            self.assumed.add("caches", words)
        markers, looks = settle_exists(self.lives, logs)
        self.record.markers = sorted(markers)
        owners = Owners(self.lives, logs)
        credit_makes(owners, markers, looks)  # guard: makes-that-would-make-folder
        if owners.makes:
            self.assumed.add("serial", "")
        return owners

    def note_holes(self) -> None:
        """The holes of the trace itself, and of makes that ran past the recorder."""
        holes, replay, names = self.record.holes, self.replay, self.names
        for pid in sorted({int(path.name.split(".")[0]) for path in self.facts.said.glob("*.cut")}):
            words = next((" ".join(life.argv)[:100] for life in self.lives if life.pid == pid and life.is_make), "make")
            holes.append("a limit on the size of files (ulimit -f) cuts what a make says: " + words)
        holes += replay.holes + self.owners.holes + names.mounted({*mounts_below(*names.tops)}) + twice(names, self.lives, self.makes)  # guard: names-of-two-spellings
        holes += ["a path of the project is longer than 4,095 bytes, and cannot be looked at: below %.200s" % path for path in names.long]  # guard: paths-that-are-too-long
        holes += ["--fresh copied %s, which has a name outside of the folder too, and the build writes it" % path for path in replay.hard_links if path in names.shared]  # guard: name-outside
        holes += ["nobody knows who started a process: " + one for one in replay.strays()]
        holes += ["a make ran past the recorder: " + words for words in replay.unheard.values()]  # guard: makes-without-library

    def add_builds(self) -> None:
        """A build for each round of a make in which something was done, in the order in which they began, beside those of ninjas; a hole for each target that no recipe made."""
        past, names = Past(self.names.before, self.replay.changes), self.names
        rounds = sorted(((beginning(m, n), m, n) for m in self.makes for n, one in enumerate(m.words.rounds) if one.jobs), key=lambda found: found[0])
        self.builds += (Builder(make, number, names, self.assumed, past.until(place)).run() for place, make, number in rounds)
        for path in made_unseen(self.makes, self.ninjas, names, past.until(sys.maxsize)):
            self.record.holes.append("%s was absent, and something else made it while the build ran, so its recipe did not run: let nothing else build here, and record again" % path)
        self.builds.sort(key=lambda build: start_of(build.make.life))  # guard: when-a-make-began

    def finish(self, out: str, warm: bool) -> None:
        """What is known when all builds are: whether they were cold."""
        record, names = self.record, self.names
        moves, last = moves_of(names, self.replay.changes), max((start_of(tool.life) for tool in (*self.makes, *self.ninjas)), default=0)
        there, configured = {*warm_names(self.makes, self.builds, self.ninjas, names, moves)}, find_configured(self.owners, names)
        record.configured = sorted(there & configured)
        there -= configured
        if record.first is not None:
            written = {path for build in self.builds for task in build.tasks for path in task.writes | task.leaves}
            statuses = (path for path in names.before if os.path.basename(path) == STATUS and path not in self.owners.written)
            part = came_with(record.first, there, statuses, written)
            record.up_to_date = sorted(part - written)
            before = {path: kind for path, kind in names.before.items() if not is_gone(moves, path, last)}
            first = {names.find(make.folder, name, True).path for make in self.makes if not is_inside(make.life) for start in make.words.read[:1] for name in start[:1]}  # else there is no build
            there = there - part | left_behind(record.first, before, self.lives, self.builds, out, names) - first - configured
        alone = there if stand_alone(there, self.builds, self.ninjas) else set()
        record.warm = sorted(there - alone)
        start = sorted(there if warm else alone)
        for kind, found in (("up-to-date", record.up_to_date), ("configured", record.configured), ("up-to-date", start)):  # guard: configured-said
            for name in found:
                self.assumed.add(kind, name)
        if self.ninjas:
            record.tools["ninja"] = ", ".join(dict.fromkeys(machine.printed(ninja.life.program, "--version").strip() for ninja in self.ninjas))


def imported(record: Record, facts: Facts, warm: bool, out: str = "") -> Imported:
    """What a build that has ended comes to."""
    gc.disable()  # what is read is needed to the end: a search for garbage takes time and finds none
    found = Imported(facts, record)
    gc.enable()
    found.finish(out, warm)
    record.holes = list(dict.fromkeys(record.holes))
    return found


def complete(record: Record, facts: Facts, out: Path, options: argparse.Namespace) -> Imported:
    """Writes the record of a build that has ended."""
    found = imported(record, facts, options.warm, os.path.realpath(out))
    if options.held:
        waited = options.waited.read_text().split() if options.waited.exists() else ()
        record.known = known_of(found.lives[0].course, options.held, {*map(int, waited)})
    write_record(out, record, found.builds, found.assumed)
    for number, build in zip(record.builds, found.builds if options.footprints else ()):
        if isinstance(build, MakeBuild):
            write_footprints(out / "builds" / number, build, facts.names)
    if options.missing:
        from record.missing.inputs import write_missing  # it builds in copies, and nothing else of an import does
        record.missing = write_missing(out, record, found.builds, found.makes, facts.names, found.lives)
    return found
