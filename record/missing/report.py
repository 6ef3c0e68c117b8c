"""The answer on missing inputs as text: what each recipe reads that make does not know of, the line to add, and the premises."""

import hashlib
import os
from dataclasses import dataclass
from pathlib import Path
from typing import Any, Dict, List, Tuple

from record.folder import name_from
from record.judge import explained
from record.kinds import target
from record.messages import after_no_verdict, plural
from record.missing.inputs import Answer, Found, judge_missing
from record.report import Colours, example_text, grouped, listed, place, read_json, wrapped
from record.build.text import shown

SHOWN_FILES, SHOWN_TARGETS = 40, 5
HEADERS = (".h", ".hh", ".hpp", ".hxx", ".inc", ".def")
# What who reads a path does, and who writes it, by the kind of a violation.
DOES = {"missing": ("reads it, and is not made again", "makes it"), "late": ("reads it", "writes it, and need not come first"),
        "shared": ("writes it", "writes it too, later, and may not run then")}
ADVICE = "advice: let the compiler name headers itself: -MMD in its words, and -include of the .d files that it writes"


@dataclass(frozen=True)
class Judged:
    """One build of the record, with what `race missing` says of it."""

    number: str
    about: Dict[str, Any]
    answer: Answer
    top: str  # of the project

    def from_top(self, path: str) -> str:
        """A path or a target from the project's top on."""
        return name_from(self.top, os.path.normpath(os.path.join(self.about["folder"], path)))

    def target(self, label: str) -> str:
        """The target of a task."""
        return target(self.about, label)

    def name(self, path: str) -> str:
        """A path as a makefile spells it: from the folder of its make."""
        return os.path.relpath(path, self.about["folder"]) if path.startswith("/") else path

    def late(self, one: Found) -> str:
        """The target that gets a prerequisite."""
        return self.target(one.writer if one.kind == "shared" else one.reader)

    def early(self, one: Found) -> str:
        """That prerequisite; nothing where there is no line to add. A source that nobody makes can always be one."""
        if one.kind == "missing" and not one.writer:
            return self.name(one.path)
        if not one.add:
            return ""
        return self.target(one.reader) if one.kind == "shared" else self.name(one.add)

    def fingerprint(self, one: Found) -> str:
        """What stays the same where lines move: the kind, the path and the targets."""
        parts = (one.kind, *map(self.from_top, (one.path, self.target(one.reader))), self.from_top(self.target(one.writer)) if one.writer else "")
        return hashlib.sha256("\0".join(parts).encode("utf-8", "surrogateescape")).hexdigest()[:32]


@dataclass
class Question:
    """All that is known of the missing inputs of a record."""

    record: Dict[str, Any]
    judged: List[Judged]
    folder: Path  # of the record

    @staticmethod
    def of(out: Path, race: str) -> "Question":
        """Asks `race` about each build of a record."""
        record = read_json(out / "record.json")
        judged = []
        for number in record["builds"]:
            about = read_json(out / "builds" / number / "build.json")
            judged.append(Judged(number, about, judge_missing(race, out / "builds" / number, about["folder"]), record.get("top", shown(record["folder"]))))
        return Question(record, judged, out)

    def holes(self) -> List[str]:
        """Why there is no answer: a recipe that was not seen, or a graph that is not known, may have missing inputs."""
        own = list(self.record["missing"]["holes"])
        own += ["build %s: %s" % (one.number, explained(one.answer.refused)) for one in self.judged if one.answer.refused]
        warm = self.record["warm"]["count"] and not any(one["kind"] == "up-to-date" for one in self.record["assumptions"])
        own += [] if self.all() else self.record["missing"]["otherwise"]  # guard: what-later-builds-leave
        own += ["the record has holes"] if self.record["holes"] else ["what was up to date did not run (WARM)"] if warm else []
        return own

    def all(self) -> List[Tuple[Judged, Found]]:
        """All violations."""
        return [(judged, one) for judged in self.judged for one in judged.answer.found]

    def races(self) -> int:
        """How many pairs of recipes race in old trees: without one of them nothing that is missing is an answer about all builds."""
        return sum(one.answer.races for one in self.judged)

    def verdict(self) -> str:
        """`nothing` is missing, `missing` where something is, `none` where there is no verdict."""
        return "none" if self.holes() else "missing" if self.all() else "nothing"

    def status(self) -> int:
        """0 nothing is missing and no recipes race, 1 something is missing, or they do, 2 no verdict."""
        return {"nothing": 1 if self.races() else 0, "missing": 1, "none": 2}[self.verdict()]


def rows_of(judged: Judged, found: List[Found]) -> List[str]:
    """The recipes that a group of violations is about, with their places; the writer last."""
    (reads, writes), writer, more = DOES[found[0].kind], found[0].writer, len(found) - SHOWN_TARGETS
    recipes = [(one.reader, reads) for one in found[:SHOWN_TARGETS]] + [(writer, writes)] * bool(writer)
    rows = [(judged.target(label), place(judged.about, label), does) for label, does in recipes]
    wide = [max(len(row[at]) for row in rows) for at in (0, 1)]
    lines = ["  %s  %s  %s" % (row[0].ljust(wide[0]), row[1].ljust(wide[1]), row[2]) for row in rows]
    if more > 0:
        lines.insert(SHOWN_TARGETS, "  and %d more%s" % (more, "" if found[0].kind == "shared" else " read it"))
    return lines


def add_line(judged: Judged, found: List[Found]) -> List[str]:
    """The line for the makefile, for those targets that have one."""
    adding = [one for one in found if judged.early(one)]
    late, early = (" ".join(dict.fromkeys(side(one) for one in adding)) for side in (judged.late, judged.early))
    if not adding and found[0].kind == "missing" and found[0].writer:
        path, readers = judged.name(found[0].path), " ".join(dict.fromkeys(judged.late(one) for one in found))
        return ["  add: %s: %s" % (readers, path), "  add: %s: %s ;" % (path, judged.target(found[0].writer))]
    return ["  add: %s: %s" % (late, early)] if adding else []


def build_text(judged: Judged, is_alone: bool, colour: Colours) -> List[str]:
    """All that one build misses."""
    groups = grouped(judged.answer.found, lambda one: (one.kind, one.path, one.writer))
    lines = [] if is_alone or not groups else ["%s  in %s" % (("make " + judged.about["words"]).strip(), judged.about["folder"])]
    for found in groups[:SHOWN_FILES]:
        lines.append("%s%s%s  %s" % (colour.bad, found[0].kind.upper(), colour.end, judged.name(found[0].path)))
        lines += [*rows_of(judged, found), *add_line(judged, found), ""]
    if len(groups) > SHOWN_FILES:
        lines += ["%d more files: race-report --format json lists all" % (len(groups) - SHOWN_FILES), ""]
    return lines


def missing_text(question: Question, colour: Colours) -> List[str]:
    """The whole section, and what the answer takes for granted."""
    holes, found = question.holes(), question.all()
    lines = ["Missing inputs", ""]
    for one in question.judged:
        lines += build_text(one, len(question.judged) == 1, colour)
    looked = plural(question.record["missing"]["judged"], "recipe") + " looked at"
    if holes:
        lines += [colour.bad + "NO VERDICT" + colour.end + "  on missing inputs:", *listed(holes, question.folder)]
        lines += [] if question.record["holes"] else [after_no_verdict("No verdict on missing inputs", "MISSING.md")]  # there it stands already
    if found:
        targets = len({(judged.number, one.reader) for judged, one in found})
        lines.append("%s of %s. %s" % (plural(len(found), "missing input"), plural(targets, "target"), looked))
        lines += [ADVICE] if any(one.kind == "missing" and one.path.endswith(HEADERS) for _, one in found) else []
    elif not holes:
        lines.append(colour.good + "NOTHING MISSING" + colour.end + "  " + looked)
    racing = "when no recipes race, " if question.races() else ""
    lines.append("Assumed:" if holes or found else racing + "no `make clean` is needed after an edit, if:")
    for premise in question.record["missing"]["premises"]:
        lines += wrapped(premise["text"] + example_text(premise, question.record["folder"]), "  - ", "    ")
    return lines
