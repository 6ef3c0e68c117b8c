"""How races stand: those that a baseline knows, those that a project's file `race-ignore` hides, and what of a baseline is gone."""

from __future__ import annotations

import json
import re
from collections.abc import Iterator
from dataclasses import dataclass
from fnmatch import fnmatchcase
from pathlib import Path
from typing import Any

from record.messages import reason
from report import VERSION
from report.model import BadRecord, Gone, Report

IGNORED = "race-ignore"  # in the project's top
PRINT = re.compile(r"[0-9a-f]{32}")
ENTRY = re.compile(r"(?P<words>.*?)(?:(?:^|\s)#\s*(?P<reason>.*))?")
SEVERAL = '{"package"'  # how a report of several records begins
HOW = "an entry is a pattern of files, two targets, or a fingerprint, and behind # a reason"


@dataclass(frozen=True)
class Known:
    """A race or a missing input of a baseline: its fingerprint, what to call it, and the names of its tasks, each with whether its recipe ran."""

    fingerprint: str
    text: str
    tasks: tuple[tuple[str, bool], ...]

    def is_seen(self, report: Report) -> bool:
        """Whether all that it is about came about in the build of a report, so that it would be there if it still were."""
        return report.verdict != "none" and all(name in (report.ran if has_run else report.considered) for name, has_run in self.tasks)


def of_race(found: dict[str, Any]) -> Known:
    """A race of a baseline."""
    sides = [found["first"], found["second"]]
    text = f"{found['path']}: {sides[0]['target']} and {sides[1]['target']}"
    return Known(found["fingerprint"], text, tuple((it["name"], it["ran"]) for it in sides))


def of_input(found: dict[str, Any]) -> Known:
    """A missing input of a baseline."""
    names: list[str] = [it for it in (found["name"], found["maker_name"]) if it]
    return Known(found["fingerprint"], f"{found['target']}: {found['path']} was missing", tuple((it, True) for it in names))


def read_baseline(path: Path) -> dict[str, list[Known]]:
    """The races and missing inputs of a baseline, by package. It is a report in JSON: of several records, or of one, under an empty name."""
    how = f"to make it anew: race-report --format json -o {path}"
    try:
        text = path.read_text(encoding="utf-8")
        found = [*map(json.loads, text.rstrip("\n").split("\n") if text.startswith(SEVERAL) else [text])]
        for it in found:
            if it["schema"] != "race-report" or it["version"] != VERSION:
                raise BadRecord(f"the baseline {path} is a {it['schema']} of version {it['version']}, and version {VERSION} is read here; {how}")
        return {it.get("package", ""): [*map(of_race, it["races"]), *map(of_input, it.get("missing", {}).get("inputs", []))] for it in found}
    except OSError as error:
        raise BadRecord(f"the baseline {reason(error)}; {how}") from error
    except (AttributeError, KeyError, TypeError, ValueError) as error:
        raise BadRecord(f"the baseline {path} is no report in JSON ({type(error).__name__}: {error}); {how}") from error


def hold_against(report: Report, baseline: dict[str, list[Known]], package: str) -> None:
    """Marks what a baseline has, and notes what of it is gone: fixed where its recipes ran, else not seen. That of one record is about each package."""
    known = baseline.get("", baseline.get(package, []))
    report.known = {it.fingerprint for it in known}
    there = report.fingerprints()
    report.gone = [Gone(it.text, it.is_seen(report)) for it in known if it.fingerprint not in there]


@dataclass(frozen=True)
class Entry:
    """A line of `race-ignore`: what it hides, and why."""

    line: int
    words: tuple[str, ...]
    reason: str

    def hides(self, fingerprint: str, file: str, targets: tuple[str, str]) -> bool:
        """Whether it is about a race with this fingerprint, file and targets, which are names from the project's top on."""
        if len(self.words) == 1:
            return self.words[0] == fingerprint or fnmatchcase(file, self.words[0])
        first, second = self.words
        return any(fnmatchcase(one, first) and fnmatchcase(other, second) for one, other in (targets, targets[::-1]))


def entries(path: Path) -> Iterator[Entry]:
    """The entries of a file `race-ignore`; none where it is not there."""
    if not path.is_file():
        return
    for number, line in enumerate(path.read_text(encoding="utf-8", errors="surrogateescape").splitlines(), 1):
        found = ENTRY.fullmatch(line.strip())
        words = tuple(found["words"].split()) if found else ()
        if found and words and len(words) <= 2 and found["reason"]:
            yield Entry(number, words, found["reason"])
        elif words:
            raise BadRecord(f"{path}:{number}: {'this entry has no reason' if len(words) <= 2 else f'{len(words)} words'}: {HOW}")


def ignore(report: Report) -> None:
    """Hides what the project's `race-ignore` names, and notes the entries that are about nothing."""
    path = Path(report.top) / IGNORED
    left = {it: True for it in entries(path)}
    for fingerprint, file, targets in report.items():
        for entry in filter(lambda it: it.hides(fingerprint, file, targets), left):
            report.ignored.setdefault(fingerprint, entry.reason)
            left[entry] = False
    report.unmet = [f"{path}:{it.line}: {' '.join(it.words)}" for it, is_left in left.items() if is_left]


def settle(report: Report, baseline: dict[str, list[Known]] | None, package: str) -> Report:
    """A report with how its races stand: against a baseline, where there is one, and by the project's `race-ignore`."""
    if baseline is not None:
        hold_against(report, baseline, package)
    ignore(report)
    return report
