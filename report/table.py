"""One table for several records: a row for each, as text, as lines of JSON, and as runs of SARIF. A record that cannot be read has a row that says so."""

from __future__ import annotations

import json
import os
import sys
from collections import Counter
from collections.abc import Callable, Sequence
from dataclasses import dataclass
from pathlib import Path
from typing import Any

from record.folder import NotWhole, reading
from record.messages import reason
from report.asking import judge
from report.machine import object_of, run_of
from report.model import BadRecord, Report, read_json
from report.page import as_html
from report.plain import HEADLINES, counted, summary
from report.standing import Known, settle

COLUMNS = ("package", "verdict", "recipes", "new", "known", "premises", "seconds", "tree, or why there is no verdict")
COUNTED = range(2, 7)  # the columns that are numbers
UNREAD = "UNREADABLE"


@dataclass(frozen=True)
class Named:
    """A record of several: what it is called, its folder, and its report."""

    package: str
    folder: Path
    report: Report


@dataclass(frozen=True)
class Form:
    """A form of the table: what a record comes to in it, what all of that comes to, and whether each record has a page."""

    row: Callable[[Named], Any]
    whole: Callable[[list[Any]], str]
    has_pages: bool = False


@dataclass(frozen=True)
class Row:
    """A record in the table. `verdict` is safe, race or none; `cells` has a text for each column."""

    verdict: str
    headline: str
    cells: tuple[str, ...]


def records(word: str) -> list[Path]:
    """The records that a word of the command line names: those below its folder, in the order of their names, or what it names itself where there
    are none. Nothing below a record is one; a folder that cannot be read stands for itself."""
    found: list[Path] = []
    for folder, below, files in os.walk(word, onerror=lambda error: found.append(Path(error.filename))):
        below.sort()
        if "record.json" in files:
            below.clear()
            found.append(Path(folder))
    return found or [Path(word)]


def name_of(folder: Path) -> str:
    """What a record is called: the folder of its project, as it says; else its own folder, or the one that its `.race` is in."""
    try:
        record = read_json(folder / "record.json")
    except BadRecord:
        record = {}
    whole = folder.absolute()
    return os.path.basename(str(record.get("top", record.get("folder", "")))) or (whole.parent if whole.name == ".race" else whole).name


def packages(folders: Sequence[Path]) -> list[str]:
    """What to call each of several records: a name that two would have gives way to their paths."""
    names = [name_of(it) for it in folders]
    counts = Counter(names)
    return [name if counts[name] == 1 else str(folder) for name, folder in zip(names, folders)]


def shown_in(form: Form, package: str, folder: Path, program: Path, baseline: dict[str, list[Known]] | None) -> tuple[Any, str, int]:
    """What a record comes to in a form, its page if it has one, and its status. Where it cannot be read, standard error says why, too."""

    def made(report: Report) -> tuple[Any, str, int]:
        return form.row(Named(package, folder, report)), as_html(report) if form.has_pages else "", report.status()

    try:
        with reading(folder):
            return made(settle(judge(folder, program), baseline, package))
    except (BadRecord, NotWhole, OSError) as error:
        why = reason(error) if isinstance(error, OSError) else str(error)
        print(f"race-report: {why}", file=sys.stderr)
        return made(Report(str(folder), str(folder.absolute()), [], "none", holes=[why], is_unread=True))


def row_of(named: Named) -> Row:
    """A row; missing inputs count as races do."""
    report = named.report
    headline = UNREAD if report.is_unread else HEADLINES[report.verdict]
    half = ", NO VERDICT on missing inputs" if report.missing and report.missing.verdict() == "none" else ""
    states = Counter(map(report.state, report.fingerprints()))
    numbers = (report.recipes, states["new"], states["known"], len(report.assumptions))
    last = [*report.holes, summary(report)][0] if report.verdict == "none" else report.tree
    return Row(report.verdict, headline, (named.package, headline + half, *map(str, numbers), f"{report.seconds:.1f}", last))


def total(rows: Sequence[Row]) -> str:
    """How many records have which verdict, in one line."""
    counts = Counter(it.headline for it in rows)
    return f"{counted(len(rows), 'record')}: " + ", ".join(f"{counts[it]} {it}" for it in (*HEADLINES.values(), UNREAD) if counts[it])


def as_table(rows: Sequence[Row]) -> str:
    """The table as text."""
    lines = [COLUMNS, *(it.cells for it in rows)]
    wide = [max(len(line[at]) for line in lines) for at in range(len(COLUMNS) - 1)]
    texts = ["  ".join(cell.rjust(width) if at in COUNTED else cell.ljust(width) for at, (cell, width) in enumerate(zip(line, [*wide, 0]))) for line in lines]
    return "\n".join([total(rows), "", *map(str.rstrip, texts)]) + "\n"


def as_line(named: Named) -> str:
    """A record as a line of JSON: the object of its report, and what the table has beside it."""
    report = named.report
    own = {"package": named.package, "record": str(named.folder), "status": report.status(), "seconds": report.seconds, "tree": report.tree}
    return json.dumps({**own, **object_of(report)}, ensure_ascii=True) + "\n"


def as_run(named: Named) -> dict[str, Any]:
    """A record as a run of SARIF; its package is the category."""
    return {"automationDetails": {"id": named.package + "/"}, **run_of(named.report)}
