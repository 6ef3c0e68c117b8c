"""What is found, as text."""

from __future__ import annotations

import shlex
from collections.abc import Iterator, Sequence
from pathlib import Path

from confirm.schedules import Schedule
from confirm.search import Finding
from confirm.trial import how_ended, some
from report.plain import counted, remedy_lines

SHOWN_FILES = 8


def heading(finding: Finding, of: int) -> Iterator[str]:
    """The race: its number, its file, and both recipes with their places."""
    race = finding.race.race
    yield f"race {finding.race.number} of {of}: {race.about}"
    yield from race.rows
    yield ""


def how(finding: Finding) -> Iterator[str]:
    """What differs."""
    if finding.status:
        yield from (f"  {it}" for it in how_ended(finding.status, finding.errors))
    shown = [] if finding.status else finding.differences[:SHOWN_FILES]
    yield from (f"  {it}" for it in shown)
    if len(finding.differences) > len(shown) > 0:
        yield f"  and {counted(len(finding.differences) - len(shown), 'more file')}"


def besides(finding: Finding) -> Iterator[str]:
    """What differs that is no matter of the race."""
    if finding.others:
        known = finding.other_race
        yield f"  Another race shows, race {known}:" if known else "  Something else shows, and no race of the record explains it:"
        yield from (f"    {it}" for it in finding.others[:SHOWN_FILES])


def body(finding: Finding, record: Path, unstable: set[str], prepare: str | None = None) -> Iterator[str]:
    """What was found of one race."""
    if finding.why:
        yield f"CANNOT BE CONFIRMED  {finding.why}"
        yield from besides(finding)
    elif finding.schedule:
        yield from confirmed(finding, finding.schedule, record, prepare)
    elif not finding.builds:
        yield "NOT CONFIRMED in 0 tries: there is no such schedule. Without --schedule all are tried."
    else:
        yield from not_confirmed(finding)
    if unstable and not finding.why:
        yield f"  The build is not reproducible: {some(unstable)} differ between serial builds already, and were not compared."


def confirmed(finding: Finding, schedule: Schedule, record: Path, prepare: str | None) -> Iterator[str]:
    """What the race does under a schedule."""
    yield f"CONFIRMED  {schedule.text(finding.race)}:"
    yield from how(finding)
    order = ", and not where the two ran in the order of the serial build" if finding.has_order else ""
    yield f"  Seen in 2 of 2 such builds{order}."
    ready = ["--prepare", prepare] if prepare else []
    again = shlex.join([str(record), str(finding.race.number), "--schedule", str(finding.number), *ready, "--keep", "/tmp/kept"])
    yield f"  see it again: race-confirm {again}"
    yield from remedy_lines(finding.race.race)


def not_confirmed(finding: Finding) -> Iterator[str]:
    """What was tried."""
    as_ever = "each left what the serial build leaves" if not finding.others else "what differs comes from other recipes"
    yield f"NOT CONFIRMED in {counted(finding.builds, 'try', 'tries')}: {as_ever}."
    yield from besides(finding)
    if finding.reached < finding.builds:
        yield f"  In {finding.builds - finding.reached} of them the schedule did not come about."
    if finding.stuck:
        yield f"  {finding.stuck} of them did not end in time, and were stopped."
    if finding.is_cut:
        yield "  There are more schedules: --runs N tries more of them."
    yield "  This does not say that the race is harmless: other inputs, or a schedule that was not tried, may show it."


def summary(findings: Sequence[Finding]) -> str:
    """All races in a line."""
    confirmed, cannot = sum(it.is_confirmed for it in findings), sum(bool(it.why) for it in findings)
    rest = len(findings) - confirmed - cannot
    return f"{counted(len(findings), 'race')}: {confirmed} confirmed, {rest} not confirmed, {cannot} cannot be confirmed."
