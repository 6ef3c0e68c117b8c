"""The report as text, in the words of race-record, and as annotations of GitHub."""

from __future__ import annotations

from collections.abc import Iterator
from textwrap import wrap

from record.messages import after_no_verdict
from record.missing.report import missing_text
from record.report import Colours, spot
from report.model import Race, Report

MISSING = {
    "missing": "{0} reads {1}, and is not made again when it changes", "late": "{0} reads {1}, and who writes that need not come first",
    "shared": "{0} writes {1}, and so does a recipe that need not run then", "present": "{0} was there before the build",
    "tree": "{0} writes below {1}, and may leave there what an earlier build wrote",
}
SAME = {"make": "make -j leaves what make leaves", "ninja": "ninja leaves what ninja -j1 leaves", "tasks": "each order leaves what the serial one leaves"}
SHOWN_BLOCKS, SHOWN_NUMBERS = 10, 20
LEVELS = {"new": "error", "known": "warning", "ignored": "notice"}
HEADLINES = {"safe": "SAFE", "race": "RACE", "none": "NO VERDICT"}


def counted(number: int, one: str, many: str = "") -> str:
    """`1 race`, `2 races`."""
    return f"{number} {one if number == 1 else many or one + 's'}"


def summary(report: Report) -> str:
    """The verdict in one sentence."""
    if report.is_unread:
        return "The record cannot be read."
    recipes = f"{counted(report.recipes, 'recipe')} in {counted(report.builds, 'build')}"
    if report.verdict == "none":
        of_record = f"The record has {counted(len(report.holes), 'hole')}." if report.holes else "No recipe ran in the recorded build, so nothing is judged."
        return "race refuses this input." if report.is_direct else of_record
    if report.verdict == "safe":
        same = SAME[report.tool] + (f", for {report.tree}" if report.tree else "")
        return f"{same}. {recipes}; {counted(report.pairs, 'pair')} that conflict are in order."
    if not report.races:
        return f"Builds with several jobs leave something else. {recipes}."
    files = len({it.path for it in report.races})
    return f"{counted(len(report.races), 'race')} on {counted(files, 'file')}. {recipes}."


def blocks(report: Report) -> Iterator[str]:
    """The new races in groups of one kind by one writer: the first groups, and how many others there are."""
    groups: dict[object, list[int]] = {}
    for at, race in enumerate(report.races, 1):
        if report.state(race.fingerprint) == "new":
            groups.setdefault(at if report.shows_all else race.group, []).append(at)
    shown = [*groups.values()][: len(groups) if report.shows_all else SHOWN_BLOCKS]
    for numbers in shown:
        yield from race_lines(report.races[numbers[0] - 1], numbers[0], report)
        yield from [f"  and {counted(len(numbers) - 1, 'race')} of this kind by the same writer: {', '.join(map(str, numbers[1:SHOWN_NUMBERS]))}"
                    + (" .." if len(numbers) > SHOWN_NUMBERS else "")] * (len(numbers) > 1)
        yield ""
    left = [*groups.values()][len(shown):]
    yield from [f"{counted(sum(map(len, left)), 'race')} in {counted(len(left), 'group')} more: --all shows each", ""] if left else []


def race_line(race: Race, number: int, report: Report) -> str:
    """A race that is known or ignored, in one line."""
    reason = report.ignored.get(race.fingerprint, "")
    return f"{report.state(race.fingerprint)} {number}  {race.shown}: {race.first.recipe.target} and {race.second.recipe.target}" + (f"  # {reason}" if reason else "")


def standing_lines(report: Report) -> Iterator[str]:
    """What is known or ignored, what of the baseline is gone, the counts, and what of race-ignore is about nothing."""
    old = [race_line(it, at, report) for at, it in enumerate(report.races, 1) if report.state(it.fingerprint) != "new"]
    old += [f"{'fixed' if it.is_fixed else 'not seen'}  {it.text}" for it in report.gone]
    yield from [*old, ""] if old else []
    yield from [report.standing(), ""] if report.standing() else []
    yield from [f"note: no race meets this line: {it}" for it in report.unmet] + [""] * bool(report.unmet)


def race_lines(race: Race, number: int, report: Report) -> Iterator[str]:
    """One race: its number, the path, its kind, both recipes with their places, and what ends it."""
    yield f"RACE {number}  {race.about}  {race.kind.name}"
    yield from race.rows
    yield from remedy_lines(race)


def remedy_lines(race: Race) -> Iterator[str]:
    """What ends a race: advice, and the lines to write with what was checked of them."""
    yield from [f"  advice: {race.remedy.advice}"] if race.remedy.advice else []
    yield from ["  the lines of other races end this one too"] if race.remedy.lines and not race.fix else []
    for at, line in enumerate(race.fix, 1):
        yield f"  fix: {line}" + (f"          ({race.note})" if race.note and at == len(race.fix) else "")


def holes(report: Report) -> Iterator[str]:
    """Why there is no verdict, and what to try."""
    what_to_do = [] if report.is_direct else [after_no_verdict()]
    yield from ["Why there is no verdict:", *(f"  - {it}" for it in report.holes), *what_to_do, ""] if report.holes else []
    yield from [*(f"HINT  {it}" for it in report.hints), ""] if report.hints else []


def text(report: Report) -> str:
    """The whole report: the verdict first, and why there is none."""
    lines = [f"{HEADLINES[report.verdict]}  {summary(report)}", ""]
    lines += [*holes(report), *blocks(report), *standing_lines(report)]
    lines += ["With several jobs, whatever the order of recipes is:", *("  " + it for it in report.jobs), ""] if report.jobs else []
    if report.fixes:
        checked = "with these lines the build is safe (checked)" if report.is_checked else "not checked together"
        lines += [f"All fixes, {checked}:", *(f"    {it}" for it in report.fixes), ""]
    if report.assumptions:
        lines.append("safe, if:" if report.verdict == "safe" else "Assumed:")
    for it in report.assumptions:
        such = f", such as {it.example}" if it.example else ""
        whole = it.text + (f" ({it.count}{such})" if it.count > 1 or such else "")
        lines += wrap(whole, 78, initial_indent="  - ", subsequent_indent="    ", break_long_words=False, break_on_hyphens=False)
    lines += ["", *missing_text(report.missing, Colours())] if report.missing else []
    return "\n".join(lines).rstrip("\n") + "\n"


def escaped(value: str, is_property: bool = False) -> str:
    """Text of a workflow command: its own signs as percent and two digits."""
    for sign, code in (("%", "%25"), ("\r", "%0D"), ("\n", "%0A"), *(((":", "%3A"), (",", "%2C")) if is_property else ())):
        value = value.replace(sign, code)
    return value


def annotation(level: str, title: str, message: str, file: str = "", line: int = 0) -> str:
    """One workflow command; without a place where none is known."""
    place = f"file={escaped(file, True)},line={line}," if file else ""
    return f"::{level} {place}title={escaped(title, True)}::{escaped(message)}"


def missing_annotations(report: Report) -> list[str]:
    """An annotation for each missing input, at the rule of the recipe that reads it."""
    lines = []
    for judged, it in report.missing.all() if report.missing else ():
        add = f"\nAdd: {judged.late(it)}: {judged.early(it)}" if judged.early(it) else ""
        message = f"{MISSING[it.kind].format(judged.target(it.reader), judged.name(it.path))}, so make may leave an old file behind.{add}"
        level = LEVELS[report.state(judged.fingerprint(it))]
        lines.append(annotation(level, f"missing input {judged.name(it.path)}", message, *spot(judged.about, it.reader, judged.top)))
    return lines + [annotation("error", "race: no verdict on missing inputs", it) for it in (report.missing.holes() if report.missing else ())]


def github(report: Report) -> str:
    """An annotation for each race, at the recipe that has to wait; a warning for one that is known."""
    lines = []
    for race in report.races:
        late, early = race.second.recipe, race.first.recipe
        message = (f"{late.target} and {early.target} both use {race.about}, one of them writes it, and nothing orders the two. "
                   f"{early.target}: {early.place or 'no place known'}.\n{race.to_do}")
        level = LEVELS[report.state(race.fingerprint)]
        lines.append(annotation(level, f"race on {race.shown}", message, late.file, late.line))
    lines += missing_annotations(report)
    lines += [annotation("error", "race: no verdict" if it in report.holes else "race", it) for it in report.troubles]
    lines += [annotation("notice", "race: hint", it) for it in report.hints]
    lines += [annotation("notice", f"race: {'fixed' if it.is_fixed else 'not seen'}", it.text) for it in report.gone]
    lines += [annotation("warning", "race: no race meets this line", it) for it in report.unmet]
    whole = " ".join(filter(None, (summary(report), report.standing())))
    lines.append(annotation("notice", f"race: {HEADLINES[report.verdict].lower()}", whole))
    return "\n".join(lines) + "\n"
