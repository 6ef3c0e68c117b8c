"""The fixes as a unified diff of makefiles, which `patch -p1` takes in the project's top. Lines go to the end of the makefile that has the recipe which has
to wait: there they change no goal, and stand in no recipe."""

from __future__ import annotations

import difflib
import os
from collections.abc import Iterator
from pathlib import Path

from report.model import Report


def lines_of(path: str) -> list[str]:
    """The lines of a file with their ends; none where it cannot be read."""
    try:
        with open(path, encoding="utf-8", errors="surrogateescape", newline="\n") as lines:
            return list(lines)
    except OSError:
        return []


def additions(report: Report) -> tuple[dict[str, list[str]], list[str]]:
    """The lines that each file gets, and what has to be done by hand."""
    files: dict[str, list[str]] = {}
    left: list[str] = []
    for race in (it for it in report.races if report.state(it.fingerprint) == "new" and (it.fix or not it.remedy.lines)):
        name = race.second.recipe.file
        if not race.fix or not race.remedy.rule or name.split("/")[0] in ("", "..") or not lines_of(os.path.join(report.top, name)):
            left.append(f"{race.about}: {race.to_do}")
        else:
            files.setdefault(name, []).extend(race.fix)
    return files, [*dict.fromkeys(left)]


def diff(name: str, more: list[str], top: str) -> Iterator[str]:
    """The diff of one file, whose last line may have no end."""
    before = lines_of(os.path.join(top, name))
    after = [*before[:-1], before[-1].rstrip("\n") + "\n", *(it + "\n" for it in dict.fromkeys(more))]
    for line in difflib.unified_diff(before, after, f"a/{name}", f"b/{name}"):
        yield line if line.endswith("\n") else line + "\n\\ No newline at end of file\n"


def as_patch(report: Report) -> str:
    """The whole diff; what no diff can do stands in front of it, behind number signs, which patch passes over."""
    files, left = additions(report)
    return "".join([f"# {report.verdict}: {it}\n" for it in report.holes] + [f"# by hand: {it}\n" for it in left]
                   + [line for name, more in files.items() for line in diff(name, more, report.top)])
