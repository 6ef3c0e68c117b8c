"""The report of tasks that another tool wrote, a line of JSON each: `race` says which of them race."""

from __future__ import annotations

import json
import os
from pathlib import Path

from record.messages import reason
from record.fixes import merged
from record.folder import top_of
from record.judge import explained
from record.judge import judge as ask
from report.model import Assumption, BadRecord, Build, Report

PREMISES = (
    "a tool runs a task when all that stands in its `after` have ended",
    "the tasks have all that their commands read and write",
    "what a command does next depends on the bytes that it saw, and on nothing else",
    "two names are two files, and a file that is written is newer than all others",
)


def graph_of(tasks: Path, root: str) -> Build:
    """The graph of a text of tasks; the place of a task is its line."""
    labels, after = {}, {}
    file = os.path.abspath(tasks)
    try:
        lines = tasks.read_text(encoding="utf-8", errors="surrogateescape").split("\n")
    except OSError as error:
        raise BadRecord(f"--tasks: {reason(error)}") from error
    for number, line in enumerate(lines, 1):
        try:
            found = json.loads(line)
            name, needs = found["task"], [*found["after"]]
        except (ValueError, KeyError, TypeError):
            continue  # race names the line
        labels[name] = {"target": name, "kind": "recipe", "file": file, "line": number, "recipe": ""}
        after[name] = needs
    about = {"tool": "tasks", "folder": root, "project": root, "top": top_of(root), "labels": labels, "counts": {}, "meanings": {}}
    return Build("tasks", root, top_of(root), about, after, first=(file, 1))


def judge_tasks(tasks: Path, root: str, program: Path) -> Report:
    """The report of tasks: what `race list --tasks` and `race fix --tasks` say of them."""
    build = graph_of(tasks, root)
    verdict = ask(str(program), tasks.absolute(), root)
    report = Report(root, build.top, ["race", "check", "--tasks", str(tasks), "--root", root], "safe", is_direct=True, builds=1, tool="tasks")
    report.races = [build.race(it, verdict) for it in verdict.races]
    report.is_fixed, report.fixes = verdict.is_fixed, merged(it.remedy for it in report.races if it.fix)
    report.recipes, report.pairs = len(build.after), verdict.pairs
    report.ran = report.considered = {build.name(it) for it in build.after}
    report.assumptions = [Assumption(it, 1, "") for it in PREMISES]
    report.holes = [explained(verdict.refused)] if verdict.refused else []
    report.verdict = "none" if report.holes else "race" if report.races else "safe"
    return report
