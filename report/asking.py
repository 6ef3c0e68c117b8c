"""What `race` says of a record: it is asked about the tasks of each build (record/judge.py reads its lines)."""

from __future__ import annotations

from pathlib import Path

from record import VERSION
from record.fixes import merged
from record.judge import explained
from record.judge import judge as ask
from record.missing.report import Question
from record.orders.result import premise, tried, whatever
from record.build.text import shown
from report.model import Assumption, BadRecord, Report, read_build, read_json


def judge(folder: Path, program: Path) -> Report:
    """The report of a record: the worst of its builds, and never a yes where the record has a hole."""
    record = read_json(folder / "record.json")
    if record.get("version") != VERSION:
        raise BadRecord(f"{folder} is of another version of race-record: record again")
    project = shown(record.get("folder", ""))
    top = record.get("top", project)
    report = Report(record.get("folder", ""), top, [*map(shown, record.get("words", []))], "safe", is_fixed=True, holes=[*record.get("holes", [])],
                    hints=[*record.get("hints", [])])
    report.assumptions = [Assumption(it, 1, "") for it in premise(record.get("orders"))]
    report.assumptions += [Assumption(it["text"], it["count"], it["example"]) for it in record.get("assumptions", [])]
    tools = set()
    for number in record.get("builds", []):
        build = read_build(folder / "builds" / number, number, project, top)
        for label, it in build.about["labels"].items():
            (report.ran if it.get("kind") == "recipe" else report.considered).add(build.name(it.get("target") or label))
        verdict = tried(record.get("orders"), number, build.folder, ask(str(program), folder / "builds" / number / "tasks", build.folder))
        report.races += [build.race(it, verdict) for it in verdict.races]
        report.is_fixed &= verdict.is_fixed
        report.holes += [f"build {number}: {explained(verdict.refused)}"] * bool(verdict.refused)
        report.builds += 1
        tools.add(build.about.get("tool", "make"))
        report.pairs += verdict.pairs
        report.recipes += build.about.get("counts", {}).get("recipes", 0)
    report.fixes = merged(it.remedy for it in report.races if it.fix)
    report.considered |= report.ran
    report.tree, report.seconds = record.get("tree", ""), record.get("seconds", 0.0)
    report.tool = "ninja" if tools == {"ninja"} else "make"
    report.missing = Question.of(folder, str(program)) if "missing" in record else None
    report.jobs = whatever(record.get("orders"))
    report.verdict = "none" if report.holes or not report.builds else "race" if report.races or report.jobs else "safe"
    return report
