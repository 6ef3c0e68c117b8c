"""The report for programs: JSON of our own schema, SARIF 2.1.0, and code quality as GitLab reads it."""

from __future__ import annotations

import hashlib
import json
import os
from typing import Any
from urllib.parse import quote

from report import VERSION
from record.missing.inputs import Found
from record.missing.report import Judged, Question
from record.build.text import shown
from record.kinds import KINDS
from record.report import spot
from report.model import Race, Recipe, Report, Side
from report.plain import summary

SCHEMA = "https://json.schemastore.org/sarif-2.1.0.json"


def side(it: Side) -> dict[str, Any]:
    """One of the two recipes of a race as the schema has it."""
    recipe = it.recipe
    return {**place(recipe), "name": recipe.name, "ran": not recipe.is_look, "does": it.does, "recipe": recipe.text}


def place(recipe: Recipe) -> dict[str, Any]:
    """A target, and where its rule stands."""
    return {"target": recipe.target, "file": recipe.file, "line": recipe.line}


def standing(fingerprint: str, report: Report) -> dict[str, Any]:
    """How a race or a missing input is known again, and how it stands."""
    return {"fingerprint": fingerprint, "state": report.state(fingerprint), "reason": report.ignored.get(fingerprint, "")}


def race_object(race: Race, report: Report) -> dict[str, Any]:
    """A race as the schema has it; docs/REPORT.md says what each key means."""
    return {
        **standing(race.fingerprint, report), "kind": race.kind.name,
        "build": race.build, "path": race.shown, "name": race.name, "meaning": race.meaning,
        "first": side(race.first), "second": side(race.second),
        "fix": "\n".join(race.fix), "note": race.note, "advice": race.remedy.advice,
    }


def input_object(judged: Judged, it: Found, report: Report) -> dict[str, Any]:
    """A missing input as the schema has it."""
    file, line = spot(judged.about, it.reader, judged.top)
    target, maker = judged.target(it.reader), judged.target(it.writer) if it.writer else ""
    return {
        **standing(judged.fingerprint(it), report), "kind": it.kind, "build": judged.number,
        "path": judged.name(it.path), "target": target, "name": judged.from_top(target), "file": file, "line": line,
        "maker": maker, "maker_name": judged.from_top(maker) if maker else "", "add": f"{judged.late(it)}: {judged.early(it)}" if judged.early(it) else "",
    }


def missing_object(missing: Question, report: Report) -> dict[str, Any]:
    """What a record with --missing says of missing inputs."""
    about = missing.record["missing"]
    return {
        "verdict": missing.verdict(), "judged": about["judged"], "inputs": [input_object(*it, report) for it in missing.all()],
        "assumptions": [{key: it[key] for key in ("text", "count", "example")} for it in about["premises"]], "holes": missing.holes(),
    }


def object_of(report: Report) -> dict[str, Any]:
    """The whole report as the schema has it."""
    return {
        "schema": "race-report", "version": VERSION, "verdict": report.verdict, "summary": summary(report),
        "folder": shown(report.folder), "words": report.words,
        "counts": {"builds": report.builds, "recipes": report.recipes, "pairs": report.pairs, "races": len(report.races)},
        "races": [race_object(it, report) for it in report.races],
        "fixes": {"lines": report.fixes if report.races else [], "checked": report.is_checked},
        "assumptions": [{"text": it.text, "count": it.count, "example": it.example} for it in report.assumptions],
        "holes": report.holes, "hints": report.hints, **({"jobs": report.jobs} if report.jobs else {}), "standing": report.standing(),
        "fixed": [it.text for it in report.gone if it.is_fixed], "not_seen": [it.text for it in report.gone if not it.is_fixed],
        "unmet": report.unmet,
        **({"missing": missing_object(report.missing, report)} if report.missing else {}),
    }


def as_json(report: Report) -> str:
    """The whole report as one object."""
    return json.dumps(object_of(report), indent=1, ensure_ascii=True) + "\n"


def location(recipe: Recipe, message: str, number: int | None = None) -> dict[str, Any]:
    """A place of SARIF: physical where the rule's place is known, and the target as a logical one."""
    found: dict[str, Any] = {"logicalLocations": [{"name": recipe.target, "kind": "resource"}], "message": {"text": message}}
    if number is not None:
        found["id"] = number
    if recipe.file:
        artifact: dict[str, Any] = {"uri": quote(os.fsencode(recipe.file), safe="/")}
        if not recipe.file.startswith("/"):
            artifact["uriBaseId"] = "PROJECT"
        else:
            artifact["uri"] = "file://" + artifact["uri"]
        found["physicalLocation"] = {"artifactLocation": artifact, "region": {"startLine": max(recipe.line, 1)}}
    return found


def result(race: Race, report: Report) -> dict[str, Any]:
    """One race as a result, at the recipe that has to wait; both recipes are related places, the one that runs first in front."""
    late, early = race.second, race.first
    message = (f"{late.recipe.target} {late.does} {race.about}, {early.recipe.target} {early.does} it, and nothing orders the two. "
               f"{race.to_do}")
    related = [(it.recipe, f"{it.recipe.target} {it.does} {race.about}") for it in (early, late)]
    return {
        "ruleId": race.kind.name, "ruleIndex": [it.name for it in KINDS].index(race.kind.name), "level": "error",
        "message": {"text": message},
        "locations": [location(late.recipe, f"{late.recipe.target} {late.does} {race.about}")],
        "relatedLocations": [location(recipe, text, at) for at, (recipe, text) in enumerate(related)],
        "partialFingerprints": {"race/v1": race.fingerprint},
        "baselineState": "unchanged" if race.fingerprint in (report.known or ()) else "new",
        **({"suppressions": [{"kind": "external", "justification": report.ignored[race.fingerprint]}]} if race.fingerprint in report.ignored else {}),
    }


def issue(race: Race, report: Report) -> dict[str, Any]:
    """One race as an issue of code quality, as GitLab reads it."""
    late = race.second.recipe
    return {
        "description": f"{late.target} and {race.first.recipe.target} both use {race.about}, and nothing orders the two. {race.to_do}",
        "check_name": race.kind.name, "fingerprint": race.fingerprint, "severity": "major" if report.state(race.fingerprint) == "new" else "info",
        "location": {"path": late.file, "lines": {"begin": max(late.line, 1)}},
    }


def as_gitlab(report: Report) -> str:
    """A report of code quality: an issue for each race that is not ignored, and for each reason why there is no yes else."""
    found = [issue(it, report) for it in report.races if report.state(it.fingerprint) != "ignored"]
    found += [{"description": f"no verdict: {it}" if it in report.holes else it, "check_name": "no-verdict", "fingerprint": hashlib.sha256(it.encode()).hexdigest()[:32], "severity": "blocker",
               "location": {"path": "Makefile", "lines": {"begin": 1}}} for it in report.troubles]
    return json.dumps(found, indent=1, ensure_ascii=True) + "\n"


def run_of(report: Report) -> dict[str, Any]:
    """A run of SARIF 2.1.0: a rule for each kind, a result for each race."""
    rules = [{
        "id": it.name, "name": it.name, "shortDescription": {"text": it.title},
        "fullDescription": {"text": f"Two recipes may run at once: {it.title}."},
        "help": {"text": it.fix}, "defaultConfiguration": {"level": "error"},
    } for it in KINDS]
    notes = [{"level": "error", "message": {"text": it}} for it in report.troubles]
    return {
        "tool": {"driver": {"name": "race", "rules": rules}},
        "originalUriBaseIds": {"PROJECT": {"uri": "file://" + quote(os.fsencode(report.top.rstrip("/") + "/"), safe="/")}},
        "invocations": [{"executionSuccessful": report.verdict != "none", "toolExecutionNotifications": notes}],
        "results": [result(it, report) for it in report.races],
    }


def log(runs: list[dict[str, Any]]) -> str:
    """A log of SARIF 2.1.0."""
    return json.dumps({"$schema": SCHEMA, "version": "2.1.0", "runs": runs}, indent=1, ensure_ascii=True) + "\n"


def as_sarif(report: Report) -> str:
    """A log with one run."""
    return log([run_of(report)])
