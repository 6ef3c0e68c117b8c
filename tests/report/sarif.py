"""The structure of SARIF 2.1.0, as far as our logs use it: of each object the properties that the standard knows, and those that it asks for.

The standard's schema allows no other property of an object, so a word that is misspelled is a fault here too.
"""

from __future__ import annotations

from collections.abc import Iterator

LEVELS = ("none", "note", "warning", "error")
STATES = ("new", "unchanged", "updated", "absent")
# The type of each property: the name of an object; a type with [] for a list, with {} for an object with free keys; a tuple of words.
TYPES: dict[str, dict[str, object]] = {
    "log": {"$schema": "uri", "version!": ("2.1.0",), "runs!": "run[]", "properties": "any"},
    "run": {"tool!": "tool", "invocations": "invocation[]", "originalUriBaseIds": "artifactLocation{}", "results": "result[]", "automationDetails": "runAutomationDetails",
            "columnKind": ("utf16CodeUnits", "unicodeCodePoints"), "properties": "any"},
    "runAutomationDetails": {"description": "message", "id": "text", "guid": "text", "correlationGuid": "text", "properties": "any"},
    "tool": {"driver!": "toolComponent", "extensions": "toolComponent[]", "properties": "any"},
    "toolComponent": {"name!": "text", "fullName": "text", "version": "text", "semanticVersion": "text", "informationUri": "uri",
                      "rules": "reportingDescriptor[]", "properties": "any"},
    "reportingDescriptor": {"id!": "text", "name": "text", "shortDescription": "multiformatMessageString", "fullDescription": "multiformatMessageString",
                            "help": "multiformatMessageString", "helpUri": "uri", "defaultConfiguration": "reportingConfiguration", "properties": "any"},
    "multiformatMessageString": {"text!": "text", "markdown": "text", "properties": "any"},
    "reportingConfiguration": {"enabled": "any", "level": LEVELS, "rank": "number", "parameters": "any", "properties": "any"},
    "result": {"ruleId": "text", "ruleIndex": "number", "kind": "text", "level": LEVELS, "message!": "message", "locations": "location[]",
               "relatedLocations": "location[]", "partialFingerprints": "text{}", "fingerprints": "text{}", "baselineState": STATES, "properties": "any"},
    "message": {"text": "text", "markdown": "text", "id": "text", "arguments": "text[]", "properties": "any"},
    "location": {"id": "number", "physicalLocation": "physicalLocation", "logicalLocations": "logicalLocation[]", "message": "message", "properties": "any"},
    "physicalLocation": {"artifactLocation": "artifactLocation", "region": "region", "contextRegion": "region", "properties": "any"},
    "artifactLocation": {"uri": "uri", "uriBaseId": "text", "index": "number", "description": "message", "properties": "any"},
    "region": {"startLine": "positive", "startColumn": "positive", "endLine": "positive", "endColumn": "positive", "properties": "any"},
    "logicalLocation": {"name": "text", "index": "number", "fullyQualifiedName": "text", "decoratedName": "text", "parentIndex": "number", "kind": "text",
                        "properties": "any"},
    "invocation": {"executionSuccessful!": "flag", "commandLine": "text", "exitCode": "number", "toolExecutionNotifications": "notification[]",
                   "workingDirectory": "artifactLocation", "properties": "any"},
    "notification": {"message!": "message", "level": LEVELS, "locations": "location[]", "properties": "any"},
}


def faults(value: object, kind: object = "log", where: str = "") -> Iterator[str]:
    """What in a value is not of the kind, each with its place."""
    if isinstance(kind, tuple):
        yield from [] if value in kind else [f"{where}: {value!r} is none of {kind}"]
    elif isinstance(kind, str) and kind.endswith("[]"):
        yield from (it for at, one in enumerate(value) for it in faults(one, kind[:-2], f"{where}[{at}]")) if isinstance(value, list) else [f"{where}: no list"]
    elif isinstance(kind, str) and kind.endswith("{}"):
        yield from (it for key, one in value.items() for it in faults(one, kind[:-2], f"{where}.{key}")) if isinstance(value, dict) else [f"{where}: no object"]
    elif kind in TYPES:
        yield from of_object(value, str(kind), where)
    elif not is_plain(value, str(kind)):
        yield f"{where}: {value!r} is no {kind}"


def of_object(value: object, kind: str, where: str) -> Iterator[str]:
    """The faults of an object: properties that it lacks, that nobody knows, and those of its properties."""
    if not isinstance(value, dict):
        yield f"{where}: no object"
        return
    known = {key.rstrip("!"): it for key, it in TYPES[kind].items()}
    yield from (f"{where}: lacks {key[:-1]}" for key in TYPES[kind] if key.endswith("!") and key[:-1] not in value)
    for key, one in value.items():
        yield from faults(one, known[key], f"{where}.{key}") if key in known else [f"{where}: no {kind} has {key}"]


def is_plain(value: object, kind: str) -> bool:
    """Whether a value is a text, a URI, a number or a flag."""
    if kind in ("text", "uri"):
        return isinstance(value, str) and (kind == "text" or " " not in value)
    if kind in ("number", "positive"):
        return isinstance(value, int) and not isinstance(value, bool) and value >= (kind == "positive")
    return isinstance(value, bool) if kind == "flag" else kind == "any"
