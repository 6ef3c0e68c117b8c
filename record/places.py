"""Where a person edits what a generator wrote: what CMake's file API and Meson's introspection say of a target, where the folder of a build has them."""

import json
import os
from dataclasses import dataclass
from functools import cached_property
from pathlib import Path
from typing import Any, Dict, Iterator, Optional, Tuple

from record import machine
from record.ninja.fix import CMAKE_OBJECT

Place = Tuple[str, int]  # a whole path, and a line


@dataclass
class Places:
    """The places of the build in a folder."""

    folder: str

    def of(self, name: str, about: Dict[str, Any]) -> Optional[Place]:
        """The place of a target of which the build says this; nothing where no generator says more than that."""
        owner = about.get("owner", {})
        if owner.get("by") == "meson":
            target = owner.get("target") or name
            return self.meson.get(target) or self.meson.get(os.path.normpath(os.path.join(self.folder, target)))
        found = CMAKE_OBJECT.search(name) or CMAKE_OBJECT.search(about.get("file", ""))
        target = owner.get("target") or (found[1] if found else "")
        return self.cmake.get(target) if target else None

    @cached_property
    def cmake(self) -> Dict[str, Place]:
        """The targets of CMake, where somebody has asked for them before it configured the folder or one above it."""
        tops = (Path(self.folder), *Path(self.folder).parents)
        return next((dict(replied(top / ".cmake/api/v1/reply")) for top in tops if machine.isfile(str(top / "CMakeCache.txt"))), {})

    @cached_property
    def meson(self) -> Dict[str, Place]:
        """The targets of Meson, and the files that they write."""
        targets = read(Path(self.folder, "meson-info/intro-targets.json")) or []
        return {name: (target["defined_in"], 1) for target in reversed(targets) for name in (target["name"], *target["filename"])}


def replied(replies: Path) -> Iterator[Tuple[str, Place]]:
    """The targets in the last answers of CMake's file API."""
    for index in machine.found(str(replies), "codemodel-v2-*.json")[-1:]:
        model = read(Path(index))
        for target in model["configurations"][0]["targets"]:
            found = read(replies / target["jsonFile"])
            graph, at = found["backtraceGraph"], found.get("backtrace")
            node = graph["nodes"][at] if at is not None else {}
            if "line" in node:
                yield target["name"], (os.path.normpath(os.path.join(model["paths"]["source"], graph["files"][node["file"]])), node["line"])


def read(path: Path) -> Any:
    """A file of JSON; nothing where it is none."""
    try:
        return json.loads(machine.read(str(path)))
    except (OSError, ValueError):
        return None
