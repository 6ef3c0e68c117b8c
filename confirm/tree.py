"""The project as it was before the recorded build: what that made is taken out of a copy."""

from __future__ import annotations

import os
from collections.abc import Iterator
from pathlib import Path
from typing import Any

from confirm.races import CannotConfirm, written
from record import machine
from record.ninja.manifest import Unreadable, read_manifest
from record.ninja.runs import options_of
from record.orders.trees import UNCOMPARED
from report.model import BadRecord, read_json


def of_ninja(tree: Path, folder: str, about: dict[str, Any]) -> Iterator[str]:
    """What ninja makes in a tree, and what it keeps of earlier builds: a log of headers would order what a cold build does not."""
    options = options_of(["ninja", *about["words"].split()])
    name = (options[0] if options else {}).get("-f", "build.ninja")
    try:
        manifest = read_manifest(str(tree / os.path.relpath(about["folder"], folder)), name, machine.text)
    except Unreadable as fault:
        raise CannotConfirm(f"the manifest cannot be read: {fault}") from None
    for edge in manifest.edges:
        if not edge.is_phony and not edge.is_generator:
            yield from filter(None, (*edge.makes(), edge.path("depfile"), edge.path("rspfile")))
    yield from (os.path.join(manifest.top.value("builddir"), it) for it in (".ninja_log", ".ninja_deps"))


def made(record: Path, tree: Path, folder: str) -> Iterator[str]:
    """What the recorded build made, as whole paths: what tasks write, and targets whose recipes ran."""
    yield from (os.path.normpath(os.path.join(folder, it)) for folder, it in written(record))
    for number in read_json(record / "record.json").get("builds", []):
        about = read_json(record / "builds" / number / "build.json")
        for label in about["labels"].values():
            if label.get("kind") == "recipe":
                yield os.path.normpath(os.path.join(about["folder"], label["target"]))
        if about.get("tool") == "ninja":
            yield from (os.path.normpath(os.path.join(about["folder"], it)) for it in of_ninja(tree, folder, about))


def take_back(tree: Path, folder: str, record: Path) -> set[str]:
    """Takes away what the recorded build wrote, so that its recipes run again; of folders those that are empty then. The names of these files."""
    folders, files = [], set()
    for path in [*made(record, tree, folder)]:
        below = os.path.relpath(path, folder)
        if below == "." or below.startswith(".."):
            continue
        it = tree / below
        if it.is_dir() and not it.is_symlink():
            folders.append(it)
        elif it.is_symlink() or it.exists():
            it.unlink()
            files.add(below)
    for it in sorted(set(folders), key=lambda path: -len(path.parts)):
        if it.is_dir() and not any(it.iterdir()):
            it.rmdir()
    return files


def names_its_folder(tree: Path, folder: str) -> str:
    """The first file of a tree, or link, that names the project's folder by its whole path; nothing where none does."""
    wanted = os.fsencode(folder)
    for path in sorted(tree.rglob("*")):
        if path.is_symlink():
            if wanted in os.fsencode(os.readlink(path)):
                return str(path.relative_to(tree))
        elif path.is_file() and not UNCOMPARED.intersection(path.relative_to(tree).parts):
            try:
                if wanted in path.read_bytes():
                    return str(path.relative_to(tree))
            except OSError as error:
                raise BadRecord(f"{path}: {error}") from error
    return ""
