"""Puts the files of an installation below a prefix, and removes them by its manifest."""
from __future__ import annotations

import os
import tempfile
from collections.abc import Iterable
from dataclasses import dataclass
from pathlib import Path, PurePosixPath

from installing.layout import Item

MANIFEST = "share/race/manifest"


class NotPlaced(Exception):
    """The prefix cannot be used as it is; the text says why. Nothing was written."""


def is_inside(path: str) -> bool:
    """Whether a path of a manifest leads below the prefix."""
    parts = PurePosixPath(path).parts
    return bool(parts) and not path.startswith("/") and ".." not in parts


@dataclass(frozen=True)
class Prefix:
    """The folder that an installation stands in."""

    folder: Path

    def manifest(self) -> list[str]:
        """The paths that the last installation put here, folders with a slash at their end; none where there is none."""
        path = self.folder / MANIFEST
        paths = path.read_text("utf-8").splitlines() if path.is_file() else []
        if not all(map(is_inside, paths)):
            raise NotPlaced(f"{path} has a path that leads out of {self.folder}")
        return paths

    def folders_of(self, path: str) -> list[str]:
        """The folders of a path below the prefix, the upper ones first."""
        return [f"{it}/" for it in reversed(PurePosixPath(path).parents) if str(it) != "."]

    def check(self, paths: Iterable[str], own: set[str]) -> None:
        """Refuses paths at which something else stands, and those that a link leads out of the prefix."""
        real = Path(os.path.realpath(self.folder))
        for path in paths:
            at = self.folder / path
            if not Path(os.path.realpath(at.parent)).is_relative_to(real):
                raise NotPlaced(f"{at.parent} leads out of {self.folder}")
            if at.is_dir() and not at.is_symlink() or os.path.lexists(at) and path not in own:
                raise NotPlaced(f"{at} is there, and no installation of race put it: move it away first")

    def check_writable(self) -> None:
        """Refuses a prefix in which this user can make no files."""
        there = next(it for it in (self.folder, *self.folder.parents) if it.exists())
        if not there.is_dir() or not os.access(there, os.W_OK | os.X_OK):
            raise NotPlaced(f"{there} cannot be written: give another folder, as --prefix ~/.local, or become root")

    def put(self, items: list[Item]) -> None:
        """Puts the files in the place of what the last installation put. An interrupted run can be repeated or undone."""
        before = self.manifest()
        new = [it.path for it in items]
        data = {it.path: it.data() for it in items}
        self.check([*new, MANIFEST], {*before, MANIFEST} if before else set())
        made = {it for it in before if it.endswith("/")}
        wanted = {folder for path in [*new, MANIFEST] for folder in self.folders_of(path)}
        made |= {it for it in wanted if not (self.folder / it).exists()}
        self.write_manifest({*before, *new, *made})
        for item in items:
            self.write(item.path, data[item.path], item.is_program)
        self.remove_files({*before} - {*new})
        self.write_manifest({*new, *(made & wanted)})
        self.remove_folders(made - wanted)

    def remove(self) -> int:
        """Removes what was put, and says how many files that were; a folder goes only if the installation made it and it is empty."""
        paths = self.manifest()
        if not paths:
            raise NotPlaced(f"no installation of race in {self.folder}: {MANIFEST} is not there")
        self.check((it for it in paths if not it.endswith("/")), set(paths))
        self.remove_files(paths)
        (self.folder / MANIFEST).unlink()
        self.remove_folders(it for it in paths if it.endswith("/"))
        return sum(not it.endswith("/") for it in paths)

    def remove_files(self, paths: Iterable[str]) -> None:
        for path in paths:
            if not path.endswith("/"):
                (self.folder / path).unlink(missing_ok=True)

    def remove_folders(self, paths: Iterable[str]) -> None:
        """Removes the folders among these that are empty, the lower ones first."""
        for path in sorted(paths, key=lambda it: it.count("/"), reverse=True):
            folder = self.folder / path
            if folder.is_dir() and not folder.is_symlink() and not any(folder.iterdir()):
                folder.rmdir()

    def write_manifest(self, paths: Iterable[str]) -> None:
        self.write(MANIFEST, "".join(f"{it}\n" for it in sorted(paths)).encode(), False)

    def write(self, path: str, data: bytes, is_program: bool) -> None:
        """Writes a file beside its place, and then moves it there: a program that runs is not disturbed."""
        at = self.folder / path
        at.parent.mkdir(parents=True, exist_ok=True)
        handle, room = tempfile.mkstemp(prefix=".race-", dir=at.parent)
        try:
            with os.fdopen(handle, "wb") as file:
                file.write(data)
            os.chmod(room, 0o755 if is_program else 0o644)
            os.replace(room, at)
        except BaseException:
            os.unlink(room)
            raise
