"""Trees of files: a copy of one, what it holds, and how two differ."""

from __future__ import annotations

import hashlib
import os
import re
import shutil
import subprocess
from collections.abc import Iterable
from pathlib import Path

from record.ninja.manifest import OWN

UNCOMPARED = {".git", ".hg", ".svn"}  # folders of version control: builds may refresh what is in them
CHUNK = 1 << 20


class CannotTry(Exception):
    """A project cannot be built in copies here; the text says why."""


def copy(source: Path, to: Path) -> None:
    """A tree as it is, with links, times and modes."""
    to.mkdir(parents=True)
    done = subprocess.run(["cp", "-a", f"{source}/.", str(to)], capture_output=True, text=True, errors="replace", check=False)
    if done.returncode:
        said = " ".join(done.stderr.split("\n")[:2]).strip()
        raise CannotTry(f"the project cannot be copied: {said}. Where room is missing, set TMPDIR to a folder that has it")


def remove(path: Path) -> None:
    """A tree, with folders that nobody may write or read."""
    def again(call: object, name: str, _: object) -> None:
        os.chmod(os.path.dirname(name), 0o700)
        if os.path.islink(name) or not os.path.isdir(name):
            os.unlink(name)
        else:
            os.chmod(name, 0o700)
            shutil.rmtree(name)

    if path.exists():
        shutil.rmtree(path, onerror=again)


def digest(path: Path) -> str:
    """What a name of a tree holds, in short, with its mode."""
    if path.is_symlink():
        return "link " + os.readlink(path)
    if path.is_dir():
        return f"folder {mode_of(path)}"
    if not path.is_file():
        return "special"
    sum_ = hashlib.sha256()
    try:
        with open(path, "rb") as file:
            while chunk := file.read(CHUNK):
                sum_.update(chunk)
    except OSError as error:
        return f"unreadable {error.errno}"
    return f"file {mode_of(path)} {sum_.hexdigest()}"


def held_by(tree: Path, but: str = "") -> dict[str, str]:
    """The names of a tree with what each holds; `but`: a folder in it that does not count."""
    found = {}
    for folder, folders, files in os.walk(tree):
        folders[:] = [it for it in folders if it not in UNCOMPARED and os.path.join(folder, it) != but]
        for name in (*folders, *(it for it in files if it not in OWN)):
            path = Path(folder, name)
            found[str(path.relative_to(tree))] = digest(path)
    return found


def differing(one: dict[str, str], other: dict[str, str]) -> set[str]:
    """The names that two trees do not hold in the same way."""
    return {it for it in {*one, *other} if one.get(it) != other.get(it)}


def passing(ones: Iterable[str], others: Iterable[str]) -> list[re.Pattern[str]]:
    """Names that differ from run to run: of what two builds have alone those that are alike except for some signs of one part, such as
    `out/tmp.Xy12`."""
    found = set()
    for one, other in ((one, other) for one in ones for other in others if len(one) == len(other)):
        begin = len(os.path.commonprefix([one, other]))
        end = min(len(os.path.commonprefix([one[::-1], other[::-1]])), len(one) - begin)
        middle = one[begin:len(one) - end] + other[begin:len(other) - end]
        if "/" not in middle:
            found.add(re.escape(one[:begin]) + "[^/]{%d}" % (len(one) - end - begin) + re.escape(one[len(one) - end:]))  # guard: names-as-long-as-those-that-are-drawn
    return [re.compile(it) for it in sorted(found)]


def first_lines(serial: bytes, parallel: bytes) -> str:
    """The first line that differs, where both are text of few lines."""
    if b"\0" in serial + parallel or len(serial) + len(parallel) > CHUNK:
        return f"other bytes ({len(parallel)} bytes, {len(serial)} after a serial build)"
    ones, others = serial.decode("utf-8", "replace").splitlines(), parallel.decode("utf-8", "replace").splitlines()
    for at in range(max(len(ones), len(others))):
        one, other = (it[at] if at < len(it) else None for it in (ones, others))
        if one != other:
            shown = ["no such line" if it is None else f"`{it[:60]}`" for it in (other, one)]
            return f"line {at + 1} is {shown[0]}, and {shown[1]} after a serial build".replace("is no such line", "is missing")
    return "the ends of its lines differ"


def difference(one: Path, other: Path) -> str:
    """How what a parallel build left under a name, `other`, differs from what the serial one did."""
    if not os.path.lexists(other):
        return "is missing"
    if not os.path.lexists(one):
        return "is there, and is not after a serial build"
    if all(it.is_file() and not it.is_symlink() for it in (one, other)):
        was, got = one.read_bytes(), other.read_bytes()
        return first_lines(was, got) if was != got else f"has mode {mode_of(other)}, and {mode_of(one)} after a serial build"
    kinds = [digest(it).partition(" ")[0] for it in (other, one)]
    if kinds[0] != kinds[1]:
        return f"is a {kinds[0]}, and a {kinds[1]} after a serial build"
    return "leads elsewhere" if kinds[0] == "link" else f"has mode {mode_of(other)}, and {mode_of(one)} after a serial build"


def mode_of(path: Path) -> str:
    """The mode of a file or folder, in octal digits."""
    return f"{path.stat().st_mode & 0o7777:o}"
