"""Golden traces: what the recorder kept of a build of a Debian package, and the tasks and the verdict that came of it, each in an archive. `run` compares,
`make` makes."""

import argparse
import difflib
import filecmp
import json
import lzma
import os
import sys
import tarfile
from pathlib import Path
from typing import Any, Dict, List, Optional, Tuple

HERE = Path(__file__).resolve().parent
TOP = HERE.parent.parent.parent
FACTS, TASKS = ".facts.tar.xz", ".tasks.tar.xz"  # the ends of the names of archives
SHOWN = 30  # so many lines of a difference
SIGNS = 240  # so much of such a line, where it differs

sys.path.insert(0, str(TOP))

from record import machine  # noqa: E402
from record.build.text import labels_of, lines_of, shown  # noqa: E402
from record.facts import OF_BUILD, SAID, Facts, first_tree  # noqa: E402
from record.first_tree import FirstTree  # noqa: E402
from record.folder import Record  # noqa: E402
from record.importing import Imported, complete, imported  # noqa: E402
from record.judge import ask  # noqa: E402


def pack(folder: Path, archive: Path) -> None:
    """Puts what is in a folder into an archive, which depends on names and contents alone."""
    with lzma.open(archive, "wb", preset=9) as file, tarfile.open(fileobj=file, mode="w", format=tarfile.PAX_FORMAT) as whole:
        for path in sorted(path for path in folder.rglob("*") if path.is_file()):
            entry = tarfile.TarInfo(str(path.relative_to(folder)))
            entry.size, entry.mode = path.stat().st_size, 0o644
            with open(path, "rb") as contents:
                whole.addfile(entry, contents)


def unpack(archive: Path, folder: Path) -> Path:
    """The folder, with what is in an archive."""
    folder.mkdir()
    with lzma.open(archive, "rb") as file, tarfile.open(fileobj=file, mode="r|") as whole:
        whole.extractall(folder)
    (folder / SAID).mkdir(exist_ok=True)  # no make may have said anything
    return folder


def import_again(folder: Path, out: Optional[Path] = None) -> Tuple[Record, Imported]:
    """Imports a build again, of what was kept of it; the machine is not asked. The record is written to `out`, if there is one, without what
    `--missing` and `--footprints` add: only then the places of lines are looked for, and what else a report shows."""
    about: Dict[str, Any] = json.loads((folder / "facts.json").read_text(encoding="utf-8"))
    first: Dict[str, Any] = about.get("first") or {}
    first.update({name: tuple(first.get(name, ())) for name in ("new", "left", "linked")}, tracked=frozenset(first.get("tracked", ())))
    with machine.answering(machine.Answers.written(folder / "before")):
        names, kept = first_tree(about["tops"], first["linked"])
    record = Record(*(about[name] for name in OF_BUILD))
    record.first = FirstTree(**first) if about.get("first") else None
    facts = Facts(folder, about["place"], about["real"], names, kept, folder / SAID, about["said"], about["covered"])
    options = argparse.Namespace(warm=about["warm"], footprints=False, missing=False, held=())
    with machine.answering(machine.Answers.written(folder / "after")):
        return record, complete(record, facts, out, options) if out else imported(record, facts, options.warm)


def golden_of(facts: Path, golden: Path, race: str) -> Path:
    """Imports what was kept of a build. The folder gets the tasks that come of it, and what is said of them all."""
    record, found = import_again(facts)
    golden.mkdir()
    lines = ["hole " + hole for hole in record.holes] + ["was there " + shown(name) for name in record.warm]
    lines += ["assumed %s %d %s" % (one["kind"], one["count"], one["example"]) for one in found.assumed.rows()]
    for number, build in enumerate(found.builds, 1):
        tasks = golden / ("%03d.tasks" % number)
        with open(tasks, "w", encoding="utf-8", errors="backslashreplace") as file:
            file.writelines(line + "\n" for _, line in lines_of(build.tasks, build.folder, labels_of(build.tasks)))
        lines += ["build %03d" % number, *ask(race, "list", tasks, build.folder).stdout.split("\n")[:-1]]
    (golden / "verdict").write_text("".join(line + "\n" for line in lines), encoding="utf-8")
    return golden


def files_of(folder: Path) -> List[str]:
    """The names of all files below a folder."""
    return sorted(str(path.relative_to(folder)) for path in folder.rglob("*") if path.is_file())


def differences(expected: Path, found: Path) -> List[str]:
    """What differs between two folders, byte for byte: each file, with lines of the difference."""
    lines = []
    for name in sorted({*files_of(expected), *files_of(found)}):
        pair = [expected / name, found / name]
        if not all(path.exists() for path in pair):
            lines.append("%s: %s" % (name, "is new" if pair[1].exists() else "is gone"))
        elif not filecmp.cmp(*pair, shallow=False):
            texts = [path.read_text(encoding="utf-8", errors="backslashreplace").split("\n") for path in pair]
            lines += list(difflib.unified_diff(*texts, "expected/" + name, "found/" + name, n=0, lineterm=""))
    return lines


def first_lines(lines: List[str]) -> str:
    """The first lines of a difference, from where each differs from the one beside it."""
    found = []
    for before, line, behind in zip(["", *lines], lines[:SHOWN], [*lines[1:], ""]):
        other = behind if line.startswith("-") else before
        at = max(0, len(os.path.commonprefix([line[1:], other[1:]])) - SIGNS // 3)
        found.append(line[:1] + ".." * (at > 0) + line[1 + at:][:SIGNS])
    return "\n".join(found + ["and %d lines more" % (len(lines) - SHOWN)] * (len(lines) > SHOWN))
