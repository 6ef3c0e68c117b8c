"""What goes where: each file that an installation has, with its path below the prefix."""
from __future__ import annotations

import py_compile
import tempfile
from collections.abc import Iterator
from dataclasses import dataclass
from importlib.util import cache_from_source
from pathlib import Path

LIBRARY = "share/race"
DOCS = "share/doc/race"
UNPROVED = "lib/race/unproved/race"
WATCH = "lib/race/watch.so"
PAGES = ("README.md", "CONTRIBUTING.md", "CHANGELOG.md", "LICENSE", "THIRD-PARTY")
PAGE_FOLDERS = ("docs", "examples")

# The folder of the launcher is found from its own path, so that an installation may be moved.
HERE = 'here=$(dirname -- "$(readlink -f -- "$0")")'

LAUNCHER = """#!/bin/sh
# Runs {name} of the installation that this file stands in, with the program race beside it.
{here}
RACE=${{RACE:-$here/race}}
export RACE
exec python3 -B "$here/../{library}/{folder}/{name}" "$@"
"""

WRAPPER = """#!/bin/sh
# Runs race, which was built here without a proof: --version says so.
{here}
program=$here/../{unproved}
case ${{1-}} in
  -V|--version) ;;
  *) exec "$program" "$@" ;;
esac
text=$("$program" "$@") || exit
printf '%s unproved\\n' "$text" || exit 3
"""


@dataclass(frozen=True)
class Item:
    """A file of an installation: its path below the prefix, and its bytes, which are those of a file or written here, or what this Python makes of a module."""

    path: str
    source: Path | None = None
    text: str = ""
    is_program: bool = False
    is_compiled: bool = False

    def data(self) -> bytes:
        if self.is_compiled:
            return compiled(str(self.source))
        return self.source.read_bytes() if self.source else self.text.encode()


def compiled(module: str) -> bytes:
    """A module as Python keeps it, which counts as long as the text beside it is the same."""
    with tempfile.TemporaryDirectory(prefix="race-install-") as room:
        kept = f"{room}/kept"
        py_compile.compile(module, kept, doraise=True, invalidation_mode=py_compile.PycInvalidationMode.CHECKED_HASH)
        return Path(kept).read_bytes()


def companions(top: Path) -> Iterator[Path]:
    """The scripts beside the program: race-NAME in the folder NAME, such as record/race-record."""
    yield from sorted(it for it in top.glob("*/race-*") if it.name == f"race-{it.parent.name}" and it.is_file())


def program_items(program: Path, is_proved: bool) -> Iterator[Item]:
    """The program; one without a proof stands behind a wrapper that says so."""
    if is_proved:
        yield Item("bin/race", program, is_program=True)
    else:
        yield Item(UNPROVED, program, is_program=True)
        yield Item("bin/race", text=WRAPPER.format(here=HERE, unproved=UNPROVED), is_program=True)


def companion_items(top: Path) -> Iterator[Item]:
    """The companions and their launchers, their modules also as Python keeps them (a launcher lets it keep nothing there), and the pages that one of them reads."""
    for script in companions(top):
        folder = script.parent.name
        text = LAUNCHER.format(here=HERE, library=LIBRARY, folder=folder, name=script.name)
        yield Item(f"bin/{script.name}", text=text, is_program=True)
        for it in files_below(script.parent):
            path = f"{LIBRARY}/{folder}/{it.relative_to(script.parent)}"
            yield Item(path, it, is_program=it == script)
            if it.suffix == ".py":
                yield Item(cache_from_source(path), it, is_compiled=True)
    yield from (Item(f"{LIBRARY}/docs/{it}", top / "docs" / it) for it in ("FAULTS.md", "RECORD.md", "MISSING.md"))


def files_below(folder: Path) -> Iterator[Path]:
    """The files below a folder, without what Python and editors leave there."""
    for it in sorted(folder.rglob("*")):
        names = it.relative_to(folder).parts
        if it.is_file() and it.suffix != ".pyc" and not any(name.startswith((".", "__pycache__")) for name in names):
            yield it


def share_items(top: Path) -> Iterator[Item]:
    """The base makefiles, the scripts that record packages, the man pages, and the completions, which two shells look for under the name of each command."""
    yield from (Item(f"{LIBRARY}/{it.name}", it) for it in sorted((top / "share").glob("*.mk")))
    yield from (Item(f"{LIBRARY}/archive/{it.name}", it, is_program=it.name != "compared") for it in files_below(top / "share" / "archive"))
    yield from (Item(f"share/man/man1/{it.name}", it) for it in sorted((top / "share" / "man" / "man1").glob("*.1")))
    completions = top / "share" / "completions"
    names = ["race", *(it.name for it in companions(top))]
    yield from (Item(f"share/bash-completion/completions/{it}", completions / "race.bash") for it in names)
    yield from (Item(f"share/fish/vendor_completions.d/{it}.fish", completions / "race.fish") for it in names)
    yield Item("share/zsh/site-functions/_race", completions / "_race")


def page_items(top: Path) -> Iterator[Item]:
    """The documents and examples, in the folders that they have in the repository, so that links between them lead somewhere."""
    yield from (Item(f"{DOCS}/{it}", top / it) for it in PAGES)
    yield from (Item(f"{DOCS}/{it.relative_to(top)}", it) for folder in PAGE_FOLDERS for it in files_below(top / folder))


def unproved_behind(program: Path) -> Path | None:
    """The program that another installation has without a proof, where this is its script, which runs nowhere else."""
    behind = program.resolve().parents[1] / UNPROVED
    return behind if program.read_bytes()[:2] == b"#!" and behind.is_file() else None


def items(top: Path, program: Path, is_proved: bool, watch: Path | None) -> list[Item]:
    """All files of an installation. `watch`: the library that make has while a build is recorded, where it could be built."""
    library = [Item(WATCH, watch)] if watch is not None else []
    return [*program_items(program, is_proved), *library, *companion_items(top), *share_items(top), *page_items(top)]
