"""What the man pages say beyond the help: the date, the files, and other pages."""
from __future__ import annotations

# The day on which the pages were last made for a release.
DATE = "2026-11-24"
RECORD = ("<.race>", "The record of a build, where no other folder is named. It may be removed.")
SHARE = [
    ("<PREFIX/share/race/posix-base.mk>", "The rules and macros that the standard lists, for --base. The program has them in it: --posix-base."),
    ("<PREFIX/share/race/gnu-base.mk>", "The built-in rules of GNU make, for --base, with comments on what cannot be said."),
    ("<PREFIX/share/doc/race>", "The documents: docs/FORMATS.md has the files that go in and come out, docs/FAULTS.md what a fault means."),
]
# The files of each page; those of `race` also stand in the pages of its commands.
FILES = {
    "race": SHARE,
    "race-record": [RECORD, ("<PREFIX/share/doc/race/docs/RECORD.md>", "What is recorded, and what is assumed.")],
    "race-report": [RECORD, ("<PREFIX/share/doc/race/docs/REPORT.md>", "The forms of a report.")],
    "race-confirm": [RECORD],
    "race-explain": [("<PREFIX/share/race/docs/FAULTS.md>", "The page that is shown.")],
}
# Pages of other programs, behind those of race.
OTHERS = ("make",)


def files_of(page: str) -> list[tuple[str, str]]:
    """The files of a page: its own, else those of the program."""
    return FILES.get(page, FILES["race"])
