"""What an import needs of a build that has ended, in one folder. `--keep-trace` keeps it, so that the record can be made again: elsewhere, by another version.

The folder holds what strace and each make said; `before` and `after`, what the machine answered before the build and behind it (machine.py); and
`facts.json`, how the build was called and how it ended. Values of the environment are left out of what makes said, for they may be secrets.
"""

import argparse
import json
import shutil
from dataclasses import asdict, dataclass
from pathlib import Path
from typing import Dict, Sequence

from record import machine
from record.folder import Record
from record.ninja.manifest import OWN as OF_NINJA
from record.trace.names import Names
from record.watch.files import keep_files

OWN = ("sifted.part",)  # what the recorder put there
SAID = "said"  # the folder in it of what makes said
OF_BUILD = ("words", "folder", "status", "seconds", "tools")  # what is known of a record when its build has ended


@dataclass
class Facts:
    """What an import needs, beside what the machine answers."""

    spool: Path  # the folder in which strace and makes wrote
    place: str  # its name while the build ran
    real: str  # the make
    names: Names  # the tree before the build
    kept: Dict[str, str]  # what of ninja was there before
    said: Path = Path("/nowhere")  # the folder of what makes said
    said_place: str = ""  # its name while the build ran
    covered: Sequence[str] = ()  # the makes over which copies with the library lay

    def keep(self, record: Record, options: argparse.Namespace, before: machine.Answers, after: machine.Answers, folder: Path) -> None:
        """Writes them, and what the machine answered."""
        shutil.copytree(self.spool, folder, ignore=shutil.ignore_patterns(*OWN))
        keep_files(self.said, folder / SAID)
        before.write(folder / "before")
        after.write(folder / "after")
        about = {**{name: getattr(record, name) for name in OF_BUILD}, "place": self.place, "said": self.said_place, "covered": list(self.covered), "real": self.real,
                 "tops": self.names.tops, "warm": options.warm,
                 "first": {**asdict(record.first), "tracked": sorted(record.first.tracked)} if record.first else None}
        (folder / "facts.json").write_text(json.dumps(about, indent=1) + "\n", encoding="utf-8")


def first_tree(tops: Sequence[str], linked: Sequence[str]) -> "tuple[Names, Dict[str, str]]":
    """The tree below some folders, and what of ninja is in it. `linked`: copies of files that have names elsewhere too."""
    names = Names()
    for top in tops:
        names.walk(top)
    for path in linked:
        names.share(path)
    return names, {path: machine.text(path) for path, kind in names.before.items() if kind == "f" and path.endswith((".ninja", *OF_NINJA[:2]))}
