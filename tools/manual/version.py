"""The version that the program prints."""
from __future__ import annotations

import re
from pathlib import Path

from manual.helps import NoHelp

SOURCE = Path("crates") / "mk_request" / "src" / "words" / "help.rt"
VERSION = re.compile(r'VERSION: &str = "([^"]+)"')


def version(top: Path) -> str:
    """What stands in the source of the program."""
    found = VERSION.search((top / SOURCE).read_text("utf-8"))
    if not found:
        raise NoHelp(f"{SOURCE} has no VERSION")
    return found[1]
