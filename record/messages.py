"""Messages: what the system says of a file, texts without the signs that a terminal obeys, and the pages that a message names: in the checkout that the scripts
stand in, or below the prefix of an installation."""

import errno
import os
import re
import sys
from contextlib import suppress
from pathlib import Path

TOP = Path(__file__).resolve().parent.parent  # the checkout, or PREFIX/share/race
HELPS = {errno.ENOSPC: " (make room there, and run it again)", errno.EFBIG: " (raise the limit on the size of files, ulimit -f, and run it again)"}
# Signs that a terminal obeys, or that a page must not have; and the colours that race-record prints itself.
CONTROL = re.compile(r"(\x1b\[(?:1;3[12]|0)m)|[\x00-\x08\x0b-\x1f\x7f-\x9f]")


def printable(text: str, has_colours: bool = False) -> str:
    """A text in which such signs, as names may have them, stand as `\\x` and two digits."""
    return CONTROL.sub(lambda found: found[0] if found[1] and has_colours else "".join("\\x%02x" % ord(it) if it < " " or it > "~" else it for it in found[0]), text)


def reason(error: OSError) -> str:
    """What the system says of a file, in a line."""
    many = error.args[0] if error.args else None  # of shutil: files that could not be copied, each with what the system says
    what = error.strerror or str(many[0][-1] if isinstance(many, list) and many else error) or type(error).__name__
    what += HELPS.get(error.errno or 0, "")
    return "%s: %s" % (os.fsdecode(error.filename), what) if isinstance(error.filename, (str, bytes)) else what


def say(text: str, end: str = "\n") -> None:
    """Writes a text to standard error. Nobody may read it, or the device may be full: what is done goes on."""
    with suppress(OSError, ValueError):  # guard: where-it-cannot-be-written
        print(text, end=end, file=sys.stderr, flush=True)


def plural(count: int, word: str) -> str:
    """`1 race`, `2 races`."""
    return "%d %s%s" % (count, word, "" if count == 1 else "s")


def page(name: str) -> str:
    """The path of a page of docs/, such as RECORD.md; where none is there, as the repository names it."""
    places = (TOP.parent / "doc" / "race" / "docs" / name, TOP / "docs" / name)
    return next((str(place) for place in places if place.is_file()), "docs/" + name)


def after_no_verdict(heading: str = "No verdict, and what to do", name: str = "RECORD.md") -> str:
    """The line under a verdict that is none: where the reasons are explained."""
    return '  what to do: "%s" in %s' % (heading, page(name))
