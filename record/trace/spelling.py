"""File systems that take `a.h` and `A.h` for one file, as those of Windows and macOS mostly do, also where Linux or a container uses them.

The model of names takes these for two. So a build that uses both spellings of a file that changes has no verdict there.
"""

import os
import unicodedata
from typing import Iterable

from record import machine


def other_case(name: str) -> str:
    """A name with small letters for large ones, and large ones for small ones."""
    return "".join(sign.swapcase() if sign.isascii() else sign for sign in name)


def folds(folder: str, names: Iterable[str]) -> bool:
    """Whether a folder that holds some names has one of them under another spelling too."""
    held = set(names)
    name = next((name for name in sorted(held) if other_case(name) != name), "")
    return name != "" and other_case(name) not in held and machine.lexists(os.path.join(folder, other_case(name)))  # guard: both-names


@machine.asked
def has_two_names(folder: str) -> bool:
    """Whether a folder itself has another spelling."""
    other = os.path.join(os.path.dirname(folder), other_case(os.path.basename(folder)))
    try:
        return other != folder and not os.path.islink(other) and os.path.samefile(other, folder)  # guard: link-of-folders-name
    except OSError:
        return False


def key_of(path: str) -> str:
    """What all spellings of a path have in common."""
    return unicodedata.normalize("NFC", path).casefold()  # guard: folders-on-way
