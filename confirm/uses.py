"""What a call does to the file of a race, by what the kernel shows of it."""

from __future__ import annotations

import ctypes
import os
import struct
from pathlib import Path

from record.orders.processes import leads_to
from record.orders.reported import Call, filter_of

# The numbers of a call on x86-64 and arm64, what it does, and where it has its paths: the place of each among what it is given, behind that of its folder.
# What does nothing to a path comes behind such calls, before anything is written: there a recipe can be held.
CALLS = (
    (2, -1, "open", "0"), (257, 56, "open", "01"), (437, 437, "open", "01"), (85, -1, "open-to-write", "0"),
    (4, -1, "look", "0"), (6, -1, "look", "0"), (21, -1, "look", "0"), (262, 79, "look", "01"), (269, 48, "look", "01"), (439, 439, "look", "01"), (332, 291, "look", "01"),
    (83, -1, "make-folder", "0"), (258, 34, "make-folder", "01"), (84, -1, "remove", "0"), (87, -1, "remove", "0"), (263, 35, "remove", "01"),
    (76, 45, "change", "0"), (90, -1, "change", "0"), (268, 53, "change", "01"), (280, 88, "change", "01"), (235, -1, "change", "0"), (132, -1, "change", "0"),
    (82, -1, "rename", "0 1"), (264, 38, "rename", "01 23"), (316, 276, "rename", "01 23"),
    (86, -1, "link", "0 1"), (265, 37, "link", "01 23"), (88, -1, "link", "1"), (266, 36, "link", "12"),
    (59, 221, "begin", "0"), (322, 281, "begin", "01"),
    (3, 57, "", ""), (5, 80, "", ""), (33, -1, "", ""), (72, 25, "", ""), (77, 46, "", ""), (231, 94, "", ""), (292, 24, "", ""),
)
IS_ARM = os.uname().machine == "aarch64"
KNOWN = {number: how for number, how in (((arm if IS_ARM else intel), (does, where)) for intel, arm, does, where in CALLS) if number >= 0}
FILTER = filter_of([*KNOWN])
HERE, OPENS_BY_TEXT, WAYS = -100, 437, 3  # the folder of a process; openat2, whose flags stand in memory; the flags that say how a file is opened
LONGEST = 4096


def memory_of(pid: int, address: int, size: int) -> bytes:
    """What a process has in its memory; less where that is not so long, or cannot be read."""
    try:
        with open(f"/proc/{pid}/mem", "rb", buffering=0) as memory:
            return os.pread(memory.fileno(), size, address)
    except (OSError, OverflowError):
        return b""


def program_of(pid: int) -> str:
    """By what name the program of a process was called."""
    try:
        return os.path.basename(os.fsdecode(Path(f"/proc/{pid}/cmdline").read_bytes().partition(b"\0")[0])) or "-"
    except OSError:
        return "-"


def paths_of(call: Call, where: str) -> list[str]:
    """The paths that a call is given, from the top on, without dots: what stands in the text, not where links lead."""
    found = []
    for place in where.split():
        text = os.fsdecode(memory_of(call.pid, call.given[int(place[-1])], LONGEST).partition(b"\0")[0])
        folder = ctypes.c_int(call.given[int(place[0])] & 0xFFFFFFFF).value if len(place) > 1 else HERE
        above = "/" if text[:1] == "/" else leads_to(call.pid, "cwd" if folder == HERE else f"fd/{folder}")
        if text and above:
            found.append(os.path.normpath(os.path.join(above, text)))
    return found


def is_it(path: str, wanted: str) -> bool:
    """Whether a path is that of the race; with a slash at its end that is all that stands below it."""
    return path == wanted or wanted.endswith("/") and (path + "/").startswith(wanted)


def use_of(call: Call, wanted: str) -> tuple[str, str]:
    """What a call does to the file of the race, and the program that calls; that one is to begin; nothing where it does neither."""
    does, where = KNOWN.get(call.call, ("", ""))
    found = paths_of(call, where)
    if does == "begin":
        is_there = any(os.access(f"/proc/{call.pid}/root{it}", os.X_OK) for it in found)
        return (does, os.path.basename(found[0])) if is_there else ("", "")
    if not any(is_it(it, wanted) for it in found):
        return "", ""
    if does == "open":
        flags = call.given[int(where[-1]) + 1]
        if call.call == OPENS_BY_TEXT:
            flags = struct.unpack("=Q", memory_of(call.pid, flags, 8).ljust(8, b"\0"))[0]
        does = "open-to-write" if flags & WAYS else "open-to-read"
    return does, program_of(call.pid)
