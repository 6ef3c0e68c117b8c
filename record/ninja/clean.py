"""What ninja has made, and how `--fresh` takes it away in its copy of the folder in which ninja builds."""

import os
import shlex
import subprocess
from typing import Iterator, List

from record import machine
from record.messages import reason
from record.ninja.manifest import OWN, Unreadable, read_manifest


class CannotClean(Exception):
    """Why there is no clean tree."""


def run(words: List[str], package: str, use: str) -> "subprocess.CompletedProcess[str]":
    """Runs a tool that `--fresh` uses, and keeps what it says."""
    try:
        return subprocess.run(words, capture_output=True, text=True, errors="replace", stdin=subprocess.DEVNULL, check=False)
    except FileNotFoundError:
        raise CannotClean("%s is missing (Debian: apt-get install %s): --fresh %s by it" % (words[0], package, use)) from None


def made_in(folder: str) -> Iterator[str]:
    """The files that ninja has made, by the statements of a folder, and its logs."""
    try:
        manifest = read_manifest(folder, "build.ninja", machine.text)
    except (Unreadable, OSError) as fault:
        raise CannotClean("%s cannot be cleaned: %s" % (folder, reason(fault) if isinstance(fault, OSError) else fault)) from None
    edges = [edge for edge in manifest.edges if not edge.is_phony and not edge.is_generator]
    logs = [os.path.join(manifest.top.value("builddir"), name) for name in OWN]
    for name in dict.fromkeys([*logs, *(name for edge in edges for name in (*edge.makes(), edge.path("depfile"), edge.path("rspfile")) if name)]):
        above, last = os.path.split(os.path.join(folder, name))
        path = os.path.join(os.path.realpath(above), last)
        if os.path.lexists(path) and not os.path.isdir(path):
            yield path


def place_of(folder: str, room: str) -> str:
    """The folder that holds all that ninja has made: the one in which it builds, or one above it where some of it is outside. `room`: where its copy is."""
    made = [*made_in(folder)]
    place = os.path.commonpath([folder, *made])
    if place != folder and any((os.path.realpath(one) + "/").startswith(place.rstrip("/") + "/") for one in (os.path.expanduser("~"), room)):  # guard: all-of-home
        outside = next(path for path in made if os.path.commonpath([folder, path]) == place)
        raise CannotClean("ninja has made %s, and --fresh does not copy all of %s for that: clean the folder (ninja -C %s -t clean), and record without --fresh"
                          % (outside, place, shlex.quote(folder)))
    return place


def clean(folder: str, place: str) -> None:
    """Takes away what ninja has made in a place, its logs, and folders that then hold nothing, except that in which the command runs. An output that is a
    folder and holds something stays: its statement runs, as the logs are gone."""
    filled, here = [], os.path.realpath(".")
    for at, names, files in os.walk(place, topdown=False):
        filled += [at] * bool(names or files)
        for name in {*OWN}.intersection(files):
            os.unlink(os.path.join(at, name))  # guard: logs-of-earlier-builds-go
    ran = run(["ninja", "-C", folder, "-t", "clean"], "ninja-build", "cleans")
    if ran.returncode and [*made_in(folder)]:  # guard: folder-that-holds-something
        raise CannotClean("ninja -C %s -t clean ended with %d: %s" % (folder, ran.returncode, (ran.stdout + ran.stderr)[-300:].strip()))
    for at in filled:
        if at != here and not os.listdir(at):
            os.rmdir(at)
