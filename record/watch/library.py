"""The library that is in make while a build is recorded (watch.c, hold.c): installed with the recorder, or built once by the C compiler and kept."""

import hashlib
import os
import shutil
import subprocess
import tempfile
from contextlib import suppress
from pathlib import Path

HERE = Path(__file__).resolve().parent
SOURCES = (HERE / "watch.c", HERE / "hold.c")
INSTALLED = HERE.parents[3] / "lib" / "race" / "watch.so"  # beside share/race/record/watch
OPTIONS = ("-std=gnu11", "-shared", "-fPIC", "-O1", "-fno-builtin", "-U_FORTIFY_SOURCE", "-s")
PACKAGES = "Debian: apt-get install gcc libc6-dev"
NO_COMPILER = "cc is missing, which builds the library that make has while it is recorded (%s); it is built once, and an installed race-record has it" % PACKAGES


class NotBuilt(Exception):
    """There is no such library, and none can be built; the text says why."""


def kept() -> Path:
    """Where the library of this source is kept for later recordings."""
    caches = os.environ.get("XDG_CACHE_HOME", "")
    folder = Path(caches) if os.path.isabs(caches) else Path.home() / ".cache"
    return folder / "race" / ("watch-%s.so" % hashlib.sha256(b"".join(one.read_bytes() for one in SOURCES)).hexdigest()[:16])


def build(to: Path) -> None:
    """Builds it; nobody sees a part of it."""
    compiler = shutil.which("cc")
    if compiler is None:
        raise NotBuilt(NO_COMPILER)
    with tempfile.TemporaryDirectory(prefix="race-cc-") as room:
        made = Path(room) / "watch.so"
        ran = subprocess.run([compiler, *OPTIONS, "-o", str(made), *map(str, SOURCES), "-ldl"], capture_output=True, text=True, errors="replace", check=False)
        if ran.returncode != 0:
            said = " ".join(ran.stderr.split())[:300]
            raise NotBuilt("%s cannot build the library that make has while it is recorded (%s): %s" % (compiler, PACKAGES, said))
        to.parent.mkdir(parents=True, exist_ok=True)
        part = to.with_suffix(".%d" % os.getpid())
        shutil.copy(made, part)
        part.chmod(0o755)
        part.replace(to)


def put_library(to: Path) -> None:
    """Puts the library where make will find it: its copy is as new as the recording."""
    found = INSTALLED if INSTALLED.is_file() else kept()
    with suppress(OSError):  # nothing can be kept there
        if Path(os.path.realpath(".")) not in Path(os.path.realpath(found)).parents:  # else the build may look around there
            if not found.is_file():
                build(found)
            shutil.copyfile(found, to)
            to.chmod(0o755)
            return
    build(to)
