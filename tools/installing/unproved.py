"""Builds the program without a proof: as `rt try` compiles it, but optimized and without AddressSanitizer.

`rt try` has one way to compile, and keeps no program. So it is run from a kit made of links to the toolchain's own, in which two
scripts stand in front of the compiler and the linker.
"""
from __future__ import annotations

import os
import shutil
import subprocess
import tempfile
import time
from pathlib import Path

from installing.building import NotBuilt, minutes, need_toolchain, say

MINUTES = 2
# How often a person who waits hears something, in seconds.
BEAT = 30
# A compilation that takes more seconds is given up.
LIMIT = 3600
# The scripts of rt find their kit from where they really are.
SCRIPTS = ("rt", "rtlib.py")
# Of two flags that disagree the last one holds.
CLANG = """#!/bin/sh
exec {tools}/clang "$@" -fno-sanitize=address -O1
"""
# AddressSanitizer is the one library that is linked as a whole. The program is kept.
LINKER = """#!/bin/sh
whole=
for word; do
  shift
  case $word in
    --whole-archive) whole=1 ;;
    --no-whole-archive) whole= ;;
    *) [ "$whole" ] || set -- "$@" "$word" ;;
  esac
done
{tools}/ld.lld "$@" && cp program {out}
"""


def link_all(source: Path, to: Path, leave: tuple[str, ...]) -> None:
    """Makes a folder with a link to each thing of another folder, except those to leave out."""
    to.mkdir()
    for it in source.iterdir():
        if it.name not in leave:
            (to / it.name).symlink_to(it)


def kit_in(room: Path, out: Path) -> Path:
    """A kit whose `rt try` optimizes and writes the program to a file too."""
    found = Path(shutil.which("rt") or "").resolve().parents[1]
    kit, tools = room / "kit", found / "toolchain" / "bin"
    texts = {"clang": CLANG, "ld.lld": LINKER}
    if not all((tools / it).is_file() for it in texts):
        raise NotBuilt(f"{found} has no compiler where it is looked for: this toolchain is another one")
    link_all(found, kit, ("bin", "toolchain"))
    link_all(found / "bin", kit / "bin", SCRIPTS)
    link_all(found / "toolchain", kit / "toolchain", ("bin",))
    link_all(tools, kit / "toolchain" / "bin", tuple(texts))
    for name in SCRIPTS:
        shutil.copy(found / "bin" / name, kit / "bin" / name)
    for name, text in texts.items():
        script = kit / "toolchain" / "bin" / name
        script.write_text(text.format(tools=tools, out=out))
        script.chmod(0o755)
    return kit


def waited(tried: subprocess.Popen) -> int:
    """The status of a program, once it has ended; says now and then that it runs."""
    began = time.monotonic()
    while time.monotonic() - began < LIMIT:
        try:
            return tried.wait(timeout=BEAT)
        except subprocess.TimeoutExpired:
            say(f"compiles, {minutes(began)}")
    tried.terminate()
    return tried.wait()


def build_unproved(top: Path, out: Path) -> None:
    """Writes the program to a file: not proved, so it checks indices, sums and casts as it runs."""
    need_toolchain()
    say(f"compiles race without a proof, about {MINUTES} minutes")
    with tempfile.TemporaryDirectory(prefix="race-build-") as name, tempfile.TemporaryFile("w+", errors="replace") as said:
        room = Path(name)
        kit, program = kit_in(room, room / "race"), room / "race"
        words = [str(kit / "bin" / "rt"), "try", "--steps", "1", "--", "--version"]
        how = {"stdout": said, "stderr": said, "stdin": subprocess.DEVNULL, "env": {**os.environ, "TMPDIR": name}}
        with subprocess.Popen(words, cwd=top / "crates" / "race", **how) as tried:
            try:
                status = waited(tried)
            finally:
                tried.terminate()
        if status or not program.is_file():
            said.seek(0)
            raise NotBuilt(f"rt try ended with status {status}; it says:\n{said.read()[-3000:]}")
        shutil.copyfile(program, out)
    out.chmod(0o755)
