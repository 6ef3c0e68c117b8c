#!/usr/bin/env python3
"""Builds two projects plainly, under strace as `race-record` starts it, and under the supervisor, in turn; prints seconds of processors and of the clock, and lines.

    cc -O2 -o /tmp/supervisor wip/supervisor/supervisor.c && wip/supervisor/measure.py /tmp/supervisor
"""
import argparse
import resource
import subprocess
import sys
import tempfile
import time
from pathlib import Path

sys.path.insert(0, str(Path(__file__).resolve().parents[2]))
from record.main import STRACE  # noqa: E402

C_FILE = "#include <stdio.h>\n#include <stdlib.h>\n#include <string.h>\n#include <unistd.h>\nint f%d(void) { return 0; }\n"


def copies(folder: Path) -> None:
    """A thousand recipes of `cp`."""
    Path(folder, "in").touch()
    Path(folder, "Makefile").write_text(f"all: {' '.join(f'o{at}' for at in range(1000))}\no%: in ; cp in $@\n")


def compilations(folder: Path) -> None:
    """Sixty small C files."""
    for at in range(60):
        Path(folder, f"f{at}.c").write_text(C_FILE % at)
    Path(folder, "Makefile").write_text(f"all: {' '.join(f'f{at}.o' for at in range(60))}\n%.o: %.c ; gcc -O2 -c $< -o $@\n")


def spent() -> float:
    """Seconds of processors of all children that have ended."""
    used = resource.getrusage(resource.RUSAGE_CHILDREN)
    return used.ru_utime + used.ru_stime


def main() -> None:
    parser = argparse.ArgumentParser(description="Measures builds plainly, under strace and under the supervisor.")
    parser.add_argument("supervisor", type=Path, help="the program that supervisor.c becomes")
    parser.add_argument("--runs", type=int, default=3, metavar="N", help="builds of each kind (3)")
    words = parser.parse_args()
    kinds: list[tuple[str, list[str]]] = [("plain", []), ("strace", [*STRACE, "-o"]), ("supervisor", [str(words.supervisor)])]
    for project in (copies, compilations):
        for _ in range(words.runs):
            for name, watch in kinds:
                with tempfile.TemporaryDirectory() as folder, tempfile.NamedTemporaryFile() as lines:
                    project(Path(folder))
                    before, began = spent(), time.monotonic()
                    subprocess.run([*watch, *([lines.name] if watch else []), "make", "-s"], cwd=folder, check=True)
                    print(f"{project.__name__:14}{name:12}{spent() - before:6.2f} s of processors, {time.monotonic() - began:6.2f} s, {sum(1 for _ in lines)} lines", flush=True)


main()
