#!/usr/bin/env python3
"""Asks GNU make which source serves a name under share/posix-base.mk, and compares with the cases.

    bench/inference/run.py

The cases are those of cases/default-rules: the files that exist are in `listing`, the name is the last word of `cmd`,
and `stdout` says the source. GNU make runs in a temporary folder with -r, on the base in which each command only prints
its source. Prints each name for which the two differ; the exit status is 1 if one does.
"""
import os
import pathlib
import re
import subprocess
import sys
import tempfile

TOP = pathlib.Path(__file__).resolve().parents[2]
BASE = TOP / "share" / "posix-base.mk"
CASES = TOP / "cases" / "default-rules"


def printing_makefile():
    """The base, each rule of which only prints its source."""
    lines, first = [], False
    for line in BASE.read_text().splitlines():
        if not line.startswith("\t"):
            lines.append(line)
            first = True
        elif first:
            lines.append("\t@echo 'source=$<'")
            first = False
    return "\n".join(lines) + "\n"


def source_of_make(files, name):
    """The source that GNU make finds where these files exist, None if it finds none."""
    settings = {key: value for key, value in os.environ.items() if not key.startswith("MAKE")}
    with tempfile.TemporaryDirectory() as where:
        folder = pathlib.Path(where)
        for file in files:
            (folder / file).parent.mkdir(parents=True, exist_ok=True)
            (folder / file).touch()
        (folder / "base.mk").write_text(printing_makefile())
        command = ["make", "-r", "-f", "base.mk", name]
        done = subprocess.run(command, cwd=folder, env=settings, capture_output=True, text=True, check=False)
    found = re.findall(r"^source=(.*)$", done.stdout, re.MULTILINE)
    return found[-1] if found else None


def main():
    failed = 0
    cases = sorted(it.parent for it in CASES.glob("*/cmd"))
    for case in cases:
        files = (case / "listing").read_text().split()
        name = (case / "cmd").read_text().split()[-1]
        line = re.search(rf"(?m)^\d+ inferred {re.escape(name)} : (.*)$", (case / "stdout").read_text())
        wanted, found = line and line[1], source_of_make(files, name)
        if found != wanted:
            print(f"{case.name}: {name} is made from {wanted}, GNU make finds {found}")
            failed = 1
    print(f"{len(cases)} cases")
    return failed


if __name__ == "__main__":
    sys.exit(main())
