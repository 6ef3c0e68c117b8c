#!/usr/bin/env python3
"""Times race-record on the packages of the golden traces (tests/record/golden/packages.py) and some larger ones, each configured, and then built with one job.

    bench/packages/run.py [--race PROGRAM] [--folder DIR] [--jobs N] [PACKAGE ..]

    bench/packages/run.py bzip2 lua5.4       two of them
    bench/packages/run.py --jobs 4 bzip2     the build with four jobs, recorded once
    bench/packages/run.py --race race        all of them, with the program race on PATH: an hour

As root on Debian 12, with its sources among those of apt (deb-src): what a package is built with gets installed. A row has the seconds of the plain build,
and of race-record with builds in other orders, or with --once where jobs are given; the peak memory of one of its processes; and what it said, or which command
failed. The last row has the median. Nothing here is a test.
"""
from __future__ import annotations

import argparse
import os
import re
import shutil
import statistics
import subprocess
import sys
import tempfile
from pathlib import Path

TOP = Path(__file__).resolve().parents[2]
sys.path[:0] = [str(TOP), str(TOP / "bench"), str(TOP / "tests" / "record" / "golden")]

from measure import Run, head, once, row  # noqa: E402
from packages import CONFIGURE, PACKAGES, Package  # noqa: E402

from record.command import with_jobs  # noqa: E402
from record.judge import find_race, no_race  # noqa: E402

RECORDER = TOP / "record" / "race-record"
LARGER = {package.name: package for package in (
    Package("autoconf", "Perl and m4", "make", CONFIGURE, "help2man m4"),
    Package("klibc", "kbuild", "make -f debian/rules override_dh_auto_build", "", "linux-libc-dev"),
    Package("git", "makefile by hand", "make", "", "zlib1g-dev libcurl4-gnutls-dev libexpat1-dev libssl-dev gettext"),
    Package("u-boot", "kbuild", "make tools-only", "make tools-only_defconfig", "bison flex bc libssl-dev libgnutls28-dev uuid-dev"),
    Package("ocaml", "OCaml", "make world", CONFIGURE),
)}
VERDICT = re.compile(r"^(?:SAFE|RACE|NO VERDICT|WARM)\b", re.M)


class Fails(Exception):
    """A command failed, such as one for sources that the archive has no more."""


def quietly(folder: Path, *words: str) -> None:
    """Runs a command that has to end well (`Fails`)."""
    ran = subprocess.run(words, cwd=folder, stdin=subprocess.DEVNULL, stdout=subprocess.PIPE, stderr=subprocess.STDOUT, check=False)
    if ran.returncode:
        print(ran.stdout.decode(errors="replace")[-2000:], file=sys.stderr)
        raise Fails("%s ended with %d" % (" ".join(words), ran.returncode))


def configured(package: Package, room: Path) -> Path:
    """The folder of a package, which waits for its build."""
    if package.needs:
        quietly(room, "apt-get", "install", "-qq", "-y", "--no-install-recommends", *package.needs.split())
    quietly(room, "apt-get", "source", "-qq", "--download-only", "--only-source", package.name)
    quietly(room, "dpkg-source", "--no-check", "-x", str(next(room.glob("*.dsc"))), "project")
    quietly(room / "project", "sh", "-ec", package.before)
    return room / "project"


def measured(package: Package, room: Path, race: str, jobs: int | None) -> list[Run]:
    """The plain build, and the recorded one, with others where no jobs are given, each of a tree of its own in one place."""
    folder, words = configured(package, room), package.words.split()
    quietly(room, "cp", "-a", "project", "kept")
    plain, found = [*words, "-j%d" % jobs] if jobs else with_jobs(words, 1), []
    recorded = ["--once", "--", *plain] if jobs else ["--", *words]
    for command in (plain, [str(RECORDER), "--race", race, "--warm", *recorded]):
        shutil.rmtree(folder)
        quietly(room, "cp", "-a", "kept", "project")
        found.append(once(folder, command))
    return found


def main() -> None:
    """The program."""
    parser = argparse.ArgumentParser(description=__doc__, formatter_class=argparse.RawDescriptionHelpFormatter)
    parser.add_argument("--race", metavar="PROGRAM", help="the program race (else $RACE, the checkout's, or the one on PATH)")
    parser.add_argument("--folder", default="/var/tmp", metavar="DIR", help="where they are built (/var/tmp)")
    parser.add_argument("--jobs", type=int, metavar="N", help="build with N jobs, and record that build alone")
    parser.add_argument("packages", nargs="*", metavar="PACKAGE", help="the packages (all)")
    args = parser.parse_args()
    race = find_race(args.race)
    if race is None:
        sys.exit(no_race(args.race))
    os.environ["DEBIAN_FRONTEND"] = "noninteractive"
    head("package", "plain, s", "recorded, s", "ratio", "memory, MiB", "verdict")
    ratios: list[float] = []
    packages = PACKAGES | LARGER
    for name in args.packages or packages:
        with tempfile.TemporaryDirectory(prefix="race-bench-", dir=args.folder) as room:
            try:
                plain, recorded = measured(packages[name], Path(room), race, args.jobs)
            except Fails as fault:
                row("`%s`" % name, "", "", "", "", str(fault))
                continue
        ratios.append(recorded.seconds / plain.seconds)
        row("`%s`" % name, "%.1f" % plain.seconds, "%.1f" % recorded.seconds, "%.1f" % ratios[-1], "%.0f" % recorded.memory, *VERDICT.findall(recorded.out.decode(errors="replace"))[-1:])
    row("median", "", "", "%.1f" % statistics.median(ratios) if ratios else "", "", "")


if __name__ == "__main__":
    main()
