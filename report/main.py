"""The command race-report."""

from __future__ import annotations

import argparse
import contextlib
import os
import shutil
import sys
from pathlib import Path

from record import RELEASE
from record.messages import printable, reason
from record.folder import NotWhole, reading
from record.judge import find_race, no_race
from report.asking import judge
from report.direct import inputs, judge_makefile
from report.graph import judge_tasks
from report.index import INDEX, PAGES, as_index, page_name
from report.machine import as_gitlab, as_json, as_sarif, log
from report.model import BadRecord, Report
from report.page import as_html
from report.patch import as_patch
from report.plain import github, text
from report.standing import read_baseline, settle
from report.table import Form, as_line, as_run, as_table, packages, records, row_of, shown_in

FORMS = {"text": text, "json": as_json, "sarif": as_sarif, "github": github, "gitlab": as_gitlab, "html": as_html, "patch": as_patch}
TABLES = {"text": Form(row_of, as_table), "json": Form(as_line, "".join), "sarif": Form(as_run, log), "html": Form(row_of, as_index, has_pages=True)}
USAGE = """race-report [DIR ..] [options]
       race-report --makefile FILE --listing FILE --footprints FILE [--root FOLDER] [GOAL or NAME=VALUE ..] [options]
       race-report --tasks FILE [--root FOLDER] [options]"""
DESCRIPTION = "Shows a record of race-record, or what race says of a makefile or of tasks, in a form for people or for CI."
EXAMPLE = """
example:
  race-record -- make                          record a build into .race
  race-report --format html -o race.html       and show it as a page
  race-report --format json -o baseline.json   keep the races that are known
  race-report --format github --baseline baseline.json
  race-report --format patch | patch -p1       write the fixes into the makefiles, in the project's top
  race-report --format html -o pages records/*    one table for many records, with a page for each
  race-report --makefile Makefile --listing listing --footprints footprints all
                                               judge a makefile of POSIX without a record, with its goal all

status: 0 safe, or nothing that the baseline has not; 1 races, or missing inputs of a record that was asked for them; 2 no verdict; 3 usage, a file or a missing tool; of several records the highest
"""


def parse(words: list[str] | None) -> argparse.Namespace:
    """The command line."""
    parser = argparse.ArgumentParser(prog="race-report", usage=USAGE, description=DESCRIPTION, epilog=EXAMPLE,
                                     formatter_class=argparse.RawDescriptionHelpFormatter)
    parser.add_argument("words", nargs="*", metavar="DIR", help="the folder of the record (.race); of several, or of a folder that holds some, a table; "
                        "with --makefile goals and NAME=VALUE instead")
    parser.add_argument("--format", choices=sorted(FORMS), default="text", help="the form (text)")
    parser.add_argument("-o", "--output", type=Path, metavar="FILE", help="write to FILE instead of standard output; html of several records: a folder")
    parser.add_argument("--baseline", type=Path, metavar="FILE", help="a report in JSON: its races are known, and do not fail")
    parser.add_argument("--all", action="store_true", help="give each race a block in the text: else the first ten groups")
    parser.add_argument("--race", metavar="PROGRAM", help="the program race (else $RACE, the checkout's, or the one on PATH)")
    parser.add_argument("-V", "--version", action="version", version=f"%(prog)s {RELEASE}", help="print the version")
    direct = parser.add_argument_group("a makefile or tasks without a record", "What `race check` takes; docs/FORMATS.md says what the files hold.")
    direct.add_argument("--makefile", type=Path, metavar="FILE", help="the makefile")
    direct.add_argument("--tasks", type=Path, metavar="FILE", help="the tasks of another tool, in place of a makefile")
    direct.add_argument("--listing", type=Path, metavar="FILE", help="the files that are there, one a line (find . > FILE)")
    direct.add_argument("--footprints", type=Path, metavar="FILE", help="what each recipe reads and writes")
    direct.add_argument("--root", metavar="FOLDER", help="the folder that paths start from (the working folder)")
    direct.add_argument("--base", type=Path, metavar="FILE", help="a base makefile")
    direct.add_argument("--posix-base", action="store_true", help="the base of the standard")
    direct.add_argument("--includes", type=Path, metavar="FILE", help="the paths of included texts")
    args = parser.parse_intermixed_args(words)
    if args.tasks and len(args.words) > 1:
        parser.error(f"--tasks takes no record, and here are {len(args.words)}: {' '.join(args.words)}")
    return args


def read(args: argparse.Namespace, program: Path) -> Report:
    """The report that is asked for: of a makefile, of tasks, or of a record."""
    if args.makefile:
        return judge_makefile(inputs(args), program)
    if args.tasks:
        return judge_tasks(args.tasks, os.path.abspath(args.root or "."), program)
    return judge(one_of(args), program)


def one_of(args: argparse.Namespace) -> Path:
    """The folder of the record, where one is asked for."""
    return Path(*args.words[:1] or [".race"])


def several_of(args: argparse.Namespace) -> list[Path]:
    """The folders of the records of a table; none where one record is asked for, a makefile or tasks."""
    is_one = args.makefile or args.tasks or not args.words
    found = [] if is_one else [*dict.fromkeys(it for word in args.words for it in records(word))]
    return [] if found == [one_of(args)] else found


def stop(why: object) -> int:
    """Says why there is no report; the status."""
    print(f"race-report: {why}", file=sys.stderr)
    return 3


def main(words: list[str] | None = None) -> int:
    """Reads, asks, writes; the status."""
    try:
        args = parse(words)
    except SystemExit as end:
        return 3 if end.code else 0
    program = find_race(args.race)
    if not program:
        return stop(no_race(args.race))
    try:
        several = several_of(args)
        return show_table(args, Path(program), several) if several else show(args, Path(program))
    except (BadRecord, NotWhole) as error:
        return stop(error)
    except OSError as error:
        return stop(reason(error))


def show(args: argparse.Namespace, program: Path) -> int:
    """Writes the report of one record, a makefile or tasks; the status."""
    with contextlib.nullcontext() if args.makefile or args.tasks else reading(one_of(args)):
        report = read(args, program)
        settle(report, read_baseline(args.baseline) if args.baseline else None, os.path.basename(report.top))
        report.shows_all = args.all
        shown, status = encoded(FORMS[args.format](report)), report.status()
    write(shown, args.output)
    return status


def show_table(args: argparse.Namespace, program: Path, folders: list[Path]) -> int:
    """Writes one table of several records, and of each a page below the table's where the form has pages; the status of the worst record."""
    if args.format not in TABLES:
        return stop(f"--format {args.format} shows one record, and here are {len(folders)}")
    form, output = TABLES[args.format], args.output
    if form.has_pages and not output:
        return stop("--format html makes a page for each of several records: name a folder for them by -o")
    if form.has_pages:
        (output / PAGES).mkdir(parents=True, exist_ok=True)
    baseline = read_baseline(args.baseline) if args.baseline else None
    rows, worst = [], 0
    for package, folder in zip(packages(folders), folders):
        row, page, status = shown_in(form, package, folder, program, baseline)
        if page:
            write(encoded(page), output / PAGES / page_name(package))
        rows.append(row)
        worst = max(worst, status)
    write(encoded(form.whole(rows)), output / INDEX if form.has_pages else output)
    return worst


def encoded(text: str) -> bytes:
    """A report as it is written: without signs that a terminal obeys, and in UTF-8."""
    return printable(text).encode("utf-8", "backslashreplace")


def write(shown: bytes, output: Path | None) -> None:
    """Puts a report where it is asked for. What is there is replaced by a whole one alone."""
    if output is None:
        sys.stdout.buffer.write(shown)
        sys.stdout.buffer.flush()
    elif output.is_file() and not output.is_symlink():
        fresh = output.with_name(output.name + ".new")
        try:
            fresh.write_bytes(shown)
            shutil.copymode(output, fresh)
            fresh.replace(output)
        except OSError:
            fresh.unlink(missing_ok=True)
            raise
    else:
        output.write_bytes(shown)
