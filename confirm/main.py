"""The command race-confirm."""

from __future__ import annotations

import argparse
import contextlib
import os
import subprocess
import sys
import tempfile
from collections.abc import Iterator, Sequence
from pathlib import Path

from confirm.races import CannotConfirm, Chosen, chosen, tools_of, written_outside
from confirm.reach import Tasks
from confirm.room import Room, new_room, settle
from confirm.search import Finding, search
from confirm.text import body, heading, summary
from confirm.tree import take_back
from confirm.trial import PARALLEL, SERIAL, Trial
from record import RELEASE
from record.build.text import shown
from record.folder import Missing, NotWhole, reading
from record.judge import find_race, no_race
from record.main import SERIAL_FAILED, version_of
from record.messages import after_no_verdict, printable, reason
from record.orders.builds import TAKES_LEFT, Plan
from record.orders.graph import Graph
from record.orders.trees import CannotTry, copy, remove
from record.watch.lay import LIBC
from record.watch.library import NotBuilt, put_library
from report.asking import judge
from report.model import BadRecord, Report, read_json
from report.plain import counted

DESCRIPTION = """Makes a race of a record happen in a copy of the project, and says what differs. It builds the copy serially, and then with
the two recipes held so that they meet. It writes nothing to the project."""
EXAMPLE = """
example:
  race-record -- make          record a build into .race
  race-confirm                 try each race of the record
  race-confirm .race 3         the third race, as race-report lists them
  race-confirm .race lex.o     the races in which lex.o is a file or a target

status: 0 not confirmed: no difference was seen, which is no yes; 1 confirmed: a difference was seen; 2 cannot be confirmed;
        3 usage, a file or a missing tool. Over several races: 1 where one is confirmed, else 2 where one cannot be
"""


KEPT = (SERIAL, PARALLEL)
MOST = 10  # builds, where nobody says how many schedules are to be tried


def parse(words: Sequence[str] | None) -> argparse.Namespace:
    """The command line; a first word that is no record is the name of a race."""
    parser = argparse.ArgumentParser(prog="race-confirm", usage="race-confirm [DIR] [RACE ..] [options]", description=DESCRIPTION,
                                     epilog=EXAMPLE, formatter_class=argparse.RawDescriptionHelpFormatter)
    parser.add_argument("words", nargs="*", metavar="DIR, RACE", help="the folder of the record (.race); a race by its number "
                        "in race-report, or by its file and targets (all races)")
    parser.add_argument("--runs", type=positive, default=0, metavar="N", help="try at most N schedules of each race; "
                        f"without it all is over within {MOST} builds")
    parser.add_argument("--schedule", type=positive, default=0, metavar="N", help="try the schedule N alone")
    parser.add_argument("--prepare", metavar="COMMAND", help="make the copy ready by this, such as 'make clean'; without it, what the "
                        "record says that the build wrote is removed from the copy")
    parser.add_argument("--keep", type=Path, metavar="FOLDER", help="keep what the serial and the last parallel build left")
    parser.add_argument("--race", metavar="PROGRAM", help="the program race (else $RACE, the checkout's, or the one on PATH)")
    parser.add_argument("-V", "--version", action="version", version=f"%(prog)s {RELEASE}", help="print the version")
    args = parser.parse_intermixed_args(words)
    args.record, args.names = (Path(args.words[0]), args.words[1:]) if names_record(args.words) else (Path(".race"), args.words)
    return args


def names_record(words: Sequence[str]) -> bool:
    """Whether the first word is the folder of a record. A folder that is none is taken for one where there is no other."""
    folder = Path(*words[:1])
    return bool(words) and ((folder / "record.json").is_file() or folder.is_dir() and not Path(".race").exists())


def positive(text: str) -> int:
    """A number from 1 on."""
    if not text.isascii() or not text.isdigit() or int(text) < 1:
        raise argparse.ArgumentTypeError(f"{text} is no number from 1 on")
    return int(text)


def say(text: str) -> None:
    """Where it is: on a terminal one line, elsewhere a line for each build."""
    if sys.stderr.isatty():
        print(f"\r\x1b[K{text[:100]}", end="\n" if not text else "", file=sys.stderr, flush=True)
    elif text:
        note(text)


def note(text: str) -> None:
    """A remark that is no answer."""
    print(f"race-confirm: {text}", file=sys.stderr, flush=True)


@contextlib.contextmanager
def prepared(args: argparse.Namespace, folder: str, words: Sequence[str]) -> Iterator[Room]:
    """A room with a copy of the project as it was before the build; it is gone at the end."""
    room = Room(new_room(folder, note), [folder], [], words, lambda *_: 1, has_net=True, is_each=True)
    try:
        room.top.chmod(0o711)  # makes of other users find the library
        room.take(os.path.realpath(args.record))
        settle(room)
        if args.prepare:
            prepare(room, args.prepare)
        else:
            with reading(args.record):
                room.taken = take_back(room.fresh(0), folder, args.record)
        LIBC.prctl(TAKES_LEFT, 1)
        yield room
    finally:
        remove(room.top)


def prepare(room: Room, command: str) -> None:
    """Runs the user's command in the copy."""
    plan = Plan("prepared", {})
    copy(room.fresh(0), room.trees(plan)[0])
    done = subprocess.run(["sh", "-c", command], env=room.environment(), preexec_fn=lambda: room.enter(plan), stdin=subprocess.DEVNULL,
                          capture_output=True, text=True, errors="replace", check=False)
    if done.returncode:
        raise CannotConfirm(f"`{command}` of --prepare ended with status {done.returncode} in the copy: {' '.join(done.stderr.split())[:200]}")
    remove(room.fresh(0))
    room.trees(plan)[0].rename(room.fresh(0))


def keep(trial: Trial, to: Path) -> None:
    """Leaves what the serial and the last parallel build left."""
    to.mkdir(parents=True, exist_ok=True)
    for name in KEPT:
        if trial.tree(name).exists():
            copy(trial.tree(name), to / name)


def show(lines: Iterator[str]) -> None:
    """Prints lines of the answer."""
    text = printable("\n".join(lines))
    sys.stdout.buffer.write(text.encode("utf-8", "backslashreplace") + b"\n")
    sys.stdout.buffer.flush()


def try_all(args: argparse.Namespace, report: Report, races: Sequence[Chosen], room: Room) -> list[Finding]:
    """Tries each race, and shows what is found of it."""
    with reading(args.record):
        tasks = Tasks.of(args.record, room.folder)
    is_parallel = any(it.startswith(SERIAL_FAILED) for it in read_json(args.record / "record.json").get("notes", []))
    trial = Trial(room, Graph(args.record), tasks, report.races, say, is_parallel, 0 if args.runs else MOST)
    findings: list[Finding] = []
    trial.begin()
    for race in races:
        runs = args.runs or trial.tries_left()
        if runs < 1:
            left = len(races) - len(findings)
            show(iter([f"{counted(left, 'race')} not tried within {MOST} builds: name one (race-confirm {args.record} {race.number}), or give --runs", ""]))
            break
        trial.forget()
        findings.append(search(trial, race, runs, args.schedule))
        say("")
        show(heading(findings[-1], len(report.races)))
        show(body(findings[-1], args.record, trial.unstable, args.prepare))
        show(iter([""]))
    if args.keep:
        keep(trial, args.keep)
        show(iter([f"Kept: diff -r {args.keep}/serial {args.keep}/parallel"]))
    return findings


def status_of(findings: Sequence[Finding]) -> int:
    """1 where a race is confirmed, else 2 where one cannot be, else 0."""
    if any(it.is_confirmed for it in findings):
        return 1
    return 2 if any(it.why for it in findings) else 0


def picked(args: argparse.Namespace, report: Report) -> tuple[list[Chosen], str]:
    """The races that are asked for, and the project's folder."""
    races = [*chosen(report, args.record, args.names)]
    if not races:
        called = " ".join(args.names)
        raise BadRecord(f"{args.record} has no race that is called {called}; it has {counted(len(report.races), 'race')}: race-report {args.record} lists them")
    folder = read_json(args.record / "record.json")["folder"]
    if not os.path.isdir(folder):
        raise CannotConfirm(f"the project's folder {folder} is not there: record again where it is now")
    if shown(folder) != folder:
        raise CannotConfirm(f"the name of the project's folder is not UTF-8 text, and a record has it as {shown(folder)}: give it another name, and record again")
    if outside := next(written_outside(args.record, folder), None):
        raise CannotConfirm(f"the build writes {outside}, which is not below the project's folder {folder}, so a build of a copy "
                            "would write it, too")
    return races, folder


def check_keep(folder: Path) -> None:
    """Refuses a folder in which nothing can be kept, before anything is built."""
    if there := [folder / it for it in KEPT if (folder / it).exists()]:
        raise BadRecord(f"{there[0]} is there already: name another folder with --keep")
    above = next(it for it in (folder.absolute(), *folder.absolute().parents) if it.exists())
    if not above.is_dir() or not os.access(above, os.W_OK):
        raise BadRecord(f"{above} is no folder that can be written: name another folder with --keep")


def others(number: int) -> str:
    """How many more reasons there are."""
    return f" (race-report names {number} more)" if number else ""


def run(args: argparse.Namespace) -> int:
    """Reads the record, tries the races that are asked for; the status."""
    with reading(args.record):
        used = tools_of(args.record)
    if "make" in used:
        version_of("make", r"GNU Make (\d+)\.(\d+)", (4, 2))
    with tempfile.TemporaryDirectory(prefix="race-confirm-") as room:
        put_library(Path(room, "library"))
    if args.keep:
        check_keep(args.keep)
    program = find_race(args.race)
    if not program:
        raise Missing(no_race(args.race))
    with reading(args.record):
        report = judge(args.record, Path(program))
        races, folder = picked(args, report) if report.races else ([], "")
    if not races:
        if report.holes:
            raise CannotConfirm(f"there is no verdict on this record: {report.holes[0]}{others(len(report.holes) - 1)}\n{after_no_verdict()}")
        show(iter(["The record has no race: there is nothing to confirm."]))
        return 0
    with prepared(args, folder, report.words) as room:
        findings = try_all(args, report, races, room)
    if len(findings) > 1:
        show(iter([summary(findings)]))
    return status_of(findings)


def main(words: Sequence[str] | None = None) -> int:
    """Reads, builds, compares; the status."""
    try:
        args = parse(words)
    except SystemExit as end:
        return 3 if end.code else 0
    try:
        return run(args)
    except (CannotConfirm, CannotTry) as error:
        show(iter([f"CANNOT BE CONFIRMED  {error}"]))
        return 2
    except KeyboardInterrupt:
        print("race-confirm: stopped; the temporary folder is gone", file=sys.stderr)
    except (Missing, NotBuilt, BadRecord, NotWhole) as error:
        print(f"race-confirm: {error}", file=sys.stderr)
    except OSError as error:
        print(f"race-confirm: {reason(error)}; nothing is confirmed", file=sys.stderr)
    return 3
