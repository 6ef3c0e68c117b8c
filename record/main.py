"""`race-record -- make [GOALS]` or `-- ninja`: one recorded build, and the verdict of `race` on it."""

import argparse
import os
import pickle
import re
import shlex
import shutil
import signal
import subprocess
import sys
import tempfile
import threading
import time
from concurrent.futures import ThreadPoolExecutor
from contextlib import ExitStack
from functools import partial
from importlib import import_module
from itertools import islice
from pathlib import Path
from typing import Dict, List, Optional, Set, Tuple, cast

from record import RELEASE, VERSION, machine
from record.command import tops_of, with_jobs
from record.entry import STOPPING, UNHEARD, Stopped, end_traced, forget_coerced
from record.messages import printable, say
from record.facts import Facts, first_tree
from record.first_tree import tree_of
from record.folder import Idle, Missing, NotWhole, Record, accept_warm, alone, aside, former, holds_other, reading, rewrite, room_of_programs
from record.build.assumptions import UNTRIED
from record.fresh import record_fresh
from record.judge import find_race, judge, no_race
from record.ninja.clean import CannotClean
from record.ninja.retry import JOBS, TRIES, by_hand, hints, undo
from record.orders.builds import Plan, Room, Running, with_many
from record.orders.graph import Graph
from record.orders.exploring import MOST, beside, explore, new_room
from record.orders.holding import WAITED
from record.orders.result import tried, whatever
from record.orders.trees import CannotTry
from record.orders.waits import try_waits
from record.processor import Processor
from record.progress import Progress
from record.report import Judged, colours, read_json, report
from record.trace.classes import shown_as_numbers, traced
from record.trace.unfollowed import run_older
from record.trace.pipe import Pipe
from record.trace.sifting import sift
from record.watch.lay import Watch, makes_of, why_silent
from record.watch.library import NotBuilt

STRACE = ["strace", "-f", "-q", "-y", "--seccomp-bpf", "-s", str(32 * os.sysconf("SC_PAGE_SIZE")), "-e", "signal=hup,int,quit,abrt,kill,segv,pipe,term,xfsz", "-e", "trace=" + traced(), "-e", "raw=" + shown_as_numbers()]  # guard: long-commands
EXAMPLE = """examples:
  race-record --fresh -- make             a serial build of what git tracks, then the verdict
  race-record --fresh --setup ./configure -- make
                                          what comes between the tree and the build
  race-record --fresh -- ninja -C build   where ninja builds, also for CMake and Meson
  race-record --missing -- make           also: which files recipes read and make does not know of
  race-record --warm                      after WARM, where what it names is part of each clean tree: judge again, without a build
statuses: 0 safe, with --missing also nothing missing, 1 races or missing inputs,
          2 no verdict on one of the two, 3 usage or a tool that is missing"""
NOT_TRACED = ("strace may not follow processes here, so nothing was built (see its lines above). In a container allow it, such as docker run --cap-add=SYS_PTRACE; "
              "on a machine /proc/sys/kernel/yama/ptrace_scope must be less than 3")
PACKAGES = {"make": "make", "ninja": "ninja-build", "cmake": "cmake", "meson": "meson"}  # of Debian, by what builds
ABSENT = "%s is missing (Debian: apt-get install %s)"
NO_COMMAND = "no such command: %s, or it cannot be run; behind -- stands the command that builds, such as make: race-record -- make"
MAKES = ("make", "gmake", "bmake")
SILENT = "%s cannot be recorded: %s. Nothing was built. Let a GNU make build, of version 4.2 or later (Debian: apt-get install make), and record again"
SETUP = " || exit\ncd -- \"$1\" && shift && exec \"$@\""  # behind what comes before the build
NOT_TRIED = "not built in other orders: %s"
SERIAL_FAILED = "the serial build failed"
ASKED = min(4, os.cpu_count() or 1)  # how many builds `race` is asked about at once
WARM = ("WARM: the build used what was there before: record a clean tree (race-record --fresh%s -- %s), or, if builds start from this one, "
        "say race-record --warm: it judges this record again, and builds nothing")
WARM_FRESH = ("WARM: the build used what was there before, and --fresh leaves it: remove it, name an archive of the tree by --from, or configure an empty folder by --setup, "
              "such as --setup 'cmake -B build'; if builds start from this tree, say race-record --warm")


def version_of(program: str, pattern: str, least: Tuple[int, int]) -> str:
    """The version that a program reports of itself."""
    path = shutil.which(program)
    if path is None:
        raise Missing(ABSENT % (program, program))
    output = subprocess.run([path, "--version"], capture_output=True, text=True, errors="replace", env=dict(os.environ, LC_ALL="C")).stdout
    match = re.search(pattern, output)
    if not match or (int(match.group(1)), int(match.group(2))) < least:
        needed = "%s %d.%d" % ("GNU make" if program == "make" else program, *least)
        raise Missing("%s is %s, and %s or later is needed (Debian: apt-get install %s)" % (path, output.split("\n")[0] or "of no version that it says", needed, program))
    return "%s.%s" % match.groups()


def versions() -> Dict[str, str]:
    """The tools that record. A machine without make can build with ninja."""
    found = {"strace": version_of("strace", r"version (\d+)\.(\d+)", (5, 10))}
    if shutil.which("make"):
        found["make"] = version_of("make", r"GNU Make (\d+)\.(\d+)", (4, 2))
    return found


def refuse_silent(word: str) -> None:
    """Refuses a make of a command, or the first one on PATH, that cannot say what it does."""
    for name in ([word] if os.path.basename(word) in MAKES else []) + ["make"]:
        path = os.path.realpath(shutil.which(name) or "/")
        why = why_silent(path) if os.path.isfile(path) else ""
        if why:  # guard: make-that-shows-no-names
            raise Missing(SILENT % (path, why))


def enter(processor: Processor, watch: Watch, held: Set[signal.Signals]) -> None:
    """What the process does first that becomes strace. `held`: the signals that it does not hear."""
    processor.enter()
    if watch.covered:
        watch.lay()
    run_older()
    for one in STOPPING:
        if signal.getsignal(one) is not signal.SIG_IGN:
            signal.signal(one, signal.SIG_DFL)
    for one in UNHEARD:
        signal.signal(one, signal.SIG_IGN)
    signal.pthread_sigmask(signal.SIG_SETMASK, held)


def environment(watch: Watch) -> Dict[str, str]:
    """The build's: that of the recorder, as it was given."""
    env = dict(os.environ)
    forget_coerced(env)  # guard: what-python-sets-of-locale
    env.setdefault("PATH", os.defpath)  # by which strace finds the command
    return watch.environment(env)


def counting(watch: Watch) -> List[str]:
    """The names of the system's folders at which looks are kept: makes over which copies lie, and where a shell looks first for programs."""
    return [*watch.covered, os.environ.get("PATH", os.defpath).split(":")[0]]


def run_build(words: List[str], spool: Path, tops: List[str], watch: Watch, processor: Processor, expected: float) -> Tuple[int, float]:
    """The build under strace; meanwhile its trace is sifted, and the modules are loaded that read it. Its status and seconds; `Missing` where nobody may trace."""
    env = environment(watch)
    began = time.monotonic()
    interrupts: List[int] = []  # the build hears them too, and may go on all the same
    old = signal.getsignal(signal.SIGINT)
    if old is not signal.SIG_IGN:
        signal.signal(signal.SIGINT, lambda number, _: interrupts.append(number))
    pipe = Pipe(spool)
    with ThreadPoolExecutor(4) as pool:
        words = STRACE + processor.words() + ["-o", str(pipe.path), "--"] + words
        held = cast(Set[signal.Signals], signal.pthread_sigmask(signal.SIG_BLOCK, STOPPING))  # until what has begun would be ended  # guard: signal-when-build-has-just-begun
        process = subprocess.Popen(words, env=env, close_fds=False, preexec_fn=lambda: enter(processor, watch, held))  # what the caller has opened for the build stays open  # guard: descriptors-of-caller
        watch.note(process.pid)
        ended, filled = threading.Event(), threading.Event()
        progress = Progress(expected, process.pid)
        filling = pool.submit(pipe.fill, ended.wait, progress.see)
        filling.add_done_callback(lambda _: filled.set())
        pool.submit(processor.watch, process.pid, ended.wait)
        sifting, loading = pool.submit(sift, pipe.file, tops, spool / "sifted", filled.wait, counting(watch)), pool.submit(import_module, "record.importing")
        try:
            signal.pthread_sigmask(signal.SIG_SETMASK, held)
            status, seconds = process.wait(), time.monotonic() - began
        except BaseException:
            end_traced(process, watch.left)
            raise
        finally:
            ended.set()
            signal.signal(signal.SIGINT, old)
        filling.result()
        progress.end()
        sifting.result(), loading.result()
    if interrupts and status != 0:  # guard: interrupt
        raise Stopped("SIGINT")
    with open(pipe.file, "rb") as lines:
        has_calls = any(b"(" in line for line in islice(lines, 9))  # the first one is that which starts the command, also where that fails
    if status != 0 and not has_calls:  # guard: nobody-may-trace
        raise Missing(NOT_TRACED)
    return status, seconds


def parser_of_words() -> argparse.ArgumentParser:
    """What reads the words of the command line."""
    parser = argparse.ArgumentParser(prog="race-record", usage="race-record [options] -- COMMAND ..", epilog=EXAMPLE,
                                     description="Builds once, and says whether make -j, or ninja, is safe.", formatter_class=argparse.RawDescriptionHelpFormatter)
    parser.add_argument("-o", "--output", default=".race", metavar="DIR", help="the folder of the record (.race)")
    parser.add_argument("--race", metavar="PROGRAM", help="the program race (else $RACE, the checkout's, or the one on PATH)")
    parser.add_argument("--top", action="append", default=[], metavar="DIR", help="another folder that the build works in, such as its sources; may be repeated")
    parser.add_argument("--warm", action="store_true", help="builds start from this tree, though some of what they make is there already; "
                        "without a command: the same of the record that is there")
    parser.add_argument("--fresh", action="store_true", help="record a clean tree in the place of the project: what git tracks, or what make clean leaves")
    parser.add_argument("--from", dest="archive", metavar="FILE", help="with --fresh: the tree that this archive holds")
    parser.add_argument("--setup", default="", metavar="COMMAND", help="with --fresh: what comes between the tree and the build, such as ./configure; it is recorded too")
    parser.add_argument("--keep-trace", action="store_true", help="keep the trace in the record")
    parser.add_argument("--footprints", action="store_true", help="keep a listing and footprints of each build, for race check --makefile")
    parser.add_argument("--strict", action="store_true", help="no yes where something is taken for granted that builds in other orders could try out")
    parser.add_argument("--orders", type=builds, default=MOST, metavar="N", help="at most N builds in other orders (%d), in copies: what they leave otherwise is a race" % MOST)
    parser.add_argument("--once", dest="orders", action="store_const", const=0, help="build once, and try no other order: a yes takes for granted what that would show")
    parser.add_argument("--missing", action="store_true", help="report missing inputs too: files whose edit does not make a target again")
    parser.add_argument("-V", "--version", action="version", version="%(prog)s " + RELEASE, help="print the version")
    parser.add_argument("words", nargs=argparse.REMAINDER, metavar="-- COMMAND ..", help="what builds the project")
    # The first tree, where --fresh made it; where recipes wait in another order; processes that are held at their end; seconds and builds of the former record; the
    # number of the processor that strace and the build begin on.
    parser.set_defaults(tree=None, gate="", held=(), expected=0.0, made=0, processor=os.getpid())
    return parser


def builds(word: str) -> int:
    """How many builds there may be; at least one."""
    if not word.isdecimal() or int(word) == 0:
        raise argparse.ArgumentTypeError("%r is no number of builds" % word)
    return int(word)


def parse(args: List[str]) -> argparse.Namespace:
    """The words of the command line."""
    parser = parser_of_words()
    found, unknown = parser.parse_known_args(args)
    if unknown:
        parser.error("no option of race-record: %s; what belongs to the build stands behind --, such as race-record -- make -j4" % " ".join(unknown))
    if found.words[:1] == ["--"]:
        found.words = found.words[1:]
    if (found.setup or found.archive) and not found.fresh:
        parser.error("--setup and --from say what a clean tree is: they stand with --fresh")
    if not found.words and not found.warm:
        parser.error("which command builds the project? It stands behind --, such as make: race-record -- make")
    return found


def judge_record(out: Path, race: str) -> Tuple[int, List[Judged]]:
    """Asks `race` about each build of a record, several at once, and takes in what other orders came to; the worst status."""
    record = read_json(out / "record.json")
    orders = record.get("orders")

    def judge_build(number: str) -> Judged:
        folder = out / "builds" / number
        about = read_json(folder / "build.json")
        return Judged(number, about, tried(orders, number, about["folder"], judge(race, folder / "tasks", about["folder"])), orders)

    with ThreadPoolExecutor(ASKED) as pool:
        judged = list(pool.map(judge_build, record["builds"]))
    if record["holes"] or any(j.verdict.status not in (0, 1) for j in judged):  # guard: no-yes
        return 2, judged
    return int(any(j.verdict.races for j in judged) or bool(whatever(orders))), judged


def attempt(options: argparse.Namespace, words: List[str], tools: Dict[str, str], out: Path, may_undo: bool = False) -> Tuple[Record, bool]:
    """One recorded build, and whether it failed in a way that another may not, and was undone."""
    real, folder = shutil.which("make") or "make", os.path.realpath(".")
    before, after = (machine.Answers(), machine.Answers()) if options.keep_trace else (None, None)
    with machine.answering(before):
        names, kept = first_tree(tops_of(words, options.top), options.tree.linked)
    rooms = room_of_programs(names.tops)
    room = Path(tempfile.mkdtemp(prefix="race-record-", dir=rooms))
    spool, watch = Path(os.path.realpath(room)), Watch(os.path.dirname(options.gate) or rooms, options.gate, is_many=True)
    try:
        watch.prepare(makes_of(os.environ.get("PATH", os.defpath)))
        status, seconds = run_build(prepared(options) + words, spool, names.tops, watch, Processor(options.processor, tools["strace"]), options.expected)
        record, facts = Record(options.words, folder, status, round(seconds, 2), dict(tools), first=options.tree), Facts(spool, str(spool), real, names, kept, watch.said, str(watch.said), list(watch.covered))
        from record.importing import complete  # it was loaded while the build ran
        with machine.answering(after):
            found = complete(record, facts, out, options)
        if before is not None and after is not None:
            facts.keep(record, options, before, after, out / "trace")
        if status != 1 or not any(stage.jobs for ninja in found.ninjas for stage in ninja.stages):
            return record, False
        record.hints += hints(found.ninjas, names)
        changed = undo(names, found.lives, kept) if may_undo else []
        record.notes += ["the build that failed changed %s, so it is not recorded again" % path for path in changed]
        return record, may_undo and not changed
    finally:
        shutil.rmtree(room, ignore_errors=True)
        watch.remove()


def record_in_order(options: argparse.Namespace, tools: Dict[str, str], place: Path, plan: Plan) -> int:
    """Records a build in a copy, whose recipes wait at a gate in its folder, or whose processes are held at their end; its status."""
    words, env = with_many(options.words, os.environ, plan.jobs)
    os.environ.update(env)
    own = argparse.Namespace(**{**vars(options), "expected": 0.0, "held": plan.ends, "waited": place / WAITED, "processor": options.processor + plan.processor})
    if not plan.ends:
        own.gate, own.missing, own.footprints, own.keep_trace = str(place / "gate"), False, False, False
    record = attempt(own, words, tools, place / "record")[0]
    (place / "kept").write_bytes(pickle.dumps(record))
    return record.status


def record_all(options: argparse.Namespace, tools: Dict[str, str], out: Path, race: str) -> Record:
    """The record, and what other orders came to."""
    options.tree = options.tree or tree_of(os.path.realpath("."))
    tops = tops_of(options.words, options.top)
    rooms = room_of_programs(tops)
    with ExitStack() as stack:
        room, running, notes = None, None, list[str]()
        try:
            if options.orders:
                room = stack.enter_context(new_room(tops, prepared(options), options.words, os.path.realpath(out), rooms, partial(record_in_order, options, tools)))
                running = stack.enter_context(beside(room, options.expected, options.made))
        except CannotTry as fault:
            notes.append(NOT_TRIED % fault)
        record = record_serial(options, tools, out)
        record.notes += notes
        if room is not None and running is not None and record.status == 0 and not record.holes and (not record.warm or options.warm):
            record = try_out(room, running, record, out, race, options.orders)
        if record.status == 0 and (record.orders is None or record.orders["untried"]):
            record.assume("orders", *Graph(out).free_pairs())
        rewrite(out, record)
    return record


def try_out(room: Room, running: Running, record: Record, out: Path, race: str, most: int) -> Record:
    """The record that counts, with what builds in copies came to: in other orders, and meanwhile those in which processes are held."""
    def explored(one: Record) -> None:
        try:
            one.try_out(explore(room, one, out, race, most, running))
        except CannotTry as fault:
            one.notes.append(NOT_TRIED % fault)

    room.bound(record.seconds)
    try:
        found = try_waits(room, record, out, race, most, partial(explored, record))
    except CannotTry as fault:
        record.notes.append(NOT_TRIED % fault)
        return record
    if found is not record:
        explored(found)
    return found


def prepared(options: argparse.Namespace) -> List[str]:
    """The words of a command that runs what comes before the build, and then here the words behind them."""
    return ["sh", "-c", options.setup + SETUP, "sh", os.getcwd()] if options.setup else []  # guard: where-setup-goes


def record_serial(options: argparse.Namespace, tools: Dict[str, str], out: Path) -> Record:
    """The record: of the serial build, or, where ninja failed in it, of one with several commands at once."""
    serial = with_jobs(options.words, 1)
    record, is_again = attempt(options, serial, tools, out, serial != options.words)
    found, number = record.hints, 0
    while is_again:
        number += 1
        shutil.rmtree(out)  # the build does not see it
        say("race-record: the serial build failed; recording again with -j%d (%d of %d)" % (JOBS, number, TRIES))
        record, is_again = attempt(options, with_jobs(options.words, JOBS), tools, out, number < TRIES)  # guard: last-build-stays
        record.notes.append(SERIAL_FAILED + "; this is build %d with -j%d" % (number, JOBS))
    record.hints = found or record.hints or ([by_hand(options.words)] if record.status != 0 else [])  # guard: hint-where-no-better-one-is-known
    rewrite(out, record)
    return record


def run(options: argparse.Namespace) -> int:
    """Records, writes, asks, reports."""
    race = find_race(options.race)
    if race is None:
        raise Missing(no_race(options.race))
    tools, out = versions(), Path(options.output).absolute()
    if holds_other(out):
        raise Missing("%s is there and is no record: nothing there was changed; name another folder by -o" % out)
    if not options.words:
        return judge_warm(out, race)
    word = options.words[0]
    if shutil.which(word) is None:
        raise Missing(ABSENT % (word, PACKAGES[word]) if word in PACKAGES else NO_COMMAND % word)
    refuse_silent(word)
    with alone(out):
        return record_and_judge(options, tools, out, race)


def record_and_judge(options: argparse.Namespace, tools: Dict[str, str], out: Path, race: str) -> int:
    """Records in the place of an older record, and judges. Where nothing was to be done, the older one stays."""
    options.expected, options.made = former(out)
    with aside(out) as has_older:
        record = record_fresh(options, out, lambda place: record_all(options, tools, place, race)) if options.fresh else record_all(options, tools, out, race)
        if has_older and import_module("record.importing").IDLE in record.holes:
            raise Idle(*record.holes)
    if options.strict:
        record.bar(UNTRIED)
        rewrite(out, record)
    ended, judged = judge_record(out, race)
    if ended == 0 and record.warm and not options.warm:  # guard: ninja-warm-no-yes
        ended = 2
        record.holes.append(WARM_FRESH if options.fresh else WARM % (" --setup ./configure" if record.configured else "", shlex.join(options.words)))
        rewrite(out, record)
    return answer(out, race, ended, judged, options.missing)


def judge_warm(out: Path, race: str) -> int:
    """The verdict on a record that is there, about builds that start from its tree."""
    if not out.exists():
        raise Missing("there is no record in %s: which command builds the project? (race-record --warm -- make)" % out)
    with reading(out):
        record = read_json(out / "record.json")
        if record.get("version") != VERSION:
            raise Missing("%s is of another version of race-record: record again" % out)
        for number in record["builds"]:
            read_json(out / "builds" / number / "build.json")
        accept_warm(out, record)  # from here on it is changed
        return answer(out, race, *judge_record(out, race), record.get("missing") is not None)


def answer(out: Path, race: str, ended: int, judged: List[Judged], is_missing: bool) -> int:
    """Prints what is known of a record; the status."""
    colour = colours()
    print(printable("\n".join(report(read_json(out / "record.json"), judged, out)), bool(colour.end)))
    if not is_missing:
        return ended
    from record.missing.report import Question, missing_text
    question = Question.of(out, race)
    print(printable("\n" + "\n".join(missing_text(question, colour)), bool(colour.end)))
    return 2 if 2 in (ended, question.status()) else max(ended, question.status())


def main(args: Optional[List[str]] = None) -> int:
    """The program."""
    try:
        options = parse(sys.argv[1:] if args is None else args)
    except SystemExit as ended:
        return 3 if ended.code else 0
    try:
        return run(options)
    except Idle as idle:
        print("\n".join(["NO VERDICT", *("  - %s" % why for why in idle.args), "  the record that was in %s stays: race-report shows it" % Path(options.output).absolute()]))
        return 2
    except (CannotClean, CannotTry, Missing, NotBuilt, NotWhole) as fault:
        say("race-record: %s" % fault)
        return 3
