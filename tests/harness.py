"""What the scripts beside this file share: the cases, runs of the built program under faults, and the counting.

A check is a function of a Runner and of what it is about; it yields a line for each thing that is wrong. Checks are
spread over as many processes as there are processors.
"""
import argparse
import atexit
import collections
import importlib.machinery
import importlib.util
import mmap
import os
import pathlib
import re
import resource
import shutil
import signal
import struct
import subprocess
import sys
import tempfile
import time
from concurrent.futures import ProcessPoolExecutor

sys.dont_write_bytecode = True
HERE = pathlib.Path(__file__).resolve().parent
TOP = HERE.parent
# The worked builds that are looked at as closely as the examples.
NAMED = """
    cases/graph/two-objects-order cases/graph/missing-header-order cases/graph/three-name-cycle
    cases/footprints/second-output-replay cases/limits/largest-expansion cases/inference/suffix-first-in-list
    cases/text/continued-lines cases/macros/late-macro-change
    cases/schedules/header-first-run cases/schedules/object-first-run cases/schedules/equal-times-with-tie
    cases/schedules/equal-times-without-tie cases/schedules/interleaved-run-of-two-objects
    cases/proofs/certificates/two-objects cases/proofs/certificates/chain-through-a-plain-target
    cases/proofs/certificates/shared-folder cases/proofs/traces/generated-header cases/proofs/traces/shared-folder
    cases/check/safe/short cases/check/proofs/short cases/proofs/certificates/short cases/proofs/certificates/short-without-a-neighbour
    cases/list/three-of-one-temporary cases/list/no-race
    cases/fix/three-of-one-temporary cases/fix/nothing-to-fix cases/fix/made-by-default
    cases/fix/inferred-target-found-by-another-rule cases/fix/name-that-is-no-word cases/fix/forgotten-header-proof
    cases/serialise/interleaved-run cases/serialise/race cases/serialise/no-files cases/serialise/times-with-just-room
    cases/tasks/check/safe cases/tasks/check/race cases/tasks/check/print-certificate cases/tasks/list/races
    cases/tasks/fix/lines cases/tasks/fix/nothing-to-fix cases/tasks/fix/print-certificate
    cases/tasks/verify/certificate cases/tasks/check/short cases/tasks/faults/label-twice
    cases/unused/check-notes cases/unused/check-is-strict cases/unused/verify-notes cases/unused/replay-notes
""".split()
PROCESSES = len(os.sched_getaffinity(0))
# A run that takes more seconds of a processor is ended.
SECONDS = 30
MARKS = struct.Struct("6Q")
STATUS = struct.Struct("i")
MARKS_BYTES = 8192
KINDS = ("memory", "open", "read", "write")
OUT_OF_MEMORY = b"race: out of memory\n"
NOTE = re.compile(rb"race: note: nothing makes \S+ here, though its footprint says what its recipe does \((1 such target|([2-9]|[1-9]\d+) such targets)\); see --base\n")
LINE = re.compile(rb".+: .+ \(race-explain (F\d+)\)\n")

Run = collections.namedtuple("Run", "status stdout stderr calls met changing what")


def load_test():
    """The test command of the repository as a module: it knows what a case is."""
    loader = importlib.machinery.SourceFileLoader("race_test", str(TOP / "test"))
    module = importlib.util.module_from_spec(importlib.util.spec_from_loader("race_test", loader))
    loader.exec_module(module)
    return module


test = load_test()


def outcome(ran):
    """What a person sees of a run; of a refusal without the line that says it in words, which has to name its fault."""
    if not is_refusal(ran):
        return ran.status, ran.stdout, ran.stderr
    said = LINE.match(ran.stderr)
    is_named = said and said[1] == ran.stdout.split()[1]
    return ran.status, ran.stdout, ran.stderr[said.end() :] if is_named else b"not in words: " + ran.stderr


def seen(ran):
    """A run in few words, for a failure."""
    if ran.status < 0:
        return f"ended by {signal.Signals(-ran.status).name}"
    return f"status {ran.status}, output {test.shown(ran.stdout[:80])}, errors {test.shown(ran.stderr[:80])}"


def notes_no_more(words, ran):
    """Whether standard error has nothing, or the note of footprints that lie unused where these words may have one."""
    noting = words[0] != "order" and not {"--tasks", "--strict"} & set(words)
    errors = outcome(ran)[2]
    return not errors or noting and bool(NOTE.fullmatch(errors))


def is_refusal(ran):
    """Whether standard output reports a fault of the input, in the form of a refusal and with its status."""
    lines = ran.stdout.split(b"\n")
    whole = lines[0] == b"refused" and lines[-1] == b"" and len(lines) >= 4
    return ran.status == 2 and whole and lines[1][:1] == b"F" and lines[2][:3] == b"at "


def bound_time(process):
    """A run that takes too long is ended; what a process forks later has the same bound."""
    try:
        resource.prlimit(process, resource.RLIMIT_CPU, (SECONDS, SECONDS))
    except ProcessLookupError:
        pass


class Server:
    """The program with its words, started once: the library forks a child for each run (tests/refuse.c says how)."""

    # The descriptors of the two pipes in the program, and the bytes in which it is asked.
    ASKS, ANSWERS, ASKED = 100, 101, 256

    def __init__(self, program, words, places, env):
        asks, self.asking = os.pipe()
        self.answering, answers = os.pipe()
        places = [*places, (os.POSIX_SPAWN_DUP2, asks, self.ASKS), (os.POSIX_SPAWN_DUP2, answers, self.ANSWERS)]
        env = {**env, "RACE_SERVES": f"{self.ASKS} {self.ANSWERS}"}
        self.process = os.posix_spawn(program, [program, *words], env, file_actions=places)
        bound_time(self.process)
        os.close(asks)
        os.close(answers)

    def run(self, faults):
        """One run, and its status as `os.wait` gives it."""
        os.write(self.asking, faults.encode().ljust(self.ASKED, b"\0"))
        answer = os.read(self.answering, STATUS.size)
        if len(answer) < STATUS.size:
            raise RuntimeError("the library ended before it answered")
        return STATUS.unpack(answer)[0]

    def end(self):
        os.close(self.asking)
        os.close(self.answering)
        os.waitpid(self.process, 0)


class Runner:
    """Runs the program, one run at a time, with its outputs in files."""

    def __init__(self, program, library):
        self.program, self.library = str(program), str(library)
        # (in memory, where there is such a folder)
        self.folder = pathlib.Path(tempfile.mkdtemp(prefix="race-tests-", dir="/dev/shm" if os.path.isdir("/dev/shm") else None))
        atexit.register(shutil.rmtree, self.folder, True)
        atexit.register(self.end_server)
        (self.folder / "marks").write_bytes(bytes(MARKS_BYTES))
        with open(self.folder / "marks", "r+b") as file:
            self.marks = mmap.mmap(file.fileno(), MARKS_BYTES)
        self.streams = [os.open(self.folder / name, os.O_RDWR | os.O_CREAT, 0o600) for name in ("out", "err")]
        self.runs = 0
        self.server = self.served = None

    def run(self, words, faults=None, stdout=None):
        """One run; under the library where faults are given, an empty text for none, and then as a child of a program that
        is already running. Without faults the program is started from its file, and its output goes to that descriptor."""
        self.runs += 1
        self.marks[:] = bytes(MARKS_BYTES)
        for stream in self.streams:
            os.ftruncate(stream, 0)
            os.lseek(stream, 0, os.SEEK_SET)
        status = self.start(words, stdout) if faults is None else self.served_by(words).run(faults)
        status = os.waitstatus_to_exitcode(status)
        out, err = (os.pread(stream, os.fstat(stream).st_size, 0) for stream in self.streams)
        *calls, met, changing = MARKS.unpack_from(self.marks)
        what = self.marks[MARKS.size:].split(b"\0", 1)[0]
        return Run(status, out, err, dict(zip(KINDS, calls)), met, changing, os.fsdecode(what))

    def places(self, stdout):
        """What the three standard streams of a run are."""
        output = self.streams[0] if stdout is None else stdout
        files = [(os.POSIX_SPAWN_DUP2, output, 1), (os.POSIX_SPAWN_DUP2, self.streams[1], 2)]
        return [(os.POSIX_SPAWN_OPEN, 0, os.devnull, os.O_RDONLY, 0), *files]

    def start(self, words, stdout):
        """A run from the program's file, to its end."""
        process = os.posix_spawn(self.program, [self.program, *words], {}, file_actions=self.places(stdout))
        bound_time(process)
        return os.waitpid(process, 0)[1]

    def served_by(self, words):
        """The program that waits with these words: the one of the last run, or another in its place."""
        served = [os.getcwd(), *words]
        if self.served != served:
            self.end_server()
            env = {"LD_PRELOAD": self.library, "RACE_MARKS": str(self.folder / "marks")}
            self.server, self.served = Server(self.program, words, self.places(None), env), served
        return self.server

    def end_server(self):
        if self.server:
            self.server.end()
        self.server = self.served = None

    def write(self, name, content):
        """A file in the runner's folder, and its path."""
        path = self.folder / name
        path.write_bytes(content)
        return str(path)


class Words(list):
    """The words of a run, with absolute paths; `folder` is where it runs, from which a file of includes names its files."""


def rooms(case, folder):
    """The words of a case, and its inputs made where they are not kept."""
    place = case.folder
    if case.has("make-input"):
        place = pathlib.Path(folder) / case.name
        shutil.copytree(case.folder, place)
        subprocess.run([sys.executable, str(place / "make-input"), str(place)], check=True)
    place = (place / (case.read("run-in") or b"").decode().strip()).resolve()
    words = Words(test.absolute(case.words(), place))
    words.folder = place
    return words


def turns(count, most):
    """Which of `count` calls are tried: all, or `most` of them, spread evenly, with the first and the last."""
    if count <= most:
        return range(1, count + 1)
    return sorted({1 + i * (count - 1) // (most - 1) for i in range(most)})


def sources_of(words, path):
    """The inputs that a path stands for among the words, as the program names them. A file that no word names is an include."""
    path, options = os.path.realpath(path), zip(words, words[1:])
    named = {it[2:] for it, word in options if it in test.FILE_OPTIONS and os.path.realpath(word) == path}
    included = "--includes" in words and named <= {"includes"}
    return named - {"includes"} | ({"include"} if included else set())


def arguments(doc):
    parser = argparse.ArgumentParser(description=doc, formatter_class=argparse.RawDescriptionHelpFormatter)
    parser.add_argument("program", type=pathlib.Path, help="the built program")
    parser.add_argument("--case", action="append", metavar="NAME", help="a case or a folder of cases alone; may be repeated")
    parser.add_argument("-v", action="store_true", help="print each check with its runs")
    args = parser.parse_args()
    args.program = args.program.resolve()
    if not os.access(args.program, os.X_OK):
        sys.exit(f"{sys.argv[0]}: there is no program {args.program}")
    return args


def chosen(args):
    """The cases of the arguments; those of the examples and the named ones first."""
    cases = [it for it in test.chosen(args.case) if not it.has("full-output")]
    known = {it.name for it in test.all_cases()}
    lost = [it for it in NAMED if it not in known]
    if lost:
        sys.exit(f"{sys.argv[0]}: no case {' '.join(lost)}")
    return sorted(cases, key=lambda it: not is_close(it))


def is_close(case):
    return case.name.startswith("examples/") or case.name in NAMED


RUNNER = None


def start_worker(*how):
    global RUNNER
    RUNNER = Runner(*how)


def do_check(job):
    title, check, what = job
    before = RUNNER.runs
    # (an include file is named from where a run stands)
    os.chdir(next((it.folder for it in what if isinstance(it, Words)), RUNNER.folder) if what else TOP)
    try:
        wrong = list(check(RUNNER, *what))
    except Exception as error:
        wrong = [f"the check itself failed: {error!r}"]
    return title, wrong, RUNNER.runs - before


def judge(args, jobs, what):
    """Does all checks, prints what is wrong, and ends with the counts. A job is a title, a check and what it is about."""
    begin = time.perf_counter()
    failed = runs = 0
    with tempfile.TemporaryDirectory(prefix="race-tests-") as folder:
        library = pathlib.Path(folder) / "refuse.so"
        subprocess.run([os.environ.get("CC", "cc"), "-O2", "-shared", "-fPIC", "-o", library, HERE / "refuse.c"], check=True)
        with ProcessPoolExecutor(PROCESSES, initializer=start_worker, initargs=(args.program, library)) as pool:
            for title, wrong, count in pool.map(do_check, jobs, chunksize=1):
                runs += count
                failed += bool(wrong)
                if wrong:
                    more = f" (and {len(wrong) - 3} more)" if len(wrong) > 3 else ""
                    print(f"FAIL {title}: {'; '.join(wrong[:3])}{more}", flush=True)
                elif args.v:
                    print(f"pass {title}: {count} runs", flush=True)
    print(f"{what}: {runs} runs in {time.perf_counter() - begin:.0f} seconds")
    print(f"{len(jobs) - failed} passed, {failed} failed")
    return 1 if failed else 0
