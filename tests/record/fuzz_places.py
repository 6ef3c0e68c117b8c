"""Places of a build for the fuzzer: what stands on its descriptors, its environment, its folder, its limits and its user.

A place is the same for all builds of a project. Where a build has one, its outputs are compared too, byte for byte.
"""

import fcntl
import os
import random
import shlex
import shutil
import signal
import socket
import subprocess
import termios
import threading
import time
import tty
from contextlib import ExitStack, suppress
from dataclasses import dataclass, field
from pathlib import Path
from typing import IO, Dict, List, Mapping, Optional, Tuple, Union

INPUTS = ("nothing", "file", "text", "open", "socket", "closed", "terminal")
ENDLESS = ("open", "terminal")  # who reads there waits
OUTPUTS = ("apart", "apart", "joined", "files", "no errors", "no output", "terminal")
LIMITS = ("-s 256", "-s unlimited", "-f 200000", "-c 0", "-c unlimited", "-t 600", "-p 600", "-l 64", "-r 0")
# How the command is called: words before it, and what a caller such as cron sets.
CALLS = ("sh -c '\"$@\"' sh", "env", "timeout 100", "bash -c '\"$@\"; exit $?' bash", "sh -c '\"$@\" | cat' sh", "sh -c '\"$@\" & wait $!' sh", "xargs -a /dev/null", "nohup", "stdbuf -oL")
OURS = ("N", "J", "RACE")  # of the fuzzer
CRON = {"PATH": "/usr/bin:/bin", "SHELL": "/bin/sh", "LOGNAME": "x"}
USER = 1000
TEXT = b"one\ntwo\n"
FLAGS = (
    "k", "r", "R", "rR", "w", "s", "S", "e", "i", "L", "B", "n", "q", "t", "p", "d", " -k", "-j3", "-j", "k -j2", "-l 8", "-Ip", "--output-sync", "-Otarget -j2", "-Orecurse",
    "--no-print-directory", "--warn-undefined-variables", "--trace", "--debug=b", "V=flags", "k -- V=flags", "-- V=a\\ b", "--eval=V=eval", "w -- V=$$(V)",
)
LATER_FLAGS = ("--shuffle=reverse", "--shuffle=7", "--no-silent", "-j2 --shuffle=7", "--jobserver-style=pipe")  # of GNU make 4.4
VALUES = ("env", "", " ", "a\nb", "\udcff\udcfe", "a\n\n# Finished Make data base on Monday\n\nb: c\n", "$(shell echo s)", "$", "#x", "a\\", "\t", "a'b", 'a"b', "ü", "a\n# Files\n\nt0: src9\n", "\x1b[1m")
# Variables, and what they may say; None: they are not set. A sign `@` stands for the usual value.
VARIABLES: Dict[str, Tuple[Optional[str], ...]] = {
    "MAKEFLAGS": FLAGS, "GNUMAKEFLAGS": FLAGS, "MFLAGS": ("-k", "-j3"), "MAKEFILES": ("extra.mk", "none.mk p/extra.mk", "p"), "MAKE_RESTARTS": ("1",), "MAKE_TERMOUT": ("/dev/pts/9",),
    "MAKELEVEL": ("0", "3", "x"), "CDPATH": ("p", ".:p", "/"), "SHELL": ("/bin/bash", "/none"), "MAKESHELL": ("/none",), "LC_ALL": ("C", "POSIX", "C.UTF-8", "de_DE.UTF-8", "xx"),
    "LANG": (None, "fr_FR.UTF-8", "C"), "LANGUAGE": ("de",), "LC_CTYPE": ("C.UTF-8", "C", "xx"), "LC_MESSAGES": ("de_DE.UTF-8",), "TMPDIR": (None, "", "tmp", "p", "/none", ".", "/dev/null", "/proc", "a b"), "HOME": (None, "", "p"), "PATH": (".:@", "@:", ":@", "@:p", "p:@", "@:@", ":/none" * 3000 + ":@", "./p/..:@:", "@:/none/make"), "TZ": ("", "Asia/Tokyo", ":x"),
    "CFLAGS": VALUES, "V": VALUES, "BASH_FUNC_f%%": ("() { echo f; }", "() { echo f\n echo g; }"), "odd.name": VALUES, "a b": ("c",), "VPATH": ("p", "v:p"), "MAKE": ("gmake", "none"), "MAKECMDGOALS": ("t1",),
    "MAKEOVERRIDES": ("V=over",), "CURDIR": ("/",), "PWD": ("/none", "p", None), "POSIXLY_CORRECT": ("1",), "LD_LIBRARY_PATH": ("p",), "BASH_ENV": ("p/extra.mk",), "ENV": ("p/extra.mk",), "IFS": ("x",), "TERM": (None, "dumb"),
    "PYTHONPATH": (".", "p"), "PYTHONIOENCODING": ("ascii", "utf-16"), "PYTHONUTF8": ("0",), "PYTHONWARNINGS": ("error", "always"), "PYTHONUNBUFFERED": ("1",), "COLUMNS": ("9",), "SUFFIXES": (".x",), "NO_COLOR": ("1",),
}
FOLDERS = ("project", "a b", "ü", "\udcff", "-d", "d.", "a'b", "a$b", "a:b", "a#b", "a%b", "a=b", "a\\b", "x\ty", "*", "~")


@dataclass
class Place:
    """Where and how a build runs."""

    stdin: str = "nothing"
    outputs: str = "apart"
    open: List[int] = field(default_factory=list)  # a file is open there
    env: Dict[str, Optional[str]] = field(default_factory=dict)
    folder: str = "project"
    linked: bool = False  # a symbolic link leads to the folder
    mask: Optional[int] = None
    nice: int = 0
    files: int = 0  # so many may be open at once; 0: as many as usual
    user: int = 0  # who builds; 0: who runs the fuzzer
    ignored: List[str] = field(default_factory=list)  # signals that are ignored when it begins
    above: bool = False  # nobody may write to `s`, a folder of sources
    limits: List[str] = field(default_factory=list)  # words of ulimit
    call: str = ""  # who calls the build
    bare: bool = False  # the environment is what cron sets, and what is drawn

    def environment(self, usual: Mapping[str, str]) -> Dict[str, str]:
        """The usual environment with what is drawn."""
        usual = {**CRON, **{name: text for name, text in usual.items() if name in OURS}} if self.bare else usual
        found = {name: text for name, text in usual.items() if self.env.get(name, "") is not None}
        found.update({name: text.replace("@", usual.get(name, "")) if name == "PATH" else text for name, text in self.env.items() if text is not None})
        return found

    def has_jobs(self) -> bool:
        """Whether the environment asks for several jobs."""
        return any("-j" in (self.env.get(name) or "") for name in ("MAKEFLAGS", "GNUMAKEFLAGS"))

    def script(self, log: str) -> str:
        """What a shell does before it becomes the build."""
        steps = ["umask %03o" % (self.mask or 0)] * (self.mask is not None) + ["ulimit -n %d" % self.files] * bool(self.files) + ["ulimit " + one for one in self.limits]
        trapped = [one for one in self.ignored if one != "CHLD"]
        steps += ["trap '' %s" % " ".join(trapped)] * bool(trapped)
        words = ["env", "--ignore-signal=CHLD"] * ("CHLD" in self.ignored)  # a shell hears it
        words += ["nice", "-n", str(self.nice)] * bool(self.nice) + ["setpriv", "--reuid=%d" % self.user, "--regid=%d" % self.user, "--clear-groups"] * bool(self.user)
        ends = ["%d>>%s" % (number, shlex.quote(log)) for number in self.open]
        ends += ["<&-"] * (self.stdin == "closed") + ["2>&-"] * (self.outputs == "no errors")
        return "; ".join([*steps, " ".join(["exec", *words, '"$@"', *ends])])

    def command(self, words: List[str]) -> List[str]:
        """The command that is built, and recorded: one whose output is closed needs a shell, as the recorder prints its answer there.
        A pipe is closed at its beginning: `cat` cannot write to a closed output, and ends, so how far make comes would depend on the time."""
        closed = ["sh", "-c", 'exec "$@" >&-', "sh"] if self.outputs == "no output" else []
        caller = shlex.split(self.call)
        return [*caller, *closed, *words] if "|" in self.call else [*closed, *caller, *words]

    def own(self, room: Path, folder: Path) -> None:
        """Gives the tree to who builds it."""
        if self.user:
            room.chmod(0o755)
            for path, folders, files in os.walk(room):
                for name in (".", *folders, *files):
                    os.chown(os.path.join(path, name), self.user, self.user, follow_symlinks=False)
        if self.above and (folder / "s").is_dir():
            (folder / "s").chmod(0o555)

    def path(self, room: Path) -> Path:
        """The path by which the folder is entered."""
        folder = room / self.folder
        link = room / "link"
        if self.linked and not link.is_symlink():
            link.symlink_to(self.folder)
        return link if self.linked else folder


class Ran:
    """A build that runs in a place: what it writes is read while it does."""

    def __init__(self, place: Place, words: List[str], room: Path, env: Mapping[str, str]) -> None:
        self.place, self.stack, self.texts = place, ExitStack(), {1: b"", 2: b""}
        self.readers: List[threading.Thread] = []
        self.files: Dict[int, Path] = {}
        self.lent: List[int] = []  # descriptors that the build alone keeps
        script = place.script(str(room / "log"))
        enters = place.stdin == "terminal"
        self.process = subprocess.Popen(
            ["sh", "-c", script, "sh", *words], cwd=place.path(room), env=place.environment(env), stdin=self.input(room), stdout=self.output(room, 1), start_new_session=True,
            stderr=subprocess.STDOUT if place.outputs in ("joined", "terminal") else self.output(room, 2), preexec_fn=take_terminal if enters else None)
        self.pid = self.process.pid
        for number in self.lent:
            os.close(number)
        for number, stream in ((1, self.process.stdout), (2, self.process.stderr)):
            if stream is not None:
                self.start(number, stream)

    def start(self, number: int, stream: IO[bytes]) -> None:
        """Reads a stream from now on."""
        self.readers.append(threading.Thread(target=self.read, args=(number, stream)))
        self.readers[-1].start()

    def read(self, number: int, stream: IO[bytes]) -> None:
        """All that is written to a stream; a terminal that nobody has open any more fails."""
        with stream, suppress(OSError):
            data = os.read(stream.fileno(), 65536)
            while data:
                self.texts[number] += data
                data = os.read(stream.fileno(), 65536)

    def input(self, room: Path) -> int:
        """What stands on standard input."""
        kind = self.place.stdin
        if kind in ("nothing", "closed"):
            return subprocess.DEVNULL
        if kind == "file":
            (room / "input").write_bytes(TEXT)
            return self.kept(os.open(room / "input", os.O_RDONLY))
        if kind == "terminal":
            above, below = os.openpty()
            self.kept(above)
            return self.kept(below)
        if kind == "socket":
            one, two = socket.socketpair()
            one.sendall(TEXT)
            one.shutdown(socket.SHUT_WR)
            self.stack.enter_context(one)
            return self.stack.enter_context(two).fileno()
        reading, writing = os.pipe()
        os.write(writing, TEXT)
        if kind == "open":
            self.kept(writing)
        else:
            os.close(writing)
        return self.kept(reading)

    def kept(self, number: int) -> int:
        """A descriptor that is closed when the build has ended."""
        self.stack.callback(os.close, number)
        return number

    def output(self, room: Path, number: int) -> Union[int, IO[bytes]]:
        """Where an output goes."""
        if self.place.outputs == "terminal":
            above, below = os.openpty()
            tty.setraw(below)
            self.lent.append(below)
            self.start(number, open(above, "rb", buffering=0))
            return below
        if self.place.outputs != "files":
            return subprocess.PIPE
        self.files[number] = room / ("output%d" % number)
        return self.stack.enter_context(open(self.files[number], "wb"))

    def wait(self, seconds: float) -> Tuple[int, bytes, bytes]:
        """Its status and outputs, when it has ended; where it does not, it is ended."""
        until = time.monotonic() + seconds
        try:
            with suppress(subprocess.TimeoutExpired):
                self.process.wait(seconds)
                for reader in self.readers:
                    reader.join(max(until - time.monotonic(), 0))
        finally:
            self.end()
        for number, path in self.files.items():
            self.texts[number] = path.read_bytes()
        return self.process.returncode, self.texts[1], self.texts[2]

    def end(self) -> None:
        """Ends what is still in its session, and closes what was opened for it."""
        with suppress(ProcessLookupError):
            os.killpg(self.pid, signal.SIGKILL)
        self.process.wait()
        for reader in self.readers:
            reader.join()
        self.stack.close()


def take_terminal() -> None:
    """Standard input becomes the terminal of the session."""
    fcntl.ioctl(0, termios.TIOCSCTTY, 0)


def can_switch() -> bool:
    """Whether builds can run as another user, who can read the recorder."""
    here = str(Path(__file__).resolve())
    words = ["setpriv", "--reuid=%d" % USER, "--regid=%d" % USER, "--clear-groups", "test", "-r", here]
    return os.geteuid() == 0 and bool(shutil.which("setpriv")) and subprocess.run(words, check=False, stderr=subprocess.DEVNULL).returncode == 0


def has_terminals() -> bool:
    """Whether this system gives terminals; a folder with a system in it may have none."""
    try:
        for number in os.openpty():
            os.close(number)
    except OSError:
        return False
    return True


def draw_place(seed: int, is_later: bool, switches: bool) -> Place:
    """The place of a seed: a few things that are not as usual. `is_later`: for a make from 4.4 on."""
    chance = random.Random("place %d" % seed)

    def seldom(often: float) -> bool:
        return chance.random() < often

    place = Place()
    place.stdin = chance.choice(INPUTS) if seldom(0.6) else "nothing"
    place.stdin = "open" if place.stdin == "terminal" and not has_terminals() else place.stdin
    place.outputs = chance.choice(OUTPUTS) if seldom(0.5) else "apart"
    place.outputs = "joined" if place.outputs == "terminal" and not has_terminals() else place.outputs
    place.open = chance.choice(([3], [9], [3, 9], [3, 4, 5])) if seldom(0.3) else []
    for name in chance.sample(sorted(VARIABLES), chance.choice((0, 1, 1, 2, 3, 4))):
        later = LATER_FLAGS if is_later and name.endswith("MAKEFLAGS") else ()
        place.env[name] = chance.choice((*VARIABLES[name], *later))
    place.folder = chance.choice(FOLDERS) if seldom(0.4) else "project"
    place.linked = seldom(0.2)
    place.mask = chance.choice((0o77, 0o02, 0o27, 0)) if seldom(0.3) else None
    place.nice, place.files = (3 if seldom(0.1) else 0), (64 if seldom(0.15) else 0)
    place.user = USER if switches and seldom(0.2) else 0
    place.ignored = chance.choice((["INT"], ["INT", "QUIT"], ["HUP"], ["TERM", "USR1"], ["CHLD"])) if seldom(0.2) else []
    place.above = seldom(0.2)
    place.limits = chance.sample(LIMITS, chance.choice((1, 2))) if seldom(0.2) else []
    place.call = chance.choice(CALLS) if seldom(0.3) else ""
    place.bare = seldom(0.15)
    return place
