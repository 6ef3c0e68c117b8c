"""How race-record and its companions begin and end: names are UTF-8 whatever the locale is, and an end without an answer is status 3.

Python itself would end with 1 where it breaks, which says races.
"""

import io
import os
import signal
import subprocess
import sys
import time
import traceback
from contextlib import contextmanager, suppress
from importlib import import_module
from pathlib import Path
from typing import Callable, ContextManager, Dict, Iterable, Iterator, List, Set

from record.messages import reason, say

STOPPING = (signal.SIGINT, signal.SIGTERM, signal.SIGHUP, signal.SIGQUIT, signal.SIGALRM, signal.SIGUSR1, signal.SIGUSR2, signal.SIGXCPU)  # the last ones by batch systems  # guard: key-that-quits
UNHEARD: List[signal.Signals] = []  # what this program hears, and its caller ignores, as a build would
FAILED = 3
COERCED = ("C.UTF-8", "C.utf8", "UTF-8")  # locales that Python sets as it begins
PATIENCE = 10  # so many seconds a build has to end
OF_ITS_OWN = "Nothing of your project or its build is lost. Please report it: the command, and the lines above from Traceback on, which say where it stopped"


class Stopped(KeyboardInterrupt):
    """A signal has come that ends the program; its name."""


def stop(number: int, _: object) -> None:
    """What a signal does: all that is open is closed in order. Those that come later do not stop that."""
    for one in STOPPING:
        signal.signal(one, signal.SIG_IGN)
    raise Stopped(signal.Signals(number).name)


def hear() -> None:
    """Lets signals end the program in order, except those that are ignored for it (`nohup`). Where the end of a child is ignored, its status is lost."""
    if signal.signal(signal.SIGCHLD, signal.SIG_DFL) is signal.SIG_IGN:  # guard: end-of-child
        UNHEARD.append(signal.SIGCHLD)  # guard: end-of-child-as-caller
    for one in STOPPING:
        if signal.getsignal(one) is not signal.SIG_IGN:
            signal.signal(one, stop)


@contextmanager
def masked(how: int, signals: Set[int]) -> Iterator[Set[int]]:
    """Blocks signals, or those alone; gives those that were blocked before, and will be behind it."""
    old: Set[int] = set(signal.pthread_sigmask(how, signals))
    try:
        yield old
    finally:
        signal.pthread_sigmask(signal.SIG_SETMASK, old)


@contextmanager
def in_one_step() -> Iterator[Callable[[], ContextManager[object]]]:
    """Signals that end the program wait until this has ended, except in a `with` of what it gives."""
    with masked(signal.SIG_BLOCK, {*STOPPING}) as old:  # guard: signals-while-folders-move
        yield lambda: masked(signal.SIG_SETMASK, old)


def traced(tracer: int) -> Iterator[int]:
    """The processes that a tracer follows: those whose parents have ended, too."""
    for pid in filter(str.isdigit, os.listdir("/proc")):
        with suppress(OSError):  # it has ended, or is of another user
            if b"\nTracerPid:\t%d\n" % tracer in Path("/proc", pid, "status").read_bytes():
                yield int(pid)


def have_ended(strace: "subprocess.Popen[bytes]", left: Callable[[], Iterable[int]], number: int) -> bool:
    """Sends a signal to all processes of a build, once; whether they end in time. strace may have just begun, and then follows none yet; a signal to all may
    have ended it, and not them. Two looks have to show none: one that becomes another program has no environment for a moment."""
    until, looks, is_sent = time.monotonic() + PATIENCE, 0, False
    while looks < 2 and time.monotonic() < until:  # guard: what-becomes-another-program
        is_over = strace.poll() is not None
        found = [*(left() if is_over else traced(strace.pid))]  # guard: what-strace-followed-and-has-left
        for pid in [] if is_sent else found:
            with suppress(OSError):  # it has ended, or is of another user
                os.kill(pid, number)
        is_sent = is_sent or is_over or bool(found)
        looks = looks + 1 if is_over and not found else 0  # guard: what-strace-has-left-and-lives
        time.sleep(0.02)
    return looks == 2


def end_traced(strace: "subprocess.Popen[bytes]", left: Callable[[], Iterable[int]]) -> None:
    """Ends all processes of a build, and so strace, which hears no signal itself. `left`: those whose tracer has ended before them."""
    if not any(have_ended(strace, left, number) for number in (signal.SIGTERM, signal.SIGKILL)):
        strace.kill()
        strace.wait()


def forget_coerced(environment: Dict[str, str]) -> None:
    """Takes out what Python itself puts there as it begins where the locale is C: programs would count the signs of a text in another way."""
    if environment.get("LC_CTYPE") in COERCED:
        with suppress(OSError):  # there is no /proc, or it is of other processes
            given = [one.partition(b"=")[2] for one in Path("/proc/self/environ").read_bytes().split(b"\0") if one.startswith(b"LC_CTYPE=")]
            del environment["LC_CTYPE"]
            environment.update({"LC_CTYPE": os.fsdecode(value) for value in given[:1]})  # guard: what-locale


def speak_utf8() -> None:
    """Begins again where the locale has another encoding: names in a record are read as UTF-8, and those on the disk must be too. What is
    printed is UTF-8, with escapes for what is none."""
    if sys.getfilesystemencoding().lower().replace("-", "") != "utf8":
        options = ["-B"] if sys.dont_write_bytecode else []
        python = sys.executable or os.path.realpath("/proc/self/exe")  # it does not know its own path where it was started without a PATH
        os.execv(python, [python, *options, "-X", "utf8", *sys.argv])
    for stream in (sys.stdout, sys.stderr):
        if isinstance(stream, io.TextIOWrapper):
            stream.reconfigure(encoding="utf-8", errors="backslashreplace")


def ended(name: str, module: str, without: str) -> int:
    """Runs `main` of a module; the status of the program. `without` says what there is not where it breaks."""
    speak_utf8()
    if sys.stderr is None:  # what is said there is lost, as that of the build, which gets no other file in its place  # guard: closed-errors
        sys.stderr = open(os.devnull, "w", encoding="utf-8")
    if sys.stdout is None:  # another file may then have its number, and nobody would see the answer  # guard: closed-output
        say("%s: its standard output is closed, so %s: leave it open, such as by > /dev/null" % (name, without))
        return FAILED
    try:
        hear()
        status: int = import_module(module).main()
        sys.stdout.flush()
        return status
    except BrokenPipeError:  # who reads the output has ended
        said = "%s: write failed: nobody reads the output any more; %s" % (name, without)
    except OSError as error:
        said = "%s: %s; %s" % (name, reason(error), without)
    except KeyboardInterrupt as signalled:
        said = "%s: stopped by %s; %s" % (name, signalled or "SIGINT", without)
    except MemoryError:
        said = "%s: out of memory; %s" % (name, without)
    except Exception:  # whatever it is, there is no answer
        traceback.print_exc()
        said = "%s: an error of its own stopped it; %s. %s" % (name, without, OF_ITS_OWN)
    say(said)
    for stream in (1, 2):
        os.dup2(os.open(os.devnull, os.O_WRONLY), stream)  # what is left in the buffer may not be writable, and Python would try to write it at its end
    return FAILED
