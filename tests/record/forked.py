"""Runs a function in a child of the test process, as a command of its own: the modules that it needs are imported once, for all children.

Such a child has the folder, the streams and the status of a command, and none of the descriptors of its parent.
"""

import contextlib
import io
import os
import runpy
import selectors
import signal
import subprocess
import sys
import time
import traceback
from pathlib import Path
from typing import Any, Callable, Dict, Mapping, NoReturn, Optional, Sequence

Ran = subprocess.CompletedProcess  # what a command left: its status and its streams


def run(work: Callable[[], int], folder: Path, seconds: float) -> "Ran[bytes]":
    """Runs a function that gives a status in a child, and keeps what it writes."""
    sys.stdout.flush()
    sys.stderr.flush()
    out, err = os.pipe(), os.pipe()
    child = os.fork()
    if child == 0:
        be_command(work, folder, out[1], err[1])
    with contextlib.suppress(OSError):  # it may have ended
        os.setpgid(child, child)
    os.close(out[1])
    os.close(err[1])
    try:
        kept = read_all((out[0], err[0]), time.monotonic() + seconds)
    except BaseException as fault:
        os.killpg(child, signal.SIGKILL)
        if isinstance(fault, TimeoutError):
            raise subprocess.TimeoutExpired(str(work), seconds) from None
        raise
    finally:
        os.close(out[0])
        os.close(err[0])
        raw = os.waitpid(child, 0)[1]
    return Ran(str(work), os.waitstatus_to_exitcode(raw), kept[out[0]], kept[err[0]])


def read_all(streams: Sequence[int], until: float) -> Dict[int, bytes]:
    """All that is written to some pipes, until nobody writes to them any more."""
    kept = {stream: bytearray() for stream in streams}
    with selectors.DefaultSelector() as selector:
        for stream in streams:
            selector.register(stream, selectors.EVENT_READ)
        while selector.get_map():
            ready = selector.select(until - time.monotonic())
            if not ready:
                raise TimeoutError
            for key, _ in ready:
                part = os.read(key.fd, 1 << 16)
                kept[key.fd] += part
                if not part:
                    selector.unregister(key.fd)
    return {stream: bytes(text) for stream, text in kept.items()}


def be_command(work: Callable[[], int], folder: Path, out: int, err: int) -> NoReturn:
    """The child: its streams are those of a new command, and it ends with the status of one."""
    status = 1
    try:
        os.setpgid(0, 0)  # so that all that it starts can be stopped with it
        os.dup2(os.open(os.devnull, os.O_RDONLY), 0)
        os.dup2(out, 1)
        os.dup2(err, 2)
        os.closerange(3, 4096)
        os.chdir(folder)
        sys.stdin, sys.stdout, sys.stderr = open(0, closefd=False), stream_of(1), stream_of(2)
        status = work()
        sys.stdout.flush()
    except BaseException:  # nothing that goes on in the child may reach what the parent would do next
        traceback.print_exc()
    finally:
        sys.stderr.flush()
        os._exit(status)


class Counted(io.FileIO):
    """A stream that knows how many bytes went to it."""

    written = 0

    def write(self, data: Any) -> int:
        """Writes some bytes."""
        count = super().write(data) or 0
        self.written += count
        return count


def stream_of(number: int) -> io.TextIOWrapper:
    """Standard output or error, as Python opens it for a new command."""
    usual = sys.__stdout__ if number == 1 else sys.__stderr__
    file = io.BufferedWriter(Counted(number, "w", closefd=False))
    return io.TextIOWrapper(file, usual.encoding, usual.errors, line_buffering=number == 2, write_through="PYTHONUNBUFFERED" in os.environ)


def script(program: Path, args: Sequence[str], env: Optional[Mapping[str, str]] = None) -> Callable[[], int]:
    """What runs a script in Python with these words, and in this environment if there is one; its modules may be there already."""

    def work() -> int:
        sys.argv = [str(program), *args]
        if env is not None:
            os.environ.clear()
            os.environ.update(env)
        try:
            runpy.run_path(str(program), run_name="__main__")
        except SystemExit as ended:
            return ended.code if isinstance(ended.code, int) else 0 if ended.code is None else 1
        return 0

    return work
