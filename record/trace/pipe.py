"""What strace writes, by way of a pipe into a file: strace itself goes on where its file cannot be written, and lines are lost."""

import fcntl
import os
from contextlib import suppress
from pathlib import Path
from typing import IO, Callable, Optional

SIZE, SET_SIZE = 1 << 20, 1031  # bytes of the pipe, and what asks for them
WAIT = 0.01  # seconds until more may be there: strace writes a line at a time, and waking up for each would hold it up


class Pipe:
    """A named pipe in a folder, and the file that is filled from it."""

    def __init__(self, folder: Path) -> None:
        self.path, self.file = folder / "lines", folder / "trace"
        os.mkfifo(self.path)
        self.reading = os.open(self.path, os.O_RDONLY | os.O_NONBLOCK)
        with suppress(OSError):  # it may be as large as it is
            fcntl.fcntl(self.reading, SET_SIZE, SIZE)
        self.file.touch()

    def read(self) -> bytes:
        """What is there now."""
        try:
            return os.read(self.reading, SIZE)
        except BlockingIOError:
            return b""

    def fault_of(self, file: IO[bytes], data: bytes) -> Optional[OSError]:
        """Writes all of some bytes; why it could not."""
        rest = memoryview(data)
        try:
            while rest:
                rest = rest[file.write(rest):]
        except OSError as error:
            return OSError(error.errno, error.strerror, str(self.file))
        return None

    def fill(self, has_ended: Callable[[float], object], seen: Callable[[bytes], object] = lambda data: None) -> None:
        """Fills the file until strace has ended, and hands on what it reads, each time. Where the file cannot be written, the build still goes on to its end,
        and then that is the fault."""
        fault: Optional[OSError] = None
        with open(self.file, "ab", buffering=0) as file:
            while True:
                is_last, data = bool(has_ended(0)), self.read()  # (asked before the read: what is written until then is read)
                seen(data)  # guard: said
                if data:
                    fault = fault or self.fault_of(file, data)
                elif is_last:
                    break
                else:
                    has_ended(WAIT)
        os.close(self.reading)
        self.path.unlink()
        if fault is not None:
            raise fault
