"""One run of a program: its times, its peak memory and what it printed; what Python takes for the same text; and the tables of the benches."""
from __future__ import annotations

import json
import pathlib
import resource
import shutil
import subprocess
import sys
import tempfile
import time
from dataclasses import dataclass
from typing import Callable

PEER = pathlib.Path(__file__).resolve().parent / "peer"
# Where Debian's packages put the sources of crates.
CRATES = pathlib.Path("/usr/share/cargo/registry")
# A reader of lines of JSON, which keeps nothing: the peer of what reads footprints, tasks or a log.
READ_BY_PYTHON = (sys.executable, "-c", "import json, sys\nfor line in open(sys.argv[1], encoding='utf-8'): json.loads(line)")


@dataclass(frozen=True)
class Run:
    """The seconds of the clock and of the program itself (user time), the peak memory in MiB, the status and the output."""

    seconds: float
    user: float
    memory: float
    status: int
    out: bytes

    def cost(self) -> str:
        """The seconds of the clock and the memory, as a cell of a table."""
        return f"{self.seconds:.{2 if self.seconds >= 1 else 3}f} s, {self.memory:,.0f} MiB"

    def first(self) -> str:
        """The first line of the output."""
        return self.out.split(b"\n", 1)[0].decode(errors="replace")


def once(folder: pathlib.Path, command: list[str]) -> Run:
    """Runs a command in a folder. GNU time reports the peak memory, and the system the user time of it and of GNU time."""
    with tempfile.NamedTemporaryFile("r", prefix="race-bench-") as memory:
        used = resource.getrusage(resource.RUSAGE_CHILDREN).ru_utime
        begin = time.perf_counter()
        done = subprocess.run(["time", "-q", "-f", "%M", "-o", memory.name, *command], cwd=folder, stdin=subprocess.DEVNULL,
                              stdout=subprocess.PIPE, stderr=subprocess.DEVNULL, check=False)
        seconds = time.perf_counter() - begin
        used = resource.getrusage(resource.RUSAGE_CHILDREN).ru_utime - used
        return Run(seconds, used, int(memory.read().split()[-1]) / 1024, done.returncode, done.stdout)


def best(runs: int, folder: pathlib.Path, command: list[str]) -> Run:
    """The least times and the greatest peak memory of some runs, and what the last one printed."""
    made = [once(folder, command) for _ in range(runs)]
    least = [min(getattr(it, name) for it in made) for name in ("seconds", "user")]
    return Run(*least, max(it.memory for it in made), made[-1].status, made[-1].out)


def row(*cells: str) -> None:
    """Prints a row of the table that a bench makes: `bench/all` puts it into docs/MEASUREMENTS.md."""
    print(f"| {' | '.join(cells)} |", flush=True)


def head(*cells: str) -> None:
    """Prints the head of that table."""
    row(*cells)
    print("|---" * len(cells) + "|", flush=True)


def note(name: str, *runs: Run) -> None:
    """Says on standard error what the runs on an input answered."""
    print(f"{name}: {'; '.join(it.first() for it in runs)}", file=sys.stderr, flush=True)


def about(lay_out: Callable[..., object]) -> str:
    """What an input is: the first sentence of the docstring of what lays it out."""
    return " ".join((lay_out.__doc__ or "").split()).partition(". ")[0].rstrip(".")


def size(count: int) -> str:
    """A number of bytes, as a cell of a table."""
    return f"{count} B" if count < 1_000 else f"{count / 1e3:.0f} kB" if count < 1e6 else f"{count / 1e6:.1f} MB"


def read_by_python(log: pathlib.Path) -> float:
    """How long Python's json module takes to read a text of lines, in seconds of a processor (user time)."""
    begin = resource.getrusage(resource.RUSAGE_SELF).ru_utime
    with open(log, encoding="utf-8") as lines:
        for line in lines:
            json.loads(line)
    return resource.getrusage(resource.RUSAGE_SELF).ru_utime - begin


def built_peer(room: pathlib.Path) -> pathlib.Path | None:
    """The Rust program of bench/peer, built in a folder; None where cargo or the sources of serde_json are missing."""
    if not shutil.which("cargo") or not any(CRATES.glob("serde_json-*")):
        return None
    source = shutil.copytree(PEER, room / "peer")
    settings = ['source.crates-io.replace-with="debian"', f'source.debian.directory="{CRATES}"']
    command = ["cargo", "build", "-q", "--release", "--offline", *(word for it in settings for word in ("--config", it))]
    subprocess.run(command, cwd=source, check=True)
    return source / "target" / "release" / "peer"
