"""Calls that nobody can follow: a recorded build runs as on a kernel that does not have them.

These are calls that are newer than Linux 5.10, and `io_uring_setup`. By its filter strace passes over some numbers of which it knows no names, and what
a program asks of io_uring is in its memory alone. So a filter in front of strace answers these as an older kernel does (ENOSYS), and programs go the
older way, which is traced: such as CMake, whose loop of events asks for io_uring.
"""

import ctypes
import errno
import os
import struct

from record.watch.lay import LIBC

# The kernel's numbers for machines whose new calls have the numbers of all others: the machine's own, and that of its 32 bits.
MACHINES = {"x86_64": (0xC000003E, 0x40000003), "i686": (0x40000003,), "aarch64": (0xC00000B7, 0x40000028), "armv7l": (0x40000028,), "riscv64": (0xC00000F3,),
            "ppc64le": (0xC0000015,), "s390x": (0x80000016, 0x16), "loongarch64": (0xC0000102,)}
LOAD, IS, FROM, ANSWER = 0x20, 0x15, 0x35, 0x06  # of a filter: load a word, compare it, answer
ALLOW, REFUSE = 0x7FFF0000, 0x00050000 | errno.ENOSYS
OTHER = 0x40000000  # from here on numbers are those of another kind (x32)
URING, FIRST = 425, 441  # io_uring_setup, and the first call that is newer: these numbers are the same on most machines
NO_NEW_RIGHTS, SECCOMP, FILTER = 38, 22, 2  # for prctl


def filter_of(machine: str) -> bytes:
    """The filter that refuses these calls; empty for a machine that numbers calls in its own way."""
    kinds = MACHINES.get(machine, ())
    steps = [(LOAD, 0, 0, 4), *((IS, len(kinds) - at, 0, kind) for at, kind in enumerate(kinds)), (ANSWER, 0, 0, ALLOW)]
    steps += [(LOAD, 0, 0, 0), (IS, 2, 0, URING), (FROM, 0, 2, FIRST), (FROM, 1, 0, OTHER), (ANSWER, 0, 0, REFUSE), (ANSWER, 0, 0, ALLOW)]  # guard: io-uring
    return b"".join(struct.pack("=HBBI", *step) for step in steps) if kinds else b""


def run_older() -> None:
    """Makes this process, and all that it starts, run as on a kernel without these calls. Where the system takes no filter, strace has none either, and sees all."""
    text = filter_of(os.uname().machine)
    kept = ctypes.create_string_buffer(text, len(text))
    LIBC.prctl(NO_NEW_RIGHTS, *map(ctypes.c_ulong, (1, 0, 0, 0)))
    LIBC.prctl(SECCOMP, ctypes.c_ulong(FILTER), struct.pack("@HP", len(text) // 8, ctypes.addressof(kept)), ctypes.c_ulong(0), ctypes.c_ulong(0))  # guard: calls-without-names-do-not-run
