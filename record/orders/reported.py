"""Calls that the kernel reports, and that wait for an answer (seccomp_unotify(2)): of a process, and of all that it starts.

So nothing is at work in the process: it has all that it had, and strace may record it.
"""

from __future__ import annotations

import ctypes
import fcntl
import os
import select
import socket
import struct
from collections.abc import Sequence
from contextlib import suppress
from typing import NamedTuple, Optional

from record.watch.lay import LIBC

SYSTEMS = {"x86_64": (0xC000003E, 317), "aarch64": (0xC00000B7, 277)}  # by machine: how its calls are numbered, and the number of seccomp
LOAD, EQUAL, RETURN, REPORT, ALLOW = 0x20, 0x15, 0x06, 0x7FC00000, 0x7FFF0000  # of a program that looks at calls
NO_NEW_RIGHTS, FILTER, LISTENED, UNTIL_KILLED = 38, 1, 8, 32  # for prctl, and for seccomp: no signal but one that kills ends the waiting
RECEIVE, ANSWER = 0xC0502100, 0xC0182101  # for ioctl
REPORTED, ANSWERED = struct.Struct("=QIIiIQ6Q"), struct.Struct("=QqiI")
GOES_ON = 1
GET_DESCRIPTOR = 438  # the number of pidfd_getfd, on all machines


class Call(NamedTuple):
    """A call that waits: the number of the report, who calls, the number of the call, and what it is given."""

    number: int
    pid: int
    call: int
    given: Sequence[int]


def filter_of(calls: Sequence[int]) -> bytes:
    """A program by which the kernel reports some calls of this machine; nothing where the numbers of its calls are not known."""
    if os.uname().machine not in SYSTEMS:
        return b""
    count = len(calls)
    rows = [(LOAD, 0, 0, 4), (EQUAL, 0, count + 1, SYSTEMS[os.uname().machine][0]), (LOAD, 0, 0, 0),
            *((EQUAL, count - at, 0, call) for at, call in enumerate(calls)), (RETURN, 0, 0, ALLOW), (RETURN, 0, 0, REPORT)]
    return b"".join(struct.pack("=HBBI", *row) for row in rows)


def report(program: bytes) -> int:
    """From here on the kernel reports calls of this process, and of each that it starts; the descriptor by which it does."""
    if not program:
        raise OSError("no numbers of calls are known of this machine")
    code = ctypes.create_string_buffer(program)
    LIBC.prctl(NO_NEW_RIGHTS, 1, 0, 0, 0)  # as strace does
    found: int = LIBC.syscall(SYSTEMS[os.uname().machine][1], FILTER, LISTENED | UNTIL_KILLED, struct.pack("@HP", len(program) // 8, ctypes.addressof(code)))
    if found < 0:
        raise OSError(ctypes.get_errno(), "the kernel reports no calls")
    return found


def reports_of(pid: int, channel: socket.socket, program: bytes) -> int:
    """From here on the kernel reports calls of a process that waits at the gate (watch/hold.c), and of each that it starts; the descriptor by which it does, or -1."""
    try:
        channel.sendall(program)
        number, = struct.unpack("i", channel.recv(4, socket.MSG_WAITALL) if program else b"")
        process = os.pidfd_open(pid)
        found: int = LIBC.syscall(GET_DESCRIPTOR, process, number, 0)
        os.close(process)
        return found
    except (OSError, struct.error):  # it has ended
        return -1


def is_reported(listener: int) -> bool:
    """Whether the kernel reports a call now."""
    ready = select.poll()
    ready.register(listener, select.POLLIN)
    return any(events & select.POLLIN for _, events in ready.poll(0))


def receive(listener: int) -> Optional[Call]:
    """A call that the kernel reports; none where its process was killed."""
    found = bytearray(REPORTED.size)
    try:
        fcntl.ioctl(listener, RECEIVE, found)
    except OSError:
        return None
    number, pid, _, call, _, _, *given = REPORTED.unpack(found)
    return Call(number, pid, call, given)


def go_on(listener: int, number: int) -> None:
    """Lets a call happen."""
    with suppress(OSError):  # its process was killed
        fcntl.ioctl(listener, ANSWER, bytearray(ANSWERED.pack(number, 0, 0, GOES_ON)))
