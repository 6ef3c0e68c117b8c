"""What calls say of processes themselves: who starts whom, what they make names without, and what the trace does not see of them. calls.py
says which calls each method takes."""

import re
import stat
from functools import lru_cache
from itertools import takewhile

from record import machine
from record.trace.lives import Life
from record.trace.moves import Moves
from record.trace.strace import Call

ANY_CHILD = re.compile(r"-|0,|P_(?:ALL|PGID)\b")  # a wait for any child, or any of a group
WAITED = re.compile(r"\bsi_pid=(\d+)")
STOPPED = re.compile(r"WIFSTOPPED|WIFCONTINUED|CLD_(?:STOPPED|CONTINUED|TRAPPED)")
NUMBER = re.compile(r"(?:(?:IOPRIO_WHO|PRIO)_PROCESS, )?-?(\d+)\b")  # of a process, or of the first one of a group


def first_of(life: Life) -> Life:
    """The process of a recipe that make or ninja started, by one of those below it."""
    return [life, *takewhile(lambda up: not (up.is_make or up.is_ninja), life.up())][-1]


@lru_cache(None)
def lends_rights(program: str, user: int) -> bool:
    """Whether the kernel runs a program with the rights of its owner or group. It does not where the process is traced, except for root."""
    try:
        found = machine.stat(program)
    except OSError:
        return False
    return user != 0 and bool(found.st_mode & stat.S_ISUID and found.st_uid != user or found.st_mode & stat.S_ISGID and found.st_mode & stat.S_IXGRP)  # guard: not-of-root


class Processes(Moves):
    """Calls about processes, and what is kept of the program that one begins to run."""

    def on_fork(self, life: Life, call: Call, ok: bool) -> None:
        """A process, or a thread, has started."""
        if life.pid in self.begun:
            self.begun.remove(life.pid)
            self.sharing.discard(life.pid)
        if ok and "CLONE_UNTRACED" in call.args:  # guard: processes-that-run-unseen
            self.holes.append("a process runs unseen (CLONE_UNTRACED, as that of LeakSanitizer does): " + " ".join(life.argv)[:100])
        elif ok and "CLONE_FS" in call.args and "CLONE_THREAD" not in call.args:  # guard: processes-in-one-folder
            self.holes.append("two processes are in one folder at all times (CLONE_FS): " + " ".join(life.argv)[:100])
        elif ok and call.result > 0:
            self.child(life, call.result, call.name + call.args)

    def on_wait(self, life: Life, call: Call, ok: bool) -> None:
        """A process waits for the end of others: for one that it names, or for any child."""
        is_any, is_blocking = bool(ANY_CHILD.match(call.args)), "WNOHANG" not in call.args  # guard: waits-for-any-child
        course, found = life.course, WAITED.search(call.args) if call.name == "waitid" else None
        pid = int(found.group(1)) if found is not None else call.result if call.name != "waitid" else 0
        if ok and pid > 0 and not STOPPED.search(call.args):  # guard: child-that-is-stopped
            child = self.lives.get(pid)
            if child is not None:
                course.wait(child.course, self.place, not is_any, is_blocking)
        elif call.error == "ECHILD" and is_any and is_blocking:  # guard: child-that-ends-unheard
            course.wait_for_all(self.place)
        course.has_slept = course.has_slept and not is_blocking  # guard: sleep-before-other-wait

    def on_sleep(self, life: Life, call: Call, ok: bool) -> None:
        """A process sleeps until a signal comes, such as that of the end of a child."""
        life.course.has_slept = True  # guard: sleeps-until-child-ends

    def on_signal(self, life: Life, call: Call, ok: bool) -> None:
        """A process has heard a signal, such as that of the end of a child: it may have waited for that."""
        life.course.has_heard = True  # guard: looks-when-signal-came

    def on_timer(self, life: Life, call: Call, ok: bool) -> None:
        """A process has asked for a signal after some time: it waits no longer than that."""
        life.has_timer = True

    def on_core(self, life: Life, call: Call, ok: bool) -> None:
        """The kernel keeps the memory of a process that a signal ends, in a file of whose name the trace says nothing."""
        self.holes.append("a process left its memory in a file that nobody saw (core dumped): " + " ".join(life.argv)[:100])

    def on_ptrace(self, life: Life, call: Call, ok: bool) -> None:
        """A process is traced once, and here by the recorder: a debugger fails that works in a build by itself."""
        if call.error == "EPERM":  # guard: programs-that-trace-others
            self.holes.append("a program traces another one (a debugger), which fails while a build is recorded: " + " ".join(life.argv)[:100])

    def note_rights(self, life: Life, program: str) -> None:
        """A program such as `sudo` has been started, and does not get the rights that it has in a build by itself."""
        if lends_rights(program, machine.geteuid()):
            self.holes.append("a program does not get the rights of its owner while a build is recorded: " + " ".join(life.argv)[:100])

    def on_kill(self, life: Life, call: Call, ok: bool) -> None:
        """A signal, or the question whether a process is there: that of another recipe may have ended by then. Make ends its own children."""
        match = NUMBER.match(call.args)
        other = self.lives.get(int(match.group(1))) if match is not None else None
        if not life.is_make and (other is None or first_of(other) is not first_of(life)):  # guard: signals-inside-of-recipe
            self.watchers.append(" ".join(life.argv)[:100])  # guard: signals

    def on_limits(self, life: Life, call: Call, ok: bool) -> None:
        """Limits and the like of a process: what it starts later has them too, and make starts the recipes. A group, and all of a user, have more."""
        match = NUMBER.match(call.args)
        if match is None or match.group(1) != "0":  # guard: limits-of-their-own
            self.on_kill(life, call, ok)  # guard: limits-of-others

    def on_unshare(self, life: Life, call: Call, ok: bool) -> None:
        """A thread that asks for a folder of its own, or for what includes that."""
        if ok and re.search(r"CLONE_(?:FS|NEWNS|NEWUSER)\b", call.args):
            life.is_apart = True  # guard: folder-of-their-own
