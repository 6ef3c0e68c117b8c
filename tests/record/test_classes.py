"""The classes of system calls: each call of the kernel's headers is left out for a reason, followed, or a hole, and so is one that nobody knows."""

import platform
import re
import subprocess
import sys
import unittest
from pathlib import Path
from typing import List, Set, Tuple

import support
from record.trace import classes, unfollowed
from record.trace.calls import HANDLERS
from test_replay import TOP, events_of, lives_of, played
from test_sifting import Skips

HEADERS = ("/usr/include/asm-generic/unistd.h", "/usr/include/%s-linux-gnu/asm/unistd_64.h" % platform.machine(), "/usr/include/%s-linux-gnu/asm/unistd_32.h" % platform.machine())
OTHERS = (classes.HIDING, classes.SHARING, classes.UNFOLLOWED, set(HANDLERS))
SEVERAL = {"ipc", "socketcall", "signal"}  # calls of 32 bits that are several in one: strace shows each by its own name
BEGUN = '1 execve("/opt/tool", ["tool", "x"], 0x1 /* 1 var */) = 0'
# A program that changes a mode by a new call; or, where the kernel does not have it, in the usual way.
CHMOD = "import ctypes, os\nif ctypes.CDLL(None).syscall(452, -100, b'f', 0o755, 0):\n    os.chmod('f', 0o755)\n"
FLAGS = "import fcntl, struct, sys\ntry:\n    fcntl.ioctl(open('f'), 0x40086602, struct.pack('q', 0x40))\nexcept OSError:\n    print('no flags here')\n"


def names_of_kernel() -> Set[str]:
    """The calls that the kernel's headers name, for 64 and for 32 bits, without those that do not run."""
    texts = [Path(path).read_text() for path in HEADERS if Path(path).exists()]
    return {name for text in texts for name, number in re.findall(r"#define __NR_(\w+)(?:[ \t]+(\d+))?", text) if int(number or 0) < unfollowed.FIRST}


class Classes(unittest.TestCase):
    """The table by itself."""

    def test_each_call_of_the_kernel_has_a_class(self) -> None:
        known = classes.LEFT_OUT.union(SEVERAL, *OTHERS)
        self.assertEqual(set(), names_of_kernel() - known)

    def test_no_call_has_two_classes(self) -> None:
        names: List[str] = [name for names in (classes.LEFT_OUT, *OTHERS) for name in names]
        self.assertEqual(len(names), len(set(names)))


class Traces(unittest.TestCase):
    """Lines of a trace."""

    def holes(self, line: str) -> List[str]:
        return played(BEGUN, "1 " + line).holes

    def events(self, line: str) -> Set[Tuple[str, str]]:
        replay = played(BEGUN, "1 " + line)
        self.assertEqual([], replay.holes)
        return events_of(lives_of(replay, 1)[0])

    def test_a_call_that_nobody_knows_is_a_hole(self) -> None:
        for line in ("syscall_0x3e7(0x1, 0x2) = 0", "syscall_0x3e7(0x1, 0x2) = -1 ENOENT (No such file or directory)", "no_such_call(1) = 0"):
            self.assertIn("a call that the recorder does not follow: ", "".join(self.holes(line)), line)
        for line in ("syscall_0x3e7(0x1, 0x2) = -1 ENOSYS (Function not implemented)", "futex(0x1) = 0"):
            self.assertEqual([], self.holes(line), line)

    def test_a_hole_is_said_once(self) -> None:
        line = "1 no_such_call(1) = 0"
        self.assertEqual(1, len(played(BEGUN, line, line).holes))

    def test_calls_that_nobody_follows(self) -> None:
        for name in ("acct", "swapon", "clock_settime", "pidfd_getfd", "bpf"):
            self.assertEqual(["a call that the recorder does not follow: %s of tool x" % name], self.holes(name + "(1) = 0"))
            self.assertEqual([], self.holes(name + "(1) = -1 EPERM (Operation not permitted)"))

    def test_new_ways_to_mount(self) -> None:
        for name in ("open_tree", "fsmount", "fspick", "move_mount"):
            self.assertEqual(["files that are opened after %s are not seen: tool x" % name], self.holes(name + "(1) = 5"))
            self.assertEqual([], self.holes(name + "(1) = -1 EPERM (Operation not permitted)"))

    def test_old_names(self) -> None:
        self.assertIn(("N", "f"), self.events('oldstat("f", 0x1) = -1 ENOENT (No such file or directory)'))
        self.assertIn(("L", "d"), self.events("readdir(3<%s/d>, {}) = 1" % TOP))

    def test_programs_that_are_not_run(self) -> None:
        for flags in ("AT_EXECVE_CHECK", "0x10000 /* AT_??? */", "AT_SYMLINK_NOFOLLOW|AT_EXECVE_CHECK"):
            replay = played(BEGUN, '1 execveat(AT_FDCWD<%s>, "other", ["other"], 0x1 /* 1 var */, %s) = 0' % (TOP, flags))
            self.assertEqual((["tool", "x"], True), (lives_of(replay, 1)[0].argv, ("R", "other") in events_of(lives_of(replay, 1)[0])), flags)

    def test_flags_of_a_file(self) -> None:
        self.assertIn(("W", "f"), self.events("ioctl(3<%s/f>, FS_IOC_SETFLAGS, [FS_IMMUTABLE_FL]) = 0" % TOP))
        self.assertIn(("W", "f"), self.events("ioctl(3<%s/f>, FS_IOC_FSSETXATTR, {fsx_xflags=0}) = 0" % TOP))
        for request in ("FS_IOC_GETFLAGS, [FS_EXTENT_FL]", "FIONREAD, [0]", "BTRFS_IOC_CLONE or FICLONE, 4", "FIOCLEX"):
            self.assertEqual(set(), {path for _, path in self.events("ioctl(3<%s/f>, %s) = 0" % (TOP, request))}, request)
        self.assertEqual(set(), self.events("ioctl(3<%s/f>, FS_IOC_SETFLAGS, [0]) = -1 ENOTTY (Inappropriate ioctl for device)" % TOP))

    def test_a_request_that_nobody_knows_is_a_hole(self) -> None:
        line = "ioctl(3<%s/d>, _IOC(_IOC_WRITE, 0x94, 0xe, 0x1000), 0x7ffd) = 0" % TOP
        self.assertEqual(["a call that the recorder does not follow: the request _IOC(_IOC_WRITE of ioctl, about %s/d, of tool x" % TOP], self.holes(line))
        for place in ("/dev/dri/card0", "/dev/null", "pipe:[7]", "socket:[8]", "anon_inode:[perf_event]"):
            self.assertEqual([], self.holes("ioctl(3<%s>, NO_SUCH_REQUEST, 0x7ffd) = 0" % place), place)

    def test_locks_of_a_part_of_a_file(self) -> None:
        self.assertEqual([], played(BEGUN, "1 fcntl(3<%s/f>, F_GETFL) = 0x8001 (flags O_WRONLY|O_LARGEFILE)" % TOP).holes)
        lock = "1 fcntl(3<%s/f>, %%s, {l_type=%%s, l_whence=SEEK_SET, l_start=0, l_len=0}) = %%s" % TOP
        for request in ("F_SETLK", "F_OFD_SETLK", "F_SETLK64", "F_GETLK"):
            self.assertEqual(["tool x locks %s/f" % TOP], played(BEGUN, lock % (request, "F_WRLCK", "-1 EAGAIN (Resource temporarily unavailable)")).locks, request)
        for request, kind in (("F_SETLKW", "F_WRLCK"), ("F_SETLK", "F_UNLCK"), ("F_OFD_SETLKW", "F_RDLCK")):
            self.assertEqual([], played(BEGUN, lock % (request, kind, "0")).locks, request)

    def test_leases(self) -> None:
        for request in ("F_SETLEASE, F_WRLCK", "F_NOTIFY, DN_CREATE"):
            self.assertEqual(["tool x"], played(BEGUN, "1 fcntl(3<%s/f>, %s) = 0" % (TOP, request)).watchers)
        self.assertEqual([], played(BEGUN, "1 fcntl(3<%s/f>, F_SETLEASE, F_WRLCK) = -1 EACCES (Permission denied)" % TOP).watchers)

    def test_datagrams(self) -> None:
        self.assertEqual(["tool x"], played(BEGUN, "1 socket(AF_INET, SOCK_DGRAM|SOCK_CLOEXEC, IPPROTO_IP) = 3<UDP:[7]>").sockets)
        self.assertEqual([], played(BEGUN, "1 socket(AF_INET, SOCK_STREAM, IPPROTO_IP) = 3<TCP:[7]>", "1 socket(AF_NETLINK, SOCK_RAW, NETLINK_ROUTE) = 4<NETLINK:[8]>").sockets)


class Sifted(Skips):
    """Which lines of a trace are read."""

    def test_waits_that_find_nobody(self) -> None:
        for count, line in ((0, "wait4(-1, 0x7ffd, WNOHANG, NULL) = 0"), (0, "wait4(-1, 0x7ffd, WNOHANG|WSTOPPED, NULL) = -1 ECHILD (No child processes)"), (1, "wait4(-1, [{WIFEXITED(s)}], WNOHANG, NULL) = 9"),
                            (1, "wait4(-1, 0x7ffd, 0, NULL) = -1 ECHILD (No child processes)")):
            self.assertEqual(count, self.kept(["7 " + line], ["/w"]), line)

    def test_looks_at_what_is_open(self) -> None:
        self.assertEqual(0, self.kept(['7 newfstatat(3</w/d>, "", {st_mode=S_IFDIR|0755, st_size=40, ...}, AT_EMPTY_PATH) = 0'], ["/w"]))

    def test_a_row_of_writes(self) -> None:
        line = "%d write(0x%d, 0x55f41b32ba90, 0x6)   = 0x6"
        for count, row in ((1, ((7, 1), (7, 1), (7, 1))), (2, ((7, 1), (7, 1), (7, 2))), (3, ((7, 1), (8, 1), (7, 1)))):
            self.assertEqual(count, self.kept([line % one for one in row], ["/w"]))
        self.assertEqual(1, self.kept([line % (7, 1), "7 write(0x1, 0x55f41b32ba90, 0x6 <unfinished ...>", "7 <... write resumed>)   = 0x6"], ["/w"]))

    def test_requests_that_say_nothing_of_a_file(self) -> None:
        for line in ("fcntl(3</w/f>, F_GETFD) = 0", "fcntl(3</w/f>, F_SETFD, FD_CLOEXEC) = 0", "fcntl(1<pipe:[7]>, F_DUPFD, 10) = 11<pipe:[7]>", "fcntl(255, F_GETFD)      = -1 ENOENT (x)",
                     "ioctl(2</w/f>, TCGETS, 0x7ffd) = -1 ENOTTY (Inappropriate ioctl for device)", "ioctl(3</w/f>(deleted), FIOCLEX) = 0"):
            self.assertEqual(0, self.kept(["7 " + line], ["/w"]), line)
        for line in ("fcntl(10</w/f>, F_DUPFD, 10) = 11</w/f>", "fcntl(3</w/f, F_GETFD, >, F_SETLK, {l_type=F_WRLCK}) = 0", "fcntl(3</w/f>, F_SETLEASE, F_WRLCK) = 0", "ioctl(3</w/f>, FS_IOC_SETFLAGS, [0]) = 0"):
            self.assertEqual(1, self.kept(["7 " + line], ["/w"]), line)
        self.assertEqual(0, self.kept(["7 fcntl(3</w/f>, F_GETFD <unfinished ...>", "7 <... fcntl resumed>) = 0"], ["/w"]))


class Newer(unittest.TestCase):
    """Calls that are newer than what is traced."""

    def test_they_do_not_run(self) -> None:
        text = "import ctypes, errno, sys\nlibc = ctypes.CDLL(None, use_errno=True)\n" \
               "print([(number, ctypes.get_errno()) for number in (425, 441, 449, 452, 463, 469) if libc.syscall(number, -1, 0, 0, 0, 0) < 0 and ctypes.get_errno() != errno.ENOSYS])\n"
        ran = subprocess.run([sys.executable, "-c", text], preexec_fn=unfollowed.run_older, capture_output=True, text=True, timeout=60, check=False)
        self.assertEqual("[]\n", ran.stdout if unfollowed.filter_of(platform.machine()) else "[]\n", ran.stderr)

    def test_other_machines(self) -> None:
        self.assertEqual(b"", unfollowed.filter_of("mips"))
        self.assertEqual([10 * 8, 9 * 8], [len(unfollowed.filter_of(machine)) for machine in ("aarch64", "riscv64")])


class Recorded(unittest.TestCase):
    """Real builds."""

    def test_a_mode_by_a_new_call(self) -> None:
        files = {"Makefile": "all: a b\na: ; python3 t/c.py; touch a\nb: ; test -x f && echo yes > b || echo no > b\n", "f": "f", "t/c.py": CHMOD}
        with support.Project(files) as project:
            self.assertEqual(["f"], support.races_of(project.record().text()))

    def test_flags_by_a_request(self) -> None:
        files = {"Makefile": "all: a b\na: ; python3 t/f.py; touch a\nb: ; cat f > b\n", "f": "f", "t/f.py": FLAGS}
        with support.Project(files) as project:
            outcome = project.record()
        self.assertEqual(0 if "no flags here" in outcome.text() else 1, outcome.status, outcome.text())

    def test_two_locks_of_one_recipe(self) -> None:
        program = "import fcntl\nkept = [open(name, 'r+') for name in '%s']\nfor one in kept: fcntl.%s(one, fcntl.LOCK_EX)\nfor one in kept: fcntl.%s(one, fcntl.LOCK_UN)\n"
        for names, call, wanted in (("xy", "flock", True), ("x", "flock", False), ("xy", "lockf", True), ("xx", "lockf", False)):
            text = program % (names, call, call)
            with support.Project({"Makefile": "all: ; python3 l.py; touch all\n", "l.py": text, "x": "", "y": ""}) as project:
                outcome = project.record()
            self.assertEqual((0, wanted), (outcome.status, "who asks for a lock of a file" in outcome.text()), text)

    def test_a_lock_that_nobody_waits_for(self) -> None:
        files = {"Makefile": "all: ; python3 l.py; touch all\n", "l.py": "import fcntl\nfcntl.lockf(open('lock', 'w'), fcntl.LOCK_EX | fcntl.LOCK_NB)\n"}
        with support.Project(files) as project:
            outcome = project.record()
        self.assertEqual(0, outcome.status)
        self.assertIn("who asks for a lock of a file", outcome.text())
