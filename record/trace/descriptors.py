"""What calls do to what is open, such as requests (`ioctl`) and locks; and the calls that nobody follows. calls.py says which calls each method takes."""

import re
from typing import Set

from record.trace.classes import HIDING, LEFT_OUT, NO_FILES, SHARING, UNFOLLOWED, WRITES
from record.trace.events import HELD, LOCKED, OUTPUT, WRITTEN
from record.trace.lives import Life
from record.trace.processes import Processes
from record.trace.replay import DEVICES
from record.trace.strace import Call, folders

REQUEST = re.compile(r"\d+<(?:[^<>\\]|\\.)*>(?:\(deleted\))?, ([^,]+)")
# Requests about an open file that change none, or one that is open to write.
READING = set("""FIOCLEX FIONCLEX FIONBIO FIOASYNC FIONREAD FIOQSIZE FIGETBSZ FIBMAP FITRIM FS_IOC_GETFLAGS FS_IOC32_GETFLAGS FS_IOC_GETVERSION FS_IOC32_GETVERSION
    FS_IOC_FSGETXATTR FS_IOC_FIEMAP FS_IOC_GETFSLABEL FS_IOC_GETFSUUID FS_IOC_MEASURE_VERITY FS_IOC_READ_VERITY_METADATA FICLONE FICLONERANGE FIDEDUPERANGE
    FS_IOC_RESVSP FS_IOC_RESVSP64 FS_IOC_UNRESVSP FS_IOC_UNRESVSP64 FS_IOC_ZERO_RANGE BTRFS_IOC_FS_INFO BTRFS_IOC_INO_LOOKUP BTRFS_IOC_TREE_SEARCH
    BTRFS_IOC_TREE_SEARCH_V2 BTRFS_IOC_SPACE_INFO BTRFS_IOC_GET_FEATURES BTRFS_IOC_SUBVOL_GETFLAGS BTRFS_IOC_GET_SUBVOL_INFO BTRFS_IOC_SYNC""".split())
# Requests that change a file, as `chmod` does, or what may be done with it (`chattr`).
CHANGING = set("""FS_IOC_SETFLAGS FS_IOC32_SETFLAGS FS_IOC_SETVERSION FS_IOC32_SETVERSION FS_IOC_FSSETXATTR FS_IOC_ENABLE_VERITY FS_IOC_SET_ENCRYPTION_POLICY
    FAT_IOCTL_SET_ATTRIBUTES""".split())
LOCK = re.compile(r", F_(?:OFD_)?(GETLK|SETLKW?)(?:64)?, (?!\{l_type=F_UNLCK)")  # a lock that is asked for, taken, or waited for  # guard: not-where-they-are-given-back
NUMBER_FIRST = re.compile(r"\d+")
NUMBERS = re.compile(r"[\[ ](\d+)<")  # of `pipe2([3<pipe:[7]>, 4<pipe:[7]>], 0)`
FROM_TO = re.compile(r"(?:^|, )(\d+)<(?:[^<>\\]|\\.)*>")  # the descriptors of a copy
LEASE = re.compile(r", F_(?:SETLEASE|NOTIFY), ")
LOOSE = re.compile(r"AF_(?:INET6?|UNIX), SOCK_(?:DGRAM|RAW)\b")  # a socket that may send without being connected
STAND_IN = "a program read make itself, and found the recorder's copy in its place: "
OF_KERNEL = re.compile(r"/(?:dev/(?!shm/)|proc/|sys/)")  # requests to devices change no file


def requests(args: str) -> Set[str]:
    """The names of a request: those of several kinds of files may have one number."""
    match = REQUEST.match(args)
    return set(match.group(1).split(" or ")) if match else set()


class Opened(Processes):
    """Calls about open files and sockets, and those that become a hole."""

    def on_fcntl(self, life: Life, call: Call, ok: bool) -> None:
        """Locks, and leases, by which a process sees that another one opens a file."""
        lock = LOCK.search(call.args)
        if lock is not None:
            self.lock(life, call, ok and lock[1] != "GETLK", lock[1] == "SETLKW")
        elif ok and LEASE.search(call.args):  # guard: leases-said
            self.watchers.append(" ".join(life.argv)[:100])
        elif ok and ", F_DUPFD" in call.args:
            self.on_double(life, call, ok)

    def hold(self, life: Life, call: Call, changes: bool) -> None:
        """A process gets a descriptor, perhaps of a file that it may write."""
        if changes and call.opened.startswith("/") and not DEVICES.match(call.opened) and not call.opened.startswith(self.own):
            life.course.files[call.result] = (call.opened, "O_CLOEXEC" not in call.args)
        else:
            life.course.files.pop(call.result, None)

    def on_write(self, life: Life, call: Call, ok: bool) -> None:
        """Something is written into what is open, perhaps by another process than the one that opened it."""
        number = int(call.args.partition(",")[0], 0) if call.name in WRITES else int(FROM_TO.findall(call.args)[0 if "sendfile" in call.name else -1])
        found = life.course.files.get(number)
        if ok and found is not None:
            self.keep(life, OUTPUT, found[0])  # guard: who-writes-through-descriptor

    def on_double(self, life: Life, call: Call, ok: bool) -> None:
        """A descriptor has a second number."""
        files = life.course.files
        if call.opened.startswith("pipe:") and call.result < 2:
            life.course.pipes.add(call.opened)
        found = files.get(int(NUMBER_FIRST.match(call.args)[0])) if files else None  # type: ignore[index]
        if ok and found is not None:
            files[call.result] = (found[0], "CLOEXEC" not in call.args)  # guard: second-numbers
        elif ok:
            files.pop(call.result, None)  # guard: numbers-that-lead-elsewhere

    def on_no_file(self, life: Life, call: Call, ok: bool) -> None:
        """A descriptor leads to no file from now on."""
        for number in [call.result] if call.name in NO_FILES else map(int, NUMBERS.findall(call.args)) if life.course.files else ():
            life.course.files.pop(number, None)  # guard: numbers-of-pipes

    def lock(self, life: Life, call: Call, is_taken: bool, waits: bool) -> None:
        """Who waits for a lock does the same whoever has it; who does not wait, or not for ever, sees whether another has it. Whose recipe has taken another
        lock may wait for ever, where a second recipe takes the two in another order."""
        path, text = "".join(folders(call.args)[:1]), " ".join(life.argv)[:60]
        recipe = next(one for one in life.up() if one.parent is None or one.parent.is_make or one.parent.is_ninja)
        taken = self.taken.setdefault(id(recipe), [])
        if is_taken:
            self.keep(life, HELD, path)
        if not is_taken or not waits or life.has_timer:  # guard: for-while
            self.locks.append("%s locks %s" % (text, path))  # guard: said
            if (LOCKED, path) in life.events:
                self.put(life, WRITTEN, path)  # guard: files-of-locks-that-others-may-have
            return
        if any(other != path for other in taken):  # guard: two-locks-of-one-recipe
            self.locks.append("%s locks %s, and its recipe has locked %s" % (text, path, taken[0]))
        taken.append(path)

    def note_stand_in(self, life: Life, path: str) -> None:
        """Who opens a make as a file finds the copy that lies over it: it sees another file than without the recorder."""
        if path in self.covered and not any(one.startswith(STAND_IN) for one in self.holes):  # guard: make-that-is-read
            self.holes.append(STAND_IN + " ".join(life.argv)[:100])

    def on_socket(self, life: Life, call: Call, ok: bool) -> None:
        """Datagrams go to a server without a call that connects."""
        life.course.files.pop(call.result, None)
        if ok and LOOSE.search(call.args):  # guard: datagrams-said
            self.sockets.append(" ".join(life.argv)[:100])

    def note_unfollowed(self, life: Life, call: Call) -> None:
        """A call without a handler. One that the kernel does not have did nothing, nor did one that is known and failed."""
        if call.name in LEFT_OUT or call.error == "ENOSYS" or call.error and call.name in HIDING | SHARING | UNFOLLOWED:  # guard: not-where-kernel-has-none
            return
        if call.name in HIDING:
            self.holes.append("files that are opened after %s are not seen: %s" % (call.name, " ".join(life.argv)[:100]))
        else:
            self.put_unfollowed(life, call.name)  # guard: hole

    def put_unfollowed(self, life: Life, what: str) -> None:
        """Nobody knows what a call did to files."""
        hole = "a call that the recorder does not follow: %s of %s" % (what, " ".join(life.argv)[:100])
        if hole not in self.holes:  # guard: said-once
            self.holes.append(hole)
