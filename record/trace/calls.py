"""What each system call does to the name space, and which events it is: the table HANDLERS says which method takes which calls of Linux.

A finished call of a life goes in; events of that life come out (`put`), a name space that has changed, and what nobody can know: holes, and what
is printed under a yes (sockets, locks, watchers). moves.py, processes.py, descriptors.py and started.py have the other methods.
"""

import re
from typing import Callable, Dict, Iterable, Tuple

from record.commands.system import SETTINGS
from record.trace.classes import COPIES, DOUBLES, LIMITS, NO_FILES, PAIRS, SHARING, SIGNALLED, SIGNALS, SLEEPS, TIMERS, WAITS, WRITES
from record.trace.descriptors import CHANGING, OF_KERNEL, READING, requests
from record.trace.events import (
    ABSENT, CREATED, ENTERED, FOLDER_CHANGED, FOLDER_FULL, FOLDER_REMOVED, HELD, LISTED, LOCKED, MADE, MADE_BEFORE, READ, REFUSED, REMOVED, SEEN, TIME_SET, WRITTEN,
)
from record.trace.lives import Life
from record.trace.names import Found, Inode
from record.trace.proc import plain_path
from record.trace.replay import DEVICES
from record.trace.started import Started
from record.trace.strace import BARE, MAKES_PROCESS, Call, Spelled, folders, spelled, texts, unescape

# Calls by what they do to the name that is their first path.
LOOKS = {"stat", "lstat", "access", "getxattr", "lgetxattr", "listxattr", "llistxattr", "statfs", "newfstatat",
         "faccessat", "faccessat2", "name_to_handle_at", "statx", "fstatat64", "readlink", "readlinkat", "statfs64", "stat64", "lstat64",
         "oldstat", "oldlstat"}  # guard: old-names
NOFOLLOW = {"lstat", "lstat64", "oldlstat", "lgetxattr", "llistxattr", "readlink", "readlinkat", "unlink", "rmdir", "lchown", "lchown32", "lsetxattr",
            "lremovexattr"}
CHANGES = {"chmod", "chown", "lchown", "utime", "utimes", "truncate", "setxattr", "lsetxattr", "removexattr", "lremovexattr", "fchmodat",  # guard: attributes-of-their-own
           "fchownat", "utimensat", "futimesat", "fchmod", "fchown", "ftruncate", "fsetxattr", "fremovexattr",
           "truncate64", "ftruncate64", "chown32", "lchown32", "fchown32", "utimensat_time64"}  # guard: calls-of-32-bits
TIMES = {"utime", "utimes", "utimensat", "futimesat", "utimensat_time64"}
BY_NUMBER = {"fchmod", "fchown", "fchown32", "ftruncate", "ftruncate64", "fsetxattr", "fremovexattr"}  # by a descriptor alone
NUMBERED = {*SIGNALS, *LIMITS, *WAITS, *WRITES, *NO_FILES, *TIMERS}  # calls whose first number is no descriptor  # guard: no-descriptors
THERE = ("EEXIST", "EISDIR", "ENXIO", "EACCES", "ENOTEMPTY")  # errors of an open that say that something has the name

# Parts of arguments, as strace shows them.
OF_PROCESS = re.compile(r"/proc/(?:(\d+)(?:/|$)|loadavg$)")  # `/proc/123/stat`: what the kernel shows of one process, or of all
SOCKET = re.compile(r'sun_path="((?:[^"\\]|\\.)*)"')  # `{sa_family=AF_UNIX, sun_path="d/socket"}`
ANY_PORT = re.compile(r"_port=htons\(0\)")  # `sin_port=htons(0)`: the kernel chooses the number
GIVEN_TIME = re.compile(r"tv_[nu]sec=\d+\}(?: /\*[^*]*\*/)?\]|modtime=")  # `[.., {tv_sec=5, tv_nsec=0}]`: a time, and not UTIME_NOW or UTIME_OMIT
GONE = " (deleted)"  # so strace 5.10 shows a name that is gone already


class Calls(Started):
    """Calls about one name: who looks at it, opens, lists, makes or removes it, or changes what is known of it; and sockets and locks."""

    def call(self, life: Life, call: Call) -> None:
        """One finished call."""
        name, ok = call.name, not call.error
        handler = HANDLERS.get(name)
        if handler is not None:
            if ok and call.args[:1].isdigit() and name not in NUMBERED and BARE.match(call.args):
                self.put_bare(life, call.name)  # guard: descriptors-without
            handler(self, life, call, ok)
        elif name in SHARING and ok:  # guard: memory-said
            self.sockets.append(" ".join(life.argv)[:100])
        else:
            self.note_unfollowed(life, call)  # guard: calls-after-which-names-are-unclear-hole

    def on_bind(self, life: Life, call: Call, ok: bool) -> None:
        """A socket with a name is a file: `bind` makes it, and who connects to it looks at it. One without a name of a file is no event."""
        path = SOCKET.search(call.args)
        if "AF_UNIX" in call.args and (ok or path is None) or "AF_INET" in call.args and not ANY_PORT.search(call.args):  # guard: ports-said
            self.sockets.append(" ".join(life.argv)[:100])
        found = self.found(life, unescape(path.group(1)), True) if path is not None else None
        if found is not None and call.name == "bind" and ok:
            self.write(life, found)  # guard: their-names
        elif found is not None:
            self.put_look(life, found, call.error not in ("ENOENT", "ENOTDIR"), READ)

    def on_flock(self, life: Life, call: Call, ok: bool) -> None:
        """A file is locked as a whole."""
        if "LOCK_UN" not in call.args:
            self.lock(life, call, ok, "LOCK_NB" not in call.args)

    def asked(self, life: Life, call: Call) -> Spelled:
        """What a call says of its first path; where it says in which folder the process is, that is known from here on."""
        found = spelled(call.args)
        life.folder = found.folder or life.folder
        return found

    def on_look(self, life: Life, call: Call, ok: bool) -> None:
        """A look at a name: at what stands there, or at the link itself."""
        asked = self.asked(life, call)
        if asked.path and not asked.is_open:
            self.note_watcher(life, asked.path)  # guard: looks
            link = call.name.startswith("readlink") and ok
            self.look(life, asked.path, ok or call.error == "EINVAL", asked.follow and call.name not in NOFOLLOW, READ if link else SEEN, asked.base)

    def on_chdir(self, life: Life, call: Call, ok: bool) -> None:
        """A process looks at a folder and enters it, with its threads."""
        path = "".join(texts(call.args)[:1])
        if not path:  # none that the process can read  # guard: folder-without-name
            return
        found = self.look(life, path, ok, True)
        if ok:
            life.enter(found.path)
            self.put(life, ENTERED, found.path)

    def on_fchdir(self, life: Life, call: Call, ok: bool) -> None:
        """A process enters a folder that it has open: no event, as it has opened that."""
        where = folders(call.args)
        if ok and where:
            life.enter(where[0])

    def on_open(self, life: Life, call: Call, ok: bool) -> None:
        """A file or a folder is opened: it is read, or it is written, and perhaps created. A device is none, and what the kernel shows of processes."""
        base, path, _, _, flags, follow, changes = asked = self.asked(life, call)
        if ok:
            self.hold(life, call, changes or call.name == "creat")
        if ok and changes and SETTINGS.match(call.opened or path):  # guard: files
            self.put_unfollowed(life, "the change of " + path)
        if self.said and path.startswith(self.said):
            self.open_words(life, path[len(self.said):], ok)
            return
        if ok and DEVICES.match(path):
            if not call.opened.startswith("/") or DEVICES.match(call.opened) and not self.names.is_inside(call.opened):
                self.note_watcher(life, path)  # guard: others-said
                return  # a pipe, a terminal or the like
            if "/.." in path:  # guard: way-of-proc
                self.put_left(life, plain_path(life, path, self.lives), life.folder)
            base, path = "", call.opened  # guard: file-by-its-descriptor
        if not ok and "RESOLVE_IN_ROOT" in call.args:  # guard: names-below-another-root
            self.holes.append("files that are opened after openat2 (RESOLVE_IN_ROOT) are not seen: " + " ".join(life.argv)[:100])
        if not path:
            return
        if "O_TMPFILE" in flags:  # a file without a name, in a folder that must be there
            self.look(life, path, ok, follow, base=base)  # guard: files-without-name
            return
        if not ok:
            self.fail_to_open(life, call, asked)
            return
        found = self.found(life, path, follow, base)
        if call.opened.startswith("/") and call.opened not in (found.path, found.path + GONE) and not DEVICES.match(call.opened):  # guard: names-that-are-gone
            self.holes.append("a name leads to another file than the record says: %s is %s, and not %s" % (path, call.opened, found.path))  # guard: hole
        life.handle = (call.result, found.path) if "O_PATH" in flags else (-1, "")  # guard: numbers-of-open-files
        self.note_stand_in(life, found.path)
        if changes or call.name == "creat":
            self.open_to_write(life, found, flags, call.name == "creat")
        else:
            is_folder = found.inode is not None and found.inode.kind == "d"
            self.put_look(life, found, True, SEEN if is_folder else READ)

    def fail_to_open(self, life: Life, call: Call, asked: Spelled) -> None:
        """Nothing was opened: the process sees that something has the name, or that nothing has it, and which folder is absent."""
        if call.error == "ENOTDIR" and "O_DIRECTORY" in asked.flags:  # guard: folders-in-pattern-files
            return  # it looks for folders, and finds a file, as a shell does for `*/x`
        found = self.found(life, asked.path, asked.follow, asked.base)
        self.put_look(life, found, call.error in THERE, SEEN)
        if call.error == "EEXIST":
            self.put(life, REFUSED, found.path)  # guard: files-that-could-not-be-made

    def open_to_write(self, life: Life, found: Found, flags: str, is_creat: bool) -> None:
        """A file was opened to change it: what it held may be read too, unless it is emptied, or written alone."""
        is_new = "O_EXCL" in flags or found.inode is not None and found.inode.is_unmade  # another process may have seen it before this call has ended
        if "O_EXCL" in flags:
            self.fresh.add(found.path)
        if "O_CREAT" in flags and (is_new or not self.names.is_inside(found.path)):  # guard: files-that-others-saw-first
            self.put(life, CREATED, found.path)  # the disk has what is outside after the build: nobody knows whether it was there before
        if "O_RDONLY" in flags and "O_TRUNC" not in flags and "O_EXCL" not in flags:  # guard: how-it-is-opened
            self.create(life, found)
            self.put(life, LOCKED, found.path)
            return
        if "O_WRONLY" not in flags and "O_TRUNC" not in flags and not is_creat:
            self.put(life, READ, found.path)
        self.write(life, found)

    def note_watcher(self, life: Life, path: str) -> None:
        """What the kernel shows of another process, or of all of them."""
        match = OF_PROCESS.match(path)
        if match is not None and not life.is_make and match.group(1) not in {str(one.pid) for one in life.course.lives}:
            self.watchers.append(" ".join(life.argv)[:100])

    def on_watch(self, life: Life, call: Call, ok: bool) -> None:
        """Who waits for changes of a name looks at it, and sees what runs beside it."""
        self.look(life, "".join(texts(call.args)[:1]), ok, True)  # guard: changes-that-they-wait
        self.watchers.append(" ".join(life.argv)[:100])

    def on_list(self, life: Life, call: Call, ok: bool) -> None:
        """A folder is listed."""
        where = folders(call.args)
        if not ok or not where:
            return
        if where[0] == "/proc" and not life.is_make:  # guard: listed-said
            self.watchers.append(" ".join(life.argv)[:100])
        else:
            self.put(life, LISTED, where[0])

    def on_mkdir(self, life: Life, call: Call, ok: bool) -> None:
        """A folder is made, or is there already."""
        asked = self.asked(life, call)
        found = self.found(life, asked.path.rstrip("/") or "/", False, asked.base)
        if ok:
            self.fresh.add(found.path)
            if found.folder is not None and found.inode is None:
                child = Inode("d")
                child.walked = True
                self.names.put(found.folder, found.name, child)
            self.put(life, MADE, found.path)
            self.put(life, CREATED, found.path + "/")
        elif call.error == "EEXIST":
            self.put(life, MADE_BEFORE, found.path)
            if found.inode is None or found.inode.kind != "d":  # guard: whose-name-file
                self.put_look(life, found, True, SEEN)  # a file, or a link, has the name
        else:
            self.put_look(life, found, False, SEEN)

    def on_mknod(self, life: Life, call: Call, ok: bool) -> None:
        """A file, a pipe with a name or a device is made: it counts as a file that is written. Who opens such a pipe waits for the other end."""
        asked = self.asked(life, call)
        found = self.found(life, asked.path, False, asked.base)
        if ok:
            self.write(life, found)
            if "S_IFIFO" in call.args:
                self.keep(life, HELD, found.path)  # guard: pipes-with-names
        else:
            self.put_absent(life, found, SEEN if call.error == "EEXIST" else ABSENT)

    def on_unlink(self, life: Life, call: Call, ok: bool) -> None:
        """A name or a folder is removed; or it is looked at, and stays."""
        asked = self.asked(life, call)
        found = self.found(life, asked.path.rstrip("/"), False, asked.base)
        if not ok:
            self.look(life, asked.path, call.error != "ENOENT", False, base=asked.base)
            if call.error == "ENOTEMPTY":
                self.put(life, FOLDER_FULL, found.path)  # guard: folders-that-are-not-empty
            return
        others = [a for a in self.names.aliases(found.inode) if a != found.path]
        if found.folder is not None:
            self.names.take(found.folder, found.name)
        self.put(life, FOLDER_REMOVED if call.name == "rmdir" or "AT_REMOVEDIR" in call.args else REMOVED, found.path)
        self.hard_links += others[:1]  # guard: one-that-is-removed

    def on_change(self, life: Life, call: Call, ok: bool) -> None:
        """A file's length, mode, owner, time or attributes change: it is written."""
        base, path = self.asked(life, call)[:2] if call.name not in BY_NUMBER else ("", "")  # guard: number-of-file
        path = path or next(iter(folders(call.args)), "")
        if not path or not path.startswith("/") and call.name in BY_NUMBER:
            return
        if not ok:
            self.look(life, path, False, True, base=base)
            return
        found = self.found(life, path, call.name not in NOFOLLOW and "NOFOLLOW" not in call.args, base)
        is_folder = found.inode is not None and found.inode.kind == "d"
        if call.name in TIMES and (is_folder or GIVEN_TIME.search(call.args.rpartition('"')[2])):
            self.put(life, TIME_SET, found.path)  # guard: that-are-set
        if not is_folder:
            self.write(life, found)
        elif call.name not in TIMES:
            self.put(life, FOLDER_CHANGED, found.path)

    def on_ioctl(self, life: Life, call: Call, ok: bool) -> None:
        """A request about an open file: it may change the file, or the names in a folder."""
        path, asked = "".join(folders(call.args)[:1]), requests(call.args)
        if not ok or not path.startswith("/") or asked & READING or OF_KERNEL.match(path) and not self.names.is_inside(path):  # guard: who-reads
            return
        if asked & CHANGING:  # guard: flags-of-file
            self.on_change(life, call, ok)
        else:
            self.put_unfollowed(life, "the request %s of ioctl, about %s," % (" or ".join(sorted(asked)), path))  # guard: requests-that-nobody-knows-hole


Handler = Callable[[Calls, Life, Call, bool], None]
# The calls of Linux that each method takes. Their classes are in classes.py: a call without a class and without a method is a hole.
METHODS: Tuple[Tuple[Handler, Iterable[str]], ...] = (
    (Calls.on_look, LOOKS),
    (Calls.on_change, CHANGES),
    (Calls.on_open, ("open", "openat", "openat2", "creat")),
    (Calls.on_list, ("getdents", "getdents64", "readdir")),
    (Calls.on_chdir, ("chdir",)),
    (Calls.on_fchdir, ("fchdir",)),
    (Calls.on_mkdir, ("mkdir", "mkdirat")),
    (Calls.on_mknod, ("mknod", "mknodat")),
    (Calls.on_unlink, ("unlink", "unlinkat", "rmdir")),
    (Calls.on_rename, ("rename", "renameat", "renameat2")),
    (Calls.on_link, ("link", "linkat")),
    (Calls.on_symlink, ("symlink", "symlinkat")),
    (Calls.on_execve, ("execve", "execveat")),
    (Calls.on_fork, MAKES_PROCESS),
    (Calls.on_core, ("core",)),  # no call: strace.py makes it of the line that says how a process ended
    (Calls.on_wait, WAITS),
    (Calls.on_sleep, SLEEPS),
    (Calls.on_signal, SIGNALLED),
    (Calls.on_timer, TIMERS),
    (Calls.on_ptrace, ("ptrace",)),
    (Calls.on_kill, SIGNALS),
    (Calls.on_limits, LIMITS),
    (Calls.on_unshare, ("unshare",)),
    (Calls.on_fcntl, ("fcntl", "fcntl64")),
    (Calls.on_ioctl, ("ioctl",)),
    (Calls.on_flock, ("flock",)),
    (Calls.on_write, WRITES | COPIES),
    (Calls.on_double, DOUBLES),
    (Calls.on_no_file, NO_FILES | PAIRS),
    (Calls.on_socket, ("socket",)),
    (Calls.on_bind, ("bind", "connect")),
    (Calls.on_watch, ("inotify_add_watch", "fanotify_mark")),
)
HANDLERS: Dict[str, Handler] = {name: handler for handler, names in METHODS for name in names}
