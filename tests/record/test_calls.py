"""Tests of record/trace/calls.py."""

import os
import re
import tempfile
import unittest
from typing import Set, Tuple

import support
from record.trace.sifting import Skip
from test_replay import TOP, events_of, lives_of, played
from test_small import Small, makefiles

SOCKET = "import socket\nsocket.socket(socket.AF_UNIX).connect_ex('\\0race-test')\n"
ABSENT = "all: u a\nu: ; %s 2> /dev/null || echo no > u; touch u\na: ; mkdir d; touch a\n"
SEES = "who lists the processes that run"
BASH = "SHELL = /bin/bash\n"
FUNCTION = "show() { echo d/*; }\nnewer() { [ \"$1\" -nt \"$2\" ]; }\n"
OTHER_SOCKET = "import socket\nsocket.socket(socket.AF_UNIX).bind('s')\n"
SHARED = "import ctypes\nctypes.CDLL(None).shmget(0, 4096, 0o1600)\n"
MAKES = """#include <stdio.h>
#include <sys/stat.h>
int main(void) { return puts(mkdir("d", 0777) ? "second" : "first") < 0; }
"""
IN_ROOT = """#define _GNU_SOURCE
#include <fcntl.h>
#include <linux/openat2.h>
#include <sys/syscall.h>
#include <unistd.h>
int main(void) {
    struct open_how how = {.flags = O_RDONLY, .resolve = RESOLVE_IN_ROOT};
    return syscall(__NR_openat2, open("d", O_PATH | O_DIRECTORY), "/x", &how, sizeof how) < 0;
}
"""
# A recipe that runs something in a folder, and another one that makes a name there.
HERE = "all: a b\na: ; cd d && %s > ../a\nb: ; touch d/x b\n"
IN_FOLDER = {"t": "if [ . -nt s ]; then echo newer; fi\n", "d/s": ""}
DEEP = "for f in */*/*.c; do echo $f; done\n"
# A recipe that runs a script, or a text, beside one that makes a name.
SCRIPT = "all: a b\na: s ; sh s > a\nb: ; %s; touch b\n"
TREE = "mkdir -p d/e; touch d/e/x.c"
IS_THERE = "RACE  d  (that the folder"
# b looks for a file by way of d, which a makes.
WAY = "all: a b\na: ; mkdir d; touch a\nb: ; cat %s > b || echo none > b\n"
Makefiles = makefiles(__name__, {
    # sockets
    "socket_without_a_file_that_nobody_opened": Small("safe", "all: ; python3 t/s.py; touch all\n", {"t/s.py": SOCKET}, says="servers that processes talk to"),
    # how many names a file has
    # names that cannot be made, as their folder is not there, or is full
    "socket_in_a_folder_that_is_absent": Small("race", ABSENT % "python3 t/s.py", {"t/s.py": "import socket\nsocket.socket(socket.AF_UNIX).bind('d/y')\n"}),
    "file_without_a_name_in_a_folder_that_is_absent": Small("race", ABSENT % "python3 t/t.py", {"t/t.py": "import os\nos.open('d', os.O_TMPFILE | os.O_WRONLY)\n"}),
    # processes of other recipes
    "process_that_is_looked_for": Small("safe", "all: ; test -d /proc/$$PPID; touch all\n", says=SEES),
    # listings
    # ages
    # what programs ask of a folder
    # what goes past files
    "name_of_a_socket": Small("race", "all: a b\na: ; python3 t/s.py; touch a\nb: ; if test -S s; then echo yes; fi > b\n", {"t/s.py": OTHER_SOCKET}),
    "memory": Small("safe", "all: ; python3 m.py; touch all\n", {"m.py": SHARED}, says="memory is shared"),
    "processes": Small("safe", "all: ; ls /proc > /dev/null; touch all\n", says="who lists the processes"),
    "process_of_make": Small("safe", "all: ; cat /proc/$$PPID/stat > /dev/null; touch all\n", says="who lists the processes"),
    "process_of_its_own": Small("safe", "all: ; cat /proc/self/stat > /dev/null; touch all\n", lacks="who lists the processes"),
    # names that a folder cannot get
    "folder_whose_name_a_file_has": Small("race", "all: a b\na: ; echo 1 > x; touch a\nb: ; mkdir x 2> /dev/null || echo there > b; touch b\n"),
    "folder_whose_name_a_link_has": Small("race", "all: a b\na: ; ln -s d x; touch a\nb: ; mkdir x 2> /dev/null || echo there > b; touch b\n", {"d/k": "k"}),
    "folder_whose_name_a_file_has_that_comes_first": Small("safe", "all: a b\na: ; echo 1 > x; touch a\nb: a ; mkdir x 2> /dev/null || echo there > b; touch b\n"),
    # folders that are made, where something shows who made them
    # names below another root
    "name_below_another_root": Small("no verdict", "all: b a\na: ; echo 1 > d/x; touch a\nb: ; ./o || touch b\n", {"d/k": "k", "o.c": IN_ROOT}, "cc -o o o.c", says="RESOLVE_IN_ROOT"),
    # ages of the folder that a script is in
    "age_of_a_folder_in_a_script": Small("race", HERE % "sh ../t", IN_FOLDER, is_tried=True),
    "text_that_eval_gets_in_a_make_inside": Small("safe", "all: a b\na: ; $(MAKE) -C d -f ../m\nb: ; touch d/x b\n", {"m": ".PHONY: all\nall: ; x=\"$$(cat ../t)\"; eval \"$$x\"\n", "t": "echo 1 > ../a\n", "d/s": ""}),
    "other_text_from_a_pipe": Small("safe", HERE % "cat ../t | sh", {"t": "[ s -nt t ] && echo newer; true\n", "d/s": "", "d/t": ""}),
    "script_that_bash_takes_in": Small("safe", "SHELL = /bin/bash\nall: a b\na: ; y=2; . ./v; echo $$x > a\nb: ; touch b\n", {"v": "x=1\n"}),
    # the same of a script
    "file_that_is_there_beside_folders": Small("safe", SCRIPT.replace("a b", "b a", 1) % "touch y d/y", {"s": DEEP}, TREE, is_tried=True),
    "folder_that_a_path_by_way_of_proc_leaves_again": Small("race", WAY % "/proc/self/cwd/d/../f", {"f": ""}, says=IS_THERE),
    # folders that several recipes give an owner
})


class Traces(unittest.TestCase):
    """Lines of a trace."""

    def test_attribute_by_a_number(self) -> None:
        for name in ("fsetxattr(3<%s/x>, \"user.k\", \"v\", 1, 0)", "fremovexattr(3<%s/x>, \"user.k\")"):
            life = lives_of(played("1 " + name % TOP + " = 0"), 1)[0]
            self.assertIn(("W", "x"), events_of(life), name)

    def test_name_of_two_that_is_removed(self) -> None:
        opened = f'1 openat(AT_FDCWD<{TOP}>, "x", O_WRONLY|O_CREAT, 0666) = 3<{TOP}/x>'
        self.assertEqual([TOP + "/y", TOP + "/y"], played(opened, '1 link("x", "y") = 0', '1 unlink("x") = 0').hard_links)

    def test_owner_of_a_folder(self) -> None:
        life = lives_of(played('1 mkdir("d", 0777) = 0', '1 chown("d", 0, 0) = 0', '1 fchmodat(AT_FDCWD<%s>, "d", 0750, 0) = 0' % TOP), 1)[0]
        self.assertIn(("m", "d"), events_of(life))

    def test_settings_of_the_kernel(self) -> None:
        opened = '1 openat(AT_FDCWD</w>, "/proc/sys/kernel/hostname", %s) = 3</proc/sys/kernel/hostname>'
        self.assertEqual([1, 0], [len(played(opened % flags).holes) for flags in ("O_WRONLY|O_TRUNC", "O_RDONLY")])
        self.assertEqual(1, len(played('1 sethostname("x", 1) = 0').holes))

    def test_signal_is_no_descriptor(self) -> None:
        replay = played("1 kill(5, SIGTERM) = 0", "1 tgkill(1, 1, SIGABRT) = 0")
        self.assertEqual([], replay.holes)
        self.assertEqual(1, len(replay.watchers))

    def test_folder_without_a_name(self) -> None:
        self.assertEqual(set(), events_of(lives_of(played("1 chdir(NULL) = -1 EFAULT (Bad address)"), 1)[0]))

    def test_link_that_leads_out_of_the_system(self) -> None:
        with tempfile.TemporaryDirectory() as room:
            room = os.path.realpath(room)
            os.mkdir(room + "/usr")
            os.symlink("../opt", room + "/usr/link")
            looks, lines = re.compile((r'\n\d+ stat\("(%s/usr/[^"]*)"[^\n]*' % re.escape(room)).encode()), ['\n7 stat("%s/usr/%s", 0x1) = 0' % (room, n) for n in ("link/x", "x")]
            self.assertEqual(lines[0].encode(), Skip(looks, looks, [], (room + "/usr/",)).rest("".join(lines).encode()))


class Descriptors(unittest.TestCase):
    """Lines of a trace."""

    def events(self, *lines: str) -> Set[Tuple[str, str]]:
        replay = played('1 execve("/opt/tool", ["tool", "x"], 0x1 /* 1 var */) = 0', *lines)
        self.assertEqual([], replay.holes)
        return events_of(lives_of(replay, 1)[0])

    def test_a_number_that_stands_for_a_name(self) -> None:
        opened = f'1 openat(AT_FDCWD<{TOP}>, "f", O_RDONLY|O_NOFOLLOW|O_CLOEXEC|O_PATH) = 4<{TOP}/f>'
        self.assertIn(("W", "f"), self.events(opened, '1 chmod("/proc/self/fd/4", 0755) = 0'))

    def test_a_number_of_an_open_file_is_a_hole(self) -> None:
        opened = f'1 openat(AT_FDCWD<{TOP}>, "f", O_RDONLY) = 4<{TOP}/f>'
        self.assertNotEqual([], played(opened, '1 chmod("/proc/self/fd/4", 0755) = 0').holes)
        self.assertNotEqual([], played('1 access("/dev/fd/5/x", F_OK) = 0').holes)

    def test_folders_below_one_that_is_moved(self) -> None:
        found = self.events('1 mkdir("d", 0777) = 0', '1 mkdir("d/s", 0777) = 0', '1 rename("d", "e") = 0')
        self.assertLessEqual({("X", "d"), ("X", "d/s"), ("M", "e"), ("M", "e/s")}, found)

    def test_a_file_that_is_moved_to_its_other_name(self) -> None:
        made = f'1 openat(AT_FDCWD<{TOP}>, "x", O_WRONLY|O_CREAT, 0666) = 3<{TOP}/x>'
        replay = played(made, '1 link("x", "y") = 0', '1 rename("x", "y") = 0', "1 vfork() = 2", made.replace("1", "2", 1))
        self.assertIn(("W", "y"), events_of(lives_of(replay, 2)[0]))

    def test_attributes_of_a_link(self) -> None:
        self.assertIn(("W", "l"), self.events('1 lremovexattr("l", "trusted.x") = 0'))

    def test_a_program_by_its_number(self) -> None:
        self.assertIn(("R", "tool"), self.events(f'1 execveat(3<{TOP}/tool>, "", ["tool"], 0x1 /* 1 var */, AT_EMPTY_PATH) = 0'))

    def test_who_waits_for_changes(self) -> None:
        replay = played('1 execve("/opt/tool", ["tool", "x"], 0x1 /* 1 var */) = 0', '1 inotify_add_watch(3<anon_inode:inotify>, "d", IN_CREATE) = 1')
        self.assertEqual(["tool x"], replay.watchers)
