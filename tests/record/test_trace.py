"""Tests of modules of record/trace that have no file of their own."""

import os
import unittest

import support
from record.trace.processes import lends_rights
from test_small import COMMANDS, Small, makefiles

TWO_RULES = "%.t: %.a ; cp $< $@\n%.t: %.b ; cp $< $@\n"
UNSEEN = """#define _GNU_SOURCE
#include <sched.h>
#include <signal.h>
#include <sys/syscall.h>
#include <sys/wait.h>
#include <unistd.h>
int main(void) { return syscall(SYS_clone, CLONE_UNTRACED | SIGCHLD, 0, 0, 0, 0) ? wait(0) < 0 : 0; }
"""
OWN_FOLDER = """#define _GNU_SOURCE
#include <sched.h>
#include <pthread.h>
#include <stdio.h>
#include <unistd.h>
void *other(void *none) { unshare(CLONE_FS); return chdir("d") ? none : 0; }
int main(void) { pthread_t one; pthread_create(&one, 0, other, 0); pthread_join(one, 0); return %s("x", "y"); }
"""
SEES = "who lists the processes that run"
# A make inside that lists its folder for one pattern, beside a recipe that makes a name of another one.
INSIDE = "all: a b\na: ; $(MAKE) -f in.mk\nb: ; %s; touch b\n"
Makefiles = makefiles(__name__, {
    # what is there when a build begins, and not when the recording does
    "folder_that_an_earlier_make_has_removed": Small("race", "all: a b\na: ; mkdir -p d; touch d/a a\nb: ; touch d/b b || true\nclean: ; rmdir d\n", setup="mkdir d"),
    "folder_that_the_make_above_has_made": Small("safe", "in: pre ; $(MAKE) -f 2.mk; touch in\npre: ; mkdir d; touch pre\n", {"2.mk": "all: a b\na: ; mkdir -p d; touch d/a a\nb: ; touch d/b b\n"}),
    # a make that begins again knows nothing of what it has listed
    "listing_of_a_make_that_begins_again": Small("race", "-include x.d\nall: a b c\na: ; echo 1 > d/n; touch a\nb: a ; echo '$(wildcard d/*)' > b\nc: ; echo '$(wildcard d/*)' > c\nx.d: ; echo '# $(wildcard d/*)' > x.d\n", {"d/k": "k"}, is_tried=True),
    "search_of_a_make_that_begins_again": Small("safe", "-include x.d\nall: z.t g\n" + TWO_RULES + "g: ; echo a > d/z.a; touch g\nx.d: ; touch x.d\n", {"z.b": "b", "d/k": "k"}),
    # processes that the trace does not show
    "program_that_traces_another": Small("no verdict", "all: ; strace -o t true || true; touch all\n", says="a program traces another one (a debugger)"),
    "process_that_runs_unseen": Small("no verdict", "all: ; ./o; touch all\n", {"o.c": UNSEEN}, "cc -o o o.c", says="a process runs unseen (CLONE_UNTRACED"),
    # threads with a folder of their own
    "thread_in_a_folder_of_its_own": Small("race", "all: u a\na: ; ./o; touch a\nu: ; cat y > u || true\n", {"x": "x", "d/x": "x", "o.c": OWN_FOLDER % "rename"}, "cc -pthread -o o o.c"),
    # processes of other recipes
    "signal_for_another_recipe": Small("safe", "all: b\na: ; sleep 9 > /dev/null 2>&1 & echo $$! > a\nb: a ; kill `cat a`; touch b\n", says=SEES),
    "signal_for_its_own_process": Small("safe", "all: ; sleep 9 & kill $$!; touch all\n", lacks=SEES),
    "limits_of_another_process": Small("safe", "all: a b\na: ; perl -e 'setpriority 0, $$ARGV[0], 1' $$PPID; touch a\nb: ; nice > b\n", says=SEES),
    "limits_of_a_group": Small("safe", "all: a b\na: ; perl -e 'setpriority 1, 0, 1'; touch a\nb: ; nice > b\n", says=SEES),
    "limits_of_its_own_process": Small("safe", "all: a b\na: ; nice prlimit --core=0 touch a\nb: ; touch b\n", lacks=SEES),
    # by way of /proc, and by numbers
    "folder_of_another_process": Small("race", "all: a b\na: ; echo 1 > f; touch a\nb: ; if test -e /proc/$$PPID/cwd/f; then echo yes; fi > b\n"),
    # folders in the middle of a pattern of make
})


COMMANDS["folder_that_an_earlier_make_has_removed"] = ["sh", "-c", "make clean && make all"]


class Rights(unittest.TestCase):
    """Programs with the rights of their owner."""

    def test_who_lends_them(self) -> None:
        with support.Project({"p": "", "q": "", "g": ""}) as project:
            project.sh("chmod 4755 p; chmod 755 q; chmod 2755 g")
            own = os.stat(project.folder / "p").st_uid
            found = [[lends_rights(str(project.folder / name), user) for name in ("p", "q", "g", "none")] for user in (own + 1, 0)]
        self.assertEqual([[True, False, True, False], [False] * 4], found)
