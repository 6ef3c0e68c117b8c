"""What builds in other orders show of conflicts that are about no file, and what they clear."""

import os
import socket
import tempfile
import time
import unittest
from dataclasses import replace
from pathlib import Path
from typing import Dict, List, Tuple
from unittest import mock

import support

from record.orders.builds import Built, Plan
from record.orders.exploring import has_memory
from record.orders.trial import Trial

LISTS = "all: d/a list\nd/a: ; @echo a > d/a\nlist: ; @ls d > list\n"
AB = "a: ; @echo a > a\nb: ; @echo b > b\n"
# By name: the makefile, files that are there, the status, and what the report says.
CASES: Dict[str, Tuple[str, Dict[str, str], int, Tuple[str, ...]]] = {
    "list of a folder": (LISTS, {"d/k": ""}, 1, ("RACE  list", "  seen where list runs before d/a:", "    list: line 1 is `k`, and `a` after a serial build", "fix: list: d/a")),
    "list of a recipe with a race of its own": ("all: d/a list\nd/a: ; @echo a > d/a\nlist: ; @cp d/k y & cat y > /dev/null 2>&1; wait; ls d > list\n", {"d/k": ""}, 1, (
        "RACE  y  in list: ", "  seen where list runs before d/a:")),
    "list that nobody keeps": ("all: a b\na: ; @echo a > a\nb: ; @ls > /dev/null; echo b > b\n", {}, 0, (
        "0 pairs that conflict are in order; 1 build in other orders left the same 3 files.", "what it did in these builds (1 of 1 pairs")),
    "names that a list has shown": ("all: a b\na: ; @echo a > d/a; touch a\nb: ; @ls -s d > /dev/null; echo b > b\n", {"d/k": ""}, 0, ("1 build in other orders left the same",)),
    "which of two is newer": ("all: c\n" + AB + "c: a b ; @cp -u a b; cat b > c\n", {}, 1, ("  seen where b runs before a:", "    b: line 1 is `a`, and `b` after a serial build")),
    "copy of the same": ("all: c\na b: ; @echo same > $@\nc: a b ; @cp -u a b; cat b > c\n", {}, 0, ("in other orders left the same 4 files",)),
    "user between two makers": ("all: a c b\na b: ; @echo > d/$@; echo > $@\nc: ; @ls d | grep -q . && echo some > c || echo none > c\n", {"d/.k": ""}, 1, (
        "  seen where c runs before a:", "    c: line 1 is `none`, and `some` after a serial build")),
    "user between two makers beside others": ("all: a c b x\na b: ; @echo > d/$@; echo > $@\nc: ; @ls d | grep -q . && echo some > c || echo none > c\nx: ; @echo > x\n", {"d/.k": ""}, 1, (
        "    c: line 1 is `none`, and `some` after a serial build",)),
    "file that make writes by itself": ("all: g u e\ng: ; @touch g\nu: ; @cat x > u 2> /dev/null || echo none > u\n.PHONY: e\ne: g ; $(file >x,w)\n", {}, 1, ("  u: line 1 is `w`, and `none` after a serial build",)),
    "fix that a cover has turned round": (
        "all: u see m p l q\nu p: ; @cat $@.x > $@ 2> /dev/null || true; touch $@\nsee: ; @ls d > see\nm: ; @echo > u.x; echo > d/m; touch m\np l q: see\nl: ; @touch l\nq: ; @echo > p.x; touch q\n", {"d/k": ""}, 1, (
            "  seen where m runs before see:", "3 races on 3 files.")),
    "one order of three": ("all: c\n" + AB + "d: ; @echo d > d\nc: a b d ; @test b -nt a && test a -nt d && echo yes > c || echo no > c\n", {}, 1, ("  seen where d runs before a:",)),
    "build that fails": ("all: b/x u\nb/x: ; @mkdir -p b; echo x > b/x\nu: ; @cp src b/u && echo u > u\n", {"src": ""}, 1, ("  seen where u runs before b/x:", "    the build fails with status 2", "cp: ")),
    "folder that two make": ("all: a b\na b:\n\t@test -d d || mkdir d\n\t@echo > d/$@; echo > $@\n", {}, 1, (
        "RACE  b", "  seen where b runs beside a:", "    the build fails with status 2", "  fix: b: a")),
    "later rule with two colons": ("all: t x\nt::\n\t@touch a\n\t@touch b\nt:: ; @test -d e || mkdir e && touch e/t\nx: ; @test -d e || mkdir e && touch e/x x\n", {}, 1, ("  seen where x runs beside t@rule2:",)),
    "later rule with two colons behind one that starts nothing": ("all: t x\nt:: ; @:\nt:: ; @test -d e || mkdir e && touch e/t\nx: ; @test -d e || mkdir e && touch e/x x\n", {}, 1, ("  seen where x runs beside t@rule2:",)),
    "folders at which two meet": ("all: a x b y\na b: ; @test -d d || mkdir d && touch $@\nx y: ; @test -d e || mkdir e && touch $@\n", {}, 1, (
        "RACE  b", "  seen where b runs beside a:", "RACE  y", "  seen where y runs beside x:", "2 races on 2 files.")),
    "order that only a build has in which two meet": (
        "all: a x y w b\na: ; @test -d d || mkdir d; touch k/fa a\nx: ; @touch k/fx x\ny w: ; @touch $@\n"
        "b: ; @test -d d || mkdir d; case `ls k | tr '\\n' ' '` in \"fa z \") echo > bad;; esac; touch b\n", {"k/z": ""}, 1, ("  seen where b runs before x:", "    bad: is there, and is not after a serial build")),
    "folder that one only saw": ("all: o/a o/b o/c\no/a o/c: ; @sleep 0.2; mkdir -p o; echo > $@\no/b: ; @test -d o || mkdir o && echo > $@\n", {}, 1, ("  seen where o/b runs beside o/a:",)),
    "folder that one makes empty": ("all: a b\na b: ; @test -d d || { mkdir -p d; rm -f d/*; }; sleep 0.3; touch d/$@.o $@\n", {}, 1, ("RACE  d/a.o", "  seen where b runs beside a:")),
    "folder that another order lets another one make": (
        "all: a b m n\na: ; @test -d d || mkdir -p d; touch a\nb: ; @test -d d || mkdir d && touch b\nm: ; @touch d/m 2>/dev/null || { mkdir -p d; touch d/m; }; test -d c || mkdir -p c; touch m\n"
        "n: ; @test -d c || mkdir -p c; touch n\n", {}, 1, ("  seen where b runs beside a:",)),
    "folder that is known to be there": ("all: a b\na b: ; @test -d d || mkdir d && mkdir -p d/$@.x && touch $@\n", {}, 1, ("  seen where b runs beside a:",)),
    "folder that one of many makes otherwise": (
        "T := $(shell seq -f t%g 40)\nall: $T\nt30: ; @test -d o || mkdir o 2> /dev/null || echo > bad; touch $@\n$(filter-out t30,$T): ; @test -d o || mkdir -p o; touch $@\n", {}, 1, (
            "RACE  bad", "  seen where t30 runs beside t1:")),
    "folder of one name elsewhere": ("all: a b\na b: ; @mkdir -p $@.d/o; test -d o || mkdir o && touch o/$@ $@\n", {}, 1, ("  seen where b runs beside a:",)),
    "folder that another one waits to make": ("all: u w v\nw: ; @touch w\nu: ; @mkdir -p d; touch d/u u\nv: w ; @test -d d || mkdir d && touch d/v v\n", {}, 1, ("  seen where v runs beside u:",)),
    "pair that the flipped build does not turn": ("all: w u v\nw: ; @touch w\nu v: ; @test -d d || mkdir d && touch d/$@ $@\nv: w\n", {}, 1, ("  seen where v runs beside u:",)),
    "file that only a further order reads": (
        "all: w u v\nw: ; @touch w\nu: ; @touch d/f; echo x > x; touch u\nv: w ; @ls d | grep -q . || cat x > v.out 2>/dev/null; touch v.out v\n", {"d/.k": ""}, 1, ("RACE  x",)),
    "folder that one of three removes": ("all: a b c\na c: ; @mkdir -p t && echo > t/$@ && touch $@\nb: ; @mkdir -p t; rmdir t 2>/dev/null || true; touch b\n", {}, 1, ("  seen where b runs beside a:",)),
    "folder that goes beside who makes it first": (
        "all: x a\nb: ; @mkdir -p p && echo > p/b && touch b\nx: b ; @mkdir -p p; touch x\na: ; @mkdir -p p/q; rmdir p/q; rmdir p 2>/dev/null || true; touch a\n", {}, 1, ("  seen where a runs beside b:",)),
    "folder that is gone for a while": ("all: a b\ns: ; @mkdir p; touch s\na: s ; @rm -rf p; mkdir p; touch a\nb: s ; @test -d p && echo yes > b || echo no > b\n", {}, 1, (
        "  seen where b runs beside a:", "    b: line 1 is `no`, and `yes` after a serial build")),
    "folder of a process that is left": ("all: b\na: ; @(sleep 0.5; mkdir d) & touch a\nb: a ; @test -d d && echo yes > b || echo no > b; sleep 1\n", {}, 1, ("RACE  d  (that the folder d is there)",)),
    "wait for a time by select": ("all: a b\na: ; @touch d/a a\nb: ; @python3 -Sc 'import select; select.select([], [], [], 1)'; ls d > b\n", {"d/k": ""}, 1, ("  seen where b runs before a:",)),
    "thread that goes on": ("all: a b\na: ; @touch d/a a\nb: ; @python3 -Sc 'import threading, time; threading.Thread(target=time.sleep, args=(1,)).start()'; ls d > b\n", {"d/k": ""}, 1, ("  seen where b runs before a:",)),
    "name that is longer than those that are drawn": (
        "all: r a b\nr: ; @mktemp XXXXXX > /dev/null; touch r\na: ; @touch d/a a\nb: ; @ls d | grep -q a || touch longer.name; touch b\n", {"d/k": ""}, 1, ("RACE  longer.name",)),
    "folder that one makes by p": ("all: a b\na:\n\t@test -d d || mkdir d\n\t@touch d/a a\nb: ; @mkdir -p d; touch d/b b\n", {}, 1, ("  seen where b runs beside a:", "    the build fails with status 2")),
    "folder that both make by p": ("all: a b\na b:\n\t@test -d d || mkdir -p d\n\t@echo > d/$@; echo > $@\n", {}, 0, ("in other orders left the same 5 files",)),
    "folder that each removes": ("all: a b\na b: ; @mkdir d && cp src d/$@ && rm d/$@ && rmdir d && echo > $@\n", {"src": ""}, 1, ("RACE  b", "  seen where b runs beside a:")),
    "folder that each makes anew": ("all: a b\na b: ; @mkdir -p d; cp src d/$@; cp d/$@ $@; rm -rf d\n", {"src": "1\n"}, 1, ("  seen where b runs beside a:",)),
    "folder that a program makes for a while": ("all: a b\na b: ; @python3 p.py $@\n", {"p.py": "import os, sys\nos.mkdir('d')\nopen('d/x' + sys.argv[1], 'w')\nos.unlink('d/x' + sys.argv[1])\nos.rmdir('d')\nopen(sys.argv[1], 'w')\n"}, 1, (
        "  seen where b runs beside a:",)),
    "folder that a further line makes": ("all: a b\na b:\n\t@echo > $@\n\t@mkdir -p d; echo > d/$@; rm d/$@; rmdir d\n", {}, 1, ("  seen where b runs beside a:",)),
    "look at a folder that goes": ("all: a b\na: ; @mkdir d; rmdir d; echo > a\nb: ; @test -d d && echo yes > b || echo no > b\n", {}, 1, ("  seen where b runs beside a:", "    b: line 1 is `yes`, and `no` after a serial build")),
    "folder that goes where it is empty": ("all: a b\na: ; @mkdir -p d; echo > d/a; touch a\nb: ; @rmdir d 2> /dev/null; touch b\n", {}, 1, ("  seen where b runs beside a:", "    d/a: is missing")),
    "folder that goes behind both": ("all: c\na b:\n\t@test -d d || mkdir d\n\t@echo > d/$@; echo > $@\nc: a b ; @ls d > c; rm -r d\n", {}, 1, ("  seen where b runs beside a:",)),
    "folder that goes in a make beside one for a lock": (
        "all: s t\ns t: ; @while ! mkdir k 2> /dev/null; do sleep 0.1; done; rmdir k; $(MAKE) -s -f $@.mk; touch $@\n",
        {"s.mk": "all: a b\na b: ; @mkdir d && cp src d/$@ && rm d/$@ && rmdir d && echo > $@\n", "t.mk": "all: ; @touch x\n", "src": ""}, 1, ("  seen where b runs beside a:",)),
    "folder that is a lock": ("all: a b c\na b c: ; @while ! mkdir d 2> /dev/null; do sleep 0.1; done; echo $@ > $@; rmdir d\n", {}, 0, ("in other orders left the same 4 files",)),
    "name for which make asks": ("all: a u\na: ; @echo > x; echo > a\nu: x ; @echo > u\nx: ;\n", {}, 0, ("other orders left the same 4 files",)),
    "file beside a name for which make asks": ("all: w b\nw: ; @echo 1 > b; echo 1 > z; echo > w\nb: F ; @cat z > /dev/null; echo > t\nF: ;\n.PHONY: F\n", {}, 1, ("RACE  z",)),
    "jobs alone": ("all: a b\na: ; @case \"$$MAKEFLAGS\" in *jobserver*) echo many > a ;; *) echo one > a ;; esac\nb: ; @echo b > b\n", {}, 1, (
        "RACE  with several jobs, whatever the order of recipes is:", "  a: line 1 is `many`, and `one` after a serial build")),
    "what differs in two serial builds": ("all: d/a list\nd/a: ; @echo a > d/a\nlist: ; @ls d > list; date +%N >> list\n", {"d/k": ""}, 0, ("note: two builds in one order differ in list, so other orders are not compared there",)),
    "jobs of a makefile": ("MAKEFLAGS += -j4\nall: t u\nt: X = 1\nt:: s ; @echo t > t\nt:: c ; @echo t > t\nu: c ; @echo u > u\ns: ; @sleep 0.1; echo s > s\nc: ; @echo '$(X)' > c\n", {}, 1, (
        "RACE  with several jobs, whatever the order of recipes is:", "  c: line 1 is ``, and `1` after a serial build")),
    "macro that another recipe sets": ("all: s a b\ns: ; @touch s\na: s ; $(eval X := set)@touch a\nb: ; @echo x$(X) > b\n", {}, 1, (
        "RACE  with several jobs, whatever the order of recipes is:", "  b: line 1 is `x`, and `xset` after a serial build")),
    "macro that make expands in one order": ("all: s a b\ns: ; @touch s\na: s ; $(eval X := set)@touch a\nb: s ; @echo x$(X) > b\n", {}, 0, ("in other orders left the same 4 files",)),
    "targets with drawn names": ("all: a b\na: ; @$(MAKE) -s -f in.mk t$$(mktemp -u XXXXXX); echo > a\nb: ; @echo b > b\n", {"in.mk": "t%: ; @echo $@ > /dev/null\n"}, 0, ("in other orders left the same 4 files",)),
    "make in a recipe": ("all: d/a sub\nd/a: ; @echo a > d/a\nsub: ; @$(MAKE) -s -C s\n\t@touch sub\n", {"d/k": "", "s/Makefile": "list: ; @ls ../d > list\n"}, 1, (
        "  seen where sub runs before d/a:", "    s/list: line 1 is `k`, and `a` after a serial build")),
    "look whose answer is not compared": ("all: c\n" + AB + "c: a b ; @test a -nt b && echo newer > c; date +%N >> c\n", {}, 0, ("note: two builds in one order differ in c, so other orders are not compared there",)),
    "time of day": ("all: a b\na b: ; @date +%N > $@\n", {}, 0, ("note: two builds in one order differ in a, b, so other orders are not compared there",)),
    "names that depend on the order": ("all: a b\na b: ; @n=$$(ls d | grep -c run); echo hi > d/run$$n; touch $@\n", {"d/k": ""}, 1, ("RACE  d/run0",)),
    "name like one that is drawn": ("all: r a e\nr: ; @mktemp tmp.XXXXXX > /dev/null; touch r\na: ; @touch d/a a\ne: ; @ls d > tmp.listed; touch e\n", {"d/x": ""}, 1, ("  seen where e runs before a:", "    tmp.listed: line 1 is `x`, and `a` after a serial build")),
    "place of the project": ("all: a list\na: ; @touch d/a a\nlist: ; @stat -c %d . > list; ls d >> list\n", {"d/k": ""}, 1, (
        "note: all builds in copies leave list otherwise than the recorded one", "  seen where list runs before a:", "    list: line 2 is `k`, and `a` after a serial build")),
    "hard conflict that another order shows": ("all: d/a x c\nd/a: ; @echo a > d/a\nx: ; @echo x > x\nc: ; @ls d | grep -q a || cat x > /dev/null 2>&1; echo c > c\n", {"d/k": ""}, 1, (
        "RACE  x", "  c  Makefile:4  reads it, and nothing orders the two")),
}


class Orders(unittest.TestCase):
    """Whole records."""

    def case(self, name: str) -> None:
        makefile, files, status, wanted = CASES[name]
        with support.Project({"Makefile": makefile, **files}) as project:
            found = project.record(once=False)
        text = found.text()
        for line in wanted:
            self.assertIn(line, text)
        self.assertEqual(status, found.status, text)

    def test_what_was_not_made_again(self) -> None:
        """A difference that may come from more than one pair bars the yes where no more builds may say from which."""
        makefile = "T := $(shell seq -f t%g 12)\nall: $T\nt9: ; @test -d o || mkdir o 2> /dev/null || echo > bad; touch $@\n$(filter-out t9,$T): ; @test -d o || mkdir -p o; touch $@\n"
        with support.Project({"Makefile": makefile}) as project:
            found = project.record(options=("--orders", "4"), once=False)
        self.assertEqual((2, True), (found.status, "a build in another order came to something else, and no more may be built: bad: is there" in found.text()), found.text())

    def test_pair_that_no_build_turns_round(self) -> None:
        """What both look at is judged; what others do is tried out."""
        makes = "@$(if $(wildcard %s),,$(shell mkdir -p %s))"
        d, e = (makes % (one, one) for one in "de")
        with support.Project({"Makefile": "all: a b c\na: ; %stouch d/a a\nb: ; %s%stouch d/b e/b b\nc: a ; %stouch e/c c\n" % (d, d, e[1:], e)}) as project:
            found = project.record(options=("--orders", "2"), once=False)
        self.assertEqual((1, True, True), (found.status, "that the folder e is there" in found.text(), "\n1 race on 1 file." in found.text()), found.text())

    def test_folder_behind_a_whole_link(self) -> None:
        with support.Project({"Makefile": "all: a b\na b: ; @test -d l/d || mkdir l/d && touch $@\n", "r/k": ""}) as project:
            os.symlink(os.path.realpath(project.folder / "r"), project.folder / "l")
            found = project.record(once=False)
        self.assertEqual((1, True), (found.status, "  seen where b runs beside a:" in found.text()), found.text())

    def test_folder_that_is_made_inside_a_lock(self) -> None:
        """Who has the lock is held there, and the other one does not come."""
        makefile = "all: a b\na b: ; @until mkdir k 2> /dev/null; do sleep 0.05; done; test -d d || mkdir d; touch d/$@ $@; rmdir k\n"
        with mock.patch("record.orders.builds.QUIET", 1.0), support.Project({"Makefile": makefile}) as project:
            found = project.record(once=False)
        self.assertEqual((0, True), (found.status, "and more was to be tried out" in " ".join(found.text().split())), found.text())

    def test_build_that_is_held_and_counts(self) -> None:
        """All is tried out again, with that record."""
        makefile = "all: x y z\nx: ; @cp in o & sleep 0.2; cat o > p; echo > x\ny: ; @date +%N > y\nz: ; @echo z > z\n"
        with support.Project({"Makefile": makefile, "in": ""}) as project:
            found = project.record(once=False)
        self.assertEqual((1, True), (found.status, "RACE  o  in x: cp in o, cat o" in found.text()), found.text())

    def test_kernel_that_reports_nothing(self) -> None:
        """Folders that two use are not tried out then."""
        makefile, files, _, _ = CASES["folder that each removes"]
        with mock.patch("record.orders.overlap.reports_of", return_value=-1), support.Project({"Makefile": makefile, **files}) as project:
            found = project.record(once=False)
        self.assertEqual((0, True), (found.status, "recipes that nothing orders come to the same" in found.text()), found.text())
        self.assertIn("the kernel reports no calls that make folders", found.text())

    def test_jobs_of_the_user(self) -> None:
        """What a build with several jobs leaves is no measure: builds in copies are compared with a serial one."""
        with support.Project({"Makefile": "all: a list\na: ; @sleep 0.5; touch d/a a\nlist: ; @ls d > list\n", "d/k": ""}) as project:
            found = project.record(["make", "-j2"], once=False)
        self.assertEqual((1, True), (found.status, "  seen where list runs before a:" in found.text()), found.text())

    def test_what_jobs_alone_show(self) -> None:
        """No order does, where each recipe sees what the other one has done so far."""
        makefile = "all: a b\na: ; @echo > d/a; sleep 0.8; ls d > a; rm d/a\nb: ; @echo > d/b; sleep 1.6; rm d/b; touch b\n"
        with support.Project({"Makefile": makefile, "d/k": ""}) as project:
            found = project.record(["make", "-j2"], once=False)
        self.assertEqual((2, True), (found.status, "/a otherwise than each build in a copy: record with one job" in found.text()), found.text())

    def test_folder_elsewhere_that_stays(self) -> None:
        """Builds in copies find it, and what is in it."""
        with support.Project({"Makefile": "all: a b\na: ; @mkdir ../d; touch ../d/a a\nb: ; @ls ../d > b 2> /dev/null || true\n"}) as project:
            found = project.record(once=False)
        self.assertEqual((0, True), (found.status, "does no harm: outside (" in found.text()), found.text())

    def test_folder_elsewhere_that_one_makes_by_p(self) -> None:
        """Where it is there, nobody changes it."""
        with support.Project({"Makefile": "all: a b\na: ; @mkdir -p ../d; touch a\nb: ; @test -d ../d && echo > b || touch b\n"}) as project:
            found = project.record(once=False)
        self.assertEqual((0, True), (found.status, "does no harm: outside (" in found.text()), found.text())

    def test_folder_elsewhere_that_goes_again(self) -> None:
        """A build beside the recorded one would find it."""
        makefile = "all: c\na: ; @mkdir -p ../d; touch ../d/a a\nb: ; @sleep 1; ls ../d > b 2> /dev/null; sleep 1\nc: a b ; @rm -r ../d; touch c\n"
        with support.Project({"Makefile": makefile}) as project:
            found = project.record(once=False)
        self.assertEqual((1, True), (found.status, "  seen where b runs before a:" in found.text()), found.text())

    def test_name_that_jobs_alone_leave_out(self) -> None:
        """Nobody touches it in the recorded build."""
        makefile = "all: a b\na: ; @echo > d/a; sleep 0.8; test -e d/b || echo > one; rm d/a; touch a\nb: ; @echo > d/b; sleep 1.6; rm d/b; touch b\n"
        with support.Project({"Makefile": makefile, "d/k": ""}) as project:
            found = project.record(["make", "-j2"], once=False)
        self.assertEqual((2, True), (found.status, "/one otherwise than each build in a copy: record with one job" in found.text()), found.text())

    def test_what_was_there_before_jobs_ran(self) -> None:
        """It goes by the place of the project."""
        with support.Project({"Makefile": "all: a b\na b: list ; @sleep 0.3; echo $@ > $@\nlist: ; @stat -c %d . > list\n"}) as project:
            found = project.record(["make", "-j2"], once=False)
        self.assertEqual((0, True), (found.status, "note: all builds in copies leave list otherwise than the recorded one" in found.text()), found.text())

    def test_make_in_what_comes_before(self) -> None:
        """It has a target of the same name."""
        makefile = "all: ; @$(MAKE) -s x y z\n.PHONY: all\nx: ; @echo x > d/x\ny: ; @ls d > y\nz: ; @echo z > z\n"
        with support.Project({"Makefile": makefile, "d/k": "", "configure": "printf 'all: ; @echo > x.c\\n' > c.mk; make -s -f c.mk; rm c.mk x.c\n"}) as project:
            found = project.record(["sh", "-c", "sh configure && exec make"], once=False)
        self.assertEqual((1, True), (found.status, "  seen where y runs before x:" in found.text()), found.text())

    def test_strict(self) -> None:
        """A yes is barred where pairs ran in one order alone, or what they leave is not compared."""
        for once, recipe, wanted in ((True, "echo a > a", "--strict: recipes that nothing orders come to the same in either order"), (False, "echo a > a", "SAFE"), (False, "date +%N > a", "(1, such as a and b)")):
            with support.Project({"Makefile": "all: a b\na: ; @%s\nb: ; @echo b > b\n" % recipe}) as project:
                found = project.record(options=("--strict",), once=once)
            self.assertIn(wanted, found.text())
            self.assertEqual(0 if wanted == "SAFE" else 2, found.status)

    def test_number_of_builds_is_said_before_they_begin(self) -> None:
        with support.Project({"Makefile": "all: a b c\na b c: ; @echo $@ > $@\n"}) as project:
            found = project.record(once=False)
        self.assertRegex(found.stderr, rb"race-record: two builds in copies run meanwhile; others may follow\nrace-record: 3 builds in copies, of (a second or less|about \d+ seconds) each; one more for each step")

    def test_seconds_are_said_where_a_former_record_knows_them(self) -> None:
        with support.Project({"Makefile": "a: ; @sleep 1; touch a\n"}) as project:
            project.record(once=False)
            project.sh("rm a")
            found = project.record(once=False)
        self.assertRegex(found.stderr, b"race-record: two builds in copies run meanwhile; the last time it took about [1-9] seconds, and 2 builds in copies\n")

    def beside(self, makefile: str) -> support.Outcome:
        """A record of recipes that use a folder outside of the project, `D`."""
        with tempfile.TemporaryDirectory() as room, support.Project({"Makefile": "D = %s\n%s" % (room, makefile)}) as project:
            return project.record(options=("--orders", "2"), once=False)

    def test_what_the_recorded_build_changes_elsewhere(self) -> None:
        """The flipped build, beside it, would see the file that is there for a while."""
        found = self.beside("all: a b w c; @rm $D/x\na: ; @echo > $D/x; echo > a\nb: ; @ls $D > b\nw: b; @sleep 2; echo > w\nc: ; @sleep 1; echo > c\n")
        self.assertEqual((1, True), (found.status, "seen where b runs before a:" in found.text()), found.text())

    def test_names_of_the_recorded_build_that_nobody_knows(self) -> None:
        """The flipped build lists one of them, so it is made anew."""
        found = self.beside("all: a b\na: ; @f=$$(mktemp $D/XXXXXX); sleep 2; rm $$f; echo > a\nb: ; @sleep 1; ls $D > b\n")
        self.assertEqual((0, True), (found.status, "other orders left the same" in found.text()), found.text())

    def test_as_many_as_may_be(self) -> None:
        makes, lists = "".join("d/%d: ; @echo > $@; sleep 0.1\n" % one for one in range(2)), "list: ; @ls d > /dev/null; echo > list\n"
        with support.Project({"Makefile": "all: d/0 d/1 list\n" + makes + lists, "d/k": ""}) as project:
            found = project.record(options=("--orders", "3"), once=False)
        assert found.record is not None
        self.assertEqual(3, found.record["orders"]["made"])

    def test_where_builds_would_disturb_the_recorded_one(self) -> None:
        """They are made behind it."""
        with mock.patch("record.orders.builds.have_own_ports", return_value=False):
            for name in ("list of a folder", "folder that one only saw"):
                self.case(name)
            with support.Project({"Makefile": LISTS, "d/k": ""}) as project:
                self.assertNotIn(b"meanwhile", project.record(once=False).stderr)

    def test_time_that_passes(self) -> None:
        """The second serial build runs beside the recorded one, and may leave the same time."""
        makefile = "all: a b\na: ; @test $$(date +%%s) -ge %d && echo late > a || echo early > a\nb: ; @sleep 4; echo > b\n" % (time.time() + 3)
        with support.Project({"Makefile": makefile}) as project:
            found = project.record(once=False)
        self.assertEqual((0, True), (found.status, "note: two builds in one order differ in a, " in found.text()), found.text())

    def test_what_copies_write_elsewhere(self) -> None:
        """It is theirs alone."""
        for top in ("/var/tmp", "/dev/shm"):
            with tempfile.TemporaryDirectory(dir=top) as room, support.Project({"Makefile": "all: ; @mkdir -p %s; echo >> %s/x; touch all\n" % (room, room)}) as project:
                project.record(once=False)
                self.assertEqual("\n", Path(room, "x").read_text())

    def test_port_that_each_build_opens(self) -> None:
        with socket.create_server(("127.0.0.1", 0)) as server:
            port = server.getsockname()[1]  # it is free then
        recipe = "@python3 -c 'import socket, time; s = socket.socket(); s.bind((\"127.0.0.1\", %d)); time.sleep(1); open(\"$@\", \"w\")'" % port
        with support.Project({"Makefile": "all: a b\na: ; %s\nb: a; %s\n" % (recipe, recipe)}) as project:
            found = project.record(once=False)
        self.assertEqual((0, True), (found.status, "other orders left the same" in found.text()), found.text())

    def test_build_that_needs_a_server_of_this_machine(self) -> None:
        with socket.create_server(("127.0.0.1", 0)) as server:
            recipe = "@python3 -c 'import socket; socket.create_connection((\"127.0.0.1\", %d)); open(\"$@\", \"w\")'" % server.getsockname()[1]
            with support.Project({"Makefile": "all: a b\na b: ; %s\n" % recipe}) as project:
                found = project.record(once=False)
        self.assertEqual((0, True), (found.status, "other orders left the same" in found.text()), found.text())

    def test_folder_that_needs_no_try(self) -> None:
        """Each has found it there and went on."""
        with support.Project({"Makefile": "all: a b\na b: ; @mkdir d 2> /dev/null; echo > d/$@; echo > $@\n"}) as project:
            found = project.record(once=False)
        assert found.record is not None
        self.assertEqual((0, 2), (found.status, found.record["orders"]["made"]), found.text())

    def test_what_differs_once(self) -> None:
        """It is compared no more, and a build that failed gives no yes."""
        made_again = Trial.made_again
        with mock.patch.object(Trial, "made_again", lambda trial, *plans: [replace(one, otherwise=[]) for one in made_again(trial, *plans)]), mock.patch("record.orders.builds.have_own_ports", return_value=False):
            for makefile, files, status, says in ((LISTS, {"d/k": ""}, 0, "note: two builds in one order differ in list"), (CASES["build that fails"][0], {"src": ""}, 2, "did not when it was made again: the build")):
                with support.Project({"Makefile": makefile, **files}) as project:
                    found = project.record(once=False)
                self.assertEqual((status, True), (found.status, says in found.text()), found.text())

    def test_what_a_serial_build_shows_later(self) -> None:
        """It leaves nothing to be tried out."""
        made_again = Trial.made_again

        def made(trial: Trial, *plans: Plan) -> List[Built]:
            trial.unstable.add((0, "list"))
            return [replace(one, otherwise=[]) for one in made_again(trial, *plans)]

        with mock.patch.object(Trial, "made_again", made), mock.patch("record.orders.builds.have_own_ports", return_value=False), support.Project({"Makefile": LISTS, "d/k": ""}) as project:
            found = project.record(once=False)
        self.assertEqual((0, False), (found.status, "more was to be tried out" in found.text()), found.text())

    def test_record_of_another_order_with_a_hole(self) -> None:
        """What it lacks is not tried out."""
        read = Trial.read
        with mock.patch.object(Trial, "read", lambda trial, built: [mock.Mock(wraps=one, has_all=False, builds={}, known={}, rows={}) for one in read(trial, built)]):
            with support.Project({"Makefile": "all: a b\na b: ; @echo $@ > $@\n"}) as project:
                found = project.record(options=("--strict",), once=False)
        self.assertEqual((2, True), (found.status, "--strict: recipes that nothing orders come to the same" in found.text()), found.text())

    def test_what_differs_by_chance(self) -> None:
        """Each of some builds more has to differ."""
        made_again = Trial.made_again
        with mock.patch.object(Trial, "made_again", lambda trial, *plans: [replace(one, otherwise=one.otherwise * (len(plans) == 1)) for one in made_again(trial, *plans)]):
            with support.Project({"Makefile": LISTS, "d/k": ""}) as project:
                found = project.record(once=False)
        self.assertEqual((0, True), (found.status, "note: two builds in one order differ in list" in found.text()), found.text())

    def test_pairs_that_no_build_turns_round(self) -> None:
        """One cover is to turn them round, and no further one."""
        settle, made = Trial.settle, []
        for counts in (True, False):
            with mock.patch.object(Trial, "settle", lambda trial, built: settle(trial, built) if counts or built.plan.is_flipped else None):
                with support.Project({"Makefile": "all: p a b c d e\nb: p\np a b c d e: ; @touch $@\n"}) as project:
                    made.append(project.record(once=False).record["orders"]["made"])
        self.assertEqual([3, 3], made)

    def test_what_differs_once_where_two_meet(self) -> None:
        """The same holds; and it is not tried out then."""
        step = Trial.step
        with mock.patch.object(Trial, "step", lambda trial, *plans: [replace(one, otherwise=[]) for one in step(trial, *plans)]):
            for name, status, says in (("folder that two make", 2, "did not when it was made again: the build"), ("look at a folder that goes", 2, "RACE  d  (that the folder d is there)"),
                                       ("order that only a build has in which two meet", 2, "--strict: recipes that nothing orders come to the same")):
                with support.Project({"Makefile": CASES[name][0], **CASES[name][1]}) as project:
                    found = project.record(options=("--strict",), once=False)
                self.assertEqual((status, True), (found.status, says in found.text()), found.text())

    def test_where_one_job_is_asked_for(self) -> None:
        """The number of jobs is that of the builds, but in a script."""
        for words, status in ((["timeout", "100", "make", "-j1"], 1), (["sh", "all"], 0)):
            with support.Project({"Makefile": CASES["jobs alone"][0], "all": "make -j1\n"}) as project:
                found = project.record(words, once=False)
            self.assertEqual((status, status == 0), (found.status, "no two recipes change places there" in found.text()), found.text())

    def test_recipe_that_make_runs_by_itself(self) -> None:
        """No order turns it round."""
        with support.Project({"Makefile": "all: t a b\nt: ; $(file >t,w)\na b: ; @touch $@\n"}) as project:
            found = project.record(once=False)
        self.assertEqual((0, True), (found.status, "(1 of 3 pairs" in found.text()), found.text())

    def test_nothing_but_jobs(self) -> None:
        """No two recipes are blamed for what differs in the order of the serial build."""
        with support.Project({"Makefile": CASES["jobs alone"][0]}) as project:
            found = project.record(once=False)
        assert found.record is not None
        self.assertEqual([("", "")], [(one["first"], one["second"]) for one in found.record["orders"]["shown"]])

    def test_room_of_the_tmpfs(self) -> None:
        free = os.statvfs("/")
        with mock.patch("os.statvfs", return_value=mock.Mock(f_bavail=1000, f_frsize=4096, f_flag=free.f_flag)):
            self.assertEqual((True, False), (has_memory(1000 * 2047), has_memory(1000 * 2049)))

    def test_premises(self) -> None:
        """What the builds try out is taken for granted no more; the rest stands in two lines."""
        files = {"Makefile": "all: a b\na: ; @python3 -Sc 'open(\"a\", \"w\")'\nb: ; @ln -f in b\nc: ; touch c\n", "in": ""}
        with support.Project(files) as project:
            found = project.record(once=False)
        assert found.record is not None
        kinds = [one["kind"] for one in found.record["assumptions"]]
        self.assertEqual((3, True, True, False), (found.text().count("\n  - "), "unasked" in kinds, "hard-links" in kinds, "serial" in kinds), found.text())
        self.assertIn("  - what the trace shows, and nobody can judge, does no harm: ", found.text())

    def test_name_that_is_no_utf_8(self) -> None:
        """Its fix holds in the other builds."""
        with support.Project() as project:
            (project.folder / "Makefile").write_bytes(b"all: a b\xff\na: ; @echo > a\nb\xff: ; @cat a > $@\n")
            found = project.record(once=False)
        self.assertEqual((1, False), (found.status, "the build fails" in found.text()), found.text())

    def test_commands_of_ninja_in_another_order(self) -> None:
        """That record knows them behind what waits at the gate."""
        manifest = "rule r\n  command = $c\nbuild d/a: r\n  c = echo a > d/a\nbuild x: r\n  c = echo x > x\nbuild c: r\n  c = ls d | grep -q a || cat x > y 2>&1; echo c > c\n"
        with support.Project({"build.ninja": manifest, "d/k": ""}) as project:
            found = project.record(["ninja"], once=False)
        self.assertEqual((1, True), (found.status, "RACE  x\n" in found.text()), found.text())

    def test_order_in_which_a_build_ran(self) -> None:
        """It is built again, one recipe behind the other."""
        one, other = ((("/p", name, 1),) for name in "ab")
        plan = Trial.behind(mock.Mock(after={}), Built(Plan("cover", {one: -1.0, other: 0.0}, at_once=4), 0, 1.0, [one, other], "", []))
        self.assertEqual((True, 1), (plan.places[one] > plan.places[other], plan.at_once))

    def test_folder_that_needs_no_meeting(self) -> None:
        """Who waits for a recipe that makes it finds it there."""
        with support.Project({"Makefile": "all: a b c\na c: ; @mkdir -p d; touch $@\nb: a ; @test -d d || mkdir d; touch b\n"}) as project:
            found = project.record(once=False)
        assert found.record is not None
        self.assertEqual((0, 4), (found.status, found.record["orders"]["made"]), found.text())

    def test_system_that_gives_no_mounts(self) -> None:
        """One build is all, and the record says so; the yes takes the rest for granted."""
        with mock.patch("record.orders.exploring.is_child_able", return_value=False), support.Project({"Makefile": LISTS, "d/k": ""}) as project:
            found = project.record(once=False)
        self.assertEqual((0, True), (found.status, "recipes that nothing orders come to the same" in found.text()), found.text())
        self.assertIn("note: not built in other orders: the system gives no mounts", found.text())

    def test_number_of_jobs_in_a_script(self) -> None:
        """It holds back no recipe: few builds turn round all pairs."""
        outputs = "abcdefgh"
        files = {"Makefile": "all: ; @sh s\n", "in.mk": "all: %s\n%s: ; @echo > $@\n" % (" ".join(outputs), " ".join(outputs)),
                 "build.ninja": "rule r\n command = echo > $out\n" + "".join("build %s: r\n" % name for name in outputs)}
        for words in ("make -sj2 -f in.mk", "make -j2 -f in.mk", "make --jobs=2 -f in.mk", "make --jobs 2 -f in.mk", "ninja -j2", "ninja -j 2"):
            with self.subTest(words), support.Project({**files, "s": words}) as project:
                found = project.record(once=False)
                self.assertEqual((0, 28), (found.status, found.record["orders"]["turned"]), found.text())
                self.assertLess(found.record["orders"]["made"], 6)

    def test_statements_of_ninja(self) -> None:
        manifest = "rule r\n  command = $c\nbuild d/a: r\n  c = echo a > d/a\nbuild list: r\n  c = ls d > list\nbuild all: phony d/a list\ndefault all\n"
        with support.Project({"build.ninja": manifest, "d/k": ""}) as project:
            found = project.record(["ninja"], once=False)
        self.assertIn("  seen where list runs before d/a:\n    list: line 1 is `k`, and `a` after a serial build\n", found.text())
        self.assertEqual(1, found.status)


support.add_tests(Orders, {"case": CASES})
