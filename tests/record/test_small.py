"""Small makefiles, a few lines each, and what `race-record` must say of them."""

import shutil
import sys
import unittest
from dataclasses import dataclass, field
from typing import Callable, Dict, List, Mapping, Type

import support
from record.make.words import LATER

STATUSES = {"safe": 0, "race": 1, "no verdict": 2}
INSTALL = "test -d $2 || mkdir $2 || true\n"
OLD = "touch -d 2001-01-01 "
IN_ORDER = "all: a b\na: ; echo a > a\nb: ; cp a b\n"


@dataclass(frozen=True)
class Small:
    """A makefile, the verdict on it, the other files, lines of the shell that come before, texts that the output has and lacks, the verdict
    from GNU make 4.4 on, where that is another one, and whether other orders are tried."""

    wanted: str
    makefile: str
    files: Mapping[str, str] = field(default_factory=dict)
    setup: str = ""
    says: str = ""
    below: str = ""
    lacks: str = ""
    later: str = ""
    is_tried: bool = False  # built in other orders too


SMALL: Dict[str, Small] = {
    # devices, and folders that look like theirs
    "devices_are_no_files": Small("safe", "all: a b\na b: ; touch /dev/null; echo $@ > /dev/null; cat /dev/null > $@\n"),
    "project_below_dev": Small("race", "all: a b\na: ; echo a > a\nb: ; cp a b\n", below="/dev/shm"),
    # what make itself looks at in its first pass
    "look_of_a_leaf": Small("safe", "all: t gen\nt: p ; touch t\ngen: ; echo x > p; touch gen\n", {"p": "p", "t": "t"}, OLD + "t"),
    "read_behind_a_write_and_a_read": Small("race", "all: ; @(sleep .2; cat f > c) & sh -c 'sh -c \"echo x > f\"; cat f > b'; wait; touch all\n"),
    "look_behind_its_writer": Small("race", "all: gen t\nt: p ; touch t\ngen: ; echo x > p; touch gen\n", {"p": "p", "t": "t"}, OLD + "t"),
    # numbers of jobs
    "inner_make_of_one_job": Small("race", "JOBS = 1\nall: ; $(MAKE) -j$(JOBS) -f in.mk\n", {"in.mk": IN_ORDER}),
    "inner_make_of_two_jobs": Small("race", "all: ; $(MAKE) -j2 -f in.mk\n", {"in.mk": IN_ORDER}),
    "one_job_of_a_script": Small("race", "all: ; ./run\n", {"run": "#!/bin/sh\nmake -j 1 -f in.mk\n", "in.mk": IN_ORDER}, "chmod +x run"),
    "own_job_of_the_user": Small("race", "all: ; $(MAKE) -f in.mk\n", {"in.mk": IN_ORDER}),
    "jobs_of_a_makefile": Small("race", "MAKEFLAGS += -j4\nall: a b\na: ; sleep 0.1; echo a > a\nb: ; cat a > b || true\n"),
    # macros of make
    "recipe_behind_another_mark": Small("race", ".RECIPEPREFIX = >\nall: a b\na:\n> touch a b\nb:\n> touch b\n", says="make looks at it"),
    # what make keeps of what it saw
    "listing_that_make_keeps": Small("race", "all: a b c\na: ; echo 1 > d/n; touch a\nb: a ; echo '$(wildcard d/*)' > b\nc: ; echo '$(wildcard d/*)' > c\n", {"d/k": "k"}, is_tried=True),
    "listing_that_nobody_else_asks_for": Small("safe", "all: a b c\na: ; echo 1 > d/n; touch a\nb: a ; echo '$(wildcard d/*)' > b\nc: ; echo > c\n", {"d/k": "k"}),
    "library_by_its_short_name": Small("race", "all: libx.a p\nlibx.a: ; touch libx.a\np: m -lx ; echo $^ > p\nm: ; touch m\n", is_tried=True),
    "library_that_a_recipe_links": Small("safe", "LIBS = -lx\nall: libx.a p\nlibx.a: ; touch libx.a\np: m libx.a ; echo $(LIBS) > p\nm: ; touch m\n"),
    "target_of_several_that_runs_first": Small("safe", "all: c a b\na b &: s ; echo $@ | tee a > b\nc: a ; cp a c\ns: ; touch s\n"),
    "target_of_several_behind_nothing": Small("safe", "all: a b\na b &: ; echo $@ | tee a > b\n"),
    "targets_of_one_recipe_by_their_names": Small("safe", "all: c a b\na b &: s ; echo x | tee a > b\nc: a ; cp a c\ns: ; touch s\n"),
    "library_in_a_search_path": Small("safe", "vpath %.a d\nall: d/libx.a p\nd/libx.a: ; echo x > $@\np: -lx ; cat $^ > $@\n", {"d/k": "k"}),
    "library_by_its_short_name_that_was_there": Small("safe", "p: -lx ; cat $^ > $@\n", {"libx.a": "x"}),
    "listing_that_make_keeps_of_a_new_folder": Small("race", "all: a b c\na: ; mkdir d/n; touch a\nb: a ; echo '$(wildcard d/*)' > b\nc: ; echo '$(wildcard d/*)' > c\n", {"d/k": "k"}, is_tried=True),
    "listing_that_all_wait_for": Small("safe", "all: a b c\na: ; echo a > d/n; touch a\nb c: a ; echo '$(wildcard d/*)' > $@\n", {"d/k": "k"}),
    "listings_of_two_folders": Small("safe", "all: d/b e/c\nd/n: ; echo 1 > d/n\nd/b: d/n\nd/b e/c: ; echo '$(wildcard $(@D)/n*)' > $@\n", {"d/k": "k", "e/n1": "n"}),
    "listing_by_another_pattern": Small("safe", "L = $(wildcard d/*.c)\nall: a b c\na: ; echo a > d/n.o; touch a\nb: a ; echo '$L' > b\nc: ; echo '$(L:.c=.o)' > c\n", {"d/k.c": "k"}),
    # what makes print
    "output_in_a_file_of_one_recipe": Small("safe", "all: ; $(MAKE) -s -f in.mk > out\n", {"in.mk": "all: a b\na: ; @echo $@\nb: ; @touch b\n"}),
    "output_in_a_file_ordered": Small("safe", "all: ; $(MAKE) -f in.mk > out 2>&1\n", {"in.mk": "all: a b\na: ; echo $@\nb: a ; echo $@\n"}),
    "output_for_nobody": Small("safe", "all: ; $(MAKE) -f in.mk > /dev/null\n", {"in.mk": "all: a b\na b: ; echo $@\n"}),
    # scripts
    "interpreter_that_a_recipe_makes": Small("race", "all: interp use\ninterp: ; cp /bin/cat interp\nuse: ; ./script > use\n", {"script": "#!./interp\nhello\n"}, "chmod +x script"),
    "interpreter_that_is_not_there_yet": Small("race", "all: use interp\ninterp: ; cp /bin/cat interp\nuse: ; ./script > use || true\n", {"script": "#!./interp\nhello\n"}, "chmod +x script"),
    "interpreter_that_is_a_script": Small("race", "all: tool use\ntool: ; cp /bin/cat tool\nuse: ; ./script > use\n", {"script": "#!./between\nhello\n", "between": "#!./tool\n"}, "chmod +x script between"),
    "make_by_its_path": Small("race", "all: a b\na: ; echo a > a\nb: ; $(MAKE) -f in.mk\n", {"in.mk": "b: ; cp a b\n"}),
    "script_of_make": Small("race", "", {"rules": "#!%s -f\nall: a b\na: ; echo a > a\nb: ; cp a b\n" % shutil.which("make")}, "chmod +x rules"),
    # modes of folders that several make
    "folder_of_the_mode_that_it_is_given": Small("safe", "all: a b\na: ; umask 022; mkdir -p d; chmod 755 d; touch a\nb: ; umask 022; mkdir -p d/e; touch b\n"),
    "folders_made_by_mkpath": Small("safe", "all: d/a d/e/b d/e/c\nd/a d/e/b d/e/c: ; umask 022; perl -MExtUtils::Command -e mkpath -- $(@D); chmod 755 $(@D); touch $@\n"),
    "folders_made_by_pm_to_blib": Small("safe", "all: d/auto/A/a d/a\nd/a: ; perl -MExtUtils::Install -e \"pm_to_blib({@ARGV}, 'd/auto', q[], '755')\" -- A.pm d/A.pm; touch $@\n"
                                        "d/auto/A/a: ; perl -MExtUtils::Command -e mkpath -- $(@D); touch $@\n", {"A.pm": "package A;\nuse AutoLoader;\n1;\n__END__\n"}, setup="umask 022"),
    "folder_that_is_listed_first_in_order": Small("safe", "all: a b\na: ; ls p > a; mkdir -p p/q\nb: a ; mkdir -p p/q; touch b\n", {"p/k": ""}),
    "folder_that_is_listed_first_behind_another": Small("safe", "all: a b\na: b ; ls p > a; mkdir -p p/q\nb: ; mkdir -p p/q; touch b\n", {"p/k": ""}),
    "folder_that_is_listed_first_and_there": Small("safe", "all: a b c\na: b ; ls p > a; mkdir -p p/q\nb: ; mkdir -p p/q; touch b\nc: ; mkdir -p p/q; touch c\n", {"p/k": ""}),
    "folder_that_is_listed_later": Small("safe", "all: a b\na: ; mkdir -p p/q; ls p > a\nb: ; mkdir -p p/q; touch b\n", {"p/k": ""}),
    "folder_that_is_listed_for_modules_first": Small("safe", "all: a b\na b: ; python3 -S gen.py $@\n", {
        "gen.py": "import email, os, sys\nos.makedirs('out', exist_ok=True)\nopen('out/' + sys.argv[1], 'w').close()\nopen(sys.argv[1], 'w').close()\n"}, is_tried=True),
    "folder_of_one_mode": Small("safe", "all: a b\na: ; umask 022; mkdir -p -m 755 d; touch a\nb: ; umask 022; mkdir -p d; touch b\n"),
    # ages that are taken over
    "age_for_an_inner_make": Small("race", "all: c\na b: ; touch $@\nr: a b ; cp -p a x; touch r\nc: r ; $(MAKE) -f in.mk; touch c\n", {"in.mk": "x: b ; echo made > log\n"}, is_tried=True),
    "age_that_touch_sets_to_now": Small("safe", "all: c\na b: ; touch $@\nr: a b ; test -f a; cp a r; touch r\nc: r ; test r -nt b || true; touch c\n"),
    "age_of_a_copy_that_is_new": Small("safe", "all: c\na b: ; touch $@\nr: a b ; cp a r\nc: r ; test r -nt b || true; touch c\n"),
    "age_of_a_folder_and_a_source": Small("safe", "all: c\na b: ; touch d/$@ $@\nc: a b ; test d -nt s || true; touch c\n", {"s": ""}, setup="mkdir d"),
    "ages_by_nobody": Small("safe", "all: c\na b: ; touch $@\nc: a b ; cp a b c 2>/dev/null || cat a b > c\n"),
    # listings
    "sorted_listing": Small("safe", ".PHONY: a b\nall: c\na b: ; touch d/$@\nc: a b ; ls d > c; echo d/* >> c\n", setup="mkdir d"),
    "age_out_of_an_archive": Small("race", "all: c\na b: ; echo $@ > $@\np: a b ; tar -H posix -cf p a; mkdir o; tar xf p -C o\nc: p ; test o/a -nt b && echo newer > c || echo older > c\n", is_tried=True),
    "ages_behind_make": Small("race", "all: x y\nx y: ; echo $@ > $@\n", is_tried=True),
    "links_of_a_file": Small("race", "all: a b\na: ; ln x y; touch a\nb: ; stat -c %h x > b\n", {"x": "x"}, is_tried=True),
    "folder_of_two_masks": Small("race", "all: a b\na: ; umask 077; mkdir -p d; touch a\nb: ; mkdir -p d; touch b\n", is_tried=True),
    "lock_of_two_masks": Small("race", "all: a b\na: ; umask 077; flock lock touch $@\nb: ; flock lock touch $@\n", is_tried=True),
    "order_of_a_listing": Small("race", ".PHONY: a b\nall: c\na b: ; touch d/$@\nc: a b ; find d > c\n", setup="mkdir d", is_tried=True),
    # archives, intermediate files, patterns
    "members_of_one_archive": Small("race", "all: l.a(x.o) l.a(y.o)\n(%): % ; ar rcD l.a $<\n%.o: %.c ; cp $< $@\n", {"x.c": "x", "y.c": "y"}),
    "archive_beside_another_target": Small("safe", "all: l.a(x.o) u\nl.a(x.o): x.o ; ar rcD l.a x.o\nu: ; touch u\n", {"x.o": "x"}),
    "archive_members_in_order": Small("safe", "all: l.a(x.o) l.a(y.o)\nl.a(x.o): x.o ; ar rcD l.a x.o\nl.a(y.o): y.o l.a(x.o) ; ar rcD l.a y.o\n", {"x.o": "x", "y.o": "y"}, is_tried=True),
    "archive_of_one_recipe": Small("safe", "l.a: x.o y.o ; ar rcD l.a $^\n%.o: %.c ; cp $< $@\n", {"x.c": "x", "y.c": "y"}),
    "intermediate_file_that_is_read": Small("race", "all: x.t u\n%.t: %.i ; cp $< $@\n%.i: %.s ; cp $< $@\nu: ; cat x.i > u || true\n", {"x.s": "s"}),
    "intermediate_file_that_make_removes": Small("safe", ".PHONY: p\nall: x.t p\n%.t: %.i ; cp $< $@\n%.i: %.s ; cp $< $@\np: ; $(if $(wildcard q),)\n", {"x.s": "s"}),
    "secondary_file_that_is_read": Small("safe", ".SECONDARY: x.i\nall: x.t u\n%.t: %.i ; cp $< $@\n%.i: %.s ; cp $< $@\nu: x.t ; cat x.i > u\n", {"x.s": "s"}),
    "static_pattern_that_forgets": Small("race", "all: x.o y.o\nx.o y.o: %.o: %.c ; cat $< h > $@\nh: ; echo h > h\nx.o: h\n", {"x.c": "x", "y.c": "y"}),
    "one_shell": Small("race", ".ONESHELL:\nall: a b\na b:\n\techo $@ > t\n\tcp t $@\n"),
    "lock_around_a_log": Small("race", "all: a b\na b: ; flock lock -c 'echo $@ >> log'; touch $@\n"),
    "folder_that_is_copied": Small("race", "all: a b\na: ; mkdir -p d/s/t; touch a\nb: ; cp -r d e; touch b\n", {"d/x": "x"}),
    "folder_by_a_link": Small("race", "all: a b\na: ; echo new > l/x; touch a\nb: ; cat d/x > b\n", {"d/x": "x"}, "ln -s d l"),
    "many_recipes": Small("race", "T := $(shell seq 1500)\nall: $T last\n$T: ; @echo $@ > $@\nlast: $(filter-out 77,$T) ; @cat 77 > $@\n"),
    "make_that_cmake_tries": Small("safe", "all: ; (cd CMakeFiles/CMakeTmp && $(MAKE)) || touch all\n", {"CMakeFiles/CMakeTmp/Makefile": "t: ; false\n"}),
    # two recipes that meet on a folder's time, and on files in it
    "files_before_folders": Small("race", "all: a b\na: ; mkdir A; echo 1 > A/z; touch a\nb: ; echo 2 > A/z; touch A/b b\n", says="RACE  A/z\n"),
    # double colons
    "double_colon_holds_back": Small("safe", "all: dc\ndc:: ; echo 1 > x\ndc:: p ; echo 2 > y\np: ; cp x p\n"),
    "double_colon_of_one_user": Small("safe", "all: y u\ny: ; touch y\nx:: ; echo 1 > one\nx:: ; echo 2 > two\nu: x ; cat two > u\n"),
    "double_colon_of_two_users": Small("race", "all: y u v\ny: ; touch y\nx:: ; echo 1 > one\nx:: ; echo 2 > two\nu: x ; touch u\nv: x ; cat two > v\n", says="advice: write the rules of x as one"),
    "double_colon_that_is_a_goal": Small("race", "x:: ; echo 1 > one\nx:: ; echo 2 > two\nu: x ; cat two > u\n", lacks="(checked"),
    "double_colon_that_reads": Small("race", "all: gen x\ngen: ; echo > gen\nx:: ; touch one\nx:: ; cat gen > two\n", says="fix: x:: gen          (checked: ends this race)"),
    # the search for implicit rules
    "search_sees_a_name_that_goes": Small("race", "all: gen sub/z.t\n%.t: %.a ; cp $< $@\n%.t: %.b ; cp $< $@\ngen: ; rm sub/z.a; touch gen\n", {"sub/z.a": "a", "sub/z.b": "b"}, is_tried=True),
    # folders
    "folder_there_already": Small("safe", "all: a b\na: ; mkdir -p d; echo a > d/a\nb: ; echo b > d/b\n", setup="mkdir d"),
    "folder_whose_rule_comes_late_and_does_more": Small("race", "all: a b\na: ; mkdir -p d; touch d/a\nb: | d ; touch d/b\nd: ; mkdir -p $@; touch log\n"),
    "folder_whose_rule_comes_late_for_others": Small("race", "all: a b\na: ; mkdir -p d; touch d/a\nb: ; touch d/b\n.PHONY: all\nall: d\nd: ; mkdir -p $@\n"),
    "folder_whose_rule_comes_late_for_a_loud_maker": Small("race", "all: a b\na: ; mkdir d; touch d/a\nb: | d ; touch d/b\nd: ; mkdir -p $@\n"),
    "folder_made_or_true": Small("safe", "all: a b\na b: ; mkdir d 2>/dev/null || true; echo $@ > d/$@\n", is_tried=True),
    "folder_made_by_a_line_that_may_fail": Small("safe", "D = d\nall: a b\na:\n\t-mkdir d\n\techo $@ > d/$@\nb:\n\t@-$(MKDIR) $(D)\n\techo $@ > d/$@\nMKDIR = mkdir\n", is_tried=True),
    "folder_tested_or_made": Small("safe", "all: a b\na b: ; test -d d || mkdir -p d; echo $@ > d/$@\n", is_tried=True),
    "folder_links_counted": Small("race", "all: a b\na: ; mkdir d/n\nb: ; stat -c %h d > b\n", setup="mkdir d", is_tried=True),
    # names
    "links_counted_by_a_text_of_python": Small("race", "all: a b\na: ; ln x y\nb: ; python3 -c 'import os; print(os.lstat(\"x\").st_nlink)' > b\n", {"x": "x"}, is_tried=True),
    "link_on_the_way": Small("race", "all: a b\na: ; ln -sfn e l\nb: ; cat l/x > b\n", {"d/x": "d", "e/x": "e"}, "ln -s d l"),
    "link_that_a_recipe_makes": Small("safe", "all: a b c\na: ; echo a > a\nb: a ; ln -sf a b\nc: b ; cat b > c\n"),
    "link_to_a_file_that_was_there": Small(
        "safe", "all: a b c\na: d ; cat d > a\nb: a ; ln -sf a b\nc: b ; cat b > c\n", {"a": "old\n", "d": "new\n"}, "touch -d 2020-01-01 a"),
    "link_that_make_looks_at_again": Small("safe", "all: b d\na: ; echo a > a\nb: a ; ln -sf a b\nc: ; echo c > c\nd: c ; cp c d\n"),
    "age_that_nobody_asks_for": Small("safe", "all: a b\na: ; touch s a\nb: s ; touch b\n", {"s": "s"}, is_tried=True),
    "file_that_is_replaced": Small("race", "all: a b\na: ; rm s; echo s > s; touch a\nb: s ; touch b\n", {"s": "s"}),
    "absent_folder_on_the_way": Small("race", "all: b a\na: ; ln -s d l\nb: ; cat l/x > b || true\n", {"d/x": "d"}),
    "absent_file": Small("race", "all: b a\na: ; echo a > a\nb: ; cat a > b || true\n"),
    "removed_file": Small("race", "all: a b\na: ; rm x\nb: ; cat x > b || true\n", {"x": "x"}),
    "pattern_of_other_names": Small("safe", "all: a b\na: ; echo a > d/n\nb: ; echo d/[ab][!x]*.o > b\n", {"d/k": "k"}),
    "search_that_lists_a_folder": Small("safe", "V = $(wildcard d/*)\n-include no.mk\nall: a d/z d/y\na d/z: ; touch $@\nd/y: d/y.s ; cp d/y.s d/y\n", {"d/y.s": "s"}),
    "script_that_compares_ages": Small("race", "all: c\na: ; touch x\nb: ; touch y\nc: a b ; ./newer > c\n", {
        "newer": "#!" + sys.executable + "\nimport os\nprint(os.stat('x').st_mtime > os.stat('y').st_mtime)\n"}, "chmod +x newer", is_tried=True),
    # looks
    "look_behind_a_recipe": Small("race", "all: t u\nt: p ; touch t\np: ; echo p > p\nu: ; cat p > u || true\n", {"t": "t"}, OLD + "t"),
    "look_of_a_rule_that_makes_both": Small("race", "all: u\na b: ; touch a b\nu: a b ; touch u\n", says="advice: write it as a b &: c"),
    "fix_by_what_leaves_no_file": Small("race", "all: l u\nl: ; touch f\nu: ; cp f u\n", says="fix: u: | l          (checked"),
    "fix_by_who_makes_a_folder": Small("race", "all: d/a d/b\nd/a: ; mkdir d; touch d/a\nd/b: ; touch d/b\n", says="fix: d/b: | d/a          (checked"),
    "fixes_of_one_writer": Small("race", "all: g a b\ng: ; touch g h\na: ; cp g a\nb: ; cat g h > b\n", says="fix: a b: g          (checked: ends these races)\n"),
    "fix_by_the_first_rule_with_two_colons": Small("race", "all: l u\nl:: ; touch l f\nl:: ; echo l\nu: ; cp f u\n", says="fix: u: l          (checked"),
    "first_look_that_changes_nothing": Small("safe", "all: q g t\nq: ; touch q\ng: q ; echo g > t\nt: q | g\n"),
    "two_own_acts_first": Small("safe", ".PHONY: e f\nall: e f u v\ne: ; $(file >x,w)\nf: ; $(file >y,w)\nu: ; echo u > u\nv: ; cat x y > v\n"),
    "inner_make": Small("race", "all: ; $(MAKE) -f in.mk\n", {"in.mk": "all: a b\na: ; echo a > a\nb: ; cp a b\n"}),
    "vpath_prerequisite": Small("race", "vpath %.v v\nall: gen t\ngen: ; echo x > v/a.v; touch gen\nt: a.v ; touch t\n", {"v/a.v": "a", "t": "t"}),
    "race_among_makefiles": Small("race", "include a.d b.d\nall: z\nz: ; touch z\nb.d: ; touch b.d c.d\na.d: ; cat c.d > a.d\n", later="no verdict"),
    # ages
    # acts of make between two jobs
    "act_before_the_next_target": Small("safe", ".PHONY: e\nall: g e u\ng: ; touch g\ne: g ; $(file >x,w)\nu: ; touch u\n"),
    # what is taken for granted
    "killed_and_not_outliving": Small("safe", "all: ; sh -c 'echo x > x; kill -9 $$$$' || sleep 0.1; touch all\n", lacks="when its recipe has ended"),
    "up_to_date": Small("safe", "all: b\na: s ; cp s a\nb: a ; cp a b\n", {"s": "s", "a": "s"}, OLD + "s", says="targets that were up to date stay so (1, such"),
    "all_up_to_date": Small("no verdict", "a: s ; cp s a\n", {"s": "s", "a": "s"}, OLD + "s", says="targets that were up to date"),
    "unasked": Small("safe", ".SUFFIXES: .x .y\nall: a\na: ; touch a\nb: a ; cp a b\nclean: ; rm -f a\n.x.y: ; cp $< $@\n.DEFAULT: ; false\n", says="(2, such as b)"),
    "outside": Small("safe", "all: ; echo x > $(CURDIR)/../outside; mktemp -u > /dev/null\n", says="names outside of the project"),
    "outside_in_a_folder_that_is_made": Small("safe", "all: ; mkdir $(CURDIR)/../d; echo x > $(CURDIR)/../d/x; cp $(CURDIR)/../d/x all\n", lacks="names outside of the project"),
    "makers": Small("safe", "all: a b\na b: ; sh install-sh -d d; touch d/$@\n", {"install-sh": INSTALL}),
    "libtool_makes_its_folder": Small("safe", "all: a b\na b: ; ./libtool --mode=compile; touch .libs/$@\n", {"libtool": "#!/bin/sh\ntest -d .libs || mkdir .libs\n"}, "chmod +x libtool"),
    "hard_links": Small("safe", "all: ; ln x y\n", {"x": "x"}, says="files that got or lost a second name"),
    "sockets": Small("safe", "all: ; python3 -c \"import socket; socket.socket(socket.AF_UNIX).bind('s')\"\n", says="servers that processes talk to"),
    "port": Small("safe", "all: ; python3 -c \"import socket; socket.socket().bind(('127.0.0.1', 28917))\"\n", says="ports that they"),
    "port_that_is_free": Small("safe", "all: ; python3 -c \"import socket; socket.socket().bind(('127.0.0.1', 0))\"\n", lacks="ports that they"),
    "lock_that_nobody_waits_for": Small("safe", "all: ; flock -n d touch all\n", {"d/x": "x"}, says="asks for a lock"),
    "lock_that_somebody_waits_for_a_while": Small("safe", "all: ; flock -w 1 d touch all\n", {"d/x": "x"}, says="asks for a lock"),
    "lock_that_all_wait_for": Small("safe", "all: ; flock d touch all\n", {"d/x": "x"}, lacks="asks for a lock"),
    "query_that_runs_one_line": Small("safe", "all: ; $(MAKE) -n -f in.mk\n", {"in.mk": "all: a\na: ; +touch $@\n"}, lacks="a make that only asks"),
    "status_of_the_command": Small("no verdict", "all: ; touch all\n", says="the build ended with status 3"),
    "two_builds_at_once": Small("safe", "all: a\na: ; sleep 0.2; touch a\n", {"other.mk": "all: b\nb: ; sleep 0.2; touch b\n"}, says="two makes or ninjas that ran at once"),
}
COMMANDS: Dict[str, List[str]] = {
    "double_colon_that_is_a_goal": ["make", "x", "u"],
    "wildcard_that_a_recipe_gives_a_macro_for_a_while": ["env", "F=$(eval T = $$(wildcard d/*.q))", "make"],
    "own_job_of_the_user": ["make", "-j1"],
    "make_by_its_path": [str(shutil.which("make"))],
    "script_of_make": ["./rules", "all"],
    "ages_behind_make": ["sh", "-c", "make && if test x -nt y; then echo x > z; else echo y > z; fi"],
    "two_builds_at_once": ["sh", "-c", "make & make -f other.mk; wait"],
    "status_of_the_command": ["sh", "-c", "make; exit 3"],
}


def test_of(name: str, small: Small) -> Callable[[unittest.TestCase], None]:
    """The test of one makefile."""

    def test(self: unittest.TestCase) -> None:
        with support.Project({"Makefile": small.makefile, **small.files}, small.below or None) as project:
            project.sh(small.setup)
            outcome = project.record(COMMANDS.get(name, ["make"]), ["--warm"], once=not small.is_tried)
        is_other = small.later != "" and support.make_version() >= LATER
        self.assertEqual(STATUSES[small.later if is_other else small.wanted], outcome.status, outcome.text()[-1500:] + outcome.stderr.decode()[-800:])
        self.assertIn("" if is_other else small.says, outcome.text())
        self.assertFalse(not is_other and small.lacks and small.lacks in " ".join(outcome.text().split()), outcome.text())

    return test


def makefiles(module: str, table: Mapping[str, Small]) -> Type[unittest.TestCase]:
    """The class of a module that has a test for each makefile."""
    return type("Makefiles", (unittest.TestCase,), {"__module__": module, **{"test_" + key: test_of(key, one) for key, one in table.items()}})


Makefiles = makefiles(__name__, SMALL)
