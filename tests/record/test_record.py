"""Tests of modules at the top of record/ that have no file of their own."""

from test_small import COMMANDS, Small, makefiles

KEPT = "all: gen t\nt: p ; touch t log\ngen: ; sleep 0.02; touch p gen\n"
IDLE = "nothing was to be done"
UP_TO_DATE = "touch a"
DEEP = """python3 -c "import os
for _ in range(20):
    os.mkdir('d' * 250)
    os.chdir('d' * 250)
open('x', 'w').close()"
"""
LIMITED = "all: ; %s; $(MAKE) -f in.mk; touch all\n"
MANY = "all: " + " ".join("c%d" % number for number in range(400)) + " a b\nc%: ; @:\n"
MARKER = "$(D)$(DFSEP).exists :: Makefile\n\t$(NOECHO) $(MKPATH) $(D)\n\t$(NOECHO) $(CHMOD) $(PERM_DIR) $(D)\n\t$(NOECHO) $(TOUCH) $(D)$(DFSEP).exists\n"
# A makefile of Perl, and one below it: both have a rule for `b/.exists`.
PERL = "NOECHO = @\nMKPATH = mkdir -p\nCHMOD = chmod\nTOUCH = touch\nPERM_DIR = 755\nDFSEP = /\n"
INNER = PERL + "D = ../b\n.PHONY: all dirs\nall: x\ndirs: $(D)$(DFSEP).exists\nx: dirs ; echo x > ../b/x; touch x\n" + MARKER
OUTER = PERL + "D = b\n.PHONY: all dirs sub\nall: dirs sub\ndirs: $(D)$(DFSEP).exists\n%s" + MARKER + "sub: ; $(MAKE) -C in\n"
Makefiles = makefiles(__name__, {
    # what is there when a build begins, and not when the recording does
    "target_that_an_earlier_make_has_made": Small("race", "t: p ; touch t\n", {"p": "p", "2.mk": KEPT}),
    # ages
    # lists of folders, which are said to be that
    # names
    # ages
    "ages_of_several_files": Small("race", "all: c\nx y z: ; touch $@\nc: x y z ; $(MAKE) -f in.mk\n", {"in.mk": "c: x y z ; touch c\nx: y z ; touch $@\ny: z ; touch $@\n"}, is_tried=True),
    # a run in which nothing was to be done
    "nothing_to_do": Small("no verdict", "all: a\na: ; touch a\n", setup=UP_TO_DATE, says=IDLE),
    # a path that the kernel does not take
    "path_that_is_too_long": Small("no verdict", "all: ; touch all\n", setup=DEEP, says="a path of the project is longer than 4,095 bytes"),
    # a limit on the size of files
    "limit_that_the_wrapper_may_raise": Small("race", LIMITED % "ulimit -S -f 1", {"in.mk": MANY + "a: ; cat b > a || true\nb: ; echo b > b\n"}),
    "limit_that_is_not_met": Small("safe", LIMITED % "ulimit -f 1000000", {"in.mk": MANY + "a b: ; touch $@\n"}),
    # `.exists` files of Perl's makefiles
    "marker_of_two_makes": Small("safe", OUTER % "", {"in/Makefile": INNER}, "umask 022"),
})


COMMANDS["target_that_an_earlier_make_has_made"] = ["sh", "-c", "make t && sleep 0.05 && make -f 2.mk"]
