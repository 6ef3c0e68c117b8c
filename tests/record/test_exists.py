"""Tests of record/tools/exists.py."""

from test_small import Small, makefiles

MAIN = "int main(void) { return 0; }\n"
MARKER = "$(D)$(DFSEP).exists :: Makefile\n\t$(NOECHO) $(MKPATH) $(D)\n\t$(NOECHO) $(CHMOD) $(PERM_DIR) $(D)\n\t$(NOECHO) $(TOUCH) $(D)$(DFSEP).exists\n"
# A makefile of Perl, and one below it: both have a rule for `b/.exists`.
PERL = "NOECHO = @\nMKPATH = mkdir -p\nCHMOD = chmod\nTOUCH = touch\nPERM_DIR = 755\nDFSEP = /\n"
INNER = PERL + "D = ../b\n.PHONY: all dirs\nall: x\ndirs: $(D)$(DFSEP).exists\nx: dirs ; echo x > ../b/x; touch x\n" + MARKER
OUTER = PERL + "D = b\n.PHONY: all dirs sub\nall: dirs sub\ndirs: $(D)$(DFSEP).exists\n%s" + MARKER + "sub: ; $(MAKE) -C in\n"
PAIR = "all: x y\nx: ; mkdir -p out; touch x\ny: ; %s; touch y\n"
Makefiles = makefiles(__name__, {
    "marker_that_make_itself_looks_for": Small("race", PERL + "D = b\n.PHONY: all dirs\nall: dirs f\ndirs: $(D)$(DFSEP).exists\nf: ; echo $(if $(wildcard b/.exists),yes) > f\n" + MARKER, {"b/k": ""}, is_tried=True),
    # `.exists` files of Perl's makefiles
    "programs_that_are_optimised_while_linked": Small("safe", "all: a b\na b: ; cc -O1 -flto=2 -o $@ $@.c\n", {"a.c": MAIN, "b.c": MAIN}),
    "marker_that_is_older_than_a_file": Small("race", OUTER % "all: f\nf: $(D)$(DFSEP).exists ; touch f\n", {"in/Makefile": INNER}, "umask 022"),
    "marker_that_a_recipe_does_not_wait_for": Small("race", OUTER % "", {"in/Makefile": INNER.replace("all: x", "all: dirs x").replace("x: dirs ;", "x: ;")}, "umask 022"),
    "marker_with_a_text": Small("race", OUTER % "", {"in/Makefile": INNER.replace("\t$(NOECHO) $(TOUCH) $(D)", "\techo > $(D)")}, "umask 022", is_tried=True),
    "marker_in_a_folder_that_is_listed": Small("race", OUTER % "all: f\nf: mk ; ls -a b > f\nmk: ; mkdir -p b; touch mk\n", {"in/Makefile": INNER.replace("echo x > ../b/x; ", "")}),
    "marker_that_is_read": Small("race", OUTER % "all: f\nf: ; cat b/.exists > f\n", {"in/Makefile": INNER}, "umask 022"),
    "mode_of_a_folder_that_is_found_by_the_same_bits": Small("safe", PAIR % "(umask 077; touch k); test -d out || mkdir -p out", is_tried=True),
})
