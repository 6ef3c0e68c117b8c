"""Tests of modules of record/make that have no file of their own."""

from test_small import COMMANDS, Small, makefiles

SETUP = "sed -i '1i#!/bin/sh' t; chmod +x t bin2/tool"
TOOLS = {"t": "echo new > $1\n", "bin2/tool": "#!/bin/sh\necho old > $1\n", "bin/k": ""}
LOAD = "%sall: c b a\nc: ; touch c\nb: ; echo \"$$X\" > b\na: ; %s; touch a\nx:\n"
PATH = "export PATH := %s:$(PATH)\nall: c b a\nc: ; touch c\nb: ; cp y b\na: ; ln -s /bin/mv bin/cp; touch a\n"
SET = "all: s a b\ns: ; touch s\na: s ; %s\nb: ; %s\n"
KEEPS = "all: ; %s -s -f in.mk %s\n"
# A recipe that shows a macro, and one that may change it.
OTHER_SHOWS = "all: s a b\ns: ; touch s\nb: ; echo '%s' > b\n"
LOOP = "$(foreach x,a b,$(eval $(call T,$(x))))\n"
THIRD_SHOWS = "define T\n$(1): s\n\techo '$$(V)' > $$@\nendef\n"
EACH = THIRD_SHOWS + LOOP  # recipes of a template that show V
HEAD = "all: s a b\ns: ; touch s\n"
ONCE = "define O\n$(1)_V = $$(eval $(1)_V := $$(shell cat f))$$($(1)_V)\nendef\n$(eval $(call O,x))\n"
Makefiles = makefiles(__name__, {
    # a make that has nowhere to print
    "make_with_its_output_closed": Small("safe", "all: sub\nsub: ; $(MAKE) -f in.mk >&-\n", {"in.mk": "a: ; @touch a\n"}),
    "make_with_its_errors_closed": Small("safe", "all: sub\nsub: ; $(MAKE) -f in.mk 2>&-\n", {"in.mk": "a: ; @touch a\n"}),
    # what make looks for when it first considers a target, though what that needs is made later
    "search_by_a_name_without_a_stem": Small("race", "all: gen sub/z.t\n%.t: %.b sub/flag ; cp $^ $@\n%.t: %.b ; cp $< $@\ngen: ; rm sub/flag; touch gen\n", {"sub/z.b": "b", "sub/flag": "f"}, is_tried=True),
    "search_for_a_member": Small("race", "all: g l.a(sub/x.o)\n(%): % ; ar rcD $@ $<\n%.o: %.a ; cp $< $@\n%.o: %.b ; cp $< $@\ng: ; rm sub/x.a; touch g\n", {"sub/x.a": "a", "sub/x.b": "b"}, is_tried=True),
    # names with blanks
    "name_with_a_blank_behind_a_bar": Small("race", "all: g x\ng: ; touch a g\nx: a | a\\ b ; touch log x\na\\ b: ; touch 'a b'\n", {"a": "a", "x": "x"}, "touch -d 2001-01-01 a; touch -d 2002-01-01 x"),
    # programs that make itself looks for before a line of a recipe
    "target_that_is_no_program": Small("safe", "export PATH := bin:$(PATH)\nall: bin/k g\ng: ; touch g\nbin/k: ; touch bin/k\n", TOOLS, "rm bin/k"),
    # who makes a folder first
    # macros that make exports, and those that their values refer to
    # what make does for a recipe when that starts, which a bound on the load lets wait
    "program_in_a_folder_of_path_elsewhere": Small("safe", LOAD.replace("$$X", "$(shell cat x)") % ("export PATH := /usr/bin:$(PATH)\n", "echo 1 > x")),
    # folders that are made
    # macros that make sets by the way
    "macros_that_set_others_in_a_script": Small("safe", "set = $(eval $1 := 1)\n$(call set,X)\n" + SET % ("echo '$(X)' > a", "echo '$(X)' > b"), {"build.sh": "make all\n"}),
    # folders that are made, where something shows who made them
    # macros
    "names_of_macros_that_nobody_sets": Small("safe", "of = PHONY\n" + OTHER_SHOWS % "$(filter X,$(MY_$(of)))" + "a: s ; $(eval X := set)touch a\n"),
    # what is worked out once
    "macro_that_keeps_its_value_by_its_name": Small("safe", HEAD + ONCE.replace("cat f", "echo 1").replace("$(1)_V", "V") + EACH),
})


COMMANDS["macros_that_set_others_in_a_script"] = ["sh", "build.sh"]
