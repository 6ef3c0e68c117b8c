"""Tests of record/make/build.py."""

import unittest

import support
from record.make.build import is_row
from record.make.database import read_base
from record.make.words import Words
from test_small import OLD, Small, makefiles

TWO_RULES = "%.t: %.a ; cp $< $@\n%.t: %.b ; cp $< $@\n"
CHAINS = "%.t: %.m ; cp $< $@\n%.m: %.a ; cp $< $@\n%.t: %.n ; cp $< $@\n%.n: %.b ; cp $< $@\n"
LISTS = {"b.c": "c\n", "list": "old\n", "old": "old\n", "new": "new\n"}
SECOND = ".SECONDEXPANSION:\n"
ROW = "all: a b%s\na: ; echo 1 > x; touch a\nb: ; cat x > b\n%s"
QUOTE = "all: a b\na: ; touch 'q\"1/x' a\nb:%s ; cd 'q\"1' && test -f x && r=1 || r=0; cd ..; echo $$r > b\n"
AWAY = "all: g x.o\n%.o: d/%.c ; echo c > $@\n%.o: %.s ; echo s > $@\ng: ; mv d e; touch g\n"
IN_FOLDER = {"x.s": "s", "d/x.c": "c"}
# `t` waits for `g`, and make looks at `t` and at `x` before that.
SLOW, NEW = "g: ; sleep 0.02; touch g\n", OLD + "x; touch -d 2002-01-01 t"
TARGET = "all: %s\n" + SLOW + "t: x | g ; echo t >> t\nw: ; rm -f t\n"
SETS = ".SECONDEXPANSION:\nX := 1\nset = $(eval X := 2)\nall: a b\na: s ; echo $(X) > a\ns: ; touch s\n%s\n"
WRITES = ".SECONDEXPANSION:\nall: s b.q\ns: ; cat f > s || echo none > s\n%s ; touch b.q\n"
OTHER_OLD = "touch -d 2001-01-01 b; touch -d 2002-01-01 c; touch -d 2003-01-01 a"
PAIR = "w: ; echo w > b; touch w\na b &: c%s ; echo new > a; echo new > b\n"
# A folder with a rule that has no recipe, as that of vim.
OBJECTS = "all: prog\nprog: o o/a o/b%s ; cat o/a o/b > prog\no: o/.stamp\no/.stamp: ; mkdir -p o; touch o/.stamp\no/a o/b: o/.stamp ; echo $@ > $@\n"
INNER = "all: in gen\ngen: ; %s; touch gen\nin: ; $(MAKE) -f in.mk; touch in\n"
NEEDED = "all: %s\n" + SLOW + "t: x | g ; echo t >> t\nw: ; echo w > x; touch w\n"
RULED = "all: %s\n" + SLOW + "t: p | g ; echo t >> t\np: x%s ; echo p > p\nw: ; echo w > p; touch w\n"
GROUP = "all: a t w\n" + SLOW + "t: b ; echo t >> t\na b &: g ; touch q\nw: ; echo w > b; touch w\n"
LEFT = "all: t w\n" + SLOW + "t: p ; echo t >> t\np: f | g ; touch q\nf:\nw: ; echo w > p; touch w\n"
DOUBLE = "all: t w\n" + SLOW + "t: p ; echo t >> t\np:: x | g ; touch q\np:: f ; touch r\nf:\nw: ; echo w > p; touch w\n"
Makefiles = makefiles(__name__, {
    # names for which make asks
    "file_that_a_recipe_makes_before_make_asks": Small("race", "all: w u\nw: ; echo x > x; touch w\nu: x ; touch u\n", says="make looks at it"),
    "file_that_a_recipe_makes_when_make_has_asked": Small("safe", "all: u w\nw: ; echo x > x; touch w\nu: x ; touch u\n", {"x": "x"}),
    "target_that_another_recipe_makes": Small("race", "all: a b\na b: ; touch a b\n", says="make looks at it"),
    "target_that_another_recipe_writes_too": Small("race", "all: b a\na: ; touch a\nb: ; ls a; touch b\n"),
    # a file that no rule makes
    "prerequisite_that_is_written_later": Small("safe", NEEDED % "g t w", {"t": "t", "x": "x"}, NEW, is_tried=True),
    "prerequisite_that_is_written_before": Small("race", NEEDED % "w g t", {"t": "t", "x": "x"}, NEW),
    "prerequisite_that_a_recipe_reads": Small("race", (NEEDED % "g t w").replace("echo t >> t", "cat x >> t"), {"t": "t", "x": "x"}, OLD + "t"),
    "prerequisite_that_another_make_looks_at": Small("race", "all: g t w\n" + SLOW + "t: g ; $(MAKE) -f in.mk; touch t\nw: ; echo w > x; touch w\n", {"in.mk": "y: x ; echo y >> y\n", "x": "x", "y": "y"}, OLD + "x; touch -d 2002-01-01 y"),
    # a target whose recipe does not run
    "target_that_stays": Small("safe", RULED % ("g t w", ""), {"t": "t", "p": "p", "x": "x"}, OLD + "x; touch -d 2002-01-01 p; touch -d 2003-01-01 t", is_tried=True),
    "target_that_stays_behind_a_recipe": Small("safe", RULED % ("g t w", " | g"), {"t": "t", "p": "p", "x": "x"}, OLD + "x; touch -d 2002-01-01 p; touch -d 2003-01-01 t", is_tried=True),
    "target_that_stays_and_was_written_before": Small("race", RULED % ("w g t", " | g"), {"t": "t", "p": "p", "x": "x"}, OLD + "x; touch -d 2002-01-01 p; touch -d 2003-01-01 t"),
    "target_that_is_made": Small("race", RULED % ("g t w", " | g"), {"t": "t", "p": "p", "x": "x"}, OLD + "p; touch -d 2003-01-01 t"),
    # one that stands in a group: the recipe of the group lets make look at all of it again
    "target_of_a_group": Small("race", GROUP, {"t": "t", "b": "b"}, OLD + "b; touch -d 2002-01-01 t"),
    "target_that_its_recipe_leaves_alone": Small("race", LEFT, {"t": "t", "p": "p"}, OLD + "p; touch -d 2002-01-01 t"),
    "target_with_two_rules": Small("race", DOUBLE, {"t": "t", "p": "p", "x": "x"}, OLD + "x; touch -d 2002-01-01 p; touch -d 2003-01-01 t"),
    # ages of targets whose rule has no recipe
    "age_of_a_target_without_a_recipe_by_way_of_another": Small("safe", OBJECTS.replace("prog: o ", "prog: p ") % "" + "p: o\n"),
    "search_in_a_make_inside": Small("race", INNER % "echo a > z.a", {"z.b": "b", "in.mk": "all: z.t\n" + TWO_RULES}, is_tried=True),
    "makefile_that_a_make_inside_looks_for": Small("race", "all: in gen\ngen: ; printf 'all: ; echo 2 > out\\n' > s/makefile; touch gen\nin: ; $(MAKE) -C s; touch in\n", {"s/Makefile": "all: ; echo 1 > out\n"}, is_tried=True),
    # what make looks for when it first considers a target, though what that needs is made later
    "search_before_what_a_target_needs": Small("race", "all: gen sub/z.t\n" + TWO_RULES + "gen: ; rm sub/z.a; touch gen\nsub/z.b: gen ; echo b > $@\n", {"sub/z.a": "a"}, is_tried=True),
    "search_by_way_of_another_file": Small("race", "all: gen sub/z.t\n" + CHAINS + "gen: ; rm sub/z.a; touch gen\n", {"sub/z.a": "a", "sub/z.b": "b"}, is_tried=True),
    "search_for_a_declared_intermediate_file": Small("race", ".INTERMEDIATE: sub/x.t\nall: g u\nu: sub/x.t ; cp $< $@\n" + TWO_RULES + "g: ; rm sub/x.a; touch g\n", {"sub/x.a": "a", "sub/x.b": "b"}, is_tried=True),
    "search_path_with_a_file_that_goes": Small("race", "VPATH = v w\nall: g t\ng: ; rm v/x.c; touch g\nt: x.c ; touch t log\n", {"v/x.c": "1", "w/x.c": "2", "t": "t"}, "touch -d 2001-01-01 w/x.c; touch -d 2002-01-01 t", is_tried=True),
    "second_expansion_that_reads": Small("race", SECOND + "all: a b.o\na: ; echo new > list; touch a\n%.o: %.c $$(shell cat list) k ; cat $^ > $@\nk: a ; touch k\n", LISTS, is_tried=True),
    "second_expansion_of_a_target_that_is_kept": Small("race", SECOND + "all: a b.o\na: ; echo new > list; touch a\n%.o: %.c $$(shell cat list) ; cat $^ > $@\n", {**LISTS, "b.o": "o"}, "touch -d 2001-01-01 b.c new; touch -d 2002-01-01 b.o", is_tried=True),
    # one job at a time
    "not_parallel_by_a_pattern": Small("race", ROW % (" .NOTPARALLEL", ".PHONY: all\n%: ; @:\n")),
    # folders with a quote in their names
    "folder_with_a_quote": Small("race", QUOTE % "", {"q\"1/k": ""}),
    "folder_with_a_quote_in_order": Small("safe", QUOTE % " a", {"q\"1/k": ""}),
    # it looks on the disk, whatever it has listed before
    "search_in_a_folder_that_goes": Small("no verdict", "X := $(wildcard d/*)\n" + AWAY + "x.o: | g\n", IN_FOLDER, says="the build ended with status 2", later="race", is_tried=True),
    # what make looks for when it first considers a target, though what that needs is made later
    "search_below_a_second_rule": Small("race", "all: dc g\ndc:: ; sleep 0.2; touch dc\ndc:: sub/z.t ; touch dc\n" + TWO_RULES + "g: ; echo a > sub/z.a; touch g\n", {"sub/z.b": "b"}, is_tried=True),
    # the target itself
    "target_that_is_removed_later": Small("safe", TARGET % "g t w", {"t": "t", "x": "x"}, NEW, is_tried=True),
    "target_that_is_removed_before": Small("race", TARGET % "g w t", {"t": "t", "x": "x"}, NEW),
    "target_whose_recipe_runs": Small("race", TARGET % "g t w", {"t": "t", "x": "x"}, OLD + "t"),
    # (older makes do so before all recipes, but their data base shows such a macro by the line of a recipe)
    "macro_that_a_second_expansion_by_way_of_another_sets": Small("safe", SETS % "b: $(also) ; touch b\nalso = | $$(call set)", is_tried=True),
    "macro_that_a_first_expansion_sets": Small("safe", SETS % "b: $(set) $$(call other)\n\ttouch b"),
    "macro_by_a_text_as_it_stands": Small("safe", SETS % "b: $(value two) ; touch b\ntwo = $(set)", is_tried=True),
    "macro_of_a_rule_that_an_eval_reads": Small("safe", SETS % "rule = b: $$$$(set) ; touch b\n$(eval $(rule))", later="race", is_tried=True),
    "macro_of_a_rule_that_calls_make": Small("safe", SETS % "define rule\n$(1): $$$$(set) ; touch $(1)\nendef\n$(foreach one,b,$(eval $(call rule,$(one))))", later="race", is_tried=True),
    "macro_of_a_rule_that_a_line_names": Small("safe", SETS % "rule = b: $$(set) ; touch b\n$(rule)", later="race", is_tried=True),
    "macro_in_a_text_that_no_rule_has": Small("safe", SETS % "b: ; touch b\nrule = b: $$$$(set)"),
    "macro_behind_more_dollars_of_a_recipe": Small("safe", SETS % "b: ; echo $$$$ > /dev/null; touch b"),
    "file_that_a_second_expansion_writes": Small("race", WRITES % "b.q: s\n%.q: $$(shell echo f > f)", is_tried=True),
    "file_that_a_second_expansion_writes_in_order": Small("safe", WRITES.replace("s b.q", "b.q") % "b.q: s\n%.q: $$(shell echo f > f)"),
    "file_that_a_second_expansion_of_a_rule_writes": Small("safe", WRITES % "b.q: s $$(shell echo f > f)", later="race", is_tried=True),
    # with a target that is there make looks at the others of its recipe
    "peer_that_another_recipe_makes": Small("safe", "all: w a\n" + PAIR % "", {"a": "a", "c": "c"}, OTHER_OLD + "; rm b", later="race"),
    "peer_that_is_old": Small("safe", "all: w a\n" + PAIR % "", {"a": "a", "b": "b", "c": "c"}, OTHER_OLD, later="race"),
    "peer_at_the_first_look": Small("safe", "all: w a\n" + PAIR % " | w", {"a": "a", "b": "b", "c": "c"}, OTHER_OLD, later="race", is_tried=True),
    "peer_that_is_in_order": Small("safe", "all: a\n" + PAIR % " | w", {"a": "a", "b": "b", "c": "c"}, OTHER_OLD),
    # ages of targets whose rule has no recipe
    "age_of_a_target_without_a_recipe": Small("safe", OBJECTS % ""),
})


class Builds(unittest.TestCase):
    """What depends on the version of make."""

    BASE = ["# Files", "", ".NOTPARALLEL:%s", "", "# files hash-table stats:"]

    def test_a_row_of_some_targets(self) -> None:
        for names, version, wanted in (("", "4.3", True), (" a", "4.3", True), ("", "4.4", True), (" a", "4.4", False), (" a", "4.4.1", False)):
            base = read_base([text % names if "%" in text else text for text in self.BASE])
            self.assertEqual(wanted, is_row(base, Words(7, 0, version=version)), (names, version))

    def test_text_of_a_program_that_a_second_expansion_reads(self) -> None:
        for gives in ("$(shell cat f)", "$(file <f)"):
            with support.Project({"Makefile": SETS % ("b: %s ; touch b" % gives), "f": "s\n"}) as project:
                outcome = project.record()
            self.assertEqual(0, outcome.status, outcome.text())
