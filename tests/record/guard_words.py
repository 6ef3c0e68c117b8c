"""The guards of what make says, and the library in it; guard.py says what each part of one is."""

from typing import List

from guard import LOST_HOLE, WITHHELD, YES, Guard, guards

GUARDS: List[Guard] = [
    *guards("make/words.py",
        ("targets-that-were-given-up-for-makefile", r"""FAILED = re.compile(r"^ *(?:Failed to remake) target file '(.*)'\.$")""", "words.Makefiles.target_that_is_given_up_for_a_makefile", LOST_HOLE),
        ("names-of-rules", "pass", "warm.Warm.target_in_a_search_path"),
        ("targets-in-search-paths", 'self.made = ""', "warm.Warm.target_in_a_search_path"),
        ("recipe-that-goes-on-in-next-round", "self.stack, self.children, self.found = [], {}, {}", "words.Several.recipe_that_goes_on_in_the_next_round"),
        ("jobs-of-one-number-in-order", "if pid not in [known for known, _ in self.words.processes]:", "owners.Holes.number_of_two_jobs"),
        ("not-whole-hole", "elif False:", "words.Lines.a_line_that_is_not_whole_is_a_hole"),
        ("one-build-each", "elif False:", "small.Makefiles.race_among_makefiles", YES),
        ("lines-that-look-like-its-own-are-hole", "if False:", "callers.Makefiles.text_with_lines_like_those_of_the_data_base"),
        ("data-base-that-is-not-whole", "if False:", "words.Holes.data_base_that_is_cut"),
        ("recipes-that-it-does-not-show", 'words.holes += ["the data base of a make does not show the recipe of a target that ran: " + unread] if False else []',
         "database.Makefiles.target_that_begins_like_a_remark", LOST_HOLE),
        ("not-makefiles-that-failed", "if not ran.isdisjoint(one.below(name)):", "words.Makefiles.failure_of_a_makefile_that_need_not_be_there", WITHHELD),
        ("not-makefiles-that-failed", "if name in needed:", "words.Makefiles.target_without_a_rule_for_a_makefile", WITHHELD),
        ("recipes-that-failed-for-makefile", "pass", "words.Makefiles.failure_for_a_makefile_that_need_not_be_there", LOST_HOLE),
        ("makes-that-are-not-understood", "if False:", "words.Language.make_that_is_not_understood"),
        ("data-base-of-make-that-goes", "if False:", "words.Holes.data_base_that_a_recipe_prints_whole"),
    ),
    *guards("watch/lay.py",
        ("number-of-jobs-in-words", 'for name in ["each"] * self.is_each:', "orders.Orders.number_of_jobs_in_a_script"),
        ("number-that-comes-again", "pass", "ends.Signals.number_that_comes_again", "[True, True]"),
    ),
    *guards("watch/files.py",
        ("values-of-several-lines", r'left = start.environment.get(line[len("define "):].rstrip("\n"), "").count("?") + 1', "watch.Lines.without_values"),
        ("values-of-environment", "pass", "laid.Secret.record"),
    ),
]
