"""The guards of race-confirm; guard.py says what each part of one is."""

from typing import List

from guard import Guard, guards

GUARDS: List[Guard] = [
    *guards("failed.py",
        ("make", "if found := None:", "other_tests.ReachTests.what_make_and_ninja_print"),
        ("no-rule", "elif found := None:", "other_tests.ReachTests.what_make_and_ninja_print"),
        ("ninja", "elif found := None:", "other_tests.ReachTests.what_make_and_ninja_print"),
    ),
    *guards("reach.py",
        ("targets-that-no-recipe-made", "pass", "other_tests.ReachTests.targets_that_no_recipe_made"),
        ("later-round-of-same-make", "if span[0] > own[1]:", "other_tests.ReachTests.rounds_of_one_make"),
        ("later-round-of-same-make", "if True:", "other_tests.ReachTests.rounds_of_one_make"),
        ("what-nobody-wrote-counts-alone", "return self.own | self.unknown", "other_tests.ReachTests.files"),
        ("what-nobody-wrote-counts-alone", "return self.own | set()", "other_tests.ReachTests.files"),
        ("what-began-later-inside-same-recipe", "pass", "other_tests.ReachTests.makes_inside_recipes"),
        ("recipe-around-others-says-nothing", "pass", "other_tests.ReachTests.makes_inside_recipes"),
        ("who-uses-recipe-around", "pass", "other_tests.ReachTests.makes_inside_recipes"),
        ("who-races-with-others-beside-make", "self.doubtful = {it for it in sides if False}", "other_tests.ReachTests.recipe_that_races_with_others_beside_make"),
        ("who-races-with-others-beside-make", "self.doubtful = {it for it in sides if self.has_other(it, races)}", "other_tests.ReachTests.recipe_that_races_with_others_between_recipes"),
        ("who-needs-one-of-two", "todo += [*self.tasks.inside(task)]", "other_tests.ReachTests.files"),
        ("who-needs-one-of-two", "todo += [*self.tasks.users.get(task, ())]", "other_tests.ReachTests.makes_inside_recipes"),
        ("who-failed-not-what-lacks", "if True:", "other_tests.ReachTests.who_failed"),
        ("files-that-lack-spoil-nothing", "return self.blame_failed(output, self.blame_files(found)[1])", "other_tests.ReachTests.who_failed_on_what_others_spoilt"),
        ("what-others-spoilt", "spoilt = {it for it in self.own if False} | self.doubtful", "other_tests.ReachTests.files_of_what_others_spoilt"),
        ("what-is-made-of-what-others-spoilt", "others |= more\nif True:", "other_tests.ReachTests.files_of_what_others_spoilt"),
        ("recipe-that-others-spoilt", "blame, clean = Blame(), self.own", "other_tests.ReachTests.who_failed_on_what_others_spoilt"),
        ("not-recipe-around", "for tasks in filter(None, found):", "other_tests.ReachTests.who_failed"),
        ("name-that-two", "( blame.own if True in are else blame.others).add(STATUS)", "other_tests.ReachTests.names_that_two_have"),
    ),
    *guards("schedules.py",
        ("from-first-use-to-last", "between = [*points]", "part_tests.Parts.points"),
        ("before-uses-first", 'return sorted(between, key=lambda it: ("after", "start", "before").index(it.when))', "part_tests.Parts.points"),
    ),
]
