"""The guards of tasks, and who did what; guard.py says what each part of one is."""

from typing import List

from guard import FALSE_RACE, UNSAID, YES, Guard, guards

GUARDS: List[Guard] = [
    *guards("build/builder.py",
        ("listings-count", "pass", "orders.Orders.case_user_between_two_makers_beside_others", UNSAID),
        ("failed-looks-are-reads", 'task.reads = {path for kind, path, _ in task.events() if kind in "RS" and path in writers}', "small.Makefiles.absent_file", YES),
    ),
    *guards("build/folders.py",
        ("there-before-build", "if kind in MAKES:", "folders.Folders.folder_that_was_there"),
        ("who-knows-that-it-is-there", 'task.folders.setdefault("found" if kind == MADE_BEFORE else "made", set()).add(path)', "orders.Orders.case_folder_that_is_known_to_be_there", UNSAID),
        ("user-needs-maker", "if at not in makers[path]:", "folders.Folders.user_behind_its_maker"),
        ("who-looks-for-the-folder", "return sorted({path for path, place in uses if path in makers})", "folders.Folders.user_that_looks_first"),
    ),
    *guards("build/parts.py",
        ("processes-that-are-left", "if False:", "parts.Makefiles.process_that_its_recipe_leaves", YES),
        ("what-is-written-late", "return {key: found for key, found in done if key[0] in CHANGES + LOOKS}", "parts.Makefiles.wait_by_luck_for_who_writes_through_a_descriptor", UNSAID),
        ("conflicts-by-luck-alone", "if True:", "parts.Divided.recipes_that_are_whole"),
        ("lines-of-recipe-in-order", "begun, self.end = -1, row[-1]", "parts.Makefiles.lines_in_order"),
    ),
    *guards("build/segments.py",
        ("files-of-locks-inside", "self.held = set[str]()", "parts.Makefiles.file_that_is_locked", FALSE_RACE),
        ("who-tries-to-make-folder", "is_asked = False", "parts.Divided.recipes_that_are_whole"),
        ("what-make-inside-orders", "if True:", "parts.Makefiles.race_of_a_make_inside"),
    ),
]
