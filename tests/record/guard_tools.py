"""The guards of what tools do by themselves; guard.py says what each part of one is."""

from typing import List

from guard import FALSE_RACE, YES, Guard, guards

GUARDS: List[Guard] = [
    *guards("tools/caches.py",
        ("ccache-that-says-what-it-keeps", r'Keeper(re.compile(r"ccache"), re.compile(r"(/.+?)/(?:tmp/\.cleaned|(?:[0-9a-f]/){1,2}(?:stats|CACHEDIR\.TAG))"), re.compile("")),',
         "caches.Kept.words_that_say_what_was_kept"),
        ("go-that-says-what", 'Keeper(re.compile(r"go"), re.compile(r"(/.+?)/[0-9a-f]{2}/[0-9a-f]{64}-[ad]|(/.+/go/telemetry)/local/.+"), re.compile("")),',
         "caches.Kept.words_that_say_what_was_kept"),
        ("ccache-of-project", "return is_named and keeper.words.match(words) is not None", "caches.Kept.of_the_project"),
        ("ccache-of-project", "return is_named and True and not any(is_below(program.file, top) for top in tops)", "caches.Kept.index_of_git"),
        ("who-else", "others = [path for (_, path), place in life.events.items() if False]", "caches.Kept.that_others_look_at"),
        ("who-else", "others = [path for (_, path), place in life.events.items() if life not in known]", "caches.Kept.that_a_process_looked_at_before"),
        ("files", "within = [(kind, path) for kind, path in life.events]", "caches.Kept.other_files"),
        ("name-of-folder", "if True:", "caches.Kept.what_it_keeps"),
        ("who-makes-folder", "pass", "caches.Kept.what_it_keeps"),
    ),
    *guards("tools/exists.py",
        ("folders-that-are-listed", "plain = {path for path in users if all(is_plain(base, path) for base in bases)}", "exists.Makefiles.marker_in_a_folder_that_is_listed", YES),
        ("who-waits-for-rule", "if place >= 0:", "exists.Makefiles.marker_that_a_recipe_does_not_wait_for", YES),
        ("who-reads", 'is_touch = True or name == "perl" and life.argv[1:5] == TOUCHES or name == "touch" and len(life.argv) == 2', "exists.Makefiles.marker_that_is_read", YES),
        ("ages", "return not any(False and any(is_name(one, path) for one in names) for target, names in base.prerequisites.items())", "exists.Makefiles.marker_that_is_older_than_a_file", YES),
    ),
    *guards("tools/python.py",
        ("byte-code-that-is-written", "pass", "python.Python.modules_and_byte_code", FALSE_RACE),
        ("scripts-that-begin", "return bool(len(life.ran) == 1 and PYTHON.match(life.ran[-1][0]))", "python.Python.that_a_script_begins"),
        ("byte-code-of-system", "pass", "python.Python.byte_code_of_the_system_is_no_assumption"),
        ("byte-code-that-others-read", "if place <= life.begun:", "python.Python.byte_code_that_another_program_reads"),
    ),
]
