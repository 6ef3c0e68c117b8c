"""Tests of record/trace/started.py."""

from test_small import Small, makefiles

# A recipe that runs something in a folder, and another one that makes a name there.
HERE = "all: a b\na: ; cd d && %s > ../a\nb: ; touch d/x b\n"
# What a script of bash begins with, so that nobody reads all of its text.
GETS = 'eval "$(echo x=1)"\n'
# Two recipes that nothing orders make x and y, and a third one looks at both.
IS_THERE = "RACE  d  (that the folder"
Makefiles = makefiles(__name__, {
    # programs that the kernel reads by itself
    "loader_that_a_recipe_makes": Small("race", "all: use ld.so\nld.so: ; cp /bin/cat ld.so\nuse: ; ./prog > use || true\n", {"p.c": "int main(void) { return 0; }\n"}, "cc -Wl,--dynamic-linker=./ld.so -o prog p.c"),
    # what goes past files
    # ages of files that somebody else has opened
    # ages of the folder that a script is in
    "programs_that_bash_searches_for": Small("safe", HERE % "bash ../t", {"t": GETS + "x=$(cat s); date -u -d @0; cat s\n", "d/s": ""}),
    "programs_that_bash_searches_for_in_a_script_with_ages": Small("safe", HERE % "bash ../t", {"t": "[ s -nt t ] && echo newer; x=$(cat s); date -u -d @0\n", "d/s": "", "d/t": ""}),
    "ages_of_other_files_in_a_script": Small("safe", "all: a b\na: ; sh t > a\nb: ; touch b\n", {"t": "[ d/s -nt t ] && echo newer; true\n", "d/s": ""}),
    # ages
    "folder_that_the_way_to_an_interpreter_leaves_again": Small("race", "all: a b\na: ; mkdir d; touch a\nb: ; ./tool > b || echo none > b\n", {"tool": "#!d/../sh\necho x\n"},
                                                                "chmod +x tool; cp /bin/sh sh", says=IS_THERE),
})
