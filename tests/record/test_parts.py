"""Recipes that are more than one task: processes that conflict, and those that nobody waits for."""

import unittest

import support
from test_small import Small, makefiles

LUCK = "may have been luck"
TWO = "all: ; %s; touch all\n"
USER = "all: one user\none: ; %s; touch one\nuser: one ; cat o > user 2> /dev/null || touch user\n"
BASH = "SHELL = /bin/bash\n"
MAKES = {"a/Makefile": "x: ; echo a >> ../log; touch x\n", "b/Makefile": "y: ; echo b >> ../log; touch y\n"}
APART = {"a/Makefile": "x: ; echo a > x\n", "b/Makefile": "y: ; echo b > y\n"}
IN = {"in": "3\n1\n"}
LEAVES = "import os, time\nif os.fork() == 0:\n    open('o', 'w').write('x')\n    os._exit(0)\ntime.sleep(0.3)\n"
LOOKS = "import subprocess, time\np = subprocess.Popen(['sh', '-c', 'echo x > o'])\ntime.sleep(0.3)\np.poll()\n"
Makefiles = makefiles(__name__, {
    # two processes of one recipe
    "makes_in_the_background": Small("race", TWO % "$(MAKE) -C a & $(MAKE) -C b & wait", MAKES, says="RACE  log  in all: make -C a, make -C b\n"),
    "makes_in_a_row": Small("safe", TWO % "$(MAKE) -C a; $(MAKE) -C b", MAKES, lacks=LUCK),
    "makes_that_share_nothing": Small("safe", TWO % "$(MAKE) -C a & $(MAKE) -C b & wait", APART, lacks=LUCK),
    "advice": Small("race", TWO % "$(MAKE) -C a & $(MAKE) -C b & wait", MAKES, says="No line ends it."),
    "commands_that_make_one_file": Small("race", TWO % "cp in o & cp in o; wait", IN, says="RACE  o  in all: cp in o, cp in o\n"),
    "what_is_written_through_a_descriptor": Small("race", TWO % "(sort in & cat in & wait) > o", IN, says="in all: "),
    "what_a_shell_hands_on": Small("race", BASH + TWO % "exec > o; sort in & cat in & wait", IN),
    "late_write_through_a_descriptor": Small("race", TWO % "exec 3> o; (sleep .3; echo x >&3) & sleep .1; cat o > p; wait", says="in all: "),
    "one_that_writes_through_a_descriptor": Small("safe", TWO % "(sort in; cat in) > o; cat o", IN, lacks=LUCK),
    "several_at_once_by_xargs": Small("race", TWO % "echo 1 2 3 | xargs -n1 -P3 sh -c 'echo $$0 >> log'"),
    "files_of_locks": Small("safe", TWO % "flock l sh -c 'echo 1 >> log' & flock l sh -c 'echo 2 > p' & wait"),
    "file_that_is_locked": Small("safe", TWO % "python3 l.py & python3 l.py & wait", {"l.py": "import fcntl\nf = open('log', 'a')\nfcntl.flock(f, fcntl.LOCK_EX)\nf.write('x')\n"}),
    "folder_that_both_make": Small("safe", TWO % "(mkdir -p d; echo 1 > d/1) & (mkdir -p d; echo 2 > d/2) & wait", lacks=LUCK),
    "folder_that_one_makes": Small("race", TWO % "mkdir d & (sleep .3; echo 2 > d/2) & wait"),
    "folder_that_one_waits_for": Small("safe", TWO % "(sleep .1; mkdir d) & (until test -d d; do sleep .02; done; echo 2 > d/2) & wait"),
    "look_by_a_list": Small("safe", TWO % "mkdir t; touch t/1 t/2; find t -type f -size -9 | xargs rm -f"),
    "lines_in_order": Small("race", "all: ; cp in x; cp in o & cp in o; wait\n\tcat x o > p; touch all\n", IN, says="1 race on 1 file"),
    "race_of_a_make_inside": Small("race", "all: ; $(MAKE) -j2 -f in.mk\n", {"in.mk": "all: x y\nx y: ; sleep .3; echo $@ >> log; sleep .3; touch $@\n"}, says="1 race on 1 file"),
    "threads": Small("safe", TWO % "python3 t.py", {"t.py": "import threading\nall = [threading.Thread(target=lambda: open('log', 'a').write('x')) for _ in range(3)]\n[t.start() for t in all]\n[t.join() for t in all]\n"}),
    # waits
    "wait_for_a_number": Small("safe", TWO % "cp in o & p=$$!; cp in q; wait $$p; cat o", IN),
    "wait_by_a_program": Small("safe", TWO % "python3 w.py", {"w.py": "import subprocess\np = subprocess.Popen(['touch', 'o'])\np.wait()\nopen('o').read()\n"}, lacks=LUCK),
    "poll": Small("race", TWO % "(cat in > o; touch done) & while [ ! -e done ]; do sleep .05; done; cat o > p", IN),
    "wait_by_luck": Small("safe", BASH + TWO % "cp in o & sleep .3; cat o > p", IN, says=LUCK),
    "wait_by_luck_for_what_another_recipe_uses": Small("safe", BASH + USER % "cp in o & sleep .3", IN, says=LUCK),
    "wait_by_luck_for_who_writes_through_a_descriptor": Small("safe", USER % "exec 3> o; (sleep .1; echo x >&3) & sleep .5", says=LUCK),
    "wait_by_luck_for_what_nobody_uses": Small("safe", BASH + TWO % "cp in o & sleep .3", IN, lacks=LUCK),
    "pipeline": Small("safe", TWO % "sort in | cat > o; mv o p; cat p | tee q > r; mv p q; rm -f q r", IN, lacks=LUCK),
    # processes that nobody waits for
    "process_that_its_recipe_leaves": Small("race", USER % "setsid -f sh -c 'echo x > o'; sleep .3", says="one (sh -c echo x > o)"),
    "process_that_a_program_leaves": Small("race", USER % "python3 p.py", {"p.py": LEAVES}),
    "process_that_a_program_looks_for_alone": Small("safe", USER % "python3 p.py", {"p.py": LOOKS}, says=LUCK),
    "advice_for_one_that_is_left": Small("race", USER % "python3 p.py", {"p.py": LEAVES}, says="advice: let the recipe wait for it"),
    "process_in_the_background": Small("race", USER % "(sleep .4; echo x > o) > /dev/null 2>&1 & sleep .1"),
    "process_substitution": Small("race", BASH + USER % "echo x > >(sleep .1; cat > o)"),
    "process_that_is_left_and_read_alone": Small("safe", BASH + TWO % "cat <(sort in) <(sort -r in) > p", IN, lacks=LUCK),
    "process_that_is_left_and_nobody_uses": Small("safe", "all: a b\na: ; setsid -f sh -c 'echo x > o'; sleep .3; touch a\nb: a ; touch b\n"),
    "file_of_its_recipe": Small("race", USER % "exec 3> o; (sleep .4; echo x >&3) & sleep .1"),
    "process_that_a_make_inside_leaves": Small("race", "all: one user\none: ; $(MAKE) -f in.mk\nuser: one ; sleep .5; cat o > user || true\n", {"in.mk": "x: ; (sleep .2; echo > o) > /dev/null 2>&1 & touch x\n"}),
    "process_that_a_function_leaves": Small("race", "X := $(shell (sleep .3; echo 1 > x) > /dev/null 2>&1 &)\nall: ; sleep .6; cat x > all || true\n"),
    "process_that_a_function_leaves_alone": Small("safe", "X := $(shell (sleep .3; echo 1 > x) > /dev/null 2>&1 &)\nall: ; sleep .6; touch all\n"),
})


class Divided(unittest.TestCase):
    """The tasks of a recipe that is divided."""

    def test_tasks(self) -> None:
        with support.Project({"Makefile": "all: first ; cp first o & cp first o; wait\nfirst: ; touch first\n"}) as project:
            outcome = project.record()
        labels = outcome.builds[0]["labels"]
        self.assertEqual({"cp first o"}, {one["command"] for one in labels.values() if one["kind"] == "part" and one["command"].startswith("cp")})
        self.assertEqual(2, outcome.builds[0]["counts"]["recipes"])

    def test_recipes_that_are_whole(self) -> None:
        makes = "import os\nos.makedirs('d', exist_ok=True)\nopen('d/%d' % os.getpid(), 'w')\n"
        for recipe in ("touch a & touch b & wait", "cp in o & sleep .3; cat o > p", "python3 m.py & python3 m.py & wait"):
            with support.Project({"Makefile": BASH + "all: ; %s\n" % recipe, "in": "1", "m.py": makes}) as project:
                self.assertEqual(["recipe"], [one["kind"] for one in project.record().builds[0]["labels"].values()], recipe)


if __name__ == "__main__":
    unittest.main()
