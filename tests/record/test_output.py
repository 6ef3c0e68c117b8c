"""A recorded build writes what a plain one does: standard output and every file, byte for byte."""

import unittest
from typing import Dict, Tuple

import support

from record.make.words import LATER

INNER = "all: c d\nc d: ; @echo out; echo error >&2; echo more; echo $@ > $@\n"
VERDICTS = (b"WARM", b"SAFE", b"RACE", b"NO VERDICT", b"make ")


class Output(unittest.TestCase):
    """Each makefile is run plainly and recorded."""

    def both(self, makefile: str, **files: str) -> int:
        """Compares the two runs; the recorded status."""
        names = {"Makefile": makefile, **{n.replace("_", "."): t for n, t in files.items()}}
        plain, recorded = self.one(names, False), self.one(names, True)
        self.assertEqual(plain[1], recorded[1][: len(plain[1])])
        self.assertTrue(recorded[1][len(plain[1]):].startswith(VERDICTS), recorded[1][len(plain[1]):][:300])
        self.assertEqual(plain[2], recorded[2])
        return recorded[0]

    @staticmethod
    def one(files: Dict[str, str], recorded: bool) -> Tuple[int, bytes, Dict[str, bytes]]:
        """Status, standard output, and the files, with the name of the folder taken out."""
        with support.Project(files) as project:
            here = str(project.folder).encode()
            if recorded:
                outcome = project.record()
                status, out = outcome.status, outcome.stdout
            else:
                ran = project.plain(["make"])
                status, out = ran.returncode, ran.stdout
            kept = [p for p in sorted(project.folder.rglob("*")) if p.is_file() and ".race" not in p.parts]
            left = {str(p.relative_to(project.folder)): p.read_bytes().replace(here, b".") for p in kept}
        return status, out.replace(here, b"."), left

    def test_make_that_configuring_finds(self) -> None:
        """Its path is kept, and the recorder's own is gone when the build has ended."""
        for name in ("CMakeCache.txt", "config.status", "sub/Makefile", "config.mk"):
            with self.subTest(name):
                self.both("all: ; echo CMAKE_MAKE_PROGRAM=$$(command -v make) > c; mkdir -p sub; chmod 755 c; touch -d 2001-01-01 c; mv c %s\n" % name)

    def test_path_that_a_file_keeps(self) -> None:
        self.both("all: ; echo export PATH=$$PATH > env.sh; command -v gmake >> env.sh || true\n")

    def test_path_that_is_in_no_text(self) -> None:
        self.both("all: ; printf '%s\\000' \"$$(command -v make) $$PATH\" > b; printf %s \"$$PATH\" | gzip -n > p.gz; cp b long; head -c 1048576 /dev/zero >> long\n")

    def test_times_of_what_configuring_keeps(self) -> None:
        with support.Project({"Makefile": "all: ; command -v make > config.status; chmod 755 config.status; touch -d @1000000000 config.status\n"}) as project:
            project.record()
            kept = (project.folder / "config.status").stat()
        self.assertEqual((1000000000, 0o755), (kept.st_mtime, kept.st_mode & 0o777))

    def test_recipes_that_open_their_output_anew(self) -> None:
        self.both("T := $(shell seq 99)\nall: $T\n$T: ; @echo $@ > /dev/stdout; printf x | tee /dev/fd/1\n")

    def test_odd_output_of_recipes(self) -> None:
        self.both("all: a b c\na: ; @echo; echo; printf 'x'\nb: ; @printf '\\n'; printf '\\000\\377\\n\\n'\nc: ; @seq 1 9000; seq 1 3000 | tr '\\n' ' '\n")

    def test_words_of_make_itself(self) -> None:
        self.both("$(info )\n$(info # GNU Make 9)\n$(info hello)\nall: ; $(info   x)@echo 1\n\t-false\n\techo 2\n$(info )\n")

    def test_recipes_that_print_words_of_make(self) -> None:
        text = ("all: a b\na: ; @echo; echo '# Make data base, printed on Monday'; echo \"Must remake target 'z'.\"; echo '# x: Entering directory y'\n"
                "b: ; @echo \"Putting child 0x1 (a) PID 5 on the chain.\"; echo '# Finished Make data base on Monday'\n")
        self.assertEqual(0, self.both(text))

    def test_makefiles_that_a_recipe_includes(self) -> None:
        text = "all: x y\nx:\n\t$(eval include v.mk)@echo $(V) > x; echo first\ny: x\n\t$(eval -include no.mk)$(eval include v.mk)@echo $(V)y > y; echo $(V)\n"
        self.assertEqual(0, self.both(text, v_mk="V = 1\n"))

    def test_target_that_stands_in_a_folder_of_search_paths(self) -> None:
        """Make says that it does not take it, where it makes another one: a tree that was built in its own folder, and then out of it."""
        rules = "VPATH = s\n.PHONY: F\nall: x.o y\nx.o: x.c F ; %s\ny: x.o ; cp x.o y\n"
        for line in ("cp $< $@", "@echo \"  Ignoring VPATH name 's/x.o'.\"; cp $< $@"):
            with self.subTest(line):
                self.assertEqual(0, self.both(rules % line, **{"s/x.o": "0\n", "s/x.c": "1\n"}))
        self.assertEqual(0, self.both("all: ; $(MAKE) -f in.mk > log\n", **{"in.mk": rules % "cp $< $@", "s/x.o": "0\n", "s/x.c": "1\n"}))

    def test_race_behind_words_of_make(self) -> None:
        self.assertEqual(1, self.both("all: a b\na: ; @echo; echo '# Make data base, printed on x'; touch a\nb: ; @echo hello; cp a b\n"))

    def test_data_base_of_an_inner_make_is_not_that_of_the_outer(self) -> None:
        text = "all: ask a b\nask: ; -@$(MAKE) -pq -f in.mk | grep -v -e '^# ' -e '^[A-Z_]* = ' -e PID -e PATH -e RACE | grep -c NOTPARALLEL; true\na: ; echo a > a\nb: ; cat a > b\n"
        self.assertEqual(1, self.both(text, in_mk=".NOTPARALLEL:\nx: ; touch x\n"))
        with support.Project({"Makefile": text.replace("| grep", "# "), "in.mk": ".NOTPARALLEL:\nx: ; touch x\n"}) as project:
            self.assertEqual(1, project.record().status)

    def test_output_of_inner_makes(self) -> None:
        self.both("all: ; $(MAKE) -f in.mk\n\t$(MAKE) -w -f in.mk\n\t$(MAKE) -s -f in.mk\n\t$(MAKE) -C .  -f in.mk\n", in_mk=INNER)

    def test_output_that_a_recipe_keeps(self) -> None:
        self.both("all: ; $(MAKE) -f in.mk > log\n\t$(MAKE) -s -f in.mk >> log\n\t$(MAKE) -Otarget -f in.mk >> log\n", in_mk=INNER)

    def test_order_only_prerequisite_of_a_target_that_is_there(self) -> None:
        inner = "all: x ; @echo done\nx: y | d ; @touch x\nd: ; @mkdir d\n"
        self.assertEqual(2, self.both("all: ; $(MAKE) -s -f in.mk > log\n", in_mk=inner, x="", y=""))

    def test_both_streams_in_one_file_keep_their_order(self) -> None:
        self.both("all: ; $(MAKE) -f in.mk > log 2>&1\n", in_mk="all: c d e\nc d e: ; echo out; echo error >&2; echo more; echo end >&2; touch $@\n")

    def test_queries(self) -> None:
        self.both("all: ; $(MAKE) -n -f in.mk > log; $(MAKE) -s -n -f in.mk >> log; $(MAKE) -q -f in.mk || echo old >> log\n"
                  "\t@$(MAKE) -v | head -1; $(MAKE) --version | head -1; $(MAKE) --help | head -1\n", in_mk=INNER)

    def test_words_that_inner_makes_get(self) -> None:
        self.both("all: ; $(MAKE) -f in.mk A=1 B='x y'\n", in_mk="all: ; @echo '$(A)' '$(B)' '$(MAKE)' '$(MAKELEVEL)' $(MAKECMDGOALS) '$(MAKEOVERRIDES)'\n")

    def test_letters_that_makefiles_look_for(self) -> None:
        self.both("f = $(firstword -$(MAKEFLAGS))\nall: ; @echo $(foreach x,n q k s t i,$(findstring $x,$f))\n")

    def test_flags_that_a_recipe_hands_on(self) -> None:
        words = ("$(MFLAGS)", "-$(MAKEFLAGS)", 'MAKEFLAGS="$(MAKEFLAGS)"', 'MFLAGS="$(MFLAGS)"', "-k $(MFLAGS) one")
        text = "all:\n" + "".join("\t$(MAKE) -s -f in.mk %s\n" % w for w in words).replace("$(MAKE)", "@$(MAKE)")
        self.assertEqual(0, self.both(text, in_mk="all: one\none: ; @echo $@ >> log; echo $@\n"))

    def test_intermediate_files(self) -> None:
        inner = "all: x.t\n%.t: %.i ; cp $< $@\n%.i: %.s ; cp $< $@\n"
        self.assertEqual(0, self.both("all: ; $(MAKE) -f in.mk > log\n", in_mk=inner, x_s="s"))

    def test_intermediate_files_of_a_build_that_fails(self) -> None:
        """Make stops before a recipe, and prints no line about the target then."""
        rules = "all: x.t a\n%.t: %.i ; cp $< $@\n%.i: %.s ; cp $< $@\n"
        for more in ("a: none\n", "a: ; $(error no)\n", "a: ; $(info Removing intermediate files...)false\n"):
            with self.subTest(more):
                self.assertEqual(2, self.both(rules + more, x_s="s"))

    def test_makefile_that_is_remade_in_an_inner_make(self) -> None:
        self.assertEqual(0, self.both("all: ; @$(MAKE) -s -f in.mk $(MFLAGS)\n", in_mk="include x.d\nall: ; @echo '$(MAKE_RESTARTS)'\nx.d: ; touch x.d\n".replace("all:", "all: x.d", 1)))

    def test_own_words_of_a_make_that_was_asked_for_them(self) -> None:
        status = self.both("all: ; @$(MAKE) --debug=b -f in.mk > log; grep -c . log; rm log\n", in_mk="all: a b\na: ; echo a > a\nb: ; cat a > b\n")
        self.assertEqual(2, status)

    def test_own_words_for_which_a_makefile_asks(self) -> None:
        """It prints them, and its version, as without the recorder."""
        for flag in ("-d", "-p", "-v", "--debug", "--debug=v", "--debug=n", "--trace"):
            with self.subTest(flag):
                status = self.both("all: ; @$(MAKE) -f in.mk > log; sed -n 's/PID.*//; s/printed on.*//; /^# Make data\\|target\\|Free Soft/p' log; rm log\n",
                                   in_mk="include x.d\nMAKEFLAGS += %s\nall: ; @true\nx.d: ; touch x.d\n" % flag)
                self.assertEqual(0 if flag == "--trace" and support.make_version() < LATER else 2, status)

    def test_signal_that_changes_what_make_says(self) -> None:
        with support.Project({"Makefile": "all: a b\na: ; kill -USR1 $$PPID; touch a\nb: ; touch b\n"}) as project:
            self.assertEqual(2, project.record().status)

    def test_inner_makes_are_no_assumption(self) -> None:
        with support.Project({"Makefile": "all: ; $(MAKE) -f in.mk\n", "in.mk": "all: ; touch all\n"}) as project:
            outcome = project.record()
        self.assertEqual(["serial"], [one["kind"] for one in (outcome.record or {})["assumptions"]])

    def test_signals_that_a_recipe_sends_to_a_make(self) -> None:
        """Who started it knows one number, and make ends as it does without the recorder."""
        send = ("import os, signal, subprocess, sys, time\nsignal.signal(getattr(signal, sys.argv[1]), signal.SIG_DFL)\nmake = subprocess.Popen(['make', '-s', '-f', 'in.mk'])\nwhile not os.path.exists('begun'):\n    time.sleep(0.01)\n"
                "make.send_signal(getattr(signal, sys.argv[1]))\nprint(make.wait())\n")
        for name in ("SIGHUP", "SIGINT", "SIGTERM", "SIGUSR2"):
            with self.subTest(name):
                inner = "all: x y\nx: ; @echo a > x; : > begun; sleep 0.3; echo b >> x\ny: ; @echo y > y\n"
                self.assertEqual(2, self.both("all: ; @python3 send.py %s > status; sleep 0.5\n" % name, send_py=send, in_mk=inner))

    def test_input_and_standard_error(self) -> None:
        with support.Project({"Makefile": "all: ; @echo error >&2; echo out\n"}) as project:
            outcome = project.record()
        self.assertEqual(b"error\n", outcome.stderr)
