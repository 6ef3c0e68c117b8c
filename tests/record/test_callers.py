"""Where and how a build is called: what its caller has opened, set and ignored is for the recorded build as it is for a plain one."""

import os
import shutil
import unittest
from dataclasses import dataclass
from typing import Dict, Mapping, Tuple

import support
from fuzz_places import Place, Ran
from test_small import Small, makefiles

BARE = {name: os.environ[name] for name in ("PATH", "HOME") if name in os.environ}  # no locale, so that is C
SIGNALS = "grep SigIgn /proc/self/status > all"
AGAIN = "include x.d\nall: ; @%s\nx.d: ; @touch x.d\n"  # make begins again when it has made x.d
SIGNS = "printf '\\303\\274' | wc -m > all; env | grep '^LC_CTYPE' >> all || true"  # as many as the locale counts


@dataclass
class Left:
    """What a build left: its status, its outputs, what went to descriptors of its caller, and its files."""

    status: int
    out: bytes
    err: bytes
    log: bytes
    files: Dict[str, bytes]


class Places(unittest.TestCase):
    """Each makefile is run plainly and recorded, in one place."""

    def left(self, makefile: str, place: Place, is_recorded: bool) -> Left:
        with support.Project({"Makefile": makefile}) as project:
            room = project.folder.parent
            command = place.command(["make"])
            words = [str(support.RECORDER), "--once", "--race", support.race_program(), "--", *command] if is_recorded else command
            status, out, err = Ran(place, words, room, BARE).wait(support.SECONDS)
            here = os.fsencode(room)
            files = {path.name: path.read_bytes() for path in sorted(project.folder.iterdir()) if path.is_file()}
            return Left(status, out.replace(here, b"."), err.replace(here, b"."), (room / "log").read_bytes() if place.open else b"", files)

    def both(self, makefile: str, place: Place, wanted: int = 0) -> Left:
        """Compares the two runs."""
        plain, recorded = (self.left(makefile, place, is_recorded) for is_recorded in (False, True))
        self.assertEqual((plain.out, plain.err, plain.log, plain.files), (recorded.out[:len(plain.out)], recorded.err, recorded.log, recorded.files))
        self.assertEqual(wanted, recorded.status, recorded.out)
        return plain

    def test_descriptors_that_the_caller_has_opened(self) -> None:
        self.assertEqual(b"3\n9\n", self.both("all: ; @echo 3 >&3; echo 9 >&9; touch all\n", Place(open=[3, 9])).log)

    def test_folder_in_the_place_of_a_makefile(self) -> None:
        self.both("all: ; touch all\n", Place(env={"MAKEFILES": "/"}), 2)

    def test_signs_where_no_locale_is_set(self) -> None:
        for given, wanted in (({}, b"2\n"), ({"LANG": "C"}, b"2\n"), ({"LC_CTYPE": "C"}, b"2\nLC_CTYPE=C\n"), ({"LC_CTYPE": "C.UTF-8"}, b"1\nLC_CTYPE=C.UTF-8\n")):
            with self.subTest(given):
                self.assertEqual(wanted, self.both("all: ; @" + SIGNS + "\n", Place(env=dict(given))).files["all"])

    def test_signs_where_make_begins_again(self) -> None:
        self.assertEqual(b"2\n", self.both(AGAIN % SIGNS, Place()).files["all"])

    def test_signals_where_make_begins_again(self) -> None:
        """Python ignores SIGPIPE: a recipe that does so too never ends where it waits for that."""
        self.both(AGAIN % SIGNALS, Place())
        self.both(AGAIN % "while :; do echo y; done 2> /dev/null | head -1 > all", Place())

    def test_signals_that_the_caller_ignores(self) -> None:
        for makefile in ("all: ; @" + SIGNALS + "\n", AGAIN % SIGNALS):
            self.both(makefile, Place(ignored=["INT", "HUP"]))

    def test_end_of_a_child_that_the_caller_ignores(self) -> None:
        """Who ignores it learns no status of a child: a race would be lost."""
        self.both(RULES, Place(ignored=["CHLD"]), 1)
        says = "python3 -c 'import os, signal, sys; print(signal.getsignal(signal.SIGCHLD) is signal.SIG_IGN, flush=True); os.execvp(sys.argv[1], sys.argv[1:])'"
        self.assertEqual(b"True\n", self.both("all: ; @touch all\n", Place(ignored=["CHLD"], call=says)).out)

    @unittest.skipUnless(shutil.which("python3", path=os.defpath), "no Python is where it is sought without a PATH")
    def test_no_variables_at_all(self) -> None:
        """Python does not know its own path then. Make runs nothing without a shell: the recorder sets a PATH."""
        self.both(RULES.replace("cp a b", "cat a > b"), Place(env=dict.fromkeys(BARE)), 1)

    def test_flags_that_only_ask(self) -> None:
        """What they print is the build's, and there is no verdict."""
        for name in ("MAKEFLAGS", "GNUMAKEFLAGS"):
            for flags in ("-n", "t", " n", "k -t", "--debug=b", "-k --dry-run"):
                with self.subTest(name, flags=flags):
                    self.both("all: a b\na: ; touch a\nb: ; touch b\n", Place(env={name: flags}), 2)

    def test_flags_of_a_make_above(self) -> None:
        """They are the build's, with the jobs that they ask for."""
        for flags in ("k -- V=1", "", "s -- V=-j2"):
            with self.subTest(flags):
                self.both("all: ; @echo '$(V)' $$MAKELEVEL > all; false\nb: ; touch b\n", Place(env={"MAKELEVEL": "2", "MAKEFLAGS": flags}), 2)
        given = {"MAKELEVEL": "1", "MAKEFLAGS": "s -j2 --jobserver-auth=3,4 -- V=1", "MFLAGS": "-s -j2 --jobserver-auth=3,4"}
        self.both("all: ; @echo '$(V)' $(filter -j% --jobs%,$(MAKEFLAGS) $(MFLAGS)) > all\n", Place(env=dict(given)))


RULES = "all: a b\na: ; echo a > a\nb: ; cp a b\n"
ONE_JOB = "\n# Files\n.NOTPARALLEL:\n\n"  # as the data base of make says it
Makefiles = makefiles(__name__, {
    "file_with_lines_like_those_of_the_data_base": Small("no verdict", "V := $(file <x)\n" + RULES, {"x": "x" + ONE_JOB}, says="holds lines of a macro that look like its own"),
    "text_with_lines_like_those_of_the_data_base": Small("no verdict", "define V :=\nx" + ONE_JOB + "endef\n" + RULES, says="holds lines of a macro that look like its own"),
    "file_with_lines_that_begin_so": Small("race", "V := $(file <x)\n" + RULES, {"x": "x\n# Files of x\n.NOTPARALLEL:\n\n"}),
    "file_with_other_lines": Small("race", "V := $(file <x)\n" + RULES, {"x": "x\n# files\n.NOTPARALLEL:\n\n"}),
})


class Variables(unittest.TestCase):
    """Variables of the environment that have such lines."""

    def record(self, given: Mapping[str, str]) -> Tuple[int, str]:
        with support.Project({"Makefile": RULES}) as project:
            outcome = project.run(["--race", support.race_program(), "--", "make"], {**os.environ, **given})
            return outcome.status, outcome.text()

    def test_lines_like_those_of_the_data_base(self) -> None:
        self.assertEqual(1, self.record({"V": "x\ny: z\n"})[0])
        status, text = self.record({"V": "x\nendef\n# automatic\nQ = 1" + ONE_JOB})
        self.assertEqual(2, status)
        self.assertIn("holds lines of a macro that look like its own", text)
