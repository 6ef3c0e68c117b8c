"""Recipes that run Python: byte code. It runs without what this machine starts with it (`-S`)."""

import os
import sys
import unittest

import support
from record.tools.python import is_python, settle
from record.trace.lives import Life

HELPER = {"t/lib.py": "def text():\n    return 'x'\n"}
SCRIPT = "import sys, lib\nopen(sys.argv[1], 'w').write(lib.text())\n"
TWO = "all: t/x.c t/y.c\nt/x.c: ; python3 -S t/gen.py t/x.c\nt/y.c: ; python3 -S t/gen.py t/y.c\n"


class Python(unittest.TestCase):
    """What an import does by itself."""

    def of(self, makefile: str, script: str, status: int, says: str = "") -> None:
        """The verdict on a project whose scripts keep byte code, by this Python itself and by no script that begins it."""
        env = {name: value for name, value in os.environ.items() if name != "PYTHONDONTWRITEBYTECODE"}
        env["PATH"] = os.path.dirname(os.path.realpath(sys.executable)) + os.pathsep + env["PATH"]
        with support.Project({"Makefile": makefile, "t/gen.py": script, **HELPER}) as project:
            project.sh("chmod +x t/gen.py")
            outcome = project.run(["--race", support.race_program(), "--", "make"], env, once=False)
            self.assertEqual(status, outcome.status, outcome.text())
            self.assertIn(says, outcome.text())

    def test_modules_and_byte_code(self) -> None:
        self.of(TWO, SCRIPT, 0, "by its key: bytecode\n")

    def test_script_that_names_python(self) -> None:
        self.of(TWO.replace("python3 -S ", ""), "#!%s -S\n%s" % (os.path.realpath(sys.executable), SCRIPT), 0, "by its key: bytecode\n")

    def test_script_that_lists_the_folder(self) -> None:
        self.of(TWO, SCRIPT.replace("lib.text()", "' '.join(sorted(__import__('os').listdir('t')))"), 1, "seen where t/y.c runs before t/x.c")

    def test_module_that_a_recipe_makes(self) -> None:
        self.of("all: t/x.c t/more.py\nt/x.c: ; python3 -S t/gen.py t/x.c\nt/more.py: ; echo > $@\n", "try:\n    import more\nexcept ImportError:\n    pass\n" + SCRIPT, 1)

    def test_that_a_script_begins(self) -> None:
        for ran, wanted in (([["sh", "py"], ["python3", "x.py"]], True), ([["python3", "x.py"], ["sh"]], False)):
            self.assertEqual(wanted, is_python(Life(1, argv=ran[-1], ran=ran)))

    def test_byte_code_that_another_program_reads(self) -> None:
        code = ("R", "/w/__pycache__/x.cpython-311.pyc")
        for others, wanted in (([], False), ([Life(2, argv=["cat"], ran=[["cat"]], events={code: 3})], True)):
            life = Life(1, argv=["python3", "y.py"], ran=[["python3", "y.py"]], events={code: 1, ("R", "/w/x.py"): 2})
            [*settle([life, *others])]
            self.assertEqual(wanted, code in life.events)

    def test_module_that_is_read_as_byte_code(self) -> None:
        makefile = "all: t/x.c t/y.c\nt/x.c: ; python3 -S t/gen.py t/x.c\nt/y.c: ; python3 -S t/gen.py t/y.c\nall: z\nz: ; touch t/lib.py; touch z\n"
        self.of(makefile, SCRIPT, 1)

    def test_byte_code_of_the_system_is_no_assumption(self) -> None:
        system = "/usr/lib/python3/dist-packages/__pycache__/x.cpython-311.pyc"
        for path, top, count in ((system, "/w", 0), (system, "/usr/lib", 1), ("/w/__pycache__/x.cpython-311.pyc", "/w", 1)):
            life = Life(1, argv=["python3", "x.py"], ran=[["python3", "x.py"]], events={("R", path): 1})
            self.assertEqual(count, len(list(settle([life], [top]))), path)
