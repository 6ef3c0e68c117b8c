"""Waits that may have been luck are tried out, by builds in which processes are held at their end."""

import unittest
from typing import Dict, Tuple
from unittest import mock

import support

from record.folder import Record
from test_courses import ANY, FORK, TWO, child
from test_replay import lives_of, played

from record.trace.lives import apart

HELD = b"in which processes are held at their end"
LUCK = " luck ("
BASH = "SHELL = /bin/bash\n"
ALL = "all: ; @%s; echo > all\n"
USER = "all: one user\none: ; @%s; echo > one\nuser: one ; @cat o > user\n"
LOOKS = "import subprocess, time\np = subprocess.Popen(['sh', '-c', 'echo x > o'])\ntime.sleep(0.3)\np.poll()\n"
READS = "import subprocess, time\np = subprocess.Popen(['sh', '-c', 'echo x > o'], stdout=subprocess.PIPE)\np.stdout.read()\ntime.sleep(0.3)\np.poll()\n"
WAITS = "import os\nfor i in range(2):\n    if os.fork() == 0:\n        open('x%d' % i, 'w').write('x')\n        os._exit(0)\nos.wait()\nos.wait()\nprint(open('x0').read(), open('x1').read())\n"
# By name: the makefile, files that are there, the status, and what the report says.
CASES: Dict[str, Tuple[str, Dict[str, str], int, str]] = {
    "wait for another one": (ALL % "cp in o & sleep .2; cat o > p", {}, 1, "RACE  o  in all: cp in o, cat o\n"),
    "wait for another one in bash": (BASH + ALL % "cp in o & sleep .2; cat o > p", {}, 1, "RACE  o  in all: cp in o, cat o\n"),
    "wait that comes later": (ALL % "cp in o & sleep .2; cat o > p; wait", {}, 1, "RACE  o  in all: cp in o, cat o\n"),
    "user in another recipe": (BASH + USER % "cp in o & sleep .2", {}, 1, "  one (cp in o)  Makefile:3  writes it\n"),
    "write through a descriptor": (USER % "exec 3> o; (sleep .1; echo x >&3) & sleep 1", {}, 1, "  one (sleep .1)  Makefile:2  writes it\n"),
    "wait for two others": (ALL % "cp in a & p=$$!; cp in b & cp in c & q=$$!; wait $$p; wait $$q; sleep .2; cat b > d", {}, 1, "RACE  b  in all: cp in b, cat b\n"),
    "wait for an older one": (ALL % "(sleep .3; cp in a) & p=$$!; cp in b & wait $$p; cat b > d", {}, 1, "RACE  b  in all: cp in b, cat b\n"),
    "look of a program": (ALL % "python3 p.py; cat o", {"p.py": LOOKS}, 1, "RACE  o  in all: "),
    "look behind all that was read": (ALL % "python3 p.py; cat o", {"p.py": READS}, 0, "SAFE"),
    "wait for all": (ALL % "cp in a & cp in b & wait; cat a b > c", {}, 0, "SAFE"),
    "wait for all in bash": (BASH + ALL % "cp in a & cp in b & wait; cat a b > c", {}, 0, "SAFE"),
    "wait for three": (ALL % "for i in 1 2 3; do cp in x$$i & done; wait; cat x1 x2 x3 > o", {}, 0, "SAFE"),
    "wait for a shell that waits": (ALL % "(cp in a & cp in b & wait; cat a b > c) & cp in d & wait; cat c d > e", {}, 0, "SAFE"),
    "wait of a program": (ALL % "python3 w.py", {"w.py": WAITS}, 0, "SAFE"),
    "wait for several at once": (ALL % "echo 1 2 3 | xargs -n1 -P3 cp in; cat 1 2 3 > o", {}, 0, "SAFE"),
}


class Waits(unittest.TestCase):
    """Whole records."""

    def case(self, name: str) -> None:
        makefile, files, status, wanted = CASES[name]
        with support.Project({"Makefile": makefile, "in": "1\n", **files}) as project:
            found = project.record(once=False)
        text = found.text()
        self.assertEqual(status, found.status, text)
        self.assertIn(wanted, text)
        self.assertNotIn(LUCK, text)

    def test_where_nothing_is_luck(self) -> None:
        with support.Project({"Makefile": ALL % "cp in o & p=$$!; cat in & wait $$p; cat o > p"}) as project:
            self.assertNotIn(HELD, project.record(once=False).stderr)

    def test_where_a_build_is_made_once(self) -> None:
        with support.Project({"Makefile": ALL % "cp in o & sleep 1; cat o > p", "in": "1\n"}) as project:
            found = project.record()
        self.assertEqual((0, True), (found.status, "may have been luck" in found.text()), found.text())

    def test_kernel_that_reports_no_ends(self) -> None:
        with mock.patch("record.orders.holding.report", side_effect=OSError("no")), support.Project({"Makefile": ALL % "cp in o & sleep 1; cat o > p", "in": "1\n"}) as project:
            found = project.record(once=False)
        self.assertEqual((0, True), (found.status, LUCK in found.text()), found.text())
        self.assertIn("build in other orders left the same", found.text())

    def test_more_than_are_tried_out(self) -> None:
        with support.Project({"Makefile": ALL % "for i in 1 2 3 4 5 6 7; do cp in x$$i & done; wait; cat x? > o", "in": "1\n"}) as project:
            found = project.record(once=False)
        self.assertEqual((0, True), (found.status, LUCK in found.text()), found.text())
        self.assertIn(b"4 builds in copies", found.stderr)

    def test_build_that_fails_where_a_process_is_held(self) -> None:
        """It shows nothing."""
        with support.Project({"Makefile": ALL % "cp in o & sleep 1; ! kill -0 $$! 2> /dev/null || exit 1; cat o > p", "in": "1\n"}) as project:
            found = project.record(once=False)
        self.assertEqual((0, True), (found.status, LUCK in found.text()), found.text())
        self.assertIn(HELD, found.stderr)


for one in CASES:
    setattr(Waits, "test_case_" + one.replace(" ", "_"), lambda self, one=one: self.case(one))


class Names(unittest.TestCase):
    """How processes are known in another build, and which are held in one."""

    def test_processes_in_rows(self) -> None:
        """Two that run at once are in two rows."""
        replay = played(*TWO, *child(2, "a"), ANY % 2, *child(3, "b"), ANY % 3, FORK % (1, 4), *child(4, "c"), ANY % 4)
        self.assertEqual([{(0,), (2,)}, {(1,)}], apart([lives_of(replay, pid)[0].course for pid in (2, 3, 4)]))

    def test_names(self) -> None:
        """Of another program they are others."""
        names = [lives_of(played(line, FORK % (1, 2), FORK % (2, 3)), 3)[0].course.name for line in (TWO[0], TWO[0].replace('["tool"]', '["tool", "x"]'))]
        self.assertEqual([(0, 0)] * 2, [address for address, _ in names])
        self.assertNotEqual(*names)

    def test_what_is_left(self) -> None:
        record = Record([], "/", 0, 0.0, assumptions=[{"kind": "luck", "count": 3, "example": "a"}, {"kind": "serial", "count": 1}])
        record.lucky = {"a": {((0,), "")}, "b": {((0,), ""), ((1,), "")}, "c": {((1,), "x")}}
        record.settle_luck({((0,), ""), ((1,), "y")})
        self.assertEqual([(2, "b"), (1, None)], [(one["count"], one.get("example")) for one in record.assumptions])
        record.settle_luck({((0,), ""), ((1,), ""), ((1,), "x")})
        self.assertEqual(["serial"], [one["kind"] for one in record.assumptions])


if __name__ == "__main__":
    unittest.main()
