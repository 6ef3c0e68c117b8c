"""The one processor that a build begins on."""

import os
import unittest
from unittest import mock

import support
from record.main import versions
from record.processor import MOST, Processor

ALLOWED = "@sed -n 's/^Cpus_allowed_list:.//p' /proc/self/status > $@"
SEVERAL = len(os.sched_getaffinity(0)) > 1 and Processor(0, versions()["strace"]).own


@unittest.skipUnless(SEVERAL, "it takes several processors, and strace 5.11")
class Builds(unittest.TestCase):
    """Whole records."""

    def test_processors_that_a_build_hears_of(self) -> None:
        with mock.patch("record.processor.OFTEN", 1 << 30), support.Project({"Makefile": "all: own some\nown: ; %s\nsome: ; @nproc > some\n" % ALLOWED}) as project:
            project.record()
            self.assertTrue((project.folder / "own").read_text().strip().isdigit())
            self.assertEqual(len(os.sched_getaffinity(0)), int((project.folder / "some").read_text()))

    def test_several_that_run(self) -> None:
        """They get all processors."""
        with support.Project({"Makefile": "all: ; @for i in 1 2 3; do timeout 2 sh -c 'while :; do :; done' & done; wait; %s\n" % ALLOWED[1:].replace("$@", "all")}) as project:
            project.record()
            self.assertFalse((project.folder / "all").read_text().strip().isdigit())


class Able(unittest.TestCase):
    """Where nobody can answer who asks, it is left out."""

    def test_older_strace(self) -> None:
        self.assertEqual((set(), []), (Processor(0, "5.10").own, Processor(0, "5.10").words()))
        self.assertEqual(max(os.sched_getaffinity(0)) < MOST, bool(Processor(0, "6.1").own))
