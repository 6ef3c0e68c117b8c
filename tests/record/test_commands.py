"""Tests of modules of record/commands that have no file of their own."""

import os
import tempfile
import unittest

from test_small import Small, makefiles

# Two recipes that make a folder, and the first may show whether it was there.
FOLDER = "all: a b\na: ; %s\nb: ; mkdir -p d; touch b\n"
Makefiles = makefiles(__name__, {
    # other makes, and makefiles that are gone
    "copy_of_make": Small("no verdict", "all: ; +./other -s -f in.mk\n", {"in.mk": "all: ; touch all\n"}, "cp $(command -v make) other", says="ran past the recorder"),
    "another_make": Small("no verdict", "export PATH := $(CURDIR)/bin:$(PATH)\nall: ; make -s -f in.mk\n", {"in.mk": "all: ; touch all\n"}, "mkdir bin; cp /bin/true bin/make", says="ran past the recorder"),
    "script_that_is_called_make": Small("safe", "all: ; ./make all\n", {"make": "#!/bin/sh\ntouch $1\n"}, "chmod +x make"),
    # folders that are made, where something shows who made them
    "folder_made_or_true_and_traced_for_nobody": Small("safe", "all: a b\na b: ; set -x; mkdir d 2> /dev/null || true; touch $@\n", is_tried=True),
    # folders
    "folder_beside_a_function": Small("safe", FOLDER % "f() { touch a; }; test -d d || mkdir -p d; f", is_tried=True),
})
