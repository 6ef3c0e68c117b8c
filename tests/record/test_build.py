"""Tests of modules of record/build that have no file of their own."""

from test_small import Small, makefiles

Makefiles = makefiles(__name__, {
    # what make does itself
    # lists of folders, which are said to be that
    "list_of_a_folder_before_a_read": Small("race", "all: s a\na: ; touch a\ns: ; ls > s; cat a > t || true\n", says="  s  Makefile:3  reads it\n"),
    "list_of_a_folder_behind_a_read": Small("race", "all: s a\na: ; touch a\ns: ; cat a > t || true; ls > s\n", says="  s  Makefile:3  reads it\n"),
})
