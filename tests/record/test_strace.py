"""The reader of strace's lines."""

import unittest
from typing import List

import support  # noqa: F401
from record.make.database import read_base
from record.trace.strace import Begun, Call, Ended, Event, Unread, folders, is_cut, read_trace, texts, unescape
from test_small import Small, makefiles

UNNAMED = "import os\nfd = os.open('.', os.O_TMPFILE | os.O_RDWR, 0o644)\nos.link('/proc/self/fd/%d' % fd, 'f', src_dir_fd=fd, follow_symlinks=True)\n"


def events(*lines: str) -> List[Event]:
    """The events of some lines."""
    return list(read_trace(line + "\n" for line in lines))


class Lines(unittest.TestCase):
    """One line each."""

    def test_call(self) -> None:
        self.assertEqual([Call(7, "openat", 'AT_FDCWD</w>, "a", O_RDONLY', 3, "", "/w/a")],
                         events('7 openat(AT_FDCWD</w>, "a", O_RDONLY) = 3</w/a>'))

    def test_failed_call(self) -> None:
        self.assertEqual([Call(7, "stat", '"a", 0x7ffe', -1, "ENOENT")],
                         events('7 stat("a", 0x7ffe)       = -1 ENOENT (No such file or directory)'))

    def test_end(self) -> None:
        self.assertEqual([Ended(7), Ended(8, True)], events("7 +++ exited with 0 +++", "8 +++ killed by SIGINT +++"))

    def test_exec_of_a_thread_is_no_end(self) -> None:
        self.assertEqual([], events("8 +++ superseded by execve in pid 7 +++"))

    def test_signal_is_nothing(self) -> None:
        self.assertEqual([], events("7 --- SIGCHLD {si_signo=SIGCHLD} ---"))

    def test_unfinished_is_joined_with_its_rest(self) -> None:
        found = events('7 openat(AT_FDCWD</w>, "a", O_RDONLY <unfinished ...>', '8 chdir("x") = 0', "7 <... openat resumed>) = 3</w/a>")
        self.assertEqual(["chdir", "openat"], [e.name for e in found if isinstance(e, Call)])
        self.assertEqual(['"a"'], ['"%s"' % t for e in found if isinstance(e, Call) and e.name == "openat" for t in texts(e.args)])

    def test_creation_begins_before_it_ends(self) -> None:
        found = events("7 vfork( <unfinished ...>", "7 <... vfork resumed>) = 8")
        self.assertEqual([Begun(7), Call(7, "vfork", "", 8, "")], found)

    def test_what_never_ended_says_nothing(self) -> None:
        self.assertEqual([], events("7 execve(\"/bin/x\", [\"x\"], 0x1 /* 2 vars */) = ?"))

    def test_other_text_is_a_hole(self) -> None:
        for text in ("strace: Process 9 attached", "7 <... stat resumed>) = 0", "7 gibberish", "7 - x", "7"):
            self.assertEqual([Unread], [type(e) for e in events(text)], text)


class Arguments(unittest.TestCase):
    """Texts and folders in a call's arguments."""

    def test_escapes(self) -> None:
        self.assertEqual('a b\n"\\', unescape('a b\\n\\"\\\\'))
        self.assertEqual("é", unescape("\\303\\251"))
        self.assertEqual("\x01x", unescape("\\1x"))

    def test_bytes_that_are_no_text_stay_apart(self) -> None:
        self.assertNotEqual(unescape("\\377"), unescape("\\376"))

    def test_texts_with_quotes_and_brackets(self) -> None:
        self.assertEqual(["/bin/sh", "sh", "-c", 'echo "(a)" > b'],
                         texts('"/bin/sh", ["sh", "-c", "echo \\"(a)\\" > b"], 0x1 /* 2 vars */'))

    def test_folders_behind_descriptors(self) -> None:
        self.assertEqual(["/w", "/w/d"], folders('AT_FDCWD</w>, "5</x>", 4</w/d>, "b"'))

    def test_a_text_that_is_cut(self) -> None:
        self.assertTrue(is_cut('"/bin/sh", ["sh", "abc"...]'))
        self.assertTrue(is_cut('"/bin/sh", ["sh", "abc", ...]'))
        self.assertFalse(is_cut('"/bin/sh", ["sh", "abc..."]'))


Makefiles = makefiles(__name__, {
    # by way of /proc, and by numbers
    "file_that_had_no_name": Small("safe", "all: a b\na: ; python3 t.py; touch a\nb: a ; cat f > b\n", {"t.py": UNNAMED}),
    # ages
    "named_pipe_that_nobody_writes": Small("race", "all: b a\na: ; exec 3<> p; echo x >&3; touch a\nb: ; timeout 0.2 head -1 p > b; touch b\n", setup="mkfifo p"),
})


class Marks(unittest.TestCase):
    """Lines of strace and of make's data base."""

    def test_marks_in_the_name_of_a_descriptor(self) -> None:
        args = r'AT_FDCWD</t/a\"b, \74c\76>, "x\"y", 3</t/\"q>, "z"'
        self.assertEqual((['x"y', "z"], ['/t/a"b, <c>', '/t/"q']), (texts(args), folders(args)))

    def test_words_of_the_data_base(self) -> None:
        base = read_base("# Files\n\na: b\u3000c d | e\xa0f\n\n# files hash-table stats:\n".split("\n"))
        self.assertEqual((["b\u3000c", "d"], {"e\xa0f"}), (base.prerequisites["a"], base.order_only["a"]))
