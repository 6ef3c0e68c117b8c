"""What of a trace is not read: looks at the system's folders, where nobody changes a name there."""

import os
import re
import tempfile
import unittest
from pathlib import Path
from typing import List

import support  # noqa: F401
from record.facts import Facts
from record.importing import replay_trace
from record.trace.names import Inode, Names
from record.trace.sifting import PIECE, Skip, pieces, sift, skipping
from record.trace.strace import read_trace


class Skips(unittest.TestCase):
    """Looks at the system's folders, which need not be read."""

    LOOK = '7 openat(AT_FDCWD</w>, "/usr/lib/x.so", O_RDONLY|O_CLOEXEC) = 3</usr/lib/x.so>'

    def kept(self, lines: List[str], tops: List[str]) -> int:
        """How many calls of a trace are read."""
        with tempfile.TemporaryDirectory() as room:
            path = Path(room) / "trace"
            path.write_text("".join(line + "\n" for line in lines))
            sift(path, tops, Path(room) / "sifted")
            with open(Path(room) / ("sifted" if (Path(room) / "sifted").exists() else "trace"), newline="\n") as file:
                return len(list(read_trace(file)))

    def test_look_at_a_library(self) -> None:
        self.assertEqual(1, self.kept([self.LOOK, '7 openat(AT_FDCWD</w>, "a", O_RDONLY) = 3</w/a>'], ["/w"]))

    def test_look_by_a_strace_that_names_no_folder(self) -> None:
        """strace 5.10 writes AT_FDCWD alone."""
        look = self.LOOK.replace("AT_FDCWD</w>", "AT_FDCWD")
        self.assertEqual(1, self.kept([look, '7 openat(AT_FDCWD, "a", O_RDONLY) = 3</w/a>'], ["/w"]))
        for change in ('openat(AT_FDCWD, "/usr/x", O_WRONLY|O_CREAT, 0666) = 3</usr/x>', 'openat(AT_FDCWD, "x", O_WRONLY|O_CREAT, 0666) = 3</usr/lib/x>', 'mkdirat(AT_FDCWD, "/usr/x", 0777) = 0'):
            self.assertEqual(2, self.kept([look, "8 " + change], ["/w"]), change)

    def test_look_where_somebody_changes_a_relative_name(self) -> None:
        for change in ('openat(AT_FDCWD</usr/lib>, "x", O_WRONLY|O_CREAT, 0666) = 3</usr/lib/x>', 'openat(3</w>, "../usr/lib/x", O_WRONLY) = 4</usr/lib/x>',
                       'openat(AT_FDCWD</w>, "link/x", O_WRONLY) = 3</usr/lib/x>', 'mkdirat(3</usr/lib>, "x", 0777) = 0', 'unlinkat(3</usr>, "x", 0) = 0',
                       'symlinkat("a", 3</usr>, "x") = 0',
                       'mkdir("../usr/x", 0777) = 0', 'chdir("/usr/lib") = 0', 'chdir("../../usr/lib") = 0', "fchdir(3</usr/lib>) = 0"):
            self.assertEqual(2, self.kept([self.LOOK, "8 " + change], ["/w"]), change)

    def test_other_folders_are_no_change(self) -> None:
        for other in ('openat(AT_FDCWD</w>, "usr/x", O_WRONLY|O_CREAT, 0666) = 3</w/usr/x>', 'chdir("..") = 0', 'chdir("usr/lib") = 0', 'mkdirat(3</w>, "usr", 0777) = 0'):
            self.assertEqual(1, self.kept([self.LOOK, "8 " + other], ["/w"]), other)

    def test_calls_that_lines_of_others_cut_in_two(self) -> None:
        """They are whole where they end, except those that start a process."""
        skip = skipping(["/w"])
        assert skip is not None
        pieces = (b'\n7   readlink("/usr/lib/x",  <unfinished ...>\n8   vfork( <unfinished ...>\n9   chdir("a" <unfinished ...>',
                  b'\n7   <... readlink resumed>0x7, 9) = -1 EINVAL (Invalid argument)\n9   <... chdir resumed>) = 0\n8   <... vfork resumed>) = 9')
        self.assertEqual([b"\n8   vfork( <unfinished ...>", b'\n9 chdir("a") = 0\n8   <... vfork resumed>) = 9'], [skip.rest(piece) for piece in pieces])

    def test_link_that_leads_to_a_top(self) -> None:
        with tempfile.TemporaryDirectory() as room:
            room = os.path.realpath(room)
            os.mkdir(room + "/top")
            os.symlink("top", room + "/link")
            looks, lines = re.compile((r'\n\d+ stat\("(%s/[^"]*)"[^\n]*' % re.escape(room)).encode()), ['\n7 stat("%s/%s", 0x1) = 0' % (room, n) for n in ("link/x", "topmost", "top")]
            self.assertEqual((lines[0] + lines[2]).encode(), Skip(looks, looks, [room + "/top"]).rest("".join(lines).encode()))

    def test_look_where_somebody_changes_a_name(self) -> None:
        opens = ["8 %s, %s) = 3" % (opened, flags) for opened in ('openat(AT_FDCWD</w>, "/usr/x"', 'open("/usr/x"', 'openat2(AT_FDCWD</w>, "/usr/x"', 'open("/usr/\\"x"')
                 for flags in ("O_WRONLY", "O_RDWR|O_CLOEXEC", "O_RDONLY|O_CREAT, 0666", "O_RDONLY|O_TRUNC")]
        names = ("creat", "rename", "renameat2", "unlink", "unlinkat", "rmdir", "mkdir", "mkdirat", "mknod", "link", "linkat", "symlink", "symlinkat", "truncate", "chmod",
                 "fchmodat", "chown", "lchown", "fchownat", "utime", "utimensat", "futimesat")
        for change in opens + ['8   %s("a", "/usr/x") = 0' % name for name in names] + ['8 unlink("/etc/x" <unfinished ...>']:
            calls = 1 if "unfinished" in change else 2
            self.assertEqual(calls, self.kept([self.LOOK, change], ["/w"]), change)
            self.assertEqual(calls, self.kept([change, self.LOOK], ["/w"]), change)

    def test_changes_elsewhere_change_nothing_there(self) -> None:
        others = ['8 unlink("/w/usr/x") = 0', '8 symlink("/usr/x", "a") = 0', '8 symlinkat("/usr/x", 3</w>, "a") = 0', '8 openat(AT_FDCWD</usr>, "x", O_RDONLY) = 3</usr/x>']
        self.assertEqual(len(others), self.kept([self.LOOK, *others], ["/w"]))

    def test_look_below_a_top(self) -> None:
        self.assertEqual(1, self.kept([self.LOOK], ["/usr/lib"]))

    def test_change_below_a_top_leaves_other_folders_skipped(self) -> None:
        change, elsewhere = '8 unlink("/usr/src/w/x") = 0', self.LOOK.replace("/usr/", "/etc/")
        self.assertEqual(1, self.kept([change, elsewhere], ["/usr/src/w"]))
        self.assertEqual(2, self.kept([change, self.LOOK], ["/usr/src/w"]))


    def test_texts_of_python_that_do_not_come_with_it_are_read(self) -> None:
        for path, count in (("/usr/lib/python3/dist-packages/x/y.py", 1), ("/usr/local/lib/python3.9/site-packages/__pycache__/x.cpython-39.pyc", 1), ("/usr/share/x/y.py", 1),
                            ("/usr/lib/python3/dist-packages/x.so", 1), ("/usr/share/python-wheels/x.whl", 1), ("/usr/lib/python3.9/os.py", 0), ("/usr/lib/python3.9/lib-dynload/x.so", 0), ("/usr/lib/x.so", 0)):
            self.assertEqual(count, self.kept([self.LOOK.replace("/usr/lib/x.so", path), self.LOOK], ["/w"]), path)

    def test_modules_of_ocaml_are_read(self) -> None:
        for path, count in (("/usr/lib/ocaml/stdlib.cmi", 1), ("/usr/lib/ocaml/stdlib__Bool.cmx", 1), ("/usr/lib/ocaml/stdlib.cma", 0)):
            self.assertEqual(count, self.kept([self.LOOK.replace("/usr/lib/x.so", path), self.LOOK], ["/w"]), path)

    def test_masks_of_signals_are_not_read(self) -> None:
        masks = ["7 rt_sigprocmask(SIG_BLOCK, NULL, ~[KILL STOP], 8) = 0", "7 rt_sigprocmask(SIG_SETMASK, [HUP INT], NULL, 8) = 0"]
        self.assertEqual(1, self.kept([*masks, '7 openat(AT_FDCWD</w>, "a", O_RDONLY) = 3</w/a>'], ["/w"]))

    def test_limits_of_its_own_are_not_read(self) -> None:
        limits = ["7 prlimit64(%d, RLIMIT_STACK, NULL, {rlim_cur=8192*1024, rlim_max=RLIM64_INFINITY}) = 0" % pid for pid in (0, 6)]
        self.assertEqual(1, self.kept(limits, ["/w"]))

    def test_open_with_other_flags_is_read(self) -> None:
        self.assertEqual(1, self.kept([self.LOOK.replace("O_RDONLY", "O_RDONLY|O_DIRECT"), self.LOOK], ["/w"]))

    def test_change_that_no_line_shows_is_a_hole(self) -> None:
        lines = ['7 openat(AT_FDCWD</w>, "link/x", O_WRONLY|O_CREAT, 0666 <unfinished ...>', "7 <... openat resumed>) = 3</usr/lib/x>", "7 +++ exited with 0 +++"]
        with tempfile.TemporaryDirectory() as room:
            names = Names()
            names.tops = ["/w"]
            names.folder("/w").walked = True
            names.put(names.folder("/w"), "link", Inode("l", "/usr/lib"))
            (Path(room) / "trace").write_text("\n".join(lines) + "\n")
            sift(Path(room) / "trace", ["/w"], Path(room) / "sifted")
            self.assertEqual(["who looks at /usr/lib/x is not known, and it changed"], replay_trace(Facts(Path(room), room, "/usr/bin/make", names, {}), "/w").holes)

    def test_trace_that_is_still_written(self) -> None:
        with tempfile.TemporaryDirectory() as room, open(Path(room) / "trace", "w") as file:
            steps = iter([("1 a\n2", False), ("2 b\n", False), ("", False), ("3 c\n4", True)])

            def has_ended(seconds: float) -> bool:
                text, is_last = next(steps, ("", True)) if seconds == 0 else ("", False)
                file.write(text)
                file.flush()
                return is_last

            self.assertEqual([b"1 a\n", b"22 b\n", b"3 c\n", b"4"], list(pieces(Path(room) / "trace", has_ended)))

    def test_trace_of_several_pieces(self) -> None:
        other = '7 openat(AT_FDCWD</w>, "a", O_RDONLY) = 3</w/a>'
        lines = [self.LOOK, other] * (3 * PIECE // len(self.LOOK + other + "\n\n"))
        self.assertEqual(len(lines) // 2, self.kept(lines, ["/w"]))
        self.assertEqual(len(lines) + 1, self.kept([*lines, '8 unlink("/etc/x") = 0'], ["/w"]))
