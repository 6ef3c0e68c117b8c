"""The segments of processes, and their order: small traces."""

import unittest
from typing import Dict, List, Tuple

from record.trace.lives import Segment, before
from record.trace.replay import Replay
from test_replay import TOP, lives_of, played

RUN = '%d execve("/bin/tool", ["tool"], 0x1 /* 1 var */) = 0'
MAKE = '%d openat(AT_FDCWD<' + TOP + '>, "%s", O_WRONLY|O_CREAT|O_TRUNC, 0666) = 3<' + TOP + '/%s>'
FORK = "%d clone(child_stack=NULL, flags=CLONE_CHILD_SETTID|SIGCHLD, child_tidptr=0x7) = %d"
EXIT = "%d +++ exited with 0 +++"
ANY = "1 wait4(-1, [{WIFEXITED(s) && WEXITSTATUS(s) == 0}], 0, NULL) = %d"
POLL = "1 wait4(-1, [{WIFEXITED(s) && WEXITSTATUS(s) == 0}], WNOHANG, NULL) = %d"
NAMED = "1 wait4(%d, [{WIFEXITED(s) && WEXITSTATUS(s) == 0}], 0, NULL) = %d"
SLEEP = ["1 rt_sigsuspend([], 8 <unfinished ...>", "1 <... rt_sigsuspend resumed>)  = ? ERESTARTNOHAND (To be restarted if no handler)"]
TWO = [RUN % 1, FORK % (1, 2), FORK % (1, 3)]  # two children that make a file each


def child(pid: int, name: str) -> List[str]:
    """What a child does: it makes a file, and ends."""
    return [MAKE % (pid, name, name), EXIT % pid]


def where(replay: Replay, name: str, kind: str = "W") -> List[Tuple[int, int]]:
    """The segments in which a file is written: the process, and the number."""
    courses = {id(life.course): life.course for life in replay.all}
    found = [(course, number) for course in courses.values() for number, events in enumerate(course.events_by_segment()) if (kind, TOP + "/" + name) in events]
    return sorted((course.first.pid, number) for course, number in found)


def segment(replay: Replay, name: str) -> Segment:
    """The segment in which a file was made."""
    (pid, number), = where(replay, name)
    return lives_of(replay, pid)[0].course, number


class Orders(unittest.TestCase):
    """Which segment comes before which: in each build, by luck, or not at all."""

    def says(self, lines: List[str], wanted: Dict[str, str]) -> None:
        replay = played(*lines)
        self.assertEqual([], replay.holes)
        for names, how in wanted.items():
            first, second = (segment(replay, name) for name in names)
            found = "always" if before(first, second, False) else "luck" if before(first, second, True) else "no"
            self.assertEqual(how, found, names)

    def test_a_fork(self) -> None:
        self.says([RUN % 1, MAKE % (1, "a", "a"), FORK % (1, 2), MAKE % (1, "b", "b"), *child(2, "c"), EXIT % 1], {"ab": "always", "ac": "always", "bc": "no", "cb": "no", "ba": "no"})

    def test_a_wait_for_one_by_its_number(self) -> None:
        self.says([*TWO, *child(2, "a"), *child(3, "b"), NAMED % (2, 2), MAKE % (1, "c", "c")], {"ac": "always", "bc": "no", "ab": "no"})

    def test_a_wait_by_a_descriptor(self) -> None:
        wait = "1 waitid(P_PIDFD, 3, {si_signo=SIGCHLD, si_code=CLD_EXITED, si_pid=2, si_uid=0, si_status=0, si_utime=0, si_stime=0}, WEXITED, NULL) = 0"
        self.says([*TWO, *child(2, "a"), *child(3, "b"), wait, MAKE % (1, "c", "c")], {"ac": "always", "bc": "no"})

    def test_a_wait_for_any_child(self) -> None:
        self.says([*TWO, *child(2, "a"), ANY % 2, MAKE % (1, "c", "c"), *child(3, "b"), ANY % 3], {"ac": "luck", "cb": "no"})

    def test_a_row_of_waits_that_leaves_no_child(self) -> None:
        self.says([*TWO, *child(2, "a"), ANY % 2, *child(3, "b"), ANY % 3, MAKE % (1, "c", "c")], {"ac": "luck", "bc": "always"})
        self.says([*TWO, *child(2, "a"), ANY % 2, MAKE % (1, "d", "d"), *child(3, "b"), ANY % 3, MAKE % (1, "c", "c")], {"ac": "luck", "ad": "luck", "bc": "always"})

    def test_a_look_whether_a_child_has_ended(self) -> None:
        lines = [*TWO, *child(2, "a"), *child(3, "b")]
        self.says([*lines, POLL % 2, POLL % 3, MAKE % (1, "c", "c")], {"ac": "luck", "bc": "luck"})
        self.says([*lines, *SLEEP, POLL % 2, POLL % 3, MAKE % (1, "c", "c")], {"ac": "luck", "bc": "luck"})
        self.says([*lines, *SLEEP, POLL % 2, *SLEEP, POLL % 3, MAKE % (1, "c", "c")], {"ac": "luck", "bc": "always"})
        self.says([*TWO, *child(2, "a"), *SLEEP, POLL % 2, *child(3, "b"), NAMED % (3, 3), FORK % (1, 4), *child(4, "d"), POLL % 4, MAKE % (1, "c", "c")], {"bc": "always", "dc": "luck"})
        interrupted = "1 wait4(-1, 0x7ffd, 0, NULL) = -1 EINTR (Interrupted system call)"
        self.says([*lines, *SLEEP, interrupted, POLL % 2, *SLEEP, POLL % 3, MAKE % (1, "c", "c")], {"ac": "luck", "bc": "always"})
        self.says([*lines, *SLEEP, POLL % 2, *SLEEP, interrupted, POLL % 3, MAKE % (1, "c", "c")], {"ac": "luck", "bc": "luck"})

    def test_a_pipeline(self) -> None:
        ends = ["2 dup2(4<pipe:[7]>, 1) = 1<pipe:[7]>", "3 dup2(3<pipe:[7]>, 0) = 0<pipe:[7]>"]
        rest = [*child(2, "a"), ANY % 2, *child(3, "b"), ANY % 3, MAKE % (1, "c", "c")]
        self.says([*TWO, *ends, *rest], {"ac": "always", "bc": "always"})
        self.says([*TWO, ends[0], ends[1].replace("[7]", "[8]"), *rest], {"ac": "luck", "bc": "always"})

    def test_a_look_whether_one_has_ended(self) -> None:
        look = "1 wait4(2, [{WIFEXITED(s) && WEXITSTATUS(s) == 0}], WNOHANG, NULL) = 2"
        self.says([*TWO, *child(2, "a"), look, MAKE % (1, "c", "c")], {"ac": "luck"})
        self.says([*TWO, *child(2, "a"), "1 rt_sigreturn({mask=[]}) = 0", look, MAKE % (1, "c", "c")], {"ac": "always"})

    def test_the_end_of_a_process_ends_a_row(self) -> None:
        lines = [RUN % 1, FORK % (1, 2), RUN % 2, FORK % (2, 3), FORK % (2, 4), *child(3, "a"), "2" + ANY[1:] % 3, *child(4, "b"), "2" + ANY[1:] % 4, EXIT % 2]
        self.says([*lines, NAMED % (2, 2), MAKE % (1, "c", "c")], {"ac": "luck", "bc": "always"})

    def test_a_process_that_ignores_the_ends_of_its_children(self) -> None:
        none = "1 wait4(-1, 0x7ffd, 0, NULL) = -1 ECHILD (No child processes)"
        self.says([*TWO, *child(2, "a"), *child(3, "b"), none, MAKE % (1, "c", "c")], {"ac": "always", "bc": "always"})
        self.says([*TWO, *child(2, "a"), *child(3, "b"), none.replace(" 0, NULL", " WNOHANG, NULL"), MAKE % (1, "c", "c")], {"ac": "no", "bc": "no"})

    def test_a_child_that_is_stopped(self) -> None:
        stopped = "1 wait4(2, [{WIFSTOPPED(s) && WSTOPSIG(s) == SIGTSTP}], WSTOPPED, NULL) = 2"
        self.says([*TWO, stopped, MAKE % (1, "c", "c"), *child(2, "a"), *child(3, "b")], {"ca": "no", "ac": "no"})

    def test_a_child_of_vfork(self) -> None:
        lines = [RUN % 1, "1 vfork( <unfinished ...>", MAKE % (2, "a", "a"), RUN % 2, "1 <... vfork resumed>) = 2", MAKE % (1, "b", "b"), *child(2, "c")]
        replay = played(*lines)
        course = lives_of(replay, 2)[0].course
        self.assertEqual((True, [(2, 0)], [(2, 1)], [(1, 1)]), (course.is_lent, where(replay, "a"), where(replay, "c"), where(replay, "b")))
        self.assertFalse(lives_of(played(*TWO), 2)[0].course.is_lent)

    def test_threads_are_one_process(self) -> None:
        thread = "1 clone(child_stack=0x7, flags=CLONE_VM|CLONE_FS|CLONE_THREAD, child_tidptr=0x7) = 2"
        self.assertEqual([(1, 0)], where(played(RUN % 1, thread, *child(2, "a")), "a"))

    def test_what_is_done_again(self) -> None:
        lines = [RUN % 1, MAKE % (1, "a", "a"), FORK % (1, 2), MAKE % (1, "a", "a"), MAKE % (1, "a", "a")]
        self.assertEqual([(1, 0), (1, 1)], where(played(*lines), "a"))


class Descriptors(unittest.TestCase):
    """Who writes into a file that another process has opened."""

    def writers(self, *lines: str) -> List[int]:
        replay = played(*lines)
        self.assertEqual([], replay.holes)
        return sorted({pid for pid, _ in where(replay, "o", "w")})

    def test_a_child_writes(self) -> None:
        lines = [RUN % 1, MAKE % (1, "o", "o"), FORK % (1, 2)]
        self.assertEqual([2], self.writers(*lines, "2 write(0x3, 0x55f41b32ba90, 0x6)   = 0x6"))
        self.assertEqual([], self.writers(*lines, "2 write(0x4, 0x55f41b32ba90, 0x6)   = 0x6", "2 write(0x3, 0x55f41b32ba90, 0x6) = -1 EBADF (Bad file descriptor)"))

    def test_second_numbers(self) -> None:
        lines = [RUN % 1, MAKE % (1, "o", "o"), "1 dup2(3<%s/o>, 1) = 1<%s/o>" % (TOP, TOP), FORK % (1, 2)]
        self.assertEqual([2], self.writers(*lines, "2 write(0x1, 0x55f41b32ba90, 0x6)   = 0x6"))
        self.assertEqual([], self.writers(*lines, "2 dup2(4<pipe:[7]>, 1<%s/o>) = 1<pipe:[7]>" % TOP, "2 write(0x1, 0x55f41b32ba90, 0x6)   = 0x6"))
        self.assertEqual([2], self.writers(*lines, "2 fcntl(3<%s/o>, F_DUPFD, 10) = 10<%s/o>" % (TOP, TOP), "2 write(0xa, 0x55f41b32ba90, 0x6)   = 0x6"))

    def test_copies(self) -> None:
        lines = [RUN % 1, MAKE % (1, "o", "o"), FORK % (1, 2)]
        for copy in ("sendfile(3<{0}/o>, 4<{0}/i>, NULL, 9) = 9", "copy_file_range(4<{0}/i>, NULL, 3<{0}/o>, NULL, 9, 0) = 9"):
            self.assertEqual([2], self.writers(*lines, "2 " + copy.format(TOP)), copy)
            self.assertEqual([], self.writers(*lines, "2 " + copy.format(TOP).replace("3<", "5<")), copy)

    def test_numbers_that_lead_to_no_file(self) -> None:
        for other in ("pipe2([3<pipe:[7]>, 4<pipe:[7]>], O_CLOEXEC) = 0", "accept4(5<UNIX:[8]>, NULL, NULL, 0) = 3<UNIX:[9]>", "eventfd2(0, EFD_CLOEXEC) = 3<anon_inode:[eventfd]>", 'openat(AT_FDCWD<%s>, "i", O_RDONLY) = 3<%s/i>' % (TOP, TOP),
                      'openat(AT_FDCWD<%s>, "/dev/null", O_WRONLY) = 3</dev/null>' % TOP, "socket(AF_UNIX, SOCK_STREAM, 0) = 3<UNIX:[8]>"):
            self.assertEqual([], self.writers(RUN % 1, MAKE % (1, "o", "o"), FORK % (1, 2), "2 " + other, "2 write(0x3, 0x55f41b32ba90, 0x6)   = 0x6"), other)

    def test_descriptors_that_a_program_does_not_get(self) -> None:
        closed = (MAKE % (1, "o", "o")).replace("O_TRUNC", "O_TRUNC|O_CLOEXEC")
        self.assertEqual([], self.writers(RUN % 1, closed, FORK % (1, 2), RUN % 2, "2 write(0x3, 0x55f41b32ba90, 0x6)   = 0x6"))
        self.assertEqual([2], self.writers(RUN % 1, closed, FORK % (1, 2), "2 write(0x3, 0x55f41b32ba90, 0x6)   = 0x6"))


if __name__ == "__main__":
    unittest.main()
