"""Trace lines, played in their order: what once gave an empty footprint, and so a wrong yes."""

import os
import unittest
from typing import List, Set, Tuple

import support  # noqa: F401
from record.facts import Facts
from record.importing import replay_trace
from record.trace.calls import Calls
from record.trace.lives import Life
from record.trace.names import Names
from record.trace.sifting import sift
from record.trace.snapshots import Past
from record.trace.strace import read_trace
from test_small import Small, makefiles

ABSENT = "all: u a\nu: ; %s 2> /dev/null || echo no > u; touch u\na: ; mkdir d; touch a\n"
LINKED = "files that got or lost a second name"
# A recipe that runs something in a folder, and another one that makes a name there.
IS_THERE = "RACE  d  (that the folder"
# b looks for a file by way of d, which a makes.
WAY = "all: a b\na: ; mkdir d; touch a\nb: ; cat %s > b || echo none > b\n"
# A folder that a recipe makes, and make opens it when it considers a.o; the next recipe has nothing to do with it.
BESIDE = "all: dist a.o%s\n%%.o: %%.c gen/g.h ; cp $< $@\ngen/g.h: tool ; mkdir -p gen; sh tool > $@\ntool: tool.in ; %s; cp $< $@\ndist: ; mkdir -p gen; touch gen/list $@\n"
TOOL = {"a.c": "", "tool.in": "echo 1\n"}

TOP = "/no/such/project"
SPOOL = "/no/such/spool"
MAKE = "/usr/bin/make"


def played(*lines: str, top: str = TOP, said: str = "") -> Calls:
    """A replay of some lines in an empty project."""
    names = Names()
    folder = names.folder(top)
    folder.walked = True
    names.tops.append(top)
    replay = Calls(names, SPOOL, MAKE, top)
    replay.said = said
    for event in read_trace(line + "\n" for line in lines):
        replay.play(event)
    return replay


def lives_of(replay: Calls, pid: int) -> List[Life]:
    """The lives of a process number, in order."""
    return [life for life in replay.all if life.pid == pid]


def events_of(life: Life) -> Set[Tuple[str, str]]:
    """Events with paths below the project."""
    return {(kind, path[len(TOP) + 1:]) for kind, path in life.events if path.startswith(TOP)}


class Lives(unittest.TestCase):
    """Processes: their parents, and their numbers that come again."""

    def test_threads_change_their_folder_together(self) -> None:
        replay = played("1 clone3({flags=CLONE_VM|CLONE_FS|CLONE_FILES|CLONE_THREAD}, 88) = 2", '1 chdir("sub") = 0', '2 mkdir("a", 0777) = 0',
                        '2 chdir("..") = 0', '1 mkdir("b", 0777) = 0')
        self.assertIn(("M", "sub/a"), events_of(lives_of(replay, 2)[0]))
        self.assertIn(("M", "b"), events_of(lives_of(replay, 1)[0]))

    def test_processes_in_one_folder(self) -> None:
        self.assertIn("in one folder", "".join(played("1 clone(child_stack=NULL, flags=CLONE_FS|SIGCHLD) = 2").holes))

    def test_a_process_changes_its_folder_alone(self) -> None:
        replay = played("1 clone(child_stack=NULL, flags=CLONE_CHILD_CLEARTID|SIGCHLD) = 2", '1 chdir("sub") = 0', '2 mkdir("a", 0777) = 0')
        self.assertIn(("M", "a"), events_of(lives_of(replay, 2)[0]))

    def test_child_ends_before_its_parents_call_returns(self) -> None:
        replay = played('1 execve("/bin/sh", ["sh", "-c", "x"], 0x1 /* 1 var */) = 0', "1 vfork( <unfinished ...>",
                        f'2 openat(AT_FDCWD<{TOP}>, "a", O_WRONLY|O_CREAT|O_TRUNC, 0666) = 3<{TOP}/a>', "2 +++ exited with 0 +++",
                        "1 <... vfork resumed>) = 2")
        (child,) = lives_of(replay, 2)
        self.assertIs(child.parent, lives_of(replay, 1)[0])
        self.assertIn(("W", "a"), events_of(child))

    def test_file_that_another_process_saw_before_its_maker_went_on(self) -> None:
        for flags in ("O_WRONLY|O_CREAT|O_EXCL", "O_WRONLY|O_CREAT|O_TRUNC"):
            replay = played("1 clone(child_stack=NULL, flags=SIGCHLD) = 2", f'2 openat(AT_FDCWD<{TOP}>, "a", {flags}, 0666 <unfinished ...>',
                            '1 stat("a", {st_mode=S_IFREG|0644, st_size=0, ...}) = 0', f"2 <... openat resumed>) = 3<{TOP}/a>")
            self.assertIn(("C", "a"), events_of(lives_of(replay, 2)[0]))

    def test_who_is_above_a_child_that_is_seen_first(self) -> None:
        replay = played("1 vfork( <unfinished ...>", '2 mkdir("d", 0777) = 0', '3 mkdir("e", 0777) = 0', "1 <... vfork resumed>) = 2")
        self.assertEqual([1, 1], [life.parent.pid if life.parent else 0 for pid in (2, 3) for life in lives_of(replay, pid)])

    def test_folder_of_a_child_that_is_seen_first(self) -> None:
        replay = played("1 vfork( <unfinished ...>", '2 chdir("sub") = 0', f'2 openat(AT_FDCWD<{TOP}/sub>, "a", O_WRONLY|O_CREAT, 0666) = 3<{TOP}/sub/a>',
                        "1 <... vfork resumed>) = 2")
        self.assertIn(("W", "sub/a"), events_of(lives_of(replay, 2)[0]))

    def test_folder_of_a_process_that_changes_it_first(self) -> None:
        """What it changes before the call that started it is finished holds behind that."""
        replay = played("1 clone(child_stack=NULL, flags=SIGCHLD <unfinished ...>", '2 chdir("sub") = 0', "1 <... clone resumed>) = 2", '2 mkdir("a", 0777) = 0', '1 mkdir("b", 0777) = 0')
        one, two = lives_of(replay, 1)[0], lives_of(replay, 2)[0]
        self.assertEqual((True, True), (("M", "sub/a") in events_of(two), ("M", "b") in events_of(one)))

    def test_thread_that_is_seen_first(self) -> None:
        begin, end = "1 clone3({flags=CLONE_VM|CLONE_FS|CLONE_THREAD}, 88 <unfinished ...>", "1 <... clone3 resumed>) = 2"
        leave, enter = "2 unshare(CLONE_FS) = 0", '2 chdir("sub") = 0'
        for lines, name in (((begin, leave, enter, end), "b"), ((begin, leave, end, enter), "b"), ((begin, end, leave, enter), "b"), ((begin, enter, end), "sub/b")):
            replay = played(*lines, '1 mkdir("b", 0777) = 0', '2 mkdir("a", 0777) = 0')
            self.assertIn(("M", name), events_of(lives_of(replay, 1)[0]), lines)
            self.assertIn(("M", "sub/a"), events_of(lives_of(replay, 2)[0]), lines)

    def test_number_that_comes_again_is_another_life(self) -> None:
        one = ["1 vfork() = 2", f'2 openat(AT_FDCWD<{TOP}>, "a", O_WRONLY|O_CREAT, 0666) = 3<{TOP}/a>', "2 +++ exited with 0 +++"]
        two = ["1 vfork() = 2", f'2 openat(AT_FDCWD<{TOP}>, "b", O_WRONLY|O_CREAT, 0666) = 3<{TOP}/b>', "2 +++ exited with 0 +++"]
        first, second = lives_of(played(*one, *two), 2)
        self.assertIn(("W", "a"), events_of(first))
        self.assertNotIn(("W", "b"), events_of(first))
        self.assertIn(("W", "b"), events_of(second))

    def test_number_that_comes_again_before_the_call_returns(self) -> None:
        replay = played("1 vfork() = 2", "2 +++ exited with 0 +++", "1 vfork( <unfinished ...>",
                        f'2 openat(AT_FDCWD<{TOP}>, "b", O_WRONLY|O_CREAT, 0666) = 3<{TOP}/b>', "1 <... vfork resumed>) = 2")
        first, second = lives_of(replay, 2)
        self.assertNotIn(("W", "b"), events_of(first))
        self.assertIn(("W", "b"), events_of(second))

    def test_folder_of_a_child_that_two_may_have_started(self) -> None:
        replay = played("1 vfork() = 3", '3 chdir("sub") = 0', "1 vfork( <unfinished ...>", "3 vfork( <unfinished ...>",
                        '4 unlink("a") = -1 ENOENT (No such file or directory)', "1 <... vfork resumed>) = 4", "3 <... vfork resumed>) = 5")
        self.assertEqual({("N", "a")}, events_of(lives_of(replay, 4)[0]))

    def test_birth_and_death_are_in_one_order(self) -> None:
        replay = played("1 vfork() = 2", "1 vfork() = 3", "2 +++ exited with 0 +++", '3 chdir("x") = 0', "3 +++ exited with 0 +++")
        two, three = lives_of(replay, 2)[0], lives_of(replay, 3)[0]
        self.assertTrue(two.born < three.born < two.died < three.died)

    def test_make_that_changes_its_folder(self) -> None:
        replay = played(f'1 execve("{MAKE}", ["make"], 0x1 /* 1 var */) = 0', '1 chdir("sub") = 0',
                        f'1 openat(AT_FDCWD<{TOP}/sub>, "x", O_RDONLY) = -1 ENOENT (No such file or directory)')
        self.assertEqual(TOP + "/sub", lives_of(replay, 1)[0].folder)

    def test_make_without_the_library_is_noted(self) -> None:
        begins = '1 execve("/usr/bin/make", ["/usr/bin/make", "-f", "x"], 0x1 /* 1 var */) = 0'
        opens = '1 openat(AT_FDCWD<%s>, "/said/%d.3.make", O_WRONLY|O_CREAT|O_EXCL|O_APPEND|O_CLOEXEC, 0600) = 3</said/1.3.make>'
        self.assertEqual(["/usr/bin/make -f x"], [*played(begins).unheard.values()])
        heard = played(begins, opens % (TOP, 1), said="/said/")
        self.assertEqual(([], 3, True), ([*heard.unheard.values()], heard.all[0].number, heard.all[0].is_make))
        self.assertEqual(["/usr/bin/make -f x"], [*played(begins, opens % (TOP, 2), said="/said/").unheard.values()])
        script = played('1 execve("rules", ["./rules", "all"], 0x1 /* 1 var */) = 0', opens % (TOP, 1), said="/said/")
        self.assertTrue(script.all[0].is_make)


class Footprints(unittest.TestCase):
    """Calls, and what they read and write."""

    def events(self, *lines: str) -> Set[Tuple[str, str]]:
        return events_of(lives_of(played(*("1 " + line for line in lines)), 1)[0])

    def test_paths_by_way_of_proc(self) -> None:
        (life,) = lives_of(played('1 chdir("sub") = 0', f'1 openat(AT_FDCWD<{TOP}/sub>, "/proc/self/cwd/a", O_RDONLY) = -1 ENOENT (No such file)',
                                  f'1 openat(AT_FDCWD<{TOP}/sub>, "/proc/1/root{TOP}/b", O_WRONLY|O_CREAT, 0666) = 3<{TOP}/b>',
                                  f'1 openat(AT_FDCWD<{TOP}/sub>, "/dev/fd/7", O_WRONLY) = 4<{TOP}/c>',
                                  f'1 openat(AT_FDCWD<{TOP}/sub>, "/proc/2/cwd/d", O_WRONLY) = 5</elsewhere/d>',
                                  f'1 openat(AT_FDCWD<{TOP}/sub>, "/dev/fd/8", O_RDONLY) = 6<pipe:[17]>'), 1)
        self.assertLessEqual({("N", "sub/a"), ("W", "b"), ("W", "c")}, events_of(life))
        self.assertIn(("W", "/elsewhere/d"), life.events)

    def test_folder_of_the_process_that_strace_does_not_name(self) -> None:
        """strace 5.10 writes AT_FDCWD alone."""
        for call, wanted in ((f'renameat(3<{TOP}/d>, "a", AT_FDCWD, "b")', {("D", "d/a"), ("C", "sub/b")}), (f'renameat2(AT_FDCWD, "a", 3<{TOP}/d>, "b", 0)', {("D", "sub/a"), ("C", "d/b")}),
                             ('renameat2(AT_FDCWD, "a", AT_FDCWD, "b", 0)', {("D", "sub/a"), ("C", "sub/b")}), (f'linkat(3<{TOP}/d/f>, "", AT_FDCWD, "b", AT_EMPTY_PATH)', {("R", "d/f"), ("C", "sub/b")}),
                             ('symlinkat("to", AT_FDCWD, "b")', {("C", "sub/b")}), ('openat(AT_FDCWD, "b", O_WRONLY|O_CREAT, 0666)', {("C", "sub/b")})):
            replay = played('1 mkdir("d", 0777) = 0', '1 mkdir("sub", 0777) = 0', '1 chdir("sub") = 0', "1 %s = 0" % call)
            self.assertLessEqual(wanted, events_of(lives_of(replay, 1)[0]), call)
            self.assertEqual([], replay.holes, call)

    def test_an_open_that_leads_elsewhere_is_a_hole(self) -> None:
        for flags in ("O_RDONLY", "O_WRONLY|O_CREAT, 0666"):
            self.assertEqual([], played(f'1 openat(AT_FDCWD<{TOP}>, "a", {flags}) = 3<{TOP}/a>').holes)
            self.assertEqual([], played(f'1 openat(AT_FDCWD, "a", {flags}) = 3<{TOP}/a (deleted)>').holes)
            self.assertEqual(1, len(played(f'1 openat(AT_FDCWD<{TOP}>, "a", {flags}) = 3<{TOP}/b>').holes), flags)

    def test_calls_that_hide_files_are_holes(self) -> None:
        for call in ('chroot("/no/such/project")', 'pivot_root("a", "b")', 'mount("a", "b", "ext4", 0, NULL)', "setns(3</proc/1/ns/mnt>, 0)",
                     "open_by_handle_at(3</>, {}, O_RDONLY)", "io_uring_setup(8, {})"):
            self.assertEqual(1, len(played("1 %s = 0" % call).holes), call)
            self.assertEqual([], played("1 %s = -1 EPERM (Operation not permitted)" % call).holes, call)

    def test_open(self) -> None:
        self.assertIn(("N", "a"), self.events(f'openat(AT_FDCWD<{TOP}>, "a", O_RDONLY) = -1 ENOENT (No such file or directory)'))
        self.assertEqual({("C", "a"), ("W", "a")}, self.events(f'openat(AT_FDCWD<{TOP}>, "a", O_WRONLY|O_CREAT|O_TRUNC, 0666) = 3<{TOP}/a>'))

    def test_devices_are_left_out(self) -> None:
        (life,) = played(*("1 openat(AT_FDCWD</>, \"%s\", O_WRONLY) = 3" % name for name in ("/dev/null", "/dev/pts/1", "/proc/self/comm"))).all
        self.assertEqual({}, life.events)

    def test_other_names_below_dev_are_kept(self) -> None:
        (life,) = played('1 openat(AT_FDCWD</>, "/dev/shm/a", O_WRONLY|O_CREAT, 0666) = 3</dev/shm/a>').all
        self.assertIn(("W", "/dev/shm/a"), life.events)

    def test_no_path_below_a_top_is_left_out(self) -> None:
        (life,) = played('1 openat(AT_FDCWD</sys/top>, "a", O_WRONLY|O_CREAT, 0666) = 3</sys/top/a>', top="/sys/top").all
        self.assertIn(("W", "/sys/top/a"), life.events)

    def test_folder_that_gets_a_third_name(self) -> None:
        found = self.events('mkdir("d", 0777) = 0', f'openat(AT_FDCWD<{TOP}>, "d/x", O_WRONLY|O_CREAT, 0666) = 3<{TOP}/d/x>', 'rename("d", "e") = 0', 'rename("e", "f") = 0')
        self.assertLessEqual({("D", "e/x"), ("C", "f/x")}, found)

    def test_names_that_are_exchanged_are_a_hole(self) -> None:
        self.assertEqual(1, len(played('1 renameat2(AT_FDCWD, "a", AT_FDCWD, "b", RENAME_EXCHANGE) = 0').holes))

    def test_rename_of_a_folder_moves_all_below(self) -> None:
        found = self.events('mkdir("d", 0777) = 0', f'openat(AT_FDCWD<{TOP}>, "d/x", O_WRONLY|O_CREAT, 0666) = 3<{TOP}/d/x>', 'rename("d", "e") = 0')
        self.assertLessEqual({("D", "d"), ("D", "d/x"), ("C", "e/x"), ("W", "e/x")}, found)

    def test_write_through_a_link_is_of_the_name_behind_it(self) -> None:
        found = self.events('symlink("d", "l") = 0', 'mkdir("d", 0777) = 0', f'openat(AT_FDCWD<{TOP}>, "l/x", O_WRONLY|O_CREAT, 0666) = 3<{TOP}/d/x>', 'unlink("l") = 0')
        self.assertLessEqual({("C", "l"), ("R", "l"), ("W", "d/x"), ("D", "l")}, found)
        self.assertNotIn(("W", "l/x"), found)

    def test_write_through_one_name_is_of_all_names(self) -> None:
        found = self.events(f'openat(AT_FDCWD<{TOP}>, "a", O_WRONLY|O_CREAT, 0666) = 3<{TOP}/a>', 'link("a", "b") = 0',
                            f'openat(AT_FDCWD<{TOP}>, "b", O_WRONLY|O_APPEND) = 3<{TOP}/b>')
        self.assertLessEqual({("W", "a"), ("W", "b")}, found)

    def test_line_that_cannot_be_read_is_a_hole(self) -> None:
        self.assertEqual(1, len(played("1 gibberish").holes))


Makefiles = makefiles(__name__, {
    # names that cannot be made, as their folder is not there, or is full
    "pipe_in_a_folder_that_is_absent": Small("race", ABSENT % "mkfifo d/y"),
    # files with a name elsewhere
    "name_outside_of_the_project": Small("safe", "all: ; echo 1 > x; touch all\n", setup="echo 0 > ../y; ln ../y x", says=LINKED),
    "name_outside_that_nobody_writes": Small("safe", "all: ; cat x > all\n", setup="echo 0 > ../y; ln ../y x", lacks=LINKED),
    "script_that_is_a_pipe": Small("safe", "all: ; mkfifo p; echo 'touch all' > p & sh p; wait\n"),
    # by way of /proc, and by numbers
    "file_by_its_number": Small("no verdict", "all: a b\na: ; exec 3< f; chmod +x /dev/fd/3; touch a\nb: ; test -x f; touch b\n", {"f": "f"}, says="number of its descriptor"),
    "output_by_its_number": Small("safe", "all: ; @echo a > /dev/stdout; echo b | cat > /dev/fd/1; touch all\n"),
    # ages
    # ages of files that somebody else has opened
    # ages of the folder that a script is in
    "folder_that_a_path_leaves_again": Small("race", WAY % "d/../f", {"f": ""}, says=IS_THERE),
    "folder_that_a_path_leaves_from_below": Small("race", WAY % ".//x/./.././d/../f", {"f": "", "x/y": ""}, says=IS_THERE),
    "folder_that_a_whole_path_leaves_again": Small("race", WAY % "/usr/lib/../..$(CURDIR)/d/../f", {"f": ""}, says=IS_THERE),
    "folder_that_a_link_leaves_again": Small("race", WAY % "l", {"f": ""}, "ln -s d/../f l", says=IS_THERE),
    "folder_by_way_of_which_nothing_was_there": Small("race", "all: b a\na: ; mkdir d; touch a\nb: ; cat d/../f > b || echo none > b\n", {"f": ""}, says=IS_THERE),
    "folder_that_a_path_leaves_again_in_order": Small("safe", (WAY % "d/../f").replace("b: ;", "b: a ;"), {"f": ""}),
    "folder_that_was_there_and_a_path_leaves_again": Small("safe", (WAY % "d/../f").replace("mkdir", "mkdir -p"), {"f": "", "d/x": ""}),
    "folder_above_the_own_one": Small("safe", "all: a b\na: ; touch d/a a\nb: ; cd d && cat ../f > ../b\n", {"f": "", "d/x": ""}),
    "folder_by_the_number_of_a_descriptor_that_a_path_leaves_again": Small("no verdict", "all: ; exec 3< d; cat /proc/self/fd/3/../f > all\n", {"f": "", "d/x": ""}, says="by the number of its descriptor alone"),
    # a search opens a folder, and no recipe asks for names there
    "folder_that_a_search_opens_beside_a_recipe": Small("safe", BESIDE % ("", ":"), TOOL),
})


class Traces(unittest.TestCase):
    """Lines of a trace."""

    def test_process_that_nobody_started(self) -> None:
        begun = ('1 execve("/bin/sh", ["sh"], 0x1 /* 1 var */) = 0', "1 clone(child_stack=NULL, flags=SIGCHLD) = 2")
        self.assertEqual(["cat x"], played(*begun, '77 execve("/bin/cat", ["cat", "x"], 0x1 /* 1 var */) = 0').strays())
        self.assertEqual([], played(*begun, '2 execve("/bin/cat", ["cat", "x"], 0x1 /* 1 var */) = 0').strays())

    def test_process_that_several_may_have_started(self) -> None:
        lines = ("1 vfork() = 2", '2 chdir("d") = 0', "1 vfork( <unfinished ...>", "2 vfork( <unfinished ...>", '77 execve("/bin/cat", ["cat"], 0x1 /* 1 var */) = 0')
        self.assertEqual(["number 77"], played(*lines).strays())

    def test_thread_that_only_ends(self) -> None:
        one = ('1 execve("/bin/go", ["go"], 0x1 /* 1 var */) = 0', "1 clone(child_stack=0x1, flags=CLONE_VM|CLONE_THREAD <unfinished ...>")
        self.assertEqual([], played(*one, "77 +++ exited with 0 +++").strays())
        several = ("1 vfork() = 2", '2 chdir("d") = 0', "1 vfork( <unfinished ...>", "2 vfork( <unfinished ...>")
        self.assertEqual([], played(*several, "77 +++ exited with 0 +++").strays())

    def test_memory_of_a_process_that_a_signal_ends(self) -> None:
        self.assertIn("core dumped", "".join(played('1 access("x", F_OK) = 0', "1 +++ killed by SIGSEGV (core dumped) +++").holes))
        self.assertEqual([], played('1 access("x", F_OK) = 0', "1 +++ killed by SIGSEGV +++").holes)

    def test_names_of_calls_of_32_bits(self) -> None:
        replay = played('1 truncate64("x", 0) = 0', '1 chown32("y", 0, 0) = 0', '1 lchown32("z", 0, 0) = 0', f"1 fchown32(3<{TOP}/q>, 0, 0) = 0")
        self.assertLessEqual({("W", name) for name in "xyzq"}, events_of(lives_of(replay, 1)[0]))

    def test_names_that_come_and_go(self) -> None:
        replay = played('1 mkdir("d", 0777) = 0', f'1 openat(AT_FDCWD<{TOP}>, "d/x", O_WRONLY|O_CREAT, 0666) = 3<{TOP}/d/x>', '1 rename("d", "e") = 0', '1 unlink("e/x") = 0')
        past = Past({}, replay.changes)
        found = [{name[len(TOP) + 1:]: kind for name, kind in past.until(place).items()} for place in (1, 2, 3, 4, 5, 2)]
        self.assertEqual([{}, {"d": "d"}, {"d": "d", "d/x": "f"}, {"e": "d", "e/x": "f"}, {"e": "d"}, {"d": "d"}], found)

    def test_name_that_leads_to_the_system(self) -> None:
        for target, wanted in (("/usr/lib", True), ("/usr/bin/env", False), ("k", False)):
            with support.Project({"trace": '1 access("/usr/race-test", F_OK) = -1 ENOENT (No such file)\n', "top/k": "k"}) as project:
                top = os.path.realpath(project.folder / "top")
                os.symlink(target, top + "/l")
                names = Names()
                names.walk(top)
                sift(project.folder / "trace", [top], project.folder / "sifted")
                replay = replay_trace(Facts(project.folder, str(project.folder), "/bin/make", names, {}), top)
                self.assertEqual(wanted, any(("N", "/usr/race-test") in life.events for life in replay.all), target)
