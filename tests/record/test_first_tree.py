"""Which tree a yes is about: what an earlier build left in the folder, and the clean tree that `--fresh` builds."""

import os
import shutil
import signal
import subprocess
import time
import unittest
from pathlib import Path
from typing import Dict, Sequence
from unittest import mock

import support
from record import fresh
from record.first_tree import FirstTree

GIT = "git init -q . && git add -A && git -c user.name=x -c user.email=x@y commit -qm x"
DEPFILES = {
    "main.c": '#include "gen.h"\nint main(void) { return V; }\n', "gen.in": "#define V 0\n",
    "Makefile": "all: gen.h prog\nprog: main.o ; cc -o $@ main.o\nmain.o: main.c ; cc -MMD -c main.c\ngen.h: gen.in ; cp gen.in gen.h\n"
                "clean: ; rm -f main.o prog gen.h\n-include main.d\n",
}
MOVED = {"Makefile": "all: s u\ns: src ; cp src h.t; cmp -s h.t h && rm h.t || mv h.t h; touch s\nu: ; cat h > u\nclean: ; rm -f s u\n", "src": "1\n"}
HOOK = {"Makefile": "all: p u\np: ; test -f .git/h || echo > .git/h; touch p\nu: ; cat .git/h > u\nclean: ; rm -f p u\n", ".gitignore": "p\nu\n"}
SAFE = {"Makefile": "all: b\nb: a ; cat a > b\na: src ; cat src > a\nclean: ; rm -f a b\n", "src": "1\n"}


def tree(folder: Path) -> Dict[str, bytes]:
    """The files of a folder, without the record."""
    return {str(path.relative_to(folder)): path.read_bytes() for path in folder.rglob("*") if path.is_file() and not {".race", ".git"} & set(path.parts)}


class Left(unittest.TestCase):
    """What an earlier build left counts where the build used it."""

    def recorded(self, files: Dict[str, str], setup: str, options: Sequence[str] = ()) -> support.Outcome:
        """A recording in a tree that some commands have prepared."""
        with support.Project(files) as project:
            project.sh(setup)
            return project.record(options=options)

    def warm(self, files: Dict[str, str], setup: str, name: str) -> None:
        """It is warm by one file."""
        outcome = self.recorded(files, setup)
        self.assertEqual(2, outcome.status, outcome.text())
        self.assertIn("WARM  1 file", outcome.text())
        self.assertIn("\n  %s\n" % name, outcome.text())

    def test_dependency_file(self) -> None:
        self.warm(DEPFILES, "make -s; make -s clean", "main.d")

    def test_output_that_git_does_not_track(self) -> None:
        self.warm(MOVED, GIT + "; make -s; make -s clean", "h")

    def test_output_that_git_tracks(self) -> None:
        outcome = self.recorded(MOVED, "echo 1 > h; " + GIT)
        self.assertEqual(0, outcome.status, outcome.text())
        self.assertRegex(outcome.text(), r"\n      for a checkout of [0-9a-f]{7,}\n")

    def test_what_a_recipe_leaves_beside_git(self) -> None:
        self.warm(HOOK, GIT + "; make -s; make -s clean", ".git/h")
        self.warm({**HOOK, "Makefile": "all: u\nu: ; cp src .git/own/u; touch u\n", "src": ""}, GIT + "; mkdir .git/own", ".git/own")

    def test_what_a_clone_has(self) -> None:
        outcome = self.recorded({"Makefile": "all: v w\nv: .git/HEAD .git/index .git/logs/HEAD ; cp .git/HEAD v\nw: ; cat .git/packed-refs > w\n"}, GIT + "; git pack-refs --all")
        self.assertEqual(0, outcome.status, outcome.text())

    def test_walk_through_a_clone(self) -> None:
        """Who goes through all of it meets what git keeps for itself."""
        outcome = self.recorded({"Makefile": "count: ; find . -name '*.sh' | wc -l > count\n", "a.sh": "", ".gitignore": "count\n"}, GIT + "; git gc -q; git clone -q . ../clone; rm -rf .git; mv ../clone/.git .")
        self.assertEqual(0, outcome.status, outcome.text())

    def test_what_git_uses(self) -> None:
        files = {"Makefile": "all: v\nv: ; git describe --tags > v; git -c maintenance.auto=false -c user.name=x -c user.email=x@y commit -qm x --allow-empty\n"}
        outcome = self.recorded(files, GIT + "; git tag one")
        self.assertEqual(0, outcome.status, outcome.text())

    def test_cache_of_one_recipe(self) -> None:
        files = {"Makefile": "all: a b\na: ; if test -f c; then cp c a; else cat b > a; fi; cp a c\nb: ; echo > b\nclean: ; rm -f a b\n"}
        self.warm(files, "echo > c", "c")

    def test_name_that_a_list_shows(self) -> None:
        files = {"Makefile": "all: a b\na: ; ls p > a\nb: ; echo > p/b; touch b\nclean: ; rm -f a b\n", "p/k": ""}
        self.warm(files, GIT + "; make -s; make -s clean", "p/b")
        self.warm(files, "make -s; make -s clean", "p/b")

    def test_folder_that_make_lists(self) -> None:
        self.warm({"Makefile": "all: list sub\nlist: ; echo $(wildcard p/*/) > list\nsub: ; mkdir -p p/d; touch sub\nclean: ; rm -f list sub\n", "p/k": ""}, GIT + "; make -s; make -s clean", "p/d")

    def test_folder(self) -> None:
        files = {"Makefile": "all: obj/a\nobj/a: ; echo > obj/a\n"}
        self.warm(files, GIT + "; mkdir obj", "obj")
        self.assertEqual(0, self.recorded({"Makefile": "all: obj/a\nobj/a: ; mkdir -p obj; echo > obj/a\n"}, GIT + "; mkdir obj").status)

    def test_folder_that_not_all_wait_for(self) -> None:
        for prep in ("mkdir -p obj", "-mkdir obj", "test -d obj || mkdir obj"):
            self.warm({"Makefile": "all: prep a\na: ; cd obj && echo > a\nprep: ; %s\n" % prep}, GIT + "; mkdir obj", "obj")

    def test_folder_that_all_wait_for(self) -> None:
        for makefile in ("a b: ; mkdir -p obj; echo > obj/$@\n", "a b: prep ; echo > obj/$@\nprep: ; mkdir -p obj\n", "a b: ; echo > obj/$@\nX := $(shell mkdir -p obj)\n",
                         "a: ; mkdir -p obj; $(MAKE) -f in.mk\nb: ;\n"):
            outcome = self.recorded({"Makefile": "all: a b\n" + makefile, "in.mk": "c: ; echo > obj/c\n"}, GIT + "; mkdir obj")
            self.assertEqual(0, outcome.status, outcome.text())

    def test_folder_that_two_make(self) -> None:
        self.warm({"Makefile": "all: a b\na b: ; -mkdir obj\n"}, "mkdir obj", "obj")
        self.assertEqual(0, self.recorded({"Makefile": "all: a b\na b: ; mkdir -p obj\n"}, "mkdir obj").status)

    def test_name_that_could_not_be_made(self) -> None:
        for recipe in ("ln -s src h", "python3 -I -c \"open('h', 'x')\""):
            self.warm({"Makefile": "all: a b\na: ; -%s\nb: ; cat h > b\n" % recipe, "src": ""}, "echo > h", "h")

    def test_changed_files_are_counted(self) -> None:
        self.assertIn(" with 1 changed file\n", self.recorded(SAFE, GIT + "; echo 2 > src").text())

    def test_folder_that_cmake_configured(self) -> None:
        """Its own files are no part of what git tracks, and no build made them."""
        files = {**SAFE, "CMakeCache.txt": ""}
        with support.Project({"b/" + name: text for name, text in files.items()}) as project:
            project.sh("touch src; git init -q . && git add src && git -c user.name=x -c user.email=x@y commit -qm x")
            outcome = project.record(["make", "-C", "b"])
            self.assertEqual(0, outcome.status, outcome.text())

    def test_what_came_with_a_release(self) -> None:
        files = {**SAFE, "Makefile": "all: b man\nb: src ; cp src b\nman: src ; false\n", "man": "1\n", "config.status": "#!/bin/sh\n"}
        old = "touch -d 2001-01-01 src; touch -d 2002-01-01 man config.status"
        outcome = self.recorded(files, old)
        self.assertEqual(0, outcome.status, outcome.text())
        self.assertIn("builds start from this tree", outcome.text())
        self.assertEqual(2, self.recorded(files, old + "; touch man").status)


class Fresh(unittest.TestCase):
    """A clean tree in the place of the project, which stays as it is."""

    def fresh(self, files: Dict[str, str], setup: str, options: Sequence[str] = (), words: Sequence[str] = ("make",)) -> support.Outcome:
        """A recording that leaves the project as it was."""
        with support.Project(files) as project:
            project.sh(setup)
            before = tree(project.folder)
            outcome = project.record(words, ["--fresh", *options])
            self.assertEqual(before, tree(project.folder))
        return outcome

    def test_checkout(self) -> None:
        outcome = self.fresh({**MOVED, ".gitignore": "h\ns\nu\n"}, GIT + "; make -s; make -s clean")
        self.assertEqual((1, ["h"]), (outcome.status, support.races_of(outcome.text())), outcome.text())

    def test_what_a_recipe_leaves_beside_git(self) -> None:
        outcome = self.fresh(HOOK, GIT + "; make -s; make -s clean")
        self.assertEqual((1, [".git/h"]), (outcome.status, support.races_of(outcome.text())), outcome.text())

    def test_new_files_are_named(self) -> None:
        outcome = self.fresh({**SAFE, ".gitignore": "a\nb\n"}, GIT + "; make -s; echo > new; echo 2 > src")
        self.assertEqual(0, outcome.status, outcome.text())
        self.assertIn(" with 1 changed file and 1 new file (new)\n", outcome.text())

    def test_copy_that_make_cleans(self) -> None:
        outcome = self.fresh(SAFE, "make -s")
        self.assertEqual(0, outcome.status, outcome.text())
        self.assertIn("for this folder as make clean leaves it\n", outcome.text())

    def test_submodule(self) -> None:
        """It has its own commits, and files that are new there."""
        makefile = "all: a\na: ; @cat sub/new > a && git -C sub log --format=%s > b && grep -q inner b\n"
        setup = "mkdir in && (cd in; git init -q; touch x; git add x; git -c user.name=x -c user.email=x@y commit -qm inner); " + GIT
        outcome = self.fresh({"Makefile": makefile}, setup.replace("in &&", "../in &&").replace("(cd in", "(cd ../in") + "; git -c protocol.file.allow=always submodule -q add ../in sub; echo > sub/new")
        self.assertEqual(0, outcome.status, outcome.text())

    def test_what_make_clean_leaves(self) -> None:
        outcome = self.fresh(DEPFILES, "make -s")
        self.assertEqual((1, ["gen.h"]), (outcome.status, support.races_of(outcome.text())), outcome.text())
        self.assertIn(b"an earlier build left main.d; recording again without that", outcome.stderr)

    def test_what_git_does_not_ignore(self) -> None:
        for options, end in (([], ""), (["--setup", ":"], ", after :")):
            outcome = self.fresh(SAFE, GIT + "; make -s", options)
            self.assertEqual(0, outcome.status, outcome.text())
            self.assertIn(", without 2 files that an earlier build left (a, b)%s\n" % end, outcome.text())

    def test_new_file_that_a_recipe_writes(self) -> None:
        """It is no source, and without it its folder is not there."""
        files = {"Makefile": "all: d a\na: ; : >> d/log; touch a\nd: ; test -d d || mkdir d\nclean: ; rm -f a\n", ".gitignore": "a\n"}
        outcome = self.fresh(files, GIT + "; make -s; make -s clean")
        self.assertEqual(1, outcome.status, outcome.text())

    def test_repository_in_the_tree(self) -> None:
        files = {"Makefile": "all: p a\np: ; test -f sub/h || echo > sub/h\na: ; cat sub/h > a\n", ".gitignore": "a\n", "sub/k": ""}
        outcome = self.fresh(files, "cd sub; %s; echo > h; cd ..; %s" % (GIT, GIT.replace("-A", "Makefile .gitignore")))
        self.assertEqual((1, ["sub/h"]), (outcome.status, support.races_of(outcome.text())), outcome.text())

    def test_what_an_earlier_build_cannot_do_without(self) -> None:
        """Where the build fails without it, the record of the tree with it stays."""
        outcome = self.fresh({"Makefile": "all: a b\na: p ; cat p > a\nb: ; echo > b\np: ; false\nclean: ; rm -f a b\n", "p": ""}, "make -s")
        self.assertEqual(2, outcome.status)
        self.assertIn("WARM  1 file", outcome.text())
        self.assertIn(b"the build fails without that", outcome.stderr)

    def test_no_rule_cleans(self) -> None:
        outcome = self.fresh({**SAFE, "Makefile": SAFE["Makefile"].replace("clean", "tidy")}, "make -s")
        self.assertEqual(0, outcome.status, outcome.text())
        self.assertIn("\n      for this folder as it stood, without 2 files that an earlier build left (a, b)\n", outcome.text())

    def test_release_that_is_not_configured(self) -> None:
        files = {"Makefile.in": SAFE["Makefile"], "src": "1\n", "configure": "#!/bin/sh\ncp Makefile.in Makefile\n"}
        outcome = self.fresh(files, "chmod +x configure", ["--setup", "./configure"])
        self.assertEqual(0, outcome.status, outcome.text())
        self.assertIn("\n      for this folder as it stood, after ./configure\n", outcome.text())

    def test_archive(self) -> None:
        outcome = self.fresh(DEPFILES, "mkdir x-1; cp Makefile main.c gen.in x-1; tar -czf ../x-1.tar.gz x-1; rm -r x-1; make -s", ["--from", "../x-1.tar.gz"])
        self.assertEqual((1, ["gen.h"]), (outcome.status, support.races_of(outcome.text())), outcome.text())
        self.assertEqual(3, self.fresh(SAFE, ":", ["--from", "none.tar"]).status)

    def test_setup(self) -> None:
        files = {"Makefile.in": SAFE["Makefile"], "src": "1\n", "configure": "#!/bin/sh\ncp Makefile.in Makefile\n", ".gitignore": "Makefile\na\nb\n"}
        outcome = self.fresh(files, "chmod +x configure; %s; ./configure; make -s" % GIT, ["--setup", "./configure"])
        self.assertEqual(0, outcome.status, outcome.text())
        self.assertIn(", after ./configure\n", outcome.text())
        self.assertEqual(2, self.fresh(files, "chmod +x configure; " + GIT, ["--setup", "false"]).status)

    def test_setup_that_goes_elsewhere(self) -> None:
        """The build begins where the user is."""
        files = {"configure": "#!/bin/sh\nprintf 'all: ; @echo > a\\n' > Makefile\n"}
        outcome = self.fresh(files, "chmod +x configure; " + GIT, ["--setup", "mkdir bld && cd bld && ../configure"], ["make", "-C", "bld"])
        self.assertEqual(0, outcome.status, outcome.text() + outcome.stderr.decode())

    def test_folder_below_the_work_tree(self) -> None:
        with support.Project({"sub/Makefile": "all: ; cat ../src > a\n", "src": "1\n", "sub/a": "2\n"}) as project:
            project.sh("git init -q . && git add src sub/Makefile && git -c user.name=x -c user.email=x@y commit -qm x; echo sub/a > .gitignore")
            with mock.patch.object(project, "folder", project.folder / "sub"):
                self.assertEqual(0, project.record(options=["--fresh"]).status)
            self.assertEqual("2\n", (project.folder / "sub/a").read_text())

    def test_git_in_the_tree(self) -> None:
        outcome = self.fresh({"Makefile": "all: ; git describe --always --dirty > v && ! grep dirty v\n", ".gitignore": "v\n.race\n"}, GIT)
        self.assertEqual(0, outcome.status, outcome.text() + outcome.stderr.decode())

    def test_work_tree_without_git(self) -> None:
        real = shutil.which
        with support.Project(SAFE) as project, mock.patch.object(fresh, "tree_of", FirstTree), mock.patch.object(shutil, "which", lambda name: real(name) if name != "git" else None):
            project.sh("mkdir .git")
            outcome = project.record(options=["--fresh"])
        self.assertEqual(3, outcome.status)
        self.assertIn(b"git is missing", outcome.stderr)

    def test_without_mounts(self) -> None:
        with mock.patch.object(fresh, "is_child_able", return_value=False):
            self.test_checkout()
            self.test_archive()
            self.test_setup()

    def test_words_that_need_it(self) -> None:
        with support.Project(SAFE) as project:
            self.assertEqual(3, project.record(options=["--setup", "true"]).status)

    def test_signal(self) -> None:
        """It ends the build, and leaves no tree in the place of the project."""
        with support.Project({"Makefile": "all: ; touch began; sleep 60\nclean: ;\n"}) as project:
            room = project.folder / "room"
            room.mkdir()
            words = [str(support.RECORDER), "--race", support.race_program(), "--fresh", "--", "make"]
            process = subprocess.Popen(words, cwd=project.folder, stdout=subprocess.DEVNULL, stderr=subprocess.DEVNULL)
            time.sleep(3)
            process.send_signal(signal.SIGTERM)
            self.assertEqual(3, process.wait(support.SECONDS))
            self.assertEqual(["Makefile"], sorted(tree(project.folder)))


@unittest.skipUnless(os.geteuid() == 0, "needs root")
class FullDisk(unittest.TestCase):
    """No room for the tree, its trace or its record."""

    def test_project_stays(self) -> None:
        for size in (60, 200, 400):
            with support.Project(SAFE, below="/var/tmp") as project:
                project.sh("head -c 100000 /dev/zero > big; make -s")
                before = tree(project.folder)
                small = "mount -t tmpfs -o size=%dk none /tmp && exec \"$@\"" % size
                words = ["unshare", "--mount", "sh", "-c", small, "sh", str(support.RECORDER), "--race", support.race_program(), "--fresh", "--", "make"]
                ran = subprocess.run(words, cwd=project.folder, capture_output=True, timeout=support.SECONDS, check=False)
                self.assertEqual((3, before), (ran.returncode, tree(project.folder)), ran.stdout + ran.stderr)
                self.assertIn(b"No space left on device", ran.stderr)


@unittest.skipUnless(os.geteuid() == 0 and shutil.which("setpriv"), "needs root and setpriv")
class OtherUsers(unittest.TestCase):
    """Who may not mount gets the tree in the place of the project, which is moved aside."""

    def test_nobody(self) -> None:
        with support.Project({**SAFE, ".gitignore": "a\nb\n"}) as project:
            project.sh("%s; make -s; chown -R 65534:65534 .. " % GIT)
            words = ["setpriv", "--reuid=65534", "--regid=65534", "--clear-groups", str(support.RECORDER), "--race", support.race_program(), "--fresh", "--", "make"]
            ran = subprocess.run(words, cwd=project.folder, capture_output=True, timeout=support.SECONDS, check=False, env={**os.environ, "HOME": "/nonexistent"})
            self.assertEqual(0, ran.returncode, ran.stdout + ran.stderr)
            self.assertIn("b", tree(project.folder))
