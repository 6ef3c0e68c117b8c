"""`--fresh`: records the tree that a checkout or an archive holds, in the project's own place. The work tree stays as it is.

The tree is what git tracks, with the changes of the work tree and new files that are not ignored; with `--from`, what an archive holds; where ninja builds, a
copy of its folder, as `ninja -t clean` leaves it (record/ninja/clean.py); else a copy of the folder, as `make distclean` or `make clean` leaves it, if these
work. If the build shows that an earlier one left files there, it is recorded again without them. Where the system gives this process mounts of its own, the
tree lies over the project for the build alone. Elsewhere the project is moved aside, and comes back.
"""

import argparse
import os
import pickle
import shlex
import shutil
import signal
import tempfile
from contextlib import contextmanager, suppress
from dataclasses import replace
from pathlib import Path
from typing import Callable, Iterator, List, Set, cast

from record.command import named_folders, ninja_folder
from record.entry import in_one_step
from record.first_tree import FirstTree, first_names, git, tree_of, with_folders
from record.folder import Record, room_of_programs
from record.messages import reason, say
from record.ninja import clean as ninja
from record.ninja.clean import CannotClean, run
from record.orders.builds import WITH_PARENT, is_child_able
from record.orders.trees import copy as copy_tree
from record.orders.trees import remove
from record.watch.lay import BELOW, BIND, LIBC, OWN_MOUNTS, mount

TRIES = 4  # so many recordings, each without what the ones before show to be left
SAVED = ".race-saved"  # how the other name of a project ends
SUBMODULE = "160000 "  # how git lists one
PRIVATE = 1 << 18  # for mount: neither mounts that come from outside, nor own ones outside
FOLDERS = ("-C", "-f", "--directory=", "--file=", "--makefile=")  # how words of make begin that say where it works


def record_fresh(options: argparse.Namespace, out: Path, record: Callable[[Path], Record]) -> Record:
    """The record of a clean tree; the tree and what was built in it are gone afterwards. `record`: records what stands in the place of the project. Where an
    earlier build has left files there, as git does not ignore them, or `make clean` leaves them, the build shows that: then it is recorded again without them,
    and that counts if it does not fail."""
    refuse_left_over(options.words)
    records: List[Record] = []
    left: Set[str] = set()
    with tempfile.TemporaryDirectory(prefix="race-record-", dir=room_of_programs([os.path.realpath(".")])) as room:
        kept = Path(room, "record")
        for number in range(TRIES):
            with tempfile.TemporaryDirectory(dir=room) as place:
                tree = fresh_tree(options, os.path.join(place, "tree"), left)
                found = recorded(options, Path(place), tree, record)
                if records and found.status != 0:
                    say("race-record: the build fails without that: what was recorded before stands")
                    break
                records.append(found)
                shutil.rmtree(kept, ignore_errors=True)
                Path(place, "record").rename(kept)
            more = {path for path in found.warm if path.startswith(tree.folder + "/")} - tree.tracked - left  # what neither git nor the archive has
            if not more or options.warm or found.status != 0 or number == TRIES - 1:
                break
            left |= more
            say("race-record: an earlier build left %s; recording again without that" % first_names([os.path.relpath(path) for path in sorted(more)]))
        shutil.copytree(kept, out, dirs_exist_ok=True)
    return records[-1]


def recorded(options: argparse.Namespace, place: Path, tree: FirstTree, record: Callable[[Path], Record]) -> Record:
    """One record, which is written to a folder, of a tree whose copy is there."""
    said = place / "said"

    def work() -> None:
        options.tree = clean(tree, options.words)
        for gone in map(Path, tree.left):
            shutil.rmtree(gone) if gone.is_dir() and not gone.is_symlink() else gone.unlink(missing_ok=True)  # guard: what-earlier-builds-left
        said.write_bytes(pickle.dumps(record(place / "record")))

    if is_child_able(lambda: lay(tree.folder, tree.folder)):
        beside(work, place, tree.folder)
    else:
        with moved(str(place / "tree"), tree.folder):
            work()
    return cast(Record, pickle.loads(said.read_bytes()))


def refuse_left_over(words: List[str]) -> None:
    """Says what to do where another run has not put a project back that a command works in."""
    for folder in {str(one) for name in named_folders(words) for one in (Path(name), *Path(name).parents)}:
        if os.path.lexists(folder + SAVED):
            saved, own = shlex.quote(folder + SAVED), shlex.quote(folder)
            raise CannotClean("%s is there: another --fresh runs now, or was killed before it put it back\n  it is your folder as it was: rm -rf %s && mv %s %s\n"
                              "  %s is a copy of it. If you have worked in the copy since, keep that, and remove %s" % (saved, own, saved, own, own, saved))


def fresh_tree(options: argparse.Namespace, copy: str, left: Set[str]) -> FirstTree:
    """Makes a copy that holds the tree. `left`: what an earlier build left, and is no part of it. Files that have names elsewhere have fewer in a copy."""
    folder = os.path.realpath(".")
    if options.archive:
        return of_archive(options.archive, folder, copy, options.setup)
    tree = replace(tree_of(folder), left=tuple(sorted(left)), setup=options.setup, ninja="" if options.setup else ninja_folder(options.words))
    if tree.top and not tree.ninja:
        return replace(tree, new=tuple(name for name in copy_work_tree(tree.top, copy) if os.path.join(tree.top, name) not in left | tree.tracked))
    if not tree.ninja and not shutil.which("git") and any((up / ".git").exists() for up in Path(folder, ".git").parents):  # guard: git-that-is-missing
        raise CannotClean("git is missing (Debian: apt-get install git): --fresh builds what it tracks here")
    place = ninja.place_of(tree.ninja, copy) if tree.ninja else folder
    copy_tree(Path(place), Path(copy))
    files = (os.path.join(at, name) for at, _, names in os.walk(place) for name in names)
    linked = tuple(path for path in files if os.lstat(path).st_nlink > os.lstat(copy + path[len(place):]).st_nlink)  # guard: names-outside-of-folder
    return replace(tree, folder=place, linked=linked)


def of_archive(archive: str, folder: str, copy: str, setup: str) -> FirstTree:
    """Unpacks an archive; where it holds one folder alone, that is the tree."""
    place = Path(copy + ".archive")
    place.mkdir()
    words = ["unzip", "-q", archive, "-d", str(place)] if archive.endswith(".zip") else ["tar", "-xf", archive, "-C", str(place)]
    ran = run(words, words[0], "unpacks --from")
    if ran.returncode:
        raise CannotClean("%s cannot be unpacked: %s" % (archive, ran.stderr.strip()[-300:]))
    held = list(place.iterdir())
    os.rename(held[0] if len(held) == 1 and held[0].is_dir() else place, copy)
    files = [os.path.join(folder, os.path.relpath(os.path.join(at, name), copy)) for at, _, names in os.walk(copy) for name in names]
    return FirstTree(folder, tracked=frozenset(with_folders(files, folder)), said="the tree of " + os.path.basename(archive), setup=setup)


def copy_work_tree(top: str, copy: str) -> List[str]:
    """Copies what git tracks, new files that are not ignored, and git's own folder, as far as they are there, also of submodules; their names."""
    parts = ["", *(line.partition("\t")[2] + "/" for line in git(top, "ls-files", "-s", "-z").split("\0") if line.startswith(SUBMODULE))]
    new = (part + name for part in parts for name in git(os.path.join(top, part), "ls-files", "-z", "--others", "--exclude-standard").split("\0") if name)  # guard: new-files-of-submodules
    found = [*(part + ".git" for part in parts), *filter(None, git(top, "ls-files", "-z", "--recurse-submodules").split("\0")), *new]
    names = [name.rstrip("/") for name in dict.fromkeys(found) if os.path.lexists(os.path.join(top, name))]
    for source, target in ((Path(top, name), Path(copy, name)) for name in names):
        target.parent.mkdir(parents=True, exist_ok=True)
        if source.is_dir() and not source.is_symlink():
            copy_tree(source, target)
        else:
            shutil.copy2(source, target, follow_symlinks=False)
    for place, _, _ in os.walk(copy, topdown=False):
        shutil.copystat(os.path.join(top, os.path.relpath(place, copy)), place)
    return names


def clean(tree: FirstTree, words: List[str]) -> FirstTree:
    """Takes away what an earlier build made, where the tree is a copy of a folder, by ninja, or by a rule of the project; in the place of the project."""
    if tree.ninja:
        ninja.clean(tree.ninja, tree.folder)
    if tree.ninja or tree.top or tree.said or os.path.basename(words[0]) not in ("make", "gmake"):
        return tree
    place = [word for before, word in zip(words, words[1:]) if word.startswith(FOLDERS) or before in ("-C", "-f")]
    for goal in ["distclean", "clean"] if tree.setup else ["clean"]:
        if run([words[0], *place, goal], "make", "cleans").returncode == 0:
            return replace(tree, said="this folder as make %s leaves it" % goal)
    return tree


def lay(copy: str, top: str) -> bool:
    """Lays a tree over a folder for this process and all that it starts; whether the system let it."""
    return LIBC.unshare(OWN_MOUNTS) == 0 and mount("none", "/", BELOW | PRIVATE) and mount(copy, top, BIND)


def beside(work: Callable[[], None], place: Path, top: str) -> None:
    """Does some work in a process over whose project the tree is laid that a place has. Where it fails, it says why in a file there, and so does this."""
    here, faults = os.path.realpath("."), place / "fault"
    with in_one_step() as heard:
        child = os.fork()
        if child == 0:
            try:
                with heard():
                    LIBC.prctl(WITH_PARENT, signal.SIGTERM)
                    if not lay(str(place / "tree"), top):
                        raise CannotClean("the tree cannot be laid over " + top)
                    os.chdir(here)
                    work()
                os._exit(0)
            except BaseException as fault:
                faults.write_text(reason(fault) if isinstance(fault, OSError) else str(fault) or type(fault).__name__)
            finally:
                os._exit(3)
        try:
            with heard():
                ended = os.waitpid(child, 0)[1]
        except BaseException:
            os.kill(child, signal.SIGTERM)
            os.waitpid(child, 0)
            raise
    if ended:
        raise CannotClean(faults.read_text() if faults.exists() else "the recording ended with status %d, without a record" % ended)


@contextmanager
def moved(copy: str, top: str) -> Iterator[None]:
    """The tree in the place of the project, which has another name meanwhile, and comes back, whatever happens. A signal that comes while it moves is heard
    behind that."""
    here, saved = os.path.realpath("."), top + SAVED
    with in_one_step() as heard:
        try:
            os.rename(top, saved)
        except OSError as fault:
            raise CannotClean("--fresh puts a clean tree in the place of %s, and the folder cannot get another name meanwhile (%s): run it as root, or record a "
                              "clean checkout without --fresh" % (top, fault.strerror)) from None
        try:
            with heard():
                say("race-record: %s is kept as %s meanwhile" % (top, saved))
                shutil.move(copy, top)
                os.chdir(here)
                yield
        finally:
            come_back(top, saved)
            os.chdir(here)


def come_back(top: str, saved: str) -> None:
    """Puts a project back. What stands in its place gets another name first, as some of it may not go."""
    left = "%s.race-left-%d" % (top, os.getpid())
    try:
        if os.path.lexists(top):
            os.rename(top, left)
        os.rename(saved, top)
    except OSError as fault:
        raise OSError("%s cannot come back (%s): it is in %s" % (top, reason(fault), saved)) from fault
    with suppress(OSError):
        remove(Path(left))
    if os.path.lexists(left):
        say("race-record: %s is what is left of the copy, and could not be removed: remove it" % left)
