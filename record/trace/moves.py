"""What calls that give a file another name do to the name space. calls.py says which calls each method takes."""

from typing import Tuple

from record.trace.events import ABSENT, CREATED, FOLDER_REMOVED, MADE, READ, REMOVED, SEEN, WRITTEN
from record.trace.lives import Life
from record.trace.names import Found, Inode
from record.trace.replay import Replay
from record.trace.strace import BARE, TEXT, Call, folders, texts


class Moves(Replay):
    """Calls about two names: an old one and a new one."""

    def two(self, life: Life, call: Call) -> Tuple[Found, Found]:
        """Where the two paths of a call lead: the old one, and the new one, which is never followed where it ends in a link."""
        words = texts(call.args)
        where = folders(call.args)
        bases = where if len(where) == 2 else [life.folder, life.folder]
        if not call.error and len(where) == 1:  # guard: one-of-two-descriptors
            self.put_bare(life, call.name)
        follow = "AT_SYMLINK_FOLLOW" in call.args
        return (self.found(life, words[0].rstrip("/"), follow, bases[0]), self.found(life, words[1].rstrip("/"), False, bases[1]))

    def on_rename(self, life: Life, call: Call, ok: bool) -> None:
        """The old name goes, and the new one has its file. Names below a folder go along."""
        if len(texts(call.args)) < 2:
            return
        old, new = self.two(life, call)
        if not ok:
            self.put(life, ABSENT if old.inode is None else SEEN, old.path)
            self.put_absent(life, new, ABSENT if new.inode is None else SEEN)
            return
        self.put(life, READ, old.path)
        if "RENAME_EXCHANGE" in call.args:
            self.holes.append("two names were exchanged in one step: " + old.path)  # guard: two-names-in-one-step
        if old.folder is None or new.folder is None:
            return
        if old.inode is not None and old.inode is new.inode:  # guard: two-of-one-file
            return  # two names of one file: nothing happens
        inode = self.names.take(old.folder, old.name) or Inode("f")
        self.names.take(new.folder, new.name)
        for name, child in [("", inode), *self.names.below(inode, "")]:  # guard: all-below-goes
            self.put(life, REMOVED, old.path + name)
            self.put(life, CREATED, new.path + name)
            self.put(life, WRITTEN, new.path + name)
            if child.kind == "d":  # guard: come-and-go
                self.move_folder(life, old.path + name, new.path + name)
        self.names.put(new.folder, new.name, inode)  # guard: new-name-holds-file

    def move_folder(self, life: Life, old: str, new: str) -> None:
        """A folder that is moved goes in one place and comes in another, and the processes that are in it go with it."""
        self.put(life, FOLDER_REMOVED, old)
        self.put(life, MADE, new)
        for one in self.lives.values():
            one.folder = new if one.folder == old else one.folder  # guard: folders-that-are-moved

    def on_link(self, life: Life, call: Call, ok: bool) -> None:
        """A file gets a second name: that is written."""
        if len(texts(call.args)) < 2:
            return
        old, new = self.two(life, call)
        self.put(life, READ if ok else SEEN if old.inode else ABSENT, old.path)
        if not ok:
            self.put_absent(life, new, SEEN if call.error == "EEXIST" else ABSENT)  # guard: links
            return
        self.give(life, new, old.inode or Inode("f"))
        self.hard_links.append(new.path)

    def on_symlink(self, life: Life, call: Call, ok: bool) -> None:
        """A symbolic link is made: it counts as a file that is written."""
        words, where = texts(call.args), folders(call.args)
        if len(words) < 2:
            return
        found = self.found(life, words[1].rstrip("/"), False, where[-1] if where else life.folder)
        if not ok:
            self.put_absent(life, found, SEEN if call.error == "EEXIST" else ABSENT)  # guard: symbolic-links
            return
        if not where and BARE.search(TEXT.sub('""', call.args)):  # guard: folder-of-link
            self.put_bare(life, call.name)
        self.give(life, found, Inode("l", words[0]))

    def give(self, life: Life, found: Found, inode: Inode) -> None:
        """A file, or a link, gets a name that was absent."""
        self.fresh.add(found.path)
        self.put(life, CREATED, found.path)
        self.put(life, WRITTEN, found.path)
        if found.folder is not None:
            self.names.put(found.folder, found.name, inode)
