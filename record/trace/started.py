"""What it means that a process begins to run a program: who reads its text, whether it is a make, and which files count for it."""

import filecmp
import os
import re
import struct
from functools import lru_cache
from pathlib import Path
from typing import List

from record import machine
from record.commands import shelltext
from record.trace.descriptors import Opened
from record.trace.events import READ
from record.trace.lives import Life, Program
from record.trace.names import Found, Names
from record.trace.strace import Call, folders, is_cut, texts
from record.watch.elf import NotElf
from record.watch.elf import Program as Elf

CHECKS = re.compile(r"\b(?:AT_EXECVE_CHECK|0x10000(?: /\* AT_\?\?\? \*/)?)$")  # flags of execveat by which nothing is run
OF_MAKE = re.compile(r"(\d+)\.(\d+)\.make$")  # the file for what a make says
SCRIPTS = 5  # how many scripts may be the interpreter of one another; the kernel allows no more
MAKES = ("make", "gmake", "remake")


@machine.asked
def loader_of(path: str) -> List[str]:
    """The dynamic loader of a binary file, as it is spelled there."""
    try:
        return Elf(Path(path).read_bytes()).loader()
    except (NotElf, OSError, struct.error):
        return []


@machine.asked
def is_other_make(path: str, real: str) -> bool:
    """Whether a program is a make beside the one that the recorder knows: a copy of it under another name, or another of its name."""
    try:
        is_named = os.path.basename(path) in MAKES and not shelltext.first_words(path)  # guard: scripts-are-none
        return is_named or os.path.getsize(path) == os.path.getsize(real) and filecmp.cmp(path, real, shallow=False)  # guard: copies
    except OSError:
        return False


class Started(Opened):
    """The calls that begin a program, and what follows from that."""

    def __init__(self, names: Names, spool: str, real: str, folder: str) -> None:
        super().__init__(names, spool, real, folder)
        self.first_words = lru_cache(None)(shelltext.first_words)  # once for each program: the build has ended
        self.loader_of, self.is_other_make = lru_cache(None)(loader_of), lru_cache(None)(is_other_make)
        self.is_real_make = lru_cache(None)(lambda path: path == real or machine.realpath(path) in {real, *self.covered})

    def on_execve(self, life: Life, call: Call, ok: bool) -> None:
        """A process begins to run another program: it reads the program, with all that the kernel reads for it, and has other words from here on."""
        program = "".join(texts(call.args)[:1]) or "".join(folders(call.args)[:1])  # guard: programs-by-their-numbers
        if not program:
            return
        if not ok:  # where the kernel does not know what kind of file it is, bash reads it itself, as a script
            self.look(life, program, False, True)
            self.look_at_interpreters(life, program)  # guard: interpreters
            return
        if call.name == "execveat" and CHECKS.search(call.args):  # guard: programs-that-are-not-run
            self.look(life, program, True, True, READ)
            return
        words = [program, *texts(call.args)[1:]]
        found = self.names.find(life.folder, words[0], True)
        self.take_words(life, call, words, found)
        life.course.run(self.place)
        life.programs.append(Program(life.argv, self.place, (words[1:] or words)[0], life.program))
        self.note_rights(life, found.path)
        is_real = self.is_real_make(found.path)
        life.is_make = is_real or life.is_make and life.number >= 0
        if is_real or self.is_other_make(found.path, self.real):
            self.unheard[id(life)] = " ".join(life.argv)[:200]
        self.look(life, words[0], True, True, READ)
        self.look_at_interpreters(life, words[0])  # guard: interpreters-are-read

    def take_words(self, life: Life, call: Call, words: List[str], found: Found) -> None:
        """A life has other words from here on, those of a script as its interpreter gets them. `words`: the program, and the words that it is handed."""
        argv = words[1:]
        argv = shelltext.with_interpreter(argv, found.path, self.first_words(found.path))  # guard: scripts-are-of-their-interpreter
        life.program = found.path
        life.is_ninja = argv == words[1:] and bool(shelltext.NINJA.match(os.path.basename(found.path)))
        if life.is_ninja:
            life.starts.append((self.place, life.folder))
        life.argv, life.cut, life.begun = argv, is_cut(call.args), self.place
        if life.cut:  # guard: too-many-words-hole
            self.holes.append("the words of a program are too many to be seen: " + " ".join(argv)[:100])
        life.ran.append(argv)

    def open_words(self, life: Life, name: str, ok: bool) -> None:
        """A make opens the file for what it says: so it is one, whatever its program is called. One that begins again has its number already."""
        match = OF_MAKE.match(name)
        if match is None or not ok or int(match[1]) != life.pid:  # guard: file-of-another-make
            return
        self.unheard.pop(id(life), None)
        life.is_make = True  # guard: make-whatever-its-program-is-called
        if name not in self.silent:
            life.number = int(match[2])
            life.starts.append((life.begun, life.folder))

    def look_at_interpreters(self, life: Life, program: str) -> None:
        """The kernel reads the interpreter of a script by itself, and that of an interpreter which is a script; so it does with the loader of a program."""
        for _ in range(SCRIPTS):
            path = self.names.find(life.folder, program, True).path
            words = self.first_words(path) or (self.loader_of(path) if self.names.is_inside(path) else [])  # guard: loaders-are-read
            if not words:
                return
            program = words[0]
            found = self.found(life, program, True)  # guard: ways-interpreters
            if self.is_real_make(found.path):  # the kernel runs make in the script's place
                self.unheard.setdefault(id(life), " ".join(life.argv)[:200])
            self.put_look(life, found, found.inode is not None, READ)
