"""Draws projects of all shapes, a part of them with a place of their own (fuzz_places.py) and with recipes that look at it.

Their targets may have odd names, and one file may be spelled in two ways.
"""

import subprocess
from functools import lru_cache
from typing import Callable, Dict, List, Optional

from fuzz_gadgets import GadgetDraw
from fuzz_left import draw_left
from fuzz_places import ENDLESS, FOLDERS, Place, can_switch, draw_place
from fuzz_projects import Block, Project

PLACED = [0.25]  # the part of the seeds that have a place
# What a recipe may ask of its place.
ASKS = (
    'echo "$$V" > $@', "echo '$(CFLAGS)' > $@", "umask > $@", "ulimit -n > $@", "nice > $@", "pwd > $@; pwd -P >> $@", "echo '$(CURDIR)' > $@", "id -u > $@", 'echo "$$HOME" > $@', "cd p && pwd > ../$@",
    "test -t 0 && echo terminal > $@ || echo none > $@", "test -e /dev/fd/3 && echo open > $@ || echo none > $@", "(echo said >&9) 2> /dev/null && echo open > $@ || echo none > $@", "echo '$(origin V) $(flavor V)' > $@",
    "bash -c f > $@ 2> /dev/null || echo none > $@", "printenv 'odd.name' > $@ || echo none > $@", 'echo "$$TMPDIR" > $@', 'mktemp > $@.t 2> /dev/null && rm -f "`cat $@.t`" $@.t; echo done > $@', "ls -ld . | cut -c1-10 > $@",
    'echo "$${LC_ALL-none} $${LANG-none}" > $@', "env | grep '^LC_CTYPE' > $@ || true", "printf '\\303\\274' | wc -m > $@", "echo '$(MAKELEVEL) $(MAKECMDGOALS)' > $@", "$(MAKE) -s -f /dev/null none 2> $@.e; test -s $@.e && echo said > $@; rm $@.e", "$(MAKE) -C p -f sub.mk > $@",
    "echo said; echo error >&2; touch $@", "$(info said)touch $@", "$(warning said)touch $@", "false || echo '$(V)' > $@", "echo '$(call V)' > $@", "sh -c 'cd p' > $@", "readlink /proc/self/fd/3 > $@ || echo none > $@",
    "(echo a > /dev/stderr) 2> /dev/null; touch $@", "echo a > /dev/tty 2> /dev/null; touch $@", "ls /proc/self/fd > $@", "grep SigIgn /proc/self/status > $@", "echo $$PPID > /dev/null; touch $@", "tool > $@ 2> /dev/null || echo none > $@", "make -s -C p -f sub.mk > $@",
    "env | grep -v -e '^[NJ]=' -e '^MAKEFLAGS=' -e '^MFLAGS=' -e '^PATH=' -e '^MAKE_TERM' -e '^LC_' > $@", "date +%Z > $@", "ulimit -a > $@", "cat /proc/self/limits > $@", "(set -- `cat /proc/self/stat`; test $$7 = 0 && echo none; true) > $@",
    "grep SigBlk /proc/self/status > $@", "umask -S > $@", "sh -c 'ulimit -f 1; head -c 3000 /dev/zero > T.big; rm -f T.big' 2> /dev/null; touch $@", "(sleep 0.05; echo late >&2) & touch $@; wait", "kill -INT $$$$; touch $@", "-kill -TERM $$$$; touch $@", "-exit 3", "kill -PIPE $$$$; touch $@",
    "echo $$_ > $@", "yes | head -1 > $@", "(exec 3>&- 4>&- 9>&-; $(MAKE) -C p -f sub.mk) > $@", "$(MAKE) -C p -f sub.mk >&2; touch $@", "$(MAKE) -C p -f sub.mk 2>&1 | cat > $@", "env -i $(MAKE) -C p -f sub.mk > $@ || touch $@", "cc -E -x c /dev/null > $@ || touch $@", "$(shell echo said >&2)touch $@", "printf said; printf more >&2; touch $@",
)
READS = ("cat > $@", "read line; echo \"$$line\" > $@", "head -c 3 > $@; cat >> $@", "$(MAKE) -s -C p -f cat.mk > $@", "cat /dev/stdin > $@ 2> /dev/null || echo none > $@", "wc -c < /proc/self/fd/0 > $@ 2> /dev/null || echo none > $@")
# Names of targets: as make reads them, and as a shell does.
NAMES = (("ü", "ü"), ("\udcff", "\udcff"), (".", "."), ("\\ x", " x"), ("'", "'"), ("$$", "$"), ("\\#", "#"), ("+", "+"), ("@", "@"), ("~", "~"), ("[1]", "[1]"), ("^", "^"), ('"', '"'), ("\x01", "\x01"), (",", ","), ("=", "="))
# Two spellings of one file T.
SPELLED = ("./T", "p/../T", ".//T", "../HERE/T", "p/./../T", "$(CURDIR)/T", "./p/../T")
FILES = {"extra.mk": "U = extra\n", "p/extra.mk": "W = extra\n", "p/sub.mk": "all: one\none: ; @echo '$(V)'\n", "p/cat.mk": "all: ; @cat\n", "p/tool": "#!/bin/sh\necho tool\n"}


@lru_cache(maxsize=None)
def is_later() -> bool:
    """Whether make shuffles, as it does from 4.4 on."""
    return "--shuffle" in subprocess.run(["make", "--help"], capture_output=True, text=True, check=False).stdout


@lru_cache(maxsize=None)
def switches() -> bool:
    """Whether another user can build."""
    return can_switch()


class PlacedDraw(GadgetDraw):
    """Draws a project, perhaps with a place."""

    def __init__(self, seed: int, only: Optional[List[str]] = None) -> None:
        super().__init__(seed, only)
        self.seed = seed
        self.place: Optional[Place] = None

    def draw(self) -> Project:
        if self.only and "place" not in self.only or not self.only and not self.is_placed():
            project = super().draw()
            project.left = draw_left(self.seed)
            return project
        self.place = draw_place(self.seed, is_later(), switches())
        mine: Dict[str, Callable[[str], Block]] = {"asks": self.asks, "odd": self.odd, "spelled": self.spelled, "above": self.above}
        self.shapes += [*mine.values()] * 3 if not self.only else [mine[name] for name in mine if name in self.only] or [*mine.values()]
        project = super().draw()
        project.place = self.place
        project.files.update(FILES)
        return project

    def is_placed(self) -> bool:
        """Whether this seed has a place; the shapes of the others stay what they were."""
        return self.seed * 2654435761 % 1000 < 1000 * PLACED[0]

    # ---------------------------------------------------------------- shapes
    def asks(self, name: str) -> Block:
        """Recipes that ask for something of their place."""
        assert self.place is not None
        reads = READS if self.place.stdin not in ENDLESS else ()
        is_reader = bool(reads) and self.random.random() < 0.3
        steps = [self.random.choice(reads if is_reader else ASKS), self.random.choice(ASKS)]
        text = self.plain("NAME", " ".join(self.prerequisites()), steps[0]) + self.plain("NAME.b", self.unless("NAME"), steps[1] + "; cat NAME >> $@ 2> /dev/null || true")
        self.done.append(name)
        has_terminal = "/dev/tty" in text or "test -t 0" in text and self.place.stdin == "terminal"  # of several jobs one has it
        breaks = {name: "serial", name + ".b": "serial"} if is_reader or has_terminal else {}
        return Block(self.pair(name, name + ".b"), text.replace("NAME", name), {}, breaks)

    def odd(self, name: str) -> Block:
        """A file of an odd name, and who reads it."""
        said, real = self.random.choice(NAMES)
        front = self.random.choice(("", "", "", "./-", "p/"))
        target, quoted = front + name + said, "'%s'" % (front + name + real).replace("'", "'\\''").replace("$", "$$")
        text = "%s: %s\n\t@$N %s; echo 1 > %s\n" % (target, " ".join(self.prerequisites()), name, quoted)
        text += self.plain(name + ".b", self.unless(target), "cat %s > $@ 2> /dev/null || echo none > $@" % quoted)
        return Block(self.pair(target, name + ".b"), text)

    def spelled(self, name: str) -> Block:
        """One file by two spellings."""
        assert self.place is not None
        here = "link" if self.place.linked else self.place.folder if self.place.folder in FOLDERS[:1] else "p/.."
        one, two = (self.random.choice(("T", *SPELLED)).replace("../HERE", "../" + here if here != "p/.." else here).replace("T", name) for _ in "12")
        text = self.plain(one, "", "echo 1 > $@") + self.plain(name + ".b", self.unless(self.random.choice((one, two))), "cat %s > $@ 2> /dev/null || echo none > $@" % two)
        return Block(self.pair(one, name + ".b"), text)

    def above(self, name: str) -> Block:
        """Sources in a folder that a search path names, in which perhaps nobody may write."""
        text = "vpath %%.%ss s\n" % name + "%%.%so: %%.%ss\n\t@$N $@; cp $< $@; chmod u+w $@\n" % (name, name)
        text += self.plain(name + ".b", self.unless("%s.%so" % (name, name)), "cat %s.%so > $@ 2> /dev/null || echo none > $@" % (name, name))
        self.done.append("%s.%so" % (name, name))
        return Block(self.pair("%s.%so" % (name, name), name + ".b"), text, {"s/%s.%ss" % (name, name): "s\n"})
