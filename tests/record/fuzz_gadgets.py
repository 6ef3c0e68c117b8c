"""More shapes of makefiles for the fuzzer: what recipes share without a file that both name, such as macros of make and ages.

Each was a cause of a wrong yes. Where a shape breaks an assumption that the recorder prints, its block says which files show that.
The target of a block has its bare name, and all others have more behind it: delays distinguish the two.
"""

import shutil
from typing import Callable, Dict, List, Optional

from fuzz_projects import Block, Draw, Project

HEAD = "N ?= :\n"
# What the command or the head of the makefile asks for besides, and how often.
COMMANDS = {"own-jobs": 0.1, "value-jobs": 0.05, "makefile-jobs": 0.03, "script": 0.03}
# How a recipe changes a macro V, how another asks for it, and what stands before the rules.
MACROS = (
    ("$(eval V := $@)", "'$(V)'", ""), ("$(call V.set)", "'$(V)'", "V.set = $(eval V := set)\n"),
    ("$(eval V += $@)", "'$(V.show)'", "V.show = $(V)\n"), ("$(eval V := $@)", "$$V", "export V\n"),
)
# Ways by which a text comes to the same: what stands before the rules, and what stands in place of the text. E is that text, D the same
# with each sign `$` doubled, and T a macro.
WAYS = (
    ("T = E\n", "$(T)"), ("T := D\n", "$(call or,$(T))"), ("T = D\n", "$(call or,$(T))"), ("", "$(call or,D)"), ("", "$(if 1,E)"), ("", "$(call foreach,v,1,D)"),
    ("T = $(1)\n", "$(call T,E)"), ("T = $(eval T.u := $(1))$(T.u)\n", "$(call T,D)"), ("", "$(eval T := D)$(T)"), ("T.n := T.m\nT.m = E\n", "$($(T.n))"),
    ("define T\nE\nendef\n", "$(T)"), ("T.n := T x\n$(T.n) = E\n", "$(T x)"), ("T.n := T:x\n$(T.n) = E\n", "$(T:x)"), ("T.f = or\n", "$(call $(T.f),D)"),
    ("T = E\n", "$(call or,$(value T))"), ("T = D\n", "$(eval T.u = $(T))$(T.u)"), ("T = D\n", "$(foreach v,1,$(eval T.u = $(T)))$(T.u)"),
    ("define T\n\nendef\n", "$(eval T.u := 1$(T)T.v = D)$(T.v)"), ("T.o = define T.u\nT.e = endef\ndefine T\n\nendef\n", "$(eval $(T.o)$(T)D$(T)$(T.e))$(T.u)"),
)
KEEPERS = ("cat NAME.s 2>/dev/null", "cat NAME.s 2>/dev/null", "echo 1")
FOLDERS = ("mkdir -p NAME.d", "umask 077; mkdir -p NAME.d", "mkdir -p -m 700 NAME.d", "umask 022; mkdir -p -m 755 NAME.d")
# How a file takes over the age of NAME, and its name.
TAKES = (
    ("touch $@; touch -r NAME $@", "NAME.r"), ("cp -p NAME $@", "NAME.r"), ("mv NAME NAME.x; touch $@", "NAME.x"), ("ln NAME NAME.x; touch $@", "NAME.x"),
    ("tar -H posix -cf $@.tar NAME; mkdir NAME.o; tar xf $@.tar -C NAME.o; rm $@.tar; touch $@", "NAME.o/NAME"), ("cp NAME $@", "NAME.r"),
    ("mkdir NAME.o; tar -H posix -cf - NAME | tar xf - -C NAME.o; touch $@", "NAME.o/NAME"),
    ("tar -H posix -cf - NAME | gzip > $@.z; mkdir NAME.o; gzip -dc $@.z | tar xf - -C NAME.o; rm $@.z; touch $@", "NAME.o/NAME"),
)
SHOWS = " && echo newer > $@ || echo older > $@"
# How a recipe compares the age of X with that of NAME.b; the last one by a program that the recorder does not know.
COMPARES = (
    "test X -nt NAME.b" + SHOWS, "op=nt; test X -$$op NAME.b" + SHOWS, "sh ./NAME.sh X NAME.b" + SHOWS,
    "$(MAKE) -s -f NAME.mk; touch $@", "cp %s $@.p; env -u MAKEFLAGS -u MFLAGS ./$@.p -rs -f NAME.mk; rm $@.p; touch $@" % shutil.which("make"),
)
# Ways to call a make in the folder NAMEobj1 that ask for one job only by their looks.
CALLS = ("$(MAKE) -CNAMEobj1", "cd NAMEobj1 && $(MAKE) -fobj1", "$(MAKE) -C NAMEobj1 'X=-v -j1'", "env -u MAKEFLAGS $(MAKE) $(MFLAGS) -C NAMEobj1",
         "$(MAKE) -kj 1 -C NAMEobj1")
# Where what a make prints goes.
OUTPUTS = ("> $@", "> $@", "> $@ 2>&1", "| cat > $@", "2> $@")
# Makes inside that print something of their own, with the files that they start from.
PRINTS: Dict[str, Dict[str, str]] = {
    "all: x ; @echo done\nx: y | d ; @touch x\nd: ; @mkdir d\n": {"x": "", "y": ""},
    "all: x.t\n%.t: %.i ; cp $< $@\n%.i: %.s ; cp $< $@\n": {"x.s": "s"},
}
# Makes inside a recipe that ask for a name by lists of folders: the makefile, what another recipe writes, its text, and other files.
TWO_RULES = "%.t: %.a ; cp $< $@\n%.t: %.b ; cp $< $@\n"
INSIDE = (
    ("all: z.t\n" + TWO_RULES, "z.a", "a", {"z.b": "b\n"}), ("VPATH = v w\nall: x.c ; cp $< $@\n", "v/x.c", "v", {"v/k": "", "w/x.c": "w\n"}),
    ("all: e/*.c ; cat $^ > $@\n", "e/n.c", "n", {"e/k.c": "k\n"}), ("include e/*.mk\nall: ; @echo $(V) > $@\n", "e/n.mk", "V = 1", {"e/k.mk": "U = 1\n"}),
    ("all: ; @echo 1 > $@\n", "makefile", "all: ; @echo 2 > $@", {}), ("C = e/*.c\nall: $(C) ; cat $^ > $@\n", "e/n.h", "n", {"e/k.c": "k\n"}),
)
# Recipes of two processes A and B that meet on a file: beside each other, in order, or left running; and what else they need.
BESIDE = ("(A) & (B) & wait", "(A) & p=$$!; (B); wait $$p", "(A) & wait $$!; (B)", "(A); (B)", "(A) & (B); sleep 0.1", "((A) &); (B); sleep 0.1", "setsid -f sh -c 'A'; sleep 0.1; B",
          "(A) | (B)", "bash -c '(A) & (B); wait'", "bash -c 'coproc { A; }; B; wait'", "bash -c '{ B; } > >(A)'; sleep 0.1", "python3 NAME.py 0 'A' 'B'", "python3 NAME.py 1 'A' 'B'",
          "python3 NAME.py 2 'A' 'B'", "$(MAKE) -s -f NAME.mk a & $(MAKE) -s -f NAME.mk b & wait", "$(MAKE) -s -f NAME.mk a; $(MAKE) -s -f NAME.mk b")
STARTS = """import subprocess, sys, time
def start(text): return subprocess.Popen(["sh", "-c", text])
how, a, b = sys.argv[1:]
first = start(a)
if how == "0": first.wait()
second = start(b)
if how == "1": first.wait()
second.wait()
if how == "2": time.sleep(0.1)
"""
LISTS = ("find NAME.d > $@", "find NAME.d | sort > $@", "ls NAME.d > $@", "echo NAME.d/* > $@")


class GadgetDraw(Draw):
    """Draws a project of all shapes."""

    def __init__(self, seed: int, only: Optional[List[str]] = None) -> None:
        super().__init__(seed, only)
        shapes: Dict[str, Callable[[str], Block]] = {
            "macro": self.macro, "reread": self.reread, "while": self.while_, "keeper": self.keeper, "handed": self.handed, "kept": self.kept, "prints": self.prints, "interpreter": self.interpreter,
            "modes": self.modes, "ages": self.ages, "listing": self.listing, "inherited": self.inherited, "archive": self.archive,
            "processes": self.processes, "inside": self.inside, "searched": self.searched, "past": self.past,
        }
        self.shapes += [shapes[name] for name in shapes if not only or name in only]
        if not self.shapes:
            self.shapes, self.few = [self.file, self.user], False

    def draw(self) -> Project:
        project = super().draw()
        chosen = [name for name, often in COMMANDS.items() if name in self.only or not self.only and self.random.random() < often]
        if "own-jobs" in chosen:
            project.recorded = ["-j1"]
        if "value-jobs" in chosen:
            project.values = ["X=-v -j1"]
        if "makefile-jobs" in chosen:
            project.head = "MAKEFLAGS += -j4\n"
        project.is_script = "script" in chosen
        return project

    # ---------------------------------------------------------------- parts
    def pair(self, first: str, second: str) -> List[str]:
        """Two goals in some order."""
        return self.random.sample((first, second), 2)

    def unless(self, needed: str) -> str:
        """A prerequisite, or nothing where the rule forgets it."""
        return "" if self.random.random() < 0.5 else needed

    def plain(self, target: str, prerequisites: str, step: str) -> str:
        """A rule with one step."""
        return "%s: %s\n\t@$N $@; %s\n" % (target, prerequisites, step)

    # ---------------------------------------------------------------- shapes
    def macro(self, name: str) -> Block:
        """A recipe changes a macro of make, and another asks for it."""
        sets, asks, head = self.random.choice(MACROS)
        text = self.plain(name + ".s", " ".join(self.prerequisites()), "touch $@") + "%s: %s.s\n\t@%s$N $@; touch $@\n" % (name, name, sets)
        text = head + text + self.plain(name + ".b", self.unless(name), "echo %s > $@" % asks)
        self.done.append(name)
        return Block(self.pair(name, name + ".b"), text.replace("V", "V" + name))

    def by_ways(self, name: str, text: str, count: int) -> List[str]:
        """A text by some ways, and what stands before the rules."""
        head = ""
        for number in range(count):
            before, use = (one.replace("D", text.replace("$", "$$")).replace("E", text).replace("T", "%s.%d" % (name, number)) for one in self.random.choice(WAYS))
            head, text = head + before, use
        return [head, text]

    def reread(self, name: str) -> Block:
        """The same by ways on which make reads a text several times."""
        value = "v" + name
        before, sets = self.by_ways(name + "-s", "$(eval %s := $@)" % value, self.random.randrange(4))
        head, asks = self.by_ways(name + "-a", "$(%s)" % value, self.random.randrange(4))
        text = before + head + self.plain(name + ".s", " ".join(self.prerequisites()), "touch $@") + "%s: %s.s\n\t@%s$N $@; touch $@\n" % (name, name, sets)
        self.done.append(name)
        return Block(self.pair(name, name + ".b"), text + self.plain(name + ".b", self.unless(name), "echo '%s' > $@" % asks))

    def while_(self, name: str) -> Block:
        """A macro has a text for a while, by which a recipe changes another macro, or asks for it."""
        value, last = "v" + name, "w" + name
        does = ["$(eval %s := $@)" % value, "$(%s)" % value]
        self.random.shuffle(does)
        head, within = self.by_ways(name + "-w", does[0], self.random.randrange(3))
        before, gives = self.by_ways(name + "-g", "$(eval %s = %s)" % (last, within.replace("$", "$$")), self.random.randrange(2))
        text = head + before + "%s.c: %s\n\t@%stouch $@\n" % (name, " ".join(self.prerequisites()), gives)
        text += self.plain(name + ".s", name + ".c", "touch $@") + "%s: %s.s\n\t@echo '%s' > $@.see; $N $@; touch $@\n" % (name, name, does[1])
        text += "%s.b: %s.c %s\n\t@$N $@; echo '$(%s)' > $@\n" % (name, name, self.unless(name), last)
        text += "%s.d: %s %s.b\n\t@$(eval %s := done)touch $@\n" % (name, name, name, last)
        self.done.append(name)
        return Block([name + ".d"], text)

    def keeper(self, name: str) -> Block:
        """A macro that works out its value when it is first asked for."""
        text = "V = $(eval V := $$(shell %s))$(V)\n" % self.random.choice(KEEPERS) + self.plain("NAME.s", "", "echo 1 > $@.t; $N $@; mv $@.t $@")
        text += self.plain("NAME", "NAME.s", "echo $(V) > $@") + self.plain("NAME.b", self.unless("NAME.s"), "echo $(V) > $@")
        self.done.append(name + ".s")
        return Block(self.pair(name, name + ".b"), text.replace("V", "V" + name).replace("NAME", name))

    def handed(self, name: str) -> Block:
        """A make inside a recipe, called by words that look like a number of jobs."""
        inner = HEAD + "all: s0 s1\n" + self.plain("s0", "", "echo $@ > $@.t; sleep 0.04; mv $@.t $@") + self.plain("s1", self.unless("s0"), "cat s0 > $@ 2>/dev/null || true")
        text = ".PHONY: %s.all\n" % name + self.plain(name + ".all", " ".join(self.prerequisites()), self.random.choice(CALLS).replace("NAME", name) + " -s")
        return Block([name + ".all"], text, {name + "obj1/Makefile": inner, name + "obj1/obj1": inner})

    def kept(self, name: str) -> Block:
        """What a make inside a recipe prints goes into a file."""
        where = self.random.choice(OUTPUTS)
        to = " >&2" if where.startswith("2") else ""
        inner = HEAD + "all: s0 s1\n" + self.plain("s0", "", "sleep 0.04; echo $@%s; touch $@" % to) + self.plain("s1", self.unless("s0"), "echo $@%s; touch $@" % to)
        files = {name + "/in.mk": inner, name + "/Makefile": inner}
        if self.random.random() < 0.3:
            files[name + "/Makefile"] = "all: ; @$(MAKE) -f in.mk\n"
        text = self.plain(name + ".log", " ".join(self.prerequisites()), "$(MAKE) -s --no-print-directory -C %s %s" % (name, where))
        return Block([name + ".log"], text, files)

    def prints(self, name: str) -> Block:
        """A make inside a recipe prints what it does; a recording must add nothing to it."""
        inner = self.random.choice(sorted(PRINTS))
        files = {name + "/Makefile": inner, **{"%s/%s" % (name, key): text for key, text in PRINTS[inner].items()}}
        return Block([name + ".log"], self.plain(name + ".log", " ".join(self.prerequisites()), "$(MAKE) --no-print-directory -C %s > $@" % name), files)

    def interpreter(self, name: str) -> Block:
        """A script whose interpreter a recipe makes, and seldom one whose interpreter is make."""
        if self.random.random() < 0.1:
            inner = "#!%s -f\n" % shutil.which("make") + HEAD + "all: s0 s1\n" + self.plain("s0", "", "echo $@ > $@") + self.plain("s1", "", "cat s0 > $@ 2>/dev/null || true")
            return Block([name], "%s:\n\t+@$N $@; ./%s.x -s all\n" % (name, name), {name + ".x": inner})
        first = self.random.choice((name, name + ".m"))
        files = {name + ".x": "#!./%s\nhello\n" % first, name + ".m": "#!./%s\n" % name}
        text = self.plain(name, "", "cp %s $@.t; $N $@; mv $@.t $@" % shutil.which("cat"))
        text += self.plain(name + ".b", self.unless(name), "./%s.x > $@ 2>/dev/null || true" % name)
        return Block(self.pair(name, name + ".b"), text, files)

    def modes(self, name: str) -> Block:
        """Two recipes make one folder, each with a mode."""
        one, two = self.random.choice(FOLDERS), self.random.choice(FOLDERS)
        text = self.plain("NAME", " ".join(self.prerequisites()), one + "; echo 1 > $@") + self.plain("NAME.b", self.unless("NAME"), two + "; echo 2 > $@")
        self.done.append(name)
        return Block(self.pair(name, name + ".b"), text.replace("NAME", name))

    def ages(self, name: str) -> Block:
        """A recipe compares two ages, one of which a file has taken over."""
        (take, taken), compare = self.random.choice(TAKES), self.random.choice(COMPARES)
        text = self.plain("NAME", "", "sleep 0.06; touch $@") + self.plain("NAME.b", self.unless("NAME"), "sleep 0.02; touch $@")
        text += self.plain("NAME.r", "NAME NAME.b", "sleep 0.02; " + take) + self.plain("NAME.c", "NAME.r", compare)
        files = {"NAME.mk": "all: X\nX: NAME.b ; @echo made > NAME.made\n", "NAME.sh": ". ./NAME.lib\nnewer $1 $2\n", "NAME.lib": "newer() { test $1 -nt $2; }\n"}
        files = {key.replace("NAME", name): one.replace("X", taken).replace("NAME", name) for key, one in files.items()}
        return Block([name + ".c"], text.replace("X", taken).replace("NAME", name), files)

    def listing(self, name: str) -> Block:
        """A recipe lists a folder that others fill."""
        how = self.random.choice(LISTS)
        text = self.plain("NAME.d/a", "", "touch $@") + self.plain("NAME.d/b", self.unless("NAME.d/a"), "touch $@") + self.plain("NAME", "NAME.d/a NAME.d/b", how)
        return Block([name], text.replace("NAME", name), {name + ".d/k": "k\n"})

    def processes(self, name: str) -> Block:
        """Two processes of one recipe meet on a file, which another recipe uses."""
        first, second = ("$N %s.a; echo a >> NAME.o" % name, "sleep 0.05; $N %s; %s" % (name, self.random.choice(("echo b >> NAME.o", "cat NAME.o > NAME.p 2>/dev/null || true", "mv NAME.o NAME.p 2>/dev/null || true"))))
        run = self.random.choice(BESIDE)
        text = "NAME: %s\n\t@+%s; touch $@\n" % (" ".join(self.prerequisites()), run.replace("A)", first + ")").replace("A;", first + ";").replace("'A'", "'%s'" % first).replace("B", second))
        text += self.plain("NAME.b", self.unless("NAME"), "cat NAME.o > $@ 2>/dev/null || true")
        inner = HEAD + "a: ; @%s\nb: ; @%s\n" % (first, second)
        self.done.append(name)
        return Block(self.pair(name, name + ".b"), text.replace("NAME", name), {name + ".py": STARTS, name + ".mk": inner.replace("NAME", name)}, {name + end: "luck" for end in (".o", ".p", ".b")})

    def inherited(self, name: str) -> Block:
        """A target that has the macros of whoever asks first."""
        later = "NAME:: NAME.s\n\t@$N $@; touch NAME.t\nNAME:: NAME.c\n\t@$N $@; cp NAME.c $@\n"
        text = "NAME: V = 1\n" + (later if self.random.random() < 0.5 else self.plain("NAME", "NAME.s NAME.c", "cp NAME.c $@")) + self.plain("NAME.b", "NAME.c", "cp NAME.c $@")
        text += self.plain("NAME.s", "", "touch $@") + self.plain("NAME.c", "", "echo '$(V)' > $@")
        return Block([name, name + ".b"], text.replace("V", "V" + name).replace("NAME", name))

    def inside(self, name: str) -> Block:
        """A make inside a recipe answers from a list of a folder, in which another recipe makes a name."""
        makefile, written, text, files = self.random.choice(INSIDE)
        rules = self.plain("NAME", " ".join(self.prerequisites()), "echo '%s' > NAME.d/%s; touch $@" % (text.replace("$", "$$"), written))
        rules += self.plain("NAME.in", self.unless("NAME"), "$(MAKE) -s --no-print-directory -C NAME.d; touch $@")
        self.done.append(name)
        return Block(self.pair(name, name + ".in"), rules.replace("NAME", name), {"%s.d/%s" % (name, key): one for key, one in {**files, "Makefile": makefile}.items()})

    def searched(self, name: str) -> Block:
        """Make searches an implicit rule, or a search path, while a recipe makes a name that it looks for."""
        text = self.plain("NAME", "", self.random.choice(("echo a > NAME.d/z.a", "rm NAME.d/z.c")) + "; touch $@")
        is_path = self.random.random() < 0.5
        text += "vpath %.c NAME.d NAME.e\nNAME.t: z.c ; @$N $@; cp $< $@\n" if is_path else TWO_RULES.replace("cp", "@$N $@; cp")
        target = name + (".t" if is_path else ".d/z.t")
        text += "%s: %s\n" % (target, self.unless("NAME"))
        self.done.append(name)
        return Block(self.pair(name, target), text.replace("NAME", name), {name + ".d/z.b": "b\n", name + ".d/z.c": "c\n", name + ".e/z.c": "e\n"})

    def past(self, name: str) -> Block:
        """A make inside a recipe finds a target that the make above has made, and what it needs may be made again."""
        inner = HEAD + "all: %s\nt: p\n\t@$N $@; echo made >> log; touch $@\ng: %s\n\t@$N $@; touch p $@\n"
        goals, needed = self.random.choice((("g t", ""), ("t g", ""), ("g t", "t")))
        text = self.plain("NAME", " ".join(self.prerequisites()), "touch NAME.d/t $@; sleep 0.02") + self.plain("NAME.in", "NAME", "$(MAKE) -s --no-print-directory -C NAME.d; touch $@")
        self.done.append(name)
        return Block([name + ".in"], text.replace("NAME", name), {name + ".d/Makefile": inner % (goals, needed), name + ".d/p": ""})

    def archive(self, name: str) -> Block:
        """Two members of one archive."""
        member = "%s.a(%s.%s): %s.%s %s\n\t@$N $@; ar rcD %s.a $<\n"
        two = "%s.a(%s.y)" % (name, name)
        text = member % (name, name, "x", name, "x", "", name) + member % (name, name, "y", name, "y", self.unless("%s.a(%s.x)" % (name, name)), name)
        return Block(["%s.a(%s.x)" % (name, name), two], text, {name + ".x": "x\n", name + ".y": "y\n"})
