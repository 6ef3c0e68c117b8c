"""Random small projects for the fuzzer: makefiles of 2 to 8 targets, some of which forget a prerequisite on purpose.

A project is a list of blocks (a rule or a few, with the prerequisites of `all`) and the files that stand beside the
makefile. `$N` in a recipe is `:`, or what the environment says: that is where parallel builds are delayed, each target by itself.
"""

import json
import random
import shutil
from dataclasses import asdict, dataclass, field
from pathlib import Path
from typing import Callable, Dict, List, Mapping, Optional, Set, Type

from fuzz_left import Left
from fuzz_places import Place

FORGOTTEN = 0.25
EXTRA = 0.4
OLD, NEW = 978307200, 1893456000  # years 2001 and 2030
SHARED = ("x0", "x1", "x2")
# What a recipe may do besides: X and Y are shared names, p is a folder that is there.
STEPS = (
    "echo $@ > X", "echo w > X", "echo $@ >> X", "cat X >> $@.see 2>/dev/null || true", "rm -f X", "touch X",
    "test -f X && echo yes >> $@.see || echo no >> $@.see", "echo $@ > X.$$$$; cat X.$$$$ >> $@.see; rm X.$$$$",
    "echo $@ > X; $N $@; cat X >> $@.see; rm -f X", "echo $@ > X.t; $N $@; mv X.t X", "cp X Y 2>/dev/null || true",
    "ln -sf src0 X", "ln -f src1 X; echo $@ > $@.see", "readlink X >> $@.see || true", "ls p >> $@.see", "echo p/* >> $@.see",
    "echo w > p/$(@F).f", "mkdir -p p/q; echo w > p/q/$(@F)", "mkdir p/q 2>/dev/null || true; echo w > p/q/$(@F)",
    "mkdir p/r 2>/dev/null && echo first >> $@.see || echo second >> $@.see", "test -d p/q && echo there >> $@.see || true",
    "rmdir p/e 2>/dev/null || true", "mkdir -p p/e; echo 1 > p/e/1; $N $@; rm p/e/1", "mv p/k p/l 2>/dev/null || true", "cat p/l >> $@.see 2>/dev/null || true",
    "test X -nt Y && echo newer >> $@.see || echo older >> $@.see", "cp -u X Y 2>/dev/null || true", "chmod 600 X 2>/dev/null || true",
    "stat -c %a X >> $@.see 2>/dev/null || true", "echo w > p/l/f 2>/dev/null || true", "find p -type f | sort >> $@.see",
    "wc -c < X >> $@.see 2>/dev/null || true", "sed -i s/w/v/ X 2>/dev/null || true", "(cd p && echo $(@F) >> ../X)",
    "sort -o X X 2>/dev/null || true", "echo $(wildcard x?) >> $@.see", "$(file >>X,line)true", "echo $(shell cat X 2>/dev/null) >> $@.see",
    "(echo w > X) & wait", "install -m 644 src0 X", "cat < /dev/null >> X",
)


@dataclass
class Block:
    """One or more rules, the targets of them that are goals, the files that only they need, and those that an assumption is about:
    what such a file holds is not judged where the recorder prints this assumption."""

    goals: List[str]
    text: str
    files: Dict[str, str] = field(default_factory=dict)
    breaks: Dict[str, str] = field(default_factory=dict)


@dataclass
class Project:
    """All that a build starts from: `recorded` are words of the recorded command alone, `values` of each; `head` stands first in
    the makefile, which is a script where `is_script`."""

    seed: int
    blocks: List[Block] = field(default_factory=list)
    files: Dict[str, str] = field(default_factory=dict)
    ages: Dict[str, int] = field(default_factory=dict)
    tool: str = "make"
    recorded: List[str] = field(default_factory=list)
    values: List[str] = field(default_factory=list)
    head: str = ""
    is_script: bool = False
    place: Optional[Place] = None
    left: Optional[Left] = None  # what was done with the tree before it is recorded

    def command(self) -> List[str]:
        """What each build begins with."""
        return ["./rules" if self.is_script else "make", *self.values]

    def words(self) -> List[str]:
        """The command that is recorded."""
        return self.command() + self.recorded

    def serial(self) -> List[str]:
        """A serial build."""
        return self.command() + ["-j1"]

    def parallel(self, jobs: int, shuffle: int) -> List[str]:
        """A parallel build; `shuffle`, where it is not 0, says in which order make takes what it is asked for."""
        return self.command() + ["-j%d" % jobs] + (["--shuffle=%d" % shuffle] if shuffle else [])

    def turned(self) -> Optional["Project"]:
        """The same build with its rules in another order, where the order of rules settles nothing."""
        return None

    def makefile(self) -> str:
        """The text of the makefile."""
        goals = [goal for block in self.blocks for goal in block.goals]
        return self.head + "N ?= :\n.PHONY: all\nall: %s\n" % " ".join(goals) + "".join(block.text for block in self.blocks)

    def all_files(self) -> Dict[str, str]:
        """Names and texts; what begins with `#!` is a program."""
        found = {"Makefile": self.makefile(), **self.files}
        if self.is_script:
            found["rules"] = "#!%s -f\n" % shutil.which("make") + self.makefile()
        for block in self.blocks:
            found.update(block.files)
        return found

    def assumed(self) -> Dict[str, str]:
        """The files that assumptions are about, each with its key."""
        return {name: key for block in self.blocks for name, key in block.breaks.items()}

    def save(self, path: Path) -> None:
        """Keeps it to be run again."""
        path.parent.mkdir(parents=True, exist_ok=True)
        path.write_text(json.dumps(asdict(self), indent=1) + "\n")


def load(path: Path, kinds: Mapping[str, Type[Project]]) -> Project:
    """A project that was kept; `kinds` says what makes one for each tool."""
    text = json.loads(path.read_text())
    text["blocks"] = [Block(**one) for one in text["blocks"]]
    text["place"] = Place(**text["place"]) if text.get("place") else None
    text["left"] = Left(**text["left"]) if text.get("left") else None
    return kinds[text["tool"]](**text)


class Draw:
    """Draws one project."""

    def __init__(self, seed: int, only: Optional[List[str]] = None) -> None:
        self.random = random.Random(seed)
        self.only, self.few = only or [], bool(only)
        self.project = Project(seed, files={"src0": "0\n", "src1": "1\n", "src2": "2\n", "p/k": "k\n"})
        self.done: List[str] = []  # targets that others may ask for
        self.headers: List[str] = []
        self.phony: Set[str] = set()  # targets that are no files
        self.below = False
        shapes: Dict[str, Callable[[str], Block]] = {
            "file": self.file, "stamp": self.stamp, "header": self.header, "user": self.user, "pattern": self.pattern,
            "folder": self.folder, "double": self.double, "inner": self.inner, "outputs": self.outputs, "include": self.include,
            "own": self.own, "vpath": self.vpath, "expansion": self.expansion, "chain": self.chain, "row": self.row,
        }
        self.shapes = [shapes[name] for name in shapes if not only or name in only]

    def draw(self) -> Project:
        """The project: blocks in an order of their own; few where shapes are asked for, so that one race does not hide another."""
        count = self.random.randint(1, 2) if self.few else self.random.randint(2, 8)
        for number in range(count):
            shape = self.random.choice(self.shapes if number else self.shapes[:3])
            self.project.blocks.append(shape("t%d" % number))
        if self.random.random() < 0.6:
            self.random.shuffle(self.project.blocks)
        if self.random.random() < 0.2:
            self.warm()
        for name in SHARED:
            if self.random.random() < 0.4:
                self.project.files[name] = "w\n"
                self.project.ages[name] = OLD
        return self.project

    def warm(self) -> None:
        """Some targets are there already, older or newer than what they need."""
        for name in self.random.sample(self.done, self.random.randint(0, len(self.done))):
            if "/" not in name:
                self.project.files[name] = "warm\n"
                self.project.ages[name] = self.random.choice((OLD, OLD, NEW))

    # ---------------------------------------------------------------- parts
    def prerequisites(self) -> List[str]:
        """Up to two earlier targets, and a source."""
        found = self.random.sample(self.done, min(len(self.done), self.random.choice((0, 0, 1, 1, 2))))
        return found + self.random.sample(("src0", "src1", "src2"), self.random.choice((0, 1)))

    def files_of(self, prerequisites: List[str]) -> str:
        """Those that are files, as words."""
        return " ".join(name for name in prerequisites if name not in self.phony)

    def forgets(self) -> bool:
        """Whether a rule leaves out what it needs."""
        return self.random.random() < FORGOTTEN

    def extra(self) -> str:
        """More steps of a recipe, perhaps none."""
        steps = []
        while self.random.random() < EXTRA and len(steps) < 3:
            one, two = self.random.sample(SHARED, 2)
            steps.append("\t%s$N $@; %s\n" % (self.random.choice(("", "@", "-")), self.random.choice(STEPS).replace("X", one).replace("Y", two)))
        return "".join(steps)

    def rule(self, name: str, prerequisites: List[str], step: str, bar: str = "") -> str:
        """The text of a rule."""
        body = "%s: %s%s\n\t@$N $@; %s\n%s" % (name, " ".join(prerequisites), " | " + bar if bar else "", step, self.extra())
        return body

    # ---------------------------------------------------------------- shapes
    def file(self, name: str) -> Block:
        prerequisites = self.prerequisites()
        text = self.rule(name, prerequisites, "cat /dev/null %s > $@" % self.files_of(prerequisites))
        self.done.append(name)
        return Block([name], text)

    def stamp(self, name: str) -> Block:
        phony = self.random.random() < 0.3
        text = (".PHONY: %s\n" % name if phony else "") + self.rule(name, self.prerequisites(), "touch %s.made" % name if phony else "touch $@")
        self.done.append(name)
        self.phony.update([name] if phony else [])
        return Block([name], text)

    def header(self, name: str) -> Block:
        text = self.rule(name + ".h", self.prerequisites(), "echo h > $@.t; $N $@; mv $@.t $@")
        self.headers.append(name + ".h")
        self.done.append(name + ".h")
        return Block([name + ".h"], text)

    def user(self, name: str) -> Block:
        """Reads a header that somebody makes, and may forget to say so."""
        if not self.headers:
            return self.header(name)
        header = self.random.choice(self.headers)
        prerequisites = ["src0"] + ([] if self.forgets() else [header])
        self.done.append(name)
        return Block([name], self.rule(name, prerequisites, "cat src0 %s > $@" % header))

    def pattern(self, name: str) -> Block:
        prerequisites = self.random.sample(self.headers, min(1, len(self.headers)))
        text = "%%.o%s: %%.c%s\n\t@$N $@; cat $^ > $@\n" % (name, name) + ("".join("%s.o%s: %s\n" % (name, name, a) for a in prerequisites if not self.forgets()))
        if self.random.random() < 0.4:
            text += "%%.c%s: %%.y%s\n\t@$N $@; cp $< $@\n" % (name, name)
            files = {name + ".y" + name: "y\n"}
        else:
            files = {name + ".c" + name: "c\n"}
        self.done.append(name + ".o" + name)
        return Block([name + ".o" + name], text, files)

    def folder(self, name: str) -> Block:
        how = self.random.choice(("mkdir $@", "mkdir -p $@", "test -d $@ || mkdir $@"))
        text = "%s.d:\n\t@%s%s\n" % (name, self.random.choice(("$N $@; ", "")), how)
        for part in ("a", "b"):
            bar = "" if self.forgets() else name + ".d"
            own = "mkdir -p $(@D); " if self.random.random() < 0.3 else ""
            plain = self.random.random() < 0.1
            text += self.rule("%s.d/%s" % (name, part), [bar] if plain and bar else self.prerequisites(), own + "echo %s > $@" % part, "" if plain else bar)
        self.done += [name + ".d/a", name + ".d/b"]
        return Block([name + ".d/a", name + ".d/b"], text)

    def double(self, name: str) -> Block:
        text = "".join("%s:: %s\n\t@$N $@; echo %s >> $@\n" % (name, " ".join(self.prerequisites()), part) for part in ("1", "2", "3")[: self.random.choice((2, 3))])
        self.done.append(name)
        return Block([name], text)

    def outputs(self, name: str) -> Block:
        colon = "&:" if self.random.random() < 0.5 else ":"
        prerequisites = " ".join(self.prerequisites())
        said = name if colon == "&:" else "$@"  # which target of a group stands for $@ is an assumption
        text = "%s %s.b %s %s\n\t@$N $@; echo %s >> %s; $N $@; echo %s >> %s.b\n" % (name, name, colon, prerequisites, said, name, said, name)
        self.done += [name, name + ".b"]
        return Block([name, name + ".b"], text)

    def include(self, name: str) -> Block:
        """A makefile that is made, and read again."""
        prerequisites = " ".join(self.random.sample(self.headers, min(1, len(self.headers))))
        text = "include %s.d\n%s.d: src0\n\t@$N $@; echo '%s: %s' > $@\n%s:\n\t@$N $@; cat src1 %s > $@\n%s" % (name, name, name, prerequisites, name, prerequisites, self.extra())
        self.done.append(name)
        return Block([name], text)

    def own(self, name: str) -> Block:
        """What make itself does."""
        step = self.random.choice(("$(file >N.own,w)", "$(shell echo w > N.own)", "$(if $(wildcard N.own),,$(shell echo w > N.own))")).replace("N", name)
        reader = self.random.random() < 0.5
        text = ".PHONY: %s\n%s: %s ; %s\n" % (name, name, " ".join(self.prerequisites()), step)
        if reader:
            text += "%s.r: %s\n\t@$N $@; cat %s.own > $@ 2>/dev/null || true\n" % (name, "" if self.forgets() else name, name)
        return Block([name] + ([name + ".r"] if reader else []), text)

    def vpath(self, name: str) -> Block:
        made = self.random.random() < 0.5
        text = "vpath %%.%sv v\n%s: %s.%sv\n\t@$N $@; cat $< > $@\n%s" % (name, name, name, name, self.extra())
        if made:
            text += "v/%s.%sv: src2\n\t@$N $@; cp $< $@\n" % (name, name)
        self.done.append(name)
        goals = [name] + (["v/%s.%sv" % (name, name)] if made else [])
        return Block(goals, text, {"v/k": "k\n"} if made else {"v/%s.%sv" % (name, name): "v\n"})

    def expansion(self, name: str) -> Block:
        prerequisites = self.prerequisites()
        text = ".SECONDEXPANSION:\n%s: $$(%s.needs)\n\t@$N $@; cat /dev/null %s > $@\n%s.needs = %s\n" % (name, name, self.files_of(prerequisites), name, " ".join(prerequisites))
        self.done.append(name)
        return Block([name], text)

    def chain(self, name: str) -> Block:
        """An intermediate file on the way, which make removes."""
        text = "%%.z%s: %%.m%s\n\t@$N $@; cat $< > $@\n%%.m%s: %%.s%s\n\t@$N $@; cp $< $@\n" % (name, name, name, name)
        self.done.append("%s.z%s" % (name, name))
        return Block(["%s.z%s" % (name, name)], text, {"%s.s%s" % (name, name): "s\n"})

    def row(self, name: str) -> Block:
        """Aggregates without a recipe, and prerequisites that no rule makes."""
        prerequisites = self.prerequisites()
        loose = self.random.choice(SHARED) if self.random.random() < 0.3 else ""
        if loose:
            self.project.files[loose] = "w\n"
        phony = self.random.random() < 0.5
        text = "%s: %s %s\n" % (name, " ".join(prerequisites), loose) + (".PHONY: %s\n" % name if phony else "%s: ; @touch $@\n" % name)
        self.done.append(name)
        self.phony.update([name] if phony else [])
        return Block([name], text)

    def inner(self, name: str) -> Block:
        """A make inside a recipe, in a folder of its own, with a small project; it may reach out of its folder."""
        if self.below:
            return self.file(name)
        draw = Draw(self.random.getrandbits(32), ["file", "stamp", "user", "folder", "double", "outputs"])
        draw.below = True
        blocks = [draw.random.choice(draw.shapes)("s%d" % n) for n in range(draw.random.randint(1, 3))]
        small = Project(0, blocks)
        files = {"%s/%s" % (name, k): t for k, t in small.all_files().items()}
        files.update({"%s/%s" % (name, k): t for k, t in draw.project.files.items()})
        files["%s/Makefile" % name] = small.makefile() + (".NOTPARALLEL:\n" if self.random.random() < 0.15 else "")
        words = self.random.choice(("", "", "", "-s ", "-j1 ", "-k "))
        text = ".PHONY: %s.all\n%s.all: %s\n\t@$N $@; $(MAKE) %s--no-print-directory -C %s\n%s" % (name, name, " ".join(self.prerequisites()), words, name, self.extra())
        self.done.append(name + ".all")
        self.phony.add(name + ".all")
        return Block([name + ".all"], text, files)
